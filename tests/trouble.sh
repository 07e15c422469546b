#!/bin/bash
# Trouble is never a verdict: what the program and ./judge do where reading, writing or building fails. tests/feed.py makes the inputs and outputs.
# The last line is 'N passed, M failed'.
set -u
cd "$(dirname "$(readlink -f "$0")")/.." || exit 2
room=$(mktemp -d) || exit 2
trap 'rm -rf "$room"' EXIT
program=target/bin/operator
fade=shows/fade.words house=shows/house.words
passed=0 failed=0
export program fade house room

say() { # NAME STATUS
    if [ "$2" -eq 0 ]; then
        passed=$((passed + 1))
    else
        failed=$((failed + 1))
        echo "trouble: $1: FAILED"
    fi
}

feed() {
    python3 -B tests/feed.py "$@"
}
export -f feed

# Runs a command line; what it leaves is in NAME.out, NAME.err and NAME.status.
run() { # NAME COMMAND
    timeout 30 bash -c "$2" >"$room/$1.out" 2>"$room/$1.err" </dev/null
    echo $? >"$room/$1.status"
}

# Trouble: nothing on standard output, one line on standard error that begins so; of ./judge the status 2.
is_trouble() { # NAME BEGINNING
    local line
    [ ! -s "$room/$1.out" ] && [ "$(wc -l <"$room/$1.err")" -eq 1 ] && read -r line <"$room/$1.err" && [[ $line == "bulanevior: $2"* ]]
}
troubled() { # NAME BEGINNING COMMAND
    run now "$3"
    is_trouble now "$2" && { [[ $1 != judge:* ]] || [ "$(<"$room/now.status")" = 2 ]; }
    say "$1" $?
}
both_troubled() { # NAME BEGINNING COMMAND, with RUN for the program or ./judge
    troubled "program: $1" "$2" "${3//RUN/$program}"
    troubled "judge: $1" "$2" "${3//RUN/./judge}"
}

# A verdict: the expected lines, nothing on standard error; of ./judge the status.
told() { # NAME EXPECTED STATUS COMMAND
    run now "$4"
    cmp -s "$room/now.out" "$2" && [ ! -s "$room/now.err" ] && { [[ $1 != judge:* ]] || [ "$(<"$room/now.status")" = "$3" ]; }
    say "$1" $?
}
both_told() { # NAME EXPECTED STATUS COMMAND
    told "program: $1" "$2" "$3" "${4//RUN/$program}"
    told "judge: $1" "$2" "$3" "${4//RUN/./judge}"
}

# The usage: on standard error, with the status 2.
misused() { # NAME COMMAND
    run now "$2"
    [ ! -s "$room/now.out" ] && [[ $(<"$room/now.err") == "Usage: judge [--] [FILE]"* ]] && [ "$(<"$room/now.status")" = 2 ]
    say "$1" $?
}

./judge "$fade" >/dev/null 2>&1 # builds the program where it is missing or old

# What takes the whole 5 seconds runs beside the rest.
run never-program 'feed never -- $program' &
run never-judge 'feed never -- ./judge' &
run full-program 'feed full -- $program <$fade' &

# ---- reading
both_troubled "a directory on standard input" "cannot read standard input: Is a directory" 'RUN </'
troubled "program: standard input closed" "cannot read standard input: Bad file descriptor" '$program <&-'
troubled "judge: standard input closed" "standard input is closed" './judge <&-'
troubled "judge: standard input closed, for -" "standard input is closed" './judge - <&-'
both_troubled "Fade, and then a read that fails" "cannot read standard input: Connection reset by peer" 'feed reset $fade -- RUN'
for name in /dev/stdin /dev/fd/0 /proc/self/fd/0; do
    troubled "judge: standard input closed, as $name" "$name is a directory" "./judge $name <&-"
done
troubled "judge: a directory" "shows is a directory" './judge shows'
troubled "judge: a name for bash alone" "cannot read /dev/tcp/127.0.0.1/1" './judge /dev/tcp/127.0.0.1/1'
troubled "judge: a name with a newline" "cannot read \$'a\\nb'" './judge "$(printf "a\nb")"'
troubled "judge: no such file" "cannot read $room/none" './judge "$room/none"'
install -m 0 "$fade" "$room/shut" && [ -e "$room/shut" ]
say "a file that may not be read is there" $?
if [ -r "$room/shut" ]; then
    echo "trouble: a file that may not be read: left out, this user may read every file"
else
    troubled "judge: a file that may not be read" "cannot read $room/shut" './judge "$room/shut"'
fi
# House comes late: before the first byte, inside a word, at the END of the logic (word 29), before the last word, and its end comes late too.
for at in 0 10 116 120 512 "0 10 116 120 512"; do
    both_told "House by a non-blocking pipe, late at $at" shows/house.expected 0 "feed late \$house $at -- RUN"
done
both_told "House by a slow pipe" shows/house.expected 0 'feed slow $house 0 10 116 120 512 -- RUN'
told "judge: a show by a named pipe" shows/fade.expected 0 'mkfifo $room/pipe; cat $fade >$room/pipe & ./judge $room/pipe'
told "judge: FILE with standard input closed" shows/fade.expected 0 './judge $fade <&-'

# ---- writing
both_troubled "no space on standard output" "cannot write to standard output" 'RUN <$fade >/dev/full'
troubled "program: standard output closed" "cannot write to standard output: Bad file descriptor" '$program <$fade >&-'
troubled "judge: standard output closed" "standard output is closed" './judge $fade >&-'
troubled "judge: standard input and output closed" "standard output is closed" './judge <&- >&-'
troubled "program: nobody reads, and SIGPIPE is ignored" "cannot write to standard output: Broken pipe" 'feed ignored -- $program <$fade'
run now 'feed gone -- $program <$fade'
[ ! -s "$room/now.out" ] && [ "$(<"$room/now.status")" = 141 ]
say "program: nobody reads: ended by SIGPIPE" $?
troubled "judge: nobody reads" "cannot write to standard output" 'feed gone -- ./judge $fade'
troubled "judge: a full non-blocking pipe" "cannot write to standard output" 'feed full -- ./judge $fade'
told "program: a full non-blocking pipe that is read after a while" shows/fade.expected 0 'feed drained -- $program <$fade'
# A file that may have 1,024 bytes takes a part of the longest path's line, which cannot be taken back: it has no newline.
export limited='trap "" XFSZ; ulimit -f 1;'
run now 'eval "$limited"; $program <shows/counter.words >"$room/part"'
[[ $(<"$room/now.err") == "bulanevior: the line on standard output is not whole: File too large" ]] && [ -n "$(tail -c 1 "$room/part")" ]
say "program: a part of the line" $?
run now 'eval "$limited"; ./judge shows/counter.words >"$room/part"'
[[ $(<"$room/now.err") == "bulanevior: cannot write to standard output" ]] && [ "$(<"$room/now.status")" = 2 ] && [ -n "$(tail -c 1 "$room/part")" ]
say "judge: a part of the line" $?
both_told "standard error closed" shows/fade.expected 0 'RUN <$fade 2>&-'
run now './judge / 2>&-'
[ ! -s "$room/now.out" ] && [ "$(<"$room/now.status")" = 2 ]
say "judge: trouble with standard error closed" $?

run now 'ulimit -f 0; ./judge $fade >"$room/part"' # nor may the file of standard error
[ "$(<"$room/now.status")" = 2 ] && [ ! -s "$room/part" ]
say "judge: a file that may have no byte" $?

# ---- what the environment has for bash
echo 'echo SAFE nodes 9 edges 9' >"$room/startup"
for setting in SHELLOPTS=noexec SHELLOPTS=onecmd SHELLOPTS=errexit SHELLOPTS=errexit:pipefail SHELLOPTS=posix POSIXLY_CORRECT=1 BASH_ENV=$room/startup \
    'BASH_FUNC_exec%%=() { return 0; }' 'BASH_FUNC_printf%%=() { return 0; }' BASHOPTS=nocasematch CDPATH=/ GREP_OPTIONS=-v; do
    told "judge: $setting" shows/bump.expected 1 "env '$setting' ./judge shows/bump.words"
    troubled "judge: $setting, and no such file" "cannot read $room/none" "env '$setting' ./judge \$room/none"
done
troubled "judge: no tool on the PATH" "dirname or readlink is not on the PATH" 'PATH=/nonexistent ./judge $fade'

# ---- arguments
misused "judge: a terminal on standard input" 'feed tty -- ./judge'
misused "judge: an unknown option" './judge --verbose'
misused "judge: two files" './judge $fade $house'
misused "judge: an empty name" './judge ""'
misused "judge: --help behind a file" './judge shows/bump.words --help'
misused "judge: --help before a file" './judge --help shows/bump.words'
misused "judge: --version before a file" './judge --version shows/bump.words'
cp shows/bump.words "$room/--help"
told "judge: a file named --help" shows/bump.expected 1 'judge=$PWD/judge; cd $room; $judge -- --help'
told "judge: --" shows/fade.expected 0 './judge -- $fade'
run now './judge --help'
[[ $(<"$room/now.out") == "Usage: judge [--] [FILE]"*"Status: 0  SAFE"* ]] && [ ! -s "$room/now.err" ] && [ "$(<"$room/now.status")" = 0 ]
say "judge: --help" $?
sed -n 's/^version = "\(.*\)"$/bulanevior \1/p' wrapper/Cargo.toml >"$room/version"
told "judge: --version" "$room/version" 0 './judge --version'
troubled "judge: --help with no space" "cannot write to standard output" './judge --help >/dev/full'

# ---- a program that prints something else, in a tree of its own
export tree=$room/tree tools=$room/tools
mkdir -p "$tree/target/bin" "$tree/crates/one" "$tree/crates/operator" "$tree/wrapper"
cp judge build "$tree"
touch "$tree/crates.txt"
fake() { # BODY
    printf '#!/bin/bash\n%s\n' "$1" >"$tree/target/bin/operator"
    chmod +x "$tree/target/bin/operator"
}
faked() { # NAME BODY
    fake "$2"
    troubled "judge: $1" "the program printed no" '$tree/judge $fade'
}
faked "a program that prints nothing" ':'
faked "a line without its newline" 'printf "SAFE nodes 1 edges 2"'
faked "text behind the line" 'echo "SAFE nodes 1 edges 2 "'
faked "two verdicts" 'echo "SAFE nodes 1 edges 2"; echo "SAFE nodes 1 edges 2"'
faked "an empty line behind it" 'echo "SAFE nodes 1 edges 2"; echo'
faked "a finding without its PATH" 'echo "FORBID node 0 bad 0"'
faked "SAFE with a PATH" 'echo "SAFE nodes 1 edges 2"; echo PATH'
faked "a number with a leading zero" 'echo "SAFE nodes 01 edges 2"'
faked "an unknown word" 'echo "FINE nodes 1 edges 2"'
faked "a verdict with something on standard error" 'echo "SAFE nodes 1 edges 2"; echo warning >&2'
faked "a verdict and a status" 'echo "SAFE nodes 1 edges 2"; exit 1'
faked "a verdict and then a signal" 'echo "SAFE nodes 1 edges 2"; kill -SEGV $$'
faked "a signal" 'kill -KILL $$'
faked "a byte 0 in the line" 'printf "SAFE nodes 1\\0 edges 2\\n"'
faked "small letters" 'echo "safe nodes 1 edges 2"'
printf 'FORBID node 3 bad 0\nPATH 1 0 12\n' >"$room/finding"
fake "cat $room/finding"
told "judge: a finding" "$room/finding" 1 '$tree/judge $fade'

# ---- building, with a stand-in for rt that notes each call
mkdir "$tools" "$room/rt"
for tool in bash dirname readlink find mkdir mv cp sed cat chmod tr touch rm sleep; do
    ln -s "$(command -v "$tool")" "$tools/$tool"
done
cat >"$room/rt/rt" <<'END'
#!/bin/bash
[ "$*" != version ] || { echo "the kit"; exit; }
echo "$* in $PWD" >>"$room/calls"
[ -z "$(cat)" ] || echo "standard input is not empty" >>"$room/calls"
echo "rt: on standard output"
echo "rt: on standard error" >&2
[ ! -e "$room/fails" ] || exit 1
[ ! -e "$room/edits" ] || { sleep 0.1; touch "$tree/crates/one/code"; sleep 0.1; rm "$room/edits"; }
mkdir -p out
[ -e "$room/keeps" ] || printf '#!/bin/bash\necho "SAFE nodes 7 edges 7"\n' >out/operator
chmod +x out/operator
END
chmod +x "$room/rt/rt"
echo "SAFE nodes 7 edges 7" >"$room/seven"
called() { # TIMES
    [ "$(cat "$room/calls" 2>/dev/null | grep -c "^run in $tree/crates/operator$")" = "$1" ] && [ "$(cat "$room/calls" 2>/dev/null | wc -l)" = "$1" ]
}
# The verdict of the built program, with the one line about the build, and what rt says in the log alone.
built() { # NAME CALLS LINES
    run now "PATH=$room/rt:$tools $tree/judge \$fade"
    cmp -s "$room/now.out" "$room/seven" && [ "$(<"$room/now.status")" = 0 ] && [ "$(wc -l <"$room/now.err")" = "$3" ] && called "$2" \
        && { [ "$3" = 0 ] || [[ $(<"$room/now.err") == "bulanevior: building once, about 5 minutes; the log is $tree/target/judge.log" ]]; } \
        && [ "$(<"$tree/target/judge.log")" = "$(printf 'rt: on standard output\nrt: on standard error')" ]
    say "$1" $?
}
older() {
    touch -d '2 seconds ago' "$tree/target/bin/operator" "$tree/target/judge.stamp" 2>/dev/null
}

troubled "judge: find fails" "cannot tell whether the program is older than its sources" 'mkdir $room/nofind; ln -s $tools/* $room/nofind; rm $room/nofind/find; PATH=$room/nofind $tree/judge $fade'
mv "$tree/crates" "$room/crates"
touch "$tree/crates.txt"
told "judge: a copy without crates/ does not build" "$room/finding" 1 '$tree/judge $fade'
mv "$tree/target" "$room/target"
troubled "judge: neither program nor crates/" "there is no program, and no crates/" '$tree/judge $fade'
mv "$room/crates" "$tree/crates"
mkdir "$tree/.ci"
echo "another kit" >"$tree/.ci/kit"
troubled "judge: rt is another kit" "the program has to be built, and rt is not a kit" 'PATH=$room/rt:$tools $tree/judge $fade'
printf 'the kit, an older one\nthe ki\n' >"$tree/.ci/kit"
troubled "judge: rt is a kit that is named in part" "the program has to be built, and rt is not a kit" 'PATH=$room/rt:$tools $tree/judge $fade'
printf 'an older kit\nthe kit\n' >"$tree/.ci/kit"
troubled "judge: not built, and no rt" "the program has to be built, and rt is not on the PATH" 'PATH=$room/tools $tree/judge $fade'
built "judge: the first build" 1 1
built "judge: built, and nothing newer" 1 0
older && touch "$tree/crates/one"
built "judge: a directory is newer" 2 1
older && touch "$tree/crates.txt" "$room/keeps"
touch -d '1 hour ago' "$tree/target/bin/operator"
built "judge: crates.txt is newer, and the build leaves the program as it was" 3 1
built "judge: that build is not repeated" 3 0
rm "$room/keeps"
older && touch "$tree/crates/one/code" "$room/fails"
run now "PATH=$room/rt:$tools $tree/judge \$fade"
[ ! -s "$room/now.out" ] && [ "$(<"$room/now.status")" = 2 ] && [ "$(tail -n 1 "$room/now.err")" = "bulanevior: the build failed: see $tree/target/judge.log" ] && called 4
say "judge: the build fails, and the old program is not run" $?
troubled "judge: sources are newer, and no rt" "the program has to be built, and rt is not on the PATH" 'PATH=$room/tools $tree/judge $fade'
rm "$room/fails"
built "judge: built again after a build that failed" 5 1
older && touch "$tree/crates/one/code" "$room/edits"
built "judge: a source is edited while it builds" 6 1
built "judge: so it builds again" 7 1

# ---- what took 5 seconds
wait
for one in program judge; do
    is_trouble "never-$one" "cannot read standard input: Resource temporarily unavailable" && { [ $one = program ] || [ "$(<"$room/never-$one.status")" = 2 ]; }
    say "$one: a non-blocking pipe that gets nothing" $?
done
is_trouble full-program "cannot write to standard output: Resource temporarily unavailable"
say "program: a full non-blocking pipe" $?

echo "$passed passed, $failed failed"
[ "$failed" -eq 0 ]
