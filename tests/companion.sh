#!/bin/bash
# The companion (companion/) and the example of the call Findings in C (examples/findings.c). Of each show, and of cut and damaged files, both print the
# lines of BIN, an independent program that reads a show on standard input, and end with the status that the lines stand for. What the companion draws of
# them, and of shows by tests/graphs.py, is held to the lines of FACTS, an independent program too (tests/drawing.py). Then shows as text and back, trouble, arguments, and ./bulanevior,
# with stand-ins for what builds. `tests/companion.sh BIN FACTS` prints `ok` at the end, or what differs.
set -eu
[ $# -eq 2 ] || { echo "usage: tests/companion.sh BIN FACTS"; exit 2; }
bin=$(readlink -f "$1") facts=$(readlink -f "$2")
cd "$(dirname "$(readlink -f "$0")")/.."
export room=$(mktemp -d)
trap 'rm -rf "$room"' EXIT
library=target/staticlib/libexports.a
export companion=$PWD/target/companion/release/bulanevior example=$room/findings

fail() { # LINE
    echo "$1"
    exit 1
}

[ -x "$bin" ] && [ -x "$facts" ] || fail "$1 or $2 is no program"
[ -f "$library" ] || ./build library >"$room/rt" 2>&1 || { cat "$room/rt"; exit 1; }
strict="-std=c11 -O2 -Wall -Wextra -Werror -pedantic -Iinclude -Iexamples"
cc $strict examples/findings.c "$library" -o "$example"
# Records without the distance, as older libraries leave them: node 3 of one action is looked for where the ORIGIN word of node 4 stands.
printf '%s\n' '#define main found' '#include "findings.c"' '#undef main' 'int main(void) { for (size_t n = 0; n < 8; n++) {' \
    'graph[3 * n] = 0x80000000u; graph[3 * n + 1] = n ? 0xB0000000u : 0xB0001FFFu; graph[3 * n + 2] = 0xC0000000u; }' \
    'return find_way(3, 1) != -1; }' >"$room/older.c"
cc $strict "$room/older.c" "$library" -o "$room/older"
"$room/older" || fail "examples/findings.c: a path in the records of an older library"
./bulanevior help >/dev/null 2>"$room/err" || { cat "$room/err"; exit 1; } # builds where it has to
(cd companion && BULANEVIOR_LIB=$(readlink -f ../target/staticlib) cargo test --release --offline --locked --quiet --target-dir ../target/companion) >"$room/tests" 2>&1 \
    || { cat "$room/tests"; exit 1; }

# ---- shows

# The status that the expected lines stand for.
status_for() {
    local line
    read -r line <"$room/expected" || line=
    case $line in
        'safe: '*) echo 0 ;;
        'may meet '* | 'action '*) echo 1 ;;
        'refused '* | 'odd bytes: '* | 'too long: '*) echo 3 ;;
        *) echo unknown ;;
    esac
}

# A command prints the expected lines, ends with their status, and is quiet on standard error. The companion has a refusal in a sentence, with number
# and place in parentheses at its end.
prints() { # COMMAND..
    local status=0
    "$@" >"$room/out" 2>"$room/err" || status=$?
    [ "$1" != "$companion" ] || sed -i 's/^refused: .* (\([0-9]* AT [0-9]*\))$/refused \1/' "$room/out"
    diff "$room/expected" "$room/out" >"$room/diff" && [ ! -s "$room/err" ] && [ "$status" = "$(status_for)" ] && return
    head -n 20 "$room/diff"
    fail "$*: not as expected, status $status"
}

# Both programs print what BIN prints of a show; the companion also where it comes on standard input.
compared=()
same() { # SHOW
    local status=0
    "$bin" <"$1" >"$room/expected" || status=$?
    [ "$status" -lt 126 ] && [ "$(status_for)" != unknown ] || fail "$bin: no line that is known of $1, status $status"
    prints "$example" "$1"
    prints "$companion" findings "$1"
    prints "$companion" findings <"$1"
    compared+=("$1")
}

# The same, and these are the lines.
says() { # SHOW LINES
    same "$1"
    printf '%s\n' "$2" | diff - "$room/expected" || fail "$1: not as worked out by hand"
}

# The same of the first words of a stored show.
cut_at() { # NAME WORD..
    local name=$1 at
    shift
    for at; do
        head -c $((4 * at)) "shows/$name.words" >"$room/$name-$at"
        same "$room/$name-$at"
    done
}

for show in shows/*.words; do
    same "$show"
done

# Fade without lemmas: nothing shows that either action keeps to either end.
head -c 64 shows/fade.words >"$room/bare"
says "$room/bare" 'action 0 may take variable 0 below its low end at node 0; actions: none
action 0 may take variable 0 above its high end at node 0; actions: none
action 1 may take variable 0 below its low end at node 0; actions: none
action 1 may take variable 0 above its high end at node 0; actions: none'
# House without lemmas 0 and 4, as in tests/embed.sh: nothing is known of predicate 0 at the start, and so nothing after action 0.
{ head -c 120 shows/house.words; tail -c +141 shows/house.words | head -c 56; tail -c +213 shows/house.words; } >"$room/house"
says "$room/house" 'may meet forbidden combination 0 at node 1; actions: 0'
# Bump, by shows/bump.text: once action 0 has armed it, nothing shows that action 1 keeps to the high end.
says shows/bump.words 'action 1 may take variable 0 above its high end at node 1; actions: 0'

# Cut at each word; the larger ones behind the logic and between lemmas, with up to 12,640 findings, and 511 actions to one. With the first 693 words of
# rig8_kept a 513th node is needed.
cut_at fade {0..31}
cut_at bump {0..49}
cut_at house {0..128}
cut_at bakery 103 196 590 740
cut_at counter 201 1567 2212
cut_at rig8_kept 154 165 372 693 775
# Bytes too few, nothing, and the longest show, which zeros fill, with a byte less, one more and four more.
for size in 0 1 2 3 63 65 127; do
    head -c $size shows/fade.words >"$room/fade-bytes-$size"
    same "$room/fade-bytes-$size"
done
for size in 65535 65536 65537 65540; do
    head -c $size /dev/zero >"$room/zeros-$size"
    same "$room/zeros-$size"
done
[ "${#compared[@]}" -gt 250 ] || fail "only ${#compared[@]} shows were compared"
python3 -B tests/graphs.py "$room" 100
python3 -B tests/drawing.py "$companion" "$facts" "${compared[@]}" "$room"/made-* || fail "not drawn as $facts says"

# ---- texts: what is written compiles to the same words, and a text is judged as its words are

for show in shows/[!ce]*.words shows/c[!u]*.words "$room"/made-*; do
    "$companion" text "$show" >"$room/text" && "$companion" words "$room/text" | cmp - "$show" || fail "$show: not the same by way of text"
    "$companion" text <"$room/text" | diff "$room/text" - || fail "$show: its text is not the text of its text"
done
for text in shows/*.text; do
    status=0
    "$companion" findings "${text%.text}.words" >"$room/expected" || status=$?
    prints "$companion" findings "$text"
    "$companion" words <"$text" | cmp - "${text%.text}.words" || fail "$text: other words"
done
sed -n '/^```text$/,/^```$/{//!p}' docs/TEXT.md >"$room/documented"
echo 'safe: nodes 3, edges 10' >"$room/expected"
prints "$companion" findings "$room/documented"
"$companion" draw shows/house.text | cmp - docs/house.svg || fail "draw shows/house.text: another picture than of its words"
# A fault is said by line and column: where findings are asked for on standard output, else on standard error.
sed 's/^    house := 1$/    hose := 1/' shows/house.text >"$room/faulty"
at=$(grep -n hose "$room/faulty") why="column 5: \`hose\` is no variable; expected one of level, house"
echo "refused: line ${at%%:*}, $why" >"$room/said"
status=0
"$companion" findings "$room/faulty" >"$room/out" 2>"$room/err" || status=$?
[ "$status" -eq 3 ] && diff "$room/said" "$room/out" && [ ! -s "$room/err" ] || fail "findings of a faulty text: status $status"

# ---- trouble: status 2, a message on standard error, and nothing on standard output, where there is one

troubled() { # COMMAND LINE
    local status=0
    bash -c "$1" </dev/null >"$room/out" 2>"$room/err" || status=$?
    [ "$status" -eq 2 ] && [ -s "$room/err" ] && [ ! -s "$room/out" ] || fail "$1: status $status, no trouble"
}
# The companion says it in one line, which begins so.
complains() { # BEGINNING COMMAND LINE
    troubled "$2"
    [ "$(wc -l <"$room/err")" -eq 1 ] && [[ $(<"$room/err") == "bulanevior: $1"* ]] || fail "$2: $(<"$room/err")"
}
for run in '$example' '$companion findings' '$companion findings --' '$companion draw' '$companion draw --' '$companion text' '$companion words --'; do
    for file in '$room/missing' '$room' /proc/self/mem; do
        troubled "$run $file"
    done
    # What is no show goes to standard error, if a file is to be made of it, and harms no output.
    refused='shows/cut_logic.words shows/cut_byte.words'
    case $run in *draw* | *text* | *words*) refused= ;; esac
    for show in shows/fade.words '$room/bare' $refused; do
        for output in '>/dev/full' '>&-' '1</dev/null' '<&- >&-'; do
            troubled "$run $show $output"
        done
    done
    for file in /dev/stdin /dev/fd/0 /proc/self/fd/0; do
        troubled "$run $file <&-"
    done
done
for input in '' - -- '-- -'; do
    for command in findings draw text words; do
        complains 'cannot read standard input: ' "\$companion $command $input <&-"
        complains 'cannot read standard input: ' "\$companion $command $input </"
    done
done
complains 'cannot read standard input: ' 'python3 -B tests/feed.py reset shows/fade.words -- $companion findings'
complains 'cannot read "a\nb": ' '$companion findings "$(printf "a\nb")"'
for output in '>/dev/full' '>&-' '1</dev/null'; do
    for line in 'findings shows/fade.words' 'draw shows/fade.words' 'draw shows/rig8.words' 'text shows/fade.words' 'words shows/fade.text' --help --version; do
        complains 'cannot write to standard output: ' "\$companion $line $output"
    done
done
for mode in gone ignored full; do
    for line in 'findings shows/fade.words' 'draw shows/rig8.words' 'text shows/rig8.words' 'words shows/rig8.text'; do
        complains 'cannot write to standard output: ' "python3 -B tests/feed.py $mode -- \$companion $line"
    done
done
# What is closed and not wanted does no harm.
echo 'safe: nodes 1, edges 2' >"$room/expected"
prints "$companion" findings shows/fade.words <&-
prints bash -c '$companion findings shows/fade.words 2>&-'
prints bash -c 'cat shows/fade.words | $companion findings -'

# ---- drawings: the same from a file and from standard input; of what is no show the sentence of findings, on standard error, as of text and words

draws() { # STATUS COMMAND LINE
    local status=0
    bash -c "$2" >"$room/out" 2>"$room/err" || status=$?
    [ "$status" -eq "$1" ] && [ ! -s "$room/err" ] && diff "$room/svg" "$room/out" >/dev/null || fail "$2: status $status, another drawing"
}
"$companion" draw shows/fade.words >"$room/svg" || fail "draw: status $?"
[ "$(head -c 5 "$room/svg")" = '<svg ' ] && [ "$(tail -n 1 "$room/svg")" = '</svg>' ] || fail "draw: no SVG"
draws 0 '$companion draw -- shows/fade.words <&-'
draws 0 '$companion draw <shows/fade.words'
draws 0 'cat shows/fade.words | $companion draw -'
draws 0 '$companion draw shows/fade.words 2>&-'
"$companion" draw "$room/bare" >"$room/svg" && fail "draw: bare is safe"
draws 1 '$companion draw "$room/bare"'
: >"$room/empty"
for show in shows/cut_logic.words shows/cut_byte.words shows/cut_lemma.words shows/empty.words "$room/empty" "$room/zeros-65540" "$room/faulty"; do
    "$companion" findings "$show" >"$room/said" && fail "$show is safe"
    for command in draw text words; do
        for output in '' '>/dev/full' '>&-'; do
            status=0
            bash -c "\$companion $command '$show' $output" >"$room/out" 2>"$room/err" || status=$?
            [ "$status" -eq 3 ] && [ ! -s "$room/out" ] && diff "$room/said" "$room/err" || fail "$command $show $output: status $status"
        done
    done
done
for name in house bakery; do
    "$companion" draw "shows/$name.words" | cmp - "docs/$name.svg" || fail "docs/$name.svg is not what draw makes of shows/$name.words"
done

# ---- arguments

cp shows/fade.words "$room/--help"
prints bash -c 'cd "$room" && $companion findings -- --help'
for line in '' - -- finding --findings --verbose shows/fade.words 'findings --help' 'findings -x' 'findings ""' 'findings shows/fade.words shows/fade.words' \
    'findings shows/fade.words --' 'help findings' '--help findings' '--version findings' "\$'find\\xffings'" drawing --draw 'draw --help' 'draw -x' 'draw ""' \
    'draw shows/fade.words shows/fade.words' 'draw shows/fade.words --' 'draw findings shows/fade.words' 'help draw' texts --words 'text --help' 'words -x' 'text ""' 'words shows/fade.text shows/fade.text' 'text words shows/fade.text'; do
    troubled "\$companion $line"
    [[ $(<"$room/err") == "Usage: bulanevior COMMAND [--] [FILE]"* ]] || fail "bulanevior $line: not the usage"
done
troubled 'python3 -B tests/feed.py tty -- $companion findings'
mv "$room/err" "$room/usage"
for line in --help help; do
    "$companion" $line >"$room/out" 2>"$room/err" || fail "bulanevior $line: status $?"
    diff "$room/usage" "$room/out" && [ ! -s "$room/err" ] || fail "bulanevior $line: not the usage"
done
version=$(sed -n 's/^version = "\(.*\)"$/\1/p' wrapper/Cargo.toml)
[ "$("$companion" --version)" = "bulanevior $version" ] || fail "bulanevior --version: not that of wrapper/Cargo.toml"

# ---- ./bulanevior, in a tree of its own, with stand-ins for rt and cargo that note each call

export tree=$room/tree tools=$room/tools builders=$room/builders
mkdir -p "$tree/crates/one" "$tree/crates/exports" "$tree/companion/src" "$tree/wrapper/src" "$tools" "$builders"
cp bulanevior build "$tree"
touch "$tree"/{crates.txt,{companion,wrapper}/{Cargo.toml,Cargo.lock,src/code},wrapper/build.rs}
for tool in bash dirname readlink find mkdir mv cp rm cat chmod touch sleep; do
    ln -s "$(command -v "$tool")" "$tools/$tool"
done
# What is built says its arguments, each in brackets, and its standard input; its status is 3.
cat >"$builders/cargo" <<'END'
#!/bin/bash
echo "cargo $* in $PWD over $BULANEVIOR_LIB" >>"$room/calls"
[ ! -e "$room/fails" ] || exit 1
[ ! -e "$room/idle" ] || exit 0
[ ! -e "$room/edits" ] || { sleep 0.1; touch "$tree/wrapper/src/code"; sleep 0.1; rm "$room/edits"; }
mkdir -p "$tree/target/companion/release"
printf '#!/bin/bash\nprintf "[%%s]" "$@"; cat; exit 3\n' >"$tree/target/companion/release/bulanevior"
chmod +x "$tree/target/companion/release/bulanevior"
END
cat >"$builders/rt" <<'END'
#!/bin/bash
[ "$*" != version ] || { echo "the kit"; exit; }
echo "rt $* in $PWD" >>"$room/calls"
mkdir -p out
: >out/libexports.a
END
ln -s cargo "$builders/rustc"
chmod +x "$builders"/*
rt_call="rt lib in $tree/crates/exports"
cargo_call="cargo build --release --offline --target-dir $tree/target/companion in $tree/companion over $tree/target/staticlib"

# The program is run, behind these calls, of which standard error has a line each.
runs() { # NAME CALL..
    local name=$1 status=0
    shift
    : >"$room/calls"
    (cd "$room" && PATH=$builders:$tools "${script:-$tree/bulanevior}" 'a b' -- '' <<<input) >"$room/out" 2>"$room/err" || status=$?
    [ "$status" -eq 3 ] && [ "$(<"$room/out")" = '[a b][--][]input' ] || fail "./bulanevior: $name: status $status, $(cat "$room/out" "$room/err")"
    printf "${1+%s\n}" "$@" | diff - "$room/calls" && [ "$(grep -c '^bulanevior: building the .*; the log is ' "$room/err")" -eq $# ] \
        || fail "./bulanevior: $name: $(<"$room/err")"
}
# Time goes by: what is built and noted so far is older than what is touched after this.
older() {
    find "$tree" -exec touch -d '2 seconds ago' {} +
}

complains 'dirname or readlink is not on the PATH' 'PATH=/nonexistent $tree/bulanevior help'
complains 'the companion has to be built, and rt is not on the PATH' 'PATH=$tools $tree/bulanevior help'
complains 'standard output is closed' 'PATH=$builders:$tools $tree/bulanevior help >&-'
mkdir "$tree/.ci"
printf 'the ki\nthe kit, an older one\n' >"$tree/.ci/kit"
complains 'the companion has to be built, and rt is not a kit' 'PATH=$builders:$tools $tree/bulanevior help'
printf 'an older kit\nthe kit\n' >"$tree/.ci/kit"
runs "the first build" "$rt_call" "$cargo_call"
runs "nothing is newer"
ln -s "tree/bulanevior" "$room/link"
script=./link runs "by a link, from another folder"
older && touch "$tree/crates/one"
runs "a folder of crates/ is newer" "$rt_call" "$cargo_call"
for file in wrapper/src/code companion/Cargo.toml companion/src; do
    older && touch "$tree/$file"
    runs "$file is newer" "$cargo_call"
done
older && touch "$tree/wrapper/src/code"
complains 'the companion has to be built, and cargo is not on the PATH' 'PATH=$tools $tree/bulanevior help'
# A build that fails, or makes nothing: the older program is not run, and it is built again.
for fault in fails idle; do
    older && touch "$tree/wrapper/src/code" "$room/$fault"
    troubled 'PATH=$builders:$tools $tree/bulanevior help'
    [ "$(tail -n 1 "$room/err")" = "bulanevior: the build failed: see $tree/target/companion.log" ] || fail "./bulanevior: a build that $fault: $(<"$room/err")"
    rm "$room/$fault"
    runs "behind a build that $fault" "$cargo_call"
done
older && touch "$tree/wrapper/src/code" "$room/edits"
runs "a source is edited while it builds" "$cargo_call"
runs "so it builds again" "$cargo_call"
rm "$tree/target/staticlib/libexports.a"
runs "no library" "$rt_call" "$cargo_call"
mv "$tree/companion" "$room/sources"
runs "a copy without companion/ does not build"
rm -r "$tree/target"
complains 'there is no program, and no companion/ to build it from' 'PATH=$builders:$tools $tree/bulanevior help'

# The real one, by a link.
ln -s "$PWD/bulanevior" "$room/real"
(cd shows && "$room/real" help) >/dev/null 2>"$room/err" || { cat "$room/err"; exit 1; } # builds where it has to
echo 'safe: nodes 1, edges 2' >"$room/expected"
prints bash -c 'cd shows && "$room/real" findings fade.words <&-'
complains 'cannot read standard input: ' '$room/real findings <&-'
echo ok
