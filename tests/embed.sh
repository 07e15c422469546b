#!/bin/bash
# The static library from C and from Rust: the header as C11 and as C++17, each call on Fade, and the examples on shows and in trouble, each in C and in
# Rust; the two print the same and end with the same status. It prints `ok` at the end. `./build library` is run only where the library is missing.
set -eu
cd "$(dirname "$(readlink -f "$0")")/.."
room=$(mktemp -d)
trap 'rm -rf "$room"' EXIT
library=target/staticlib/libexports.a
export CARGO_TARGET_DIR=$room/cargo

[ -f "$library" ] || ./build library >"$room/rt" 2>&1 || { cat "$room/rt"; exit 1; }

strict="-O2 -Wall -Wextra -Werror -pedantic -Iinclude"
compile() { # SOURCE PROGRAM
    cc -std=c11 $strict "$1" "$library" -o "$2"
}
cc -std=c11 $strict -fsyntax-only -x c tests/header.c
c++ -std=c++17 $strict -fsyntax-only -x c++ tests/header.c
printf '%s\n' '#include "bulanevior_text.h"' 'int main() { char said[BNV_TEXT_BYTES]; return bnv_say_ask(said, sizeof said, BnvAsk{}) == 0; }' >"$room/text.cc"
c++ -std=c++17 $strict "$room/text.cc" -o "$room/text"
"$room/text"
compile tests/calls.c "$room/calls"
compile tests/texts.c "$room/texts"
compile examples/show.c "$room/show"
compile examples/rack.c "$room/rack"
(cd wrapper && cargo build --release --offline --quiet --example show --example rack)
shows=("$room/show" "$CARGO_TARGET_DIR/release/examples/show")
racks=("$room/rack" "$CARGO_TARGET_DIR/release/examples/rack")

"$room/calls"
# Not for release: sums that overflow are found.
(cd wrapper && cargo test --offline --quiet >"$room/tests" 2>&1) || { cat "$room/tests"; exit 1; }

fail() { # LINE
    echo "$1"
    exit 1
}

# Both programs of a list print these lines, and end with this status.
print() { # LIST STATUS LINES ARGUMENT..
    local -n programs=$1
    local program status expected=$2
    printf '%s\n' "$3" >"$room/expected"
    shift 3
    for program in "${programs[@]}"; do
        status=0
        "$program" "$@" >"$room/out" 2>"$room/err" || status=$?
        diff "$room/expected" "$room/out" && [ ! -s "$room/err" ] && [ "$status" -eq "$expected" ] \
            || fail "$program $*: not as expected, status $status"
    done
}
# A show judged.
says() { # SHOW STATUS LINES
    print shows "$2" "$3" "$1"
}
# Lists of words as a file.
words() { # FILE WORD..
    local file=$1 w
    shift
    for w; do
        printf '%b' "\\x${w:6:2}\\x${w:4:2}\\x${w:2:2}\\x${w:0:2}"
    done >"$file"
}
says shows/fade.words 0 'safe: nodes 1, edges 2'
says shows/house.words 0 'safe: nodes 3, edges 10'
says shows/rig8.words 0 'safe: nodes 500, edges 5600'

# Fade without lemmas.
head -c 64 shows/fade.words >"$room/bare"
says "$room/bare" 1 'action 0 may take variable 0 below its low end at node 0
actions: none'
# House without lemma 4, that predicate 0 fails after action 0 (words 49 to 52): action 0 does not touch it, so its literal is kept.
{ head -c 196 shows/house.words; tail -c +213 shows/house.words; } >"$room/kept"
says "$room/kept" 0 'safe: nodes 3, edges 10'
# Also without lemma 0, that predicate 0 fails at the start (words 30 to 34): there is nothing to keep.
{ head -c 120 "$room/kept"; tail -c +141 "$room/kept"; } >"$room/house"
says "$room/house" 1 'may meet forbidden combination 0 at node 1
actions: 0'
# Lists that break off, nothing, nine variables, a range upside down, half a lemma.
head -c 20 shows/house.words >"$room/short"
says "$room/short" 3 'refused: word 5 is missing, of the wrong kind, after the end, or has a stray bit (2 AT 5)'
: >"$room/empty"
says "$room/empty" 3 'refused: word 0 is missing, of the wrong kind, after the end, or has a stray bit (2 AT 0)'
words "$room/nine" 10000001 10000001 10000001 10000001 10000001 10000001 10000001 10000001 10000001
says "$room/nine" 3 'refused: word 8 is one too many of its kind, or counts too many (3 AT 8)'
words "$room/range" 10004000
says "$room/range" 3 'refused: word 0 has a number that is not allowed (4 AT 0)'
head -c 72 shows/fade.words >"$room/lemma"
says "$room/lemma" 3 'refused: word 2 of the lemmas is missing or against the rules (5 AT 2)'
# A byte too few, and the longest show, which zeros fill, with one byte and with four more.
head -c 127 shows/fade.words >"$room/odd"
says "$room/odd" 3 'odd bytes: the file was cut'
head -c 65536 /dev/zero >"$room/zeros"
says "$room/zeros" 3 'refused: word 0 is missing, of the wrong kind, after the end, or has a stray bit (2 AT 0)'
head -c 65537 /dev/zero >"$room/long"
says "$room/long" 3 'too long: more than 65,536 bytes'
says /dev/zero 3 'too long: more than 65,536 bytes'

# Every sentence of the text header, also those that no show gets; the wrapper's test has the same file.
"$room/texts" | diff tests/sentences.txt -

# A library older than guard rows in the record: "not enabled" with what stood in the padding is trouble, of either step, and no comparison.
printf '%s\n' '#include "bulanevior.h"' 'static BnvStep exact_said, rack_said;' \
    '#define bnv_step(words, length, k, state, n) exact_said' '#define bnv_rack_step(words, length, k, state, n) rack_said' \
    '#define main pressed' '#include "rack.c"' '#undef main' \
    'int main(void) { BnvStep near = {0}, old = {0}; int32_t x = 5, y = 5; near.answer = old.answer = BNV_NOT_ENABLED; near.row_value = -5;' \
    'exact_said = near; rack_said = near; if (press(0, 0, &x, &y, 1) != SAME) return 1;' \
    'exact_said = old; if (press(0, 0, &x, &y, 1) != TROUBLE) return 1;' \
    'exact_said = near; rack_said = old; return press(0, 0, &x, &y, 1) != TROUBLE; }' >"$room/older.c"
cc -std=c11 $strict -Wno-unused-parameter -I"$PWD/include" -I"$PWD/examples" "$room/older.c" "$library" -o "$room/older"
"$room/older" >"$room/older.out" 2>&1 || { cat "$room/older.out"; exit 1; }

# Actions of a show pressed, exactly and as the rack does.
presses() { # STATUS LINES ARGUMENT..
    print racks "$@"
}
# The incident: 5 take 10 is minus 5. Mended, the guard holds it. Products that wrap, and a sum that does not. A sum that wraps onto its range: 4 and 5 times
# 8,191 is 73,719, less 65,536 it is 8,183.
presses 1 "not safe
action 0: exact runs off at variable 0, 5; rack moves, -5
the rack's values are not the exact ones" shows/incident.words 5 -- 0 0
presses 0 "safe
action 0: exact moves, 15; rack moves, 15
action 0: exact moves, 5; rack moves, 5
action 0: exact is not enabled (guard row 0 lacks 5), 5; rack is not enabled (guard row 0 lacks 5), 5
the rack's values are the exact ones" shows/incident_mended.words 25 -- 0 0 0
presses 0 "safe
action 0: exact moves, 5 8191; rack moves, 5 8191
action 0: exact is not enabled (guard row 0 lacks 8186), 5 8191; rack is not enabled (guard row 0 lacks 8186), 5 8191
the rack's values are the exact ones" shows/difference.words 8191 8191 -- 0 0
# Three guard rows at 5: x - 5 holds, x - 10 lacks 5, x - 14 lacks 9.
words "$room/near" 100003E8 40000000 50000000 60000030 2FFFFFFB 30000001 2FFFFFF6 30000001 2FFFFFF2 30000001 F0000000
presses 0 "safe
action 0: exact is not enabled (guard row 1 lacks 5), 5; rack is not enabled (guard row 1 lacks 5), 5
the rack's values are the exact ones" "$room/near" 5 -- 0
words "$room/sum" 10001FFF 10001FFF 40000000 50000000 60000001 70000000 20000000 30000004 31000005 F0000000
presses 1 "not safe
action 0: exact runs off at variable 0, 8191 8191; rack moves, 8183 8191
the rack's values are not the exact ones" "$room/sum" 8191 8191 -- 0
# Values off their range, too many of them, no such action, no actions, no program.
presses 3 'not safe
refused: 10 AT 0' shows/incident.words -5 -- 0
presses 3 'safe
refused: 9 AT 2' shows/fade.words 5 5 -- 0
presses 3 'safe
refused: 8 AT 2' shows/fade.words 5 -- 2
presses 0 "safe
the rack's values are the exact ones" shows/fade.words 5 --
presses 3 'refused: 2 AT 5' "$room/short" 5 -- 0
presses 3 'safe
refused: 9 AT 9' shows/fade.words 1 2 3 4 5 6 7 8 9 -- 0
presses 3 'safe
refused: 8 AT 4294967295' shows/fade.words 5 -- 4294967295
presses 3 'odd bytes: the file was cut' "$room/odd" 5 -- 0
presses 3 'too long: more than 65,536 bytes' /dev/zero 5 -- 0
# Trouble: nothing is said of the show.
for program in "${racks[@]}"; do
    for arguments in "" "shows/fade.words 5" "shows/fade.words x -- 0" "shows/fade.words 2147483648 -- 0" "shows/fade.words 5 -- -1" \
        "shows/fade.words 5 -- 0 x" "shows/fade.words 5 -- 0 -- 0" "$room/missing 5 -- 0"; do
        status=0
        "$program" $arguments >"$room/out" 2>"$room/err" || status=$?
        [ "$status" -eq 2 ] && [ -s "$room/err" ] && [ ! -s "$room/out" ] || fail "$program $arguments: status $status"
    done
    status=0
    "$program" shows/fade.words 5 -- 0 >/dev/full 2>"$room/err" || status=$?
    [ "$status" -eq 2 ] && [ -s "$room/err" ] || fail "$program: a full device: status $status"
done

# Trouble: status 2, a message on standard error, and no verdict on standard output, where there is one.
trouble() { # NAME PROGRAM STATUS
    [ "$3" -eq 2 ] && [ -s "$room/err" ] && [ ! -s "$room/out" ] || fail "$2: $1: status $3"
}
for program in "${shows[@]}"; do
    for file in "$room/missing" "$room" /proc/self/mem; do
        status=0
        "$program" "$file" >"$room/out" 2>"$room/err" || status=$?
        trouble "$file" "$program" "$status"
    done
    for file in shows/fade.words "$room/bare" "$room/short" "$room/odd"; do
        status=0
        : >"$room/out"
        "$program" "$file" >/dev/full 2>"$room/err" || status=$?
        trouble "$file to a full device" "$program" "$status"
        status=0
        "$program" "$file" >&- 2>"$room/err" || status=$?
        trouble "$file to a closed output" "$program" "$status"
        status=0
        "$program" "$file" 1</dev/null 2>"$room/err" || status=$?
        trouble "$file to an output that is open for reading only" "$program" "$status"
    done
    # A closed standard input is trouble where it is the file; an empty one is a show without words, and another file is judged.
    for file in /dev/stdin /dev/fd/0 /proc/self/fd/0; do
        status=0
        "$program" "$file" <&- >"$room/out" 2>"$room/err" || status=$?
        trouble "$file closed" "$program" "$status"
        status=0
        "$program" "$file" </dev/null >"$room/out" 2>"$room/err" || status=$?
        [ "$status" -eq 3 ] && grep -q '(2 AT 0)$' "$room/out" || fail "$program $file: empty: status $status"
    done
    status=0
    "$program" shows/fade.words <&- >"$room/out" 2>"$room/err" || status=$?
    [ "$status" -eq 0 ] && grep -q '^safe: nodes 1, edges 2$' "$room/out" || fail "$program: standard input closed: status $status"
    : >"$room/out"
    status=0
    "$program" shows/fade.words <&- >&- 2>"$room/err" || status=$?
    trouble "both closed" "$program" "$status"
    status=0
    "$program" >"$room/out" 2>"$room/err" || status=$?
    trouble "no file" "$program" "$status"
done
echo ok
