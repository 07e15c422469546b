#!/bin/bash
# What `bulanevior explain` says of shows, of cut and damaged files, and of shows by tests/graphs.py: the first line and the status are those of BIN, an
# independent program that reads a show on standard input; a refusal for a word has the word's place; standard error is empty. README shows what is said of a
# show. `tests/explain.sh COMPANION BIN` prints `ok` at the end, or what differs.
set -eu
[ $# -eq 2 ] || { echo "usage: tests/explain.sh COMPANION BIN"; exit 2; }
companion=$(readlink -f "$1") bin=$(readlink -f "$2")
cd "$(dirname "$(readlink -f "$0")")/.."
room=$(mktemp -d)
trap 'rm -rf "$room"' EXIT

fail() { # LINE
    echo "explain: $1"
    exit 1
}

# The first line as BIN says it: the companion has a refusal in a sentence, with number and place in parentheses at its end.
status=0 told=0
explains() { # SHOW
    local line expected
    status=0
    "$companion" explain "$1" >"$room/out" 2>"$room/err" || status=$?
    "$bin" <"$1" >"$room/lines" || true
    read -r expected <"$room/lines"
    read -r line <"$room/out" || fail "$1: nothing is said"
    [[ $line =~ ^refused:\ .*\ \(([0-9]+\ AT\ [0-9]+)\)$ ]] && line="refused ${BASH_REMATCH[1]}"
    [ "$line" = "$expected" ] && [ ! -s "$room/err" ] || { cat "$room/err"; fail "$1: $line, and not $expected"; }
    case $line in
        safe:*) [ $status -eq 0 ] ;;
        may* | action*) [ $status -eq 1 ] && counted ;;
        *) [ $status -eq 3 ] && placed "$line" ;;
    esac || fail "$1: status $status, or not what is to be said of '$line'"
    told=$((told + 1))
}

# A finding is one of as many as BIN lists, and it is said whether it really happens, or something else does.
counted() {
    local count
    count=$(wc -l <"$room/lines")
    tr -d , <"$room/out" | grep -qE "^it is the (only finding|first of $count findings)" && [ $(grep -cE '^  (it really happens|these presses really go wrong|no presses were found .*|no state meets the start rows: .*)$' "$room/out") -eq 1 ]
}

# A refusal for a word has the word's place: of the logic 4 times its number is the byte.
placed() { # LINE
    case $1 in
        refused\ [234]\ AT\ *) grep -qE "^  word ${1##* }, byte $((4 * ${1##* })): " "$room/out" ;;
        refused\ [56]\ AT\ *) grep -qE "^  word ${1##* } of the lemmas, byte [0-9]+: " "$room/out" ;;
        *) true ;;
    esac
}

cut_at() { # NAME WORD..
    local name=$1 at
    shift
    for at; do
        head -c $((4 * at)) "shows/$name.words" >"$room/$name-$at"
        explains "$room/$name-$at"
    done
}

for show in shows/*.words; do
    explains "$show"
done
cut_at fade {0..31}
cut_at house {0..128}
cut_at bakery 50 103 196 590 740
cut_at counter 60 201 1567 2212
cut_at rig8_kept 154 372 693
for size in 1 2 3 5 127; do
    head -c $size shows/fade.words >"$room/bytes-$size"
    explains "$room/bytes-$size"
done
head -c 65540 /dev/zero >"$room/zeros"
explains "$room/zeros"
python3 -B tests/graphs.py "$room" 60
for show in "$room"/made-*; do
    explains "$show"
done
[ $told -gt 250 ] || fail "only $told shows"

# The names of a text, and README.
sed -n '/^<!-- begin: .\/bulanevior explain shows\/shortcut.text -->$/,/^<!-- end -->$/{//!{s/^    //;p}}' README.md >"$room/shown"
status=0
"$companion" explain shows/shortcut.text | diff "$room/shown" - || fail "README shows something else of shows/shortcut.text"
[ -s "$room/shown" ] || fail "README shows nothing of shows/shortcut.text"
sed 's/^    front := 1$/    font := 1/' shows/shortcut.text >"$room/faulty"
"$companion" explain "$room/faulty" >"$room/out" 2>"$room/err" || status=$?
[ $status -eq 3 ] && [ ! -s "$room/err" ] && grep -qE '^refused: line [0-9]+, column 5: `font` is no variable' "$room/out" || fail "a faulty text: status $status"
echo ok
