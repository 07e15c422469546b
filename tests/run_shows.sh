#!/bin/bash
# Each show of shows/ through ./judge, as FILE and on standard input: standard output is NAME.expected byte for byte, standard error is empty, and
# the status is the one that the line stands for. Then the lengths that no stored show has. The last line is 'N passed, M failed'.
set -u
cd "$(dirname "$(readlink -f "$0")")/.." || exit 2
room=$(mktemp -d) || exit 2
trap 'rm -rf "$room"' EXIT
passed=0 failed=0

say() { # NAME STATUS
    if [ "$2" -eq 0 ]; then
        passed=$((passed + 1))
    else
        failed=$((failed + 1))
        echo "shows: $1: FAILED"
    fi
}

# The status for the first word of the expected lines.
status_for() { # EXPECTED
    case $(head -n 1 "$1") in
        SAFE*) echo 0 ;;
        FORBID* | RUNOFF*) echo 1 ;;
        REFUSED* | "ODD BYTES" | "TOO LONG") echo 3 ;;
        *) echo unknown ;;
    esac
}

# ./judge with standard input and arguments, against the file of expected lines.
judged() { # NAME EXPECTED [ARGUMENT]
    local name=$1 expected=$2
    shift 2
    ./judge "$@" >"$room/out" 2>"$room/err"
    [ "$?" = "$(status_for "$expected")" ] && cmp -s "$room/out" "$expected" && [ ! -s "$room/err" ]
    say "$name" $?
}

# Each text compiles to its words; ./bulanevior builds the companion where it is missing or old.
./bulanevior help >/dev/null 2>&1 && python3 -B tests/shows.py ./bulanevior
say "the words of the texts, by tests/shows.py" $?

./judge shows/fade.words >/dev/null 2>&1 # builds the program where it is missing or old
for show in shows/*.words; do
    judged "$show" "${show%.words}.expected" "$show"
    judged "$show on standard input" "${show%.words}.expected" <"$show"
done

# 65,536 bytes are not too many, and zeros have no kind; one byte more is, and TOO LONG comes before ODD BYTES; so is any number above.
echo "REFUSED 2 AT 0" >"$room/zeros"
echo "TOO LONG" >"$room/long"
judged "65,536 bytes" "$room/zeros" < <(head -c 65536 /dev/zero)
judged "65,537 bytes" "$room/long" < <(head -c 65537 /dev/zero)
judged "65,540 bytes" "$room/long" - < <(head -c 65540 /dev/zero)
judged "a million bytes" "$room/long" < <(head -c 1000000 /dev/zero)
# Input that comes in pieces is one input.
judged "fade in pieces" shows/fade.expected < <(head -c 50 shows/fade.words; sleep 0.1; tail -c +51 shows/fade.words)

echo "$passed passed, $failed failed"
[ "$failed" -eq 0 ]
