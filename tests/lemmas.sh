#!/bin/bash
# The command lemmas (companion/): for each show that can be safe, the lemmas that it finds for the logic alone, as words, are judged SAFE by JUDGE, and are no more than the shortest
# list that is stored; from its text without lemmas too. For the others it says what is lacking, and ends with the status of a finding. `tests/lemmas.sh PROGRAM [JUDGE]`: the
# companion, and the operator's program, target/bin/operator if it is not given. It prints `ok` at the end.
set -eu
[ $# -eq 1 ] || [ $# -eq 2 ] || { echo "usage: tests/lemmas.sh PROGRAM [JUDGE]"; exit 2; }
program=$(readlink -f "$1") judge=$(readlink -f "${2-$(dirname "$(readlink -f "$0")")/../target/bin/operator}")
cd "$(dirname "$(readlink -f "$0")")/.."
[ -x "$program" ] && [ -x "$judge" ] || { echo "$1 or the judge is no program"; exit 1; }
room=$(mktemp -d)
trap 'rm -rf "$room"' EXIT

fail() { # LINE
    echo "$1"
    exit 1
}

# The LEMMA words of a file: those of kind 9. No other word of a show is of that kind.
count() { # FILE
    od -An -v -tx4 -w4 "$1" | grep -c '^ 9' || true
}

# The command's text in $room/text and as words in $room/words, what it says beside it in $room/beside; its status is the one that is expected.
found() { # FILE STATUS
    local status=0
    "$program" lemmas "$1" >"$room/text" 2>"$room/beside" || status=$?
    [ "$status" -eq "$2" ] || { cat "$room/beside"; fail "lemmas $1: status $status, not $2"; }
    "$program" words "$room/text" >"$room/words" || fail "words: what lemmas printed of $1 is no show"
}

# The logic of a file is the other's too.
same_logic() { # FILE FILE
    local length
    length=$(od -An -v -tx4 -w4 "$1" | grep -n -m1 '^ f' | cut -d: -f1)
    cmp -n $((4 * length)) "$1" "$2" || fail "$2: not the logic of $1"
}

safe() { # FILE MOST
    local line
    found "$1" 0
    [ ! -s "$room/beside" ] || fail "lemmas $1: not quiet"
    line=$("$judge" <"$room/words")
    [[ $line == "SAFE nodes "* ]] || fail "lemmas $1: $line"
    [ "$(count "$room/words")" -le "$2" ] || fail "lemmas $1: $(count "$room/words") lemmas, and $2 are stored"
}

for name in fade house rig8 bakery chase master blackout incident_mended difference; do
    most=$(count "shows/$name.words")
    [ ! -e "shows/${name}_kept.words" ] || most=$(count "shows/${name}_kept.words")
    safe "shows/$name.words" "$most"
    same_logic "shows/$name.words" "$room/words"
    cp "$room/text" "$room/first"
    # Whatever lemmas it comes with, and as a text, it comes to the same.
    "$program" lemmas "$room/first" | cmp - "$room/first" || fail "$name: other lemmas for its own text"
    "$program" lemmas <"shows/$name.words" | cmp - "$room/first" || fail "$name: other lemmas on standard input"
    # From its text, with its names and without its lemmas.
    grep -v '^lemma ' "shows/$name.text" >"$room/logic"
    safe "$room/logic" "$most"
    same_logic "shows/$name.words" "$room/words"
done
for name in chase blackout; do
    safe "shows/${name}_unshown.words" "$(count "shows/$name.words")"
done

# Start rows that no state meets: safe, for nothing can happen, and that is said.
printf '%s\n' 'variable level 0 to 1' 'start level >= 2' >"$room/never"
found "$room/never" 0
[[ $("$judge" <"$room/words") == "SAFE "* && $(<"$room/beside") == "no state meets the start rows: the show cannot start (worked out by the companion)" ]] || fail "lemmas of a show that cannot start"

# A designer's way of work, as docs/FORMAT.md has it: the macro of the incident, and with the guard.
printf '%s\n' 'variable level 0 to 1000' 'start level = 5' 'action macro' '    level := level - 10' >"$room/macro"
found "$room/macro" 1
[ "$("$judge" <"$room/words")" = $'RUNOFF node 0 action 0 variable 0 low\nPATH' ] || fail "lemmas of the incident, by a designer"
sed 's/^action macro$/&\n    when level >= 10/' "$room/macro" >"$room/mended"
found "$room/mended" 0
[ "$("$judge" <"$room/words")" = "SAFE nodes 1 edges 1" ] || fail "lemmas of the mended incident, by a designer"

# ---- what is lacking

# The first line about a lemma that is lacking.
lacks() { # NAME LINE
    found "shows/$1.words" 1
    same_logic "shows/$1.words" "$room/words"
    [[ $("$judge" <"$room/words") != "SAFE "* ]] || fail "lemmas $1: safe, and status 1"
    sed -n 2p "$room/beside" | grep -qxF "$2" || { cat "$room/beside"; fail "lemmas $1: not what is lacking"; }
}

lacks incident "at node 0 (nothing known): a0 keeps v0 low; false at v0 0, where v0 becomes -10"
lacks bump "at node 1 (p0): a1 keeps v0 high; false at v0 996, v1 1, where v0 becomes 1001"
lacks shortcut "at node 0 (not p0 and not p1 and not p2), and at 3 more nodes: a2 never, against p0 and p1; false at v0 0, v1 0, v2 0"
found shows/counter.words 1

# ---- what is no show

for name in cut_byte cut_logic cut_lemma empty; do
    status=0
    "$program" lemmas "shows/$name.words" >"$room/text" 2>"$room/beside" || status=$?
    [ "$status" -eq 3 ] && [ ! -s "$room/text" ] && [ "$(wc -l <"$room/beside")" -eq 1 ] || fail "lemmas $name: status $status, or not one line on standard error alone"
done
status=0
"$program" lemmas "$room/none" >"$room/text" 2>/dev/null || status=$?
[ "$status" -eq 2 ] && [ ! -s "$room/text" ] || fail "lemmas of a file that is not there: status $status"
if [ -e /dev/full ]; then
    status=0
    "$program" lemmas shows/bump.words >/dev/full 2>"$room/beside" || status=$?
    [ "$status" -eq 2 ] && [ "$(wc -l <"$room/beside")" -eq 1 ] || fail "lemmas to a full disk: status $status"
fi
echo ok
