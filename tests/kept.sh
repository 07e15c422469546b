#!/bin/bash
# The shows without the lemmas that say nothing that is not kept, shows/NAME_kept.words: each is what `kept` (compare/) makes of NAME.words, both judges answer
# the same for both and leave the same lists, and the expected lines are the same. `tests/kept.sh [PROGRAM]`; `kept` is built where PROGRAM is not given.
# It prints `ok` at the end.
set -eu
cd "$(dirname "$(readlink -f "$0")")/.."
room=$(mktemp -d)
trap 'rm -rf "$room"' EXIT

fail() { # LINE
    echo "$1"
    exit 1
}

program=${1-$room/cargo/release/kept}
if [ $# -eq 0 ]; then
    [ -f target/staticlib/libexports.a ] || ./build library >"$room/rt" 2>&1 || { cat "$room/rt"; exit 1; }
    (cd compare && CARGO_TARGET_DIR=$room/cargo cargo build --release --offline --quiet --bin kept)
fi

for name in house rig8 bakery; do
    "$program" --check "shows/$name.words" "shows/${name}_kept.words"
    cmp "shows/$name.expected" "shows/${name}_kept.expected"
    "$program" "shows/${name}_kept.words" "$room/again"
    cmp "$room/again" "shows/${name}_kept.words"
done
[ "$(ls shows/*_kept.words | wc -l)" -eq 3 ] || fail "shows/ has a NAME_kept.words that is not looked at"

# The full show is not the one without them, nor is one that lacks its last lemma too.
head -c 400 shows/house_kept.words >"$room/fewer"
for other in shows/house.words "$room/fewer"; do
    status=0
    "$program" --check shows/house.words "$other" >/dev/null || status=$?
    [ "$status" -eq 1 ] || fail "$other passes for house without the lemmas that are kept, status $status"
done
echo ok
