#!/bin/bash
# What ./install puts in place works outside the repository. It is installed into a folder with a space in its name, and then moved; in both places the
# programs of docs/EMBEDDING.md are built by the lines of that page, and judge Fade. Then the installed programs, man pages, versions, and trouble.
# Lines for pkg-config and CMake are left out where these are missing, which is said. It prints `ok` at the end.
set -eu
cd "$(dirname "$(readlink -f "$0")")/.."
room=$(mktemp -d)
trap 'rm -rf "$room"' EXIT
unset CARGO_TARGET_DIR BULANEVIOR_LIB PKG_CONFIG_PATH CMAKE_PREFIX_PATH DESTDIR
page=docs/EMBEDDING.md first="$room/a prefix" moved=$room/moved
version=$(sed -n 's/^version = "\(.*\)"$/\1/p' wrapper/Cargo.toml)
safe='safe: nodes 1, edges 2'

fail() { # LINE
    echo "install: $1"
    exit 1
}
# How a command ends, and what it says first.
says() { # STATUS LINE COMMAND..
    local status=0 expected=$1 line=$2
    shift 2
    "$@" >"$room/out" 2>"$room/err" || status=$?
    [ "$status" = "$expected" ] && [ "$(head -n 1 "$room/out")" = "$line" ] || fail "$*: status $status"
}

# ---- the page

# The fenced text behind a mark, `<!-- run: NAME -->` or `<!-- file: NAME -->`.
block() { # PAGE KIND NAME
    awk -v mark="<!-- $2: $3 -->" '$0 == mark { found = 1; next } found && /^```/ { if (inside) exit; inside = 1; next } inside' "$1"
}
# The names behind the marks of a kind.
marked() { # PAGE KIND
    sed -n "s/^<!-- $2: \(.*\) -->\$/\1/p" "$1"
}

# A folder of its own with the page's programs, a show, the same show without its lemmas, and cut.
desk() { # FOLDER PREFIX
    local name
    mkdir -p "$1/src"
    for name in $(marked $page file); do
        block $page file "$name" | sed "s,PREFIX/,$2/,g" >"$1/$name"
        [ -s "$1/$name" ] || fail "$page: nothing behind the mark of $name"
    done
    cp shows/fade.words "$1/fade.words"
    head -c 64 shows/fade.words >"$1/bare.words"
    head -c 63 shows/fade.words >"$1/cut.words"
}

# The lines behind a mark, in such a folder: whatever they print, Fade is safe once for each time that they name it. Their programs say what is to be said of
# Fade without lemmas and cut, and nothing of a folder.
runs() { # NAME PREFIX
    local folder="$room/desk.$1" line=$room/line program times
    desk "$folder" "$2"
    block $page run "$1" >"$line"
    times=$(grep -c ' fade.words$' "$line") || fail "$page: $1 judges nothing"
    (cd "$folder" && PREFIX=$2 bash -eu "$line") >"$room/out" 2>"$room/err" || { cat "$room/out" "$room/err"; fail "$1 under $2: its lines fail"; }
    [ "$(grep -c "^$safe\$" "$room/out")" = "$times" ] || { cat "$room/out"; fail "$1 under $2: Fade is not safe"; }
    for program in $(sed -n 's/^\(.*\) fade.words$/\1/p' "$line"); do
        says 1 'action 0 may take variable 0 below its low end at node 0' "$folder/$program" "$folder/bare.words"
        says 1 'odd bytes: the file was cut' "$folder/$program" "$folder/cut.words"
        says 2 '' "$folder/$program" "$folder/src"
    done
    rm -rf "$folder"
}

lacks() { # TOOL..
    local tool
    for tool; do
        command -v "$tool" >/dev/null || return 0
    done
    return 1
}

# Every marked line, but for those whose tool is missing, and for pkg-config's under a name with a space.
all_run() { # PREFIX
    local name tools
    for name in $(marked $page run); do
        tools=
        case $name in
            *pkg-config) tools=pkg-config ;;
            cmake) tools="cmake make" ;;
        esac
        if lacks $tools; then
            echo "install: $name: left out, not all is there of: $tools"
        elif [[ $name != *pkg-config || $1 != *' '* ]]; then
            runs "$name" "$1"
        fi
    done
}

# What README shows of the page is what stands on the page.
for kind in run file; do
    for name in $(marked README.md $kind); do
        block README.md $kind "$name" | diff - <(block $page $kind "$name") || fail "README shows another $name than $page"
    done
done

# ---- in place

./install "$first" >"$room/out" || fail "./install fails"
[ "$(<"$room/out")" = "bulanevior: version $version is in place: $first" ] || fail "it says something else"

# The files, by their modes; documents, the crate's modules and the examples as many as there are.
{
    printf '755 %s\n' bin/bulanevior libexec/bulanevior/judge libexec/bulanevior/target/bin/operator
    printf '777 %s\n' bin/bulanevior-judge
    printf '644 %s\n' include/bulanevior.h include/bulanevior_text.h lib/libbulanevior.a lib/pkgconfig/bulanevior.pc \
        lib/cmake/bulanevior/bulaneviorConfig.cmake lib/cmake/bulanevior/bulaneviorConfigVersion.cmake libexec/bulanevior/wrapper/Cargo.toml \
        share/man/man1/bulanevior.1 share/man/man1/bulanevior-judge.1 share/man/man3/bulanevior.3 share/man/man5/bulanevior.5 \
        share/bulanevior/rust/Cargo.toml share/bulanevior/rust/build.rs share/doc/bulanevior/README.md share/doc/bulanevior/CHANGELOG.md
    (cd wrapper && printf '644 share/bulanevior/rust/%s\n' src/*.rs)
    printf '644 share/doc/bulanevior/%s\n' docs/*.md docs/*.svg examples/*.c examples/fade.words
    (cd wrapper && printf '644 share/doc/bulanevior/%s\n' examples/*.rs)
} | sort >"$room/wanted"
listed() { # PREFIX
    (cd "$1" && find . ! -type d -printf '%m %P\n' | sort)
}
listed "$first" | diff "$room/wanted" - || fail "other files, or other modes"
[ -z "$(find "$first" -type d ! -perm 755)" ] || fail "a folder with another mode"
for same in judge:libexec/bulanevior/judge target/staticlib/libexports.a:lib/libbulanevior.a include/bulanevior.h:include/bulanevior.h; do
    cmp "${same%%:*}" "$first/${same#*:}"
done
grep -rlF "$first" "$first" && fail "a file names the folder"
grep -rlF '@VERSION@' "$first/lib" && fail "a version is missing"

all_run "$first"
mv "$first" "$moved"
all_run "$moved"

# ---- versions

[ "$("$moved/bin/bulanevior" --version)" = "bulanevior $version" ] || fail "the companion's version"
[ "$("$moved/bin/bulanevior-judge" --version)" = "bulanevior $version" ] || fail "the judge's version"
if command -v pkg-config >/dev/null; then
    [ "$(PKG_CONFIG_PATH=$moved/lib/pkgconfig pkg-config --modversion bulanevior)" = "$version" ] || fail "pkg-config's version"
fi
# CMake takes this version and this minor, and no other.
found() { # VERSION..
    printf '%s\n' 'cmake_minimum_required(VERSION 3.16)' 'project(none NONE)' "find_package(bulanevior $* REQUIRED)" >"$room/cmake/CMakeLists.txt"
    rm -rf "$room/cmake/build"
    cmake -S "$room/cmake" -B "$room/cmake/build" -DCMAKE_PREFIX_PATH="$moved" >"$room/out" 2>&1
}
if command -v cmake >/dev/null; then
    mkdir "$room/cmake"
    for wanted in "" "${version%.*}" "$version" "$version EXACT"; do
        found $wanted || { cat "$room/out"; fail "CMake does not take '$wanted'"; }
    done
    for wanted in 0.1 0.7 0.7.1 1 "${version%.*}.999" "0.$((1000 + ${version##*.}))"; do
        found $wanted && fail "CMake takes $wanted"
    done
    mv "$moved/lib/libbulanevior.a" "$room/away"
    found && fail "CMake takes a package without its library"
    mv "$room/away" "$moved/lib/libbulanevior.a"
fi

# ---- programs

head -c 64 shows/fade.words >"$room/bare"
head -c 20 shows/fade.words >"$room/cut"
ln -s "$moved/bin/bulanevior-judge" "$room/link"
for judge in "$moved/bin/bulanevior-judge" "$room/link"; do
    says 0 'SAFE nodes 1 edges 2' "$judge" shows/fade.words
    says 1 'RUNOFF node 0 action 0 variable 0 low' "$judge" "$room/bare"
    says 3 'REFUSED 2 AT 5' "$judge" "$room/cut"
    says 2 '' "$judge" "$room/none"
done
says 0 "$safe" "$moved/bin/bulanevior" findings shows/fade.words
says 1 'action 0 may take variable 0 below its low end at node 0; actions: none' "$moved/bin/bulanevior" findings "$room/bare"
# Without its program the judge builds nothing, and says so.
mv "$moved/libexec/bulanevior/target" "$room/away"
says 2 '' "$moved/bin/bulanevior-judge" shows/fade.words
grep -q '^bulanevior: there is no program, and no crates/ to build it from$' "$room/err" || fail "the judge without its program"
mv "$room/away" "$moved/libexec/bulanevior/target"

# ---- man pages: each command and each call is there, and groff finds nothing wrong

for manual in docs/man/*; do
    [[ $(head -n 1 "$manual") == .TH\ * ]] && grep -q '^\.SH NAME$' "$manual" && grep -q '^\.SH DESCRIPTION$' "$manual" || fail "$manual is no man page"
    if command -v groff >/dev/null; then
        [ -z "$(groff -man -ww -Tutf8 "$manual" 2>&1 >/dev/null)" ] || { groff -man -ww -Tutf8 "$manual" 2>&1 >/dev/null; fail "$manual"; }
    fi
done
"$moved/bin/bulanevior" help | sed -n 's/^  \([a-z][a-z]*\) .*/\1/p' | sort >"$room/commands"
sed -n '/^\.SH COMMANDS$/,/^\.SH EXIT STATUS$/s/^\.B \([a-z]*\)$/\1/p' docs/man/bulanevior.1 | sort | diff "$room/commands" - \
    || fail "docs/man/bulanevior.1 has other commands than the companion"
for call in $(sed -n 's/^[A-Za-z0-9_]* \(bnv_[a-z_]*\)(.*/\1/p' include/bulanevior.h); do
    grep -q "$call(" docs/man/bulanevior.3 || fail "docs/man/bulanevior.3 has no call $call"
    grep -q "^| \`$call\`" $page || fail "$page has no call $call"
done

# The sizes of the records, as the header's test has them.
sed -n 's/.*sizeof(\(Bnv[A-Za-z]*\)) == \([0-9][0-9]*\).*/\1 \2/p' tests/header.c >"$room/sizes"
[ "$(wc -l <"$room/sizes")" -eq 8 ] || fail "tests/header.c has other records"
while read -r size; do
    grep -q "\*\*Sizes\*\*.* $size\b" $page || fail "$page has not: $size"
done <"$room/sizes"

# ---- again, behind DESTDIR, and trouble

before=$(stat -c %i "$moved/bin/bulanevior")
./install "$moved" >"$room/out" || fail "./install over an older one fails"
listed "$moved" | diff "$room/wanted" - || fail "over an older one: other files"
[ "$(stat -c %i "$moved/bin/bulanevior")" != "$before" ] || fail "a program is written over while it may run"
repository=$PWD
(cd "$room" && DESTDIR=stage "$repository/install" -- /usr/own) >"$room/out" || fail "./install behind DESTDIR fails"
listed "$room/stage/usr/own" | diff "$room/wanted" - || fail "behind DESTDIR: other files"
(cd "$room" && "$repository/install" "some where/else") >"$room/out" || fail "./install to a relative name fails"
[ -f "$room/some where/else/lib/libbulanevior.a" ] || fail "a relative name"

troubled() { # BEGINNING ARGUMENT..
    local status=0 begin=$1
    shift
    ./install "$@" >"$room/out" 2>"$room/err" || status=$?
    [ "$status" = 2 ] && [ ! -s "$room/out" ] && [[ $(<"$room/err") == "$begin"* ]] || { cat "$room/err"; fail "./install $*: status $status"; }
}
troubled 'Usage: install [--] PREFIX'
troubled 'Usage: install [--] PREFIX' ''
troubled 'Usage: install [--] PREFIX' "$room/one" "$room/two"
troubled 'Usage: install [--] PREFIX' --prefix="$room/one"
[ ! -e "$room/one" ] && [ ! -e "$room/two" ] || fail "something was made"
: >"$room/file"
troubled "bulanevior: cannot write to $room/file" "$room/file"
troubled "bulanevior: cannot write to $room/file/in" "$room/file/in"
# A file where a folder has to be: no file is put in place.
mkdir "$room/blocked"
: >"$room/blocked/share"
troubled "bulanevior: cannot write to $room/blocked/share" "$room/blocked"
[ "$(find "$room/blocked" ! -type d -printf '%P\n')" = share ] || fail "files beside a place that is blocked"
./install --help | grep -q '^Usage: install' || fail "no help"
echo ok
