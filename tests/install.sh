#!/usr/bin/env bash
# Installs into an empty folder and uses what is there as somebody would who has no sources: the programs, the manual pages, and README's
# first example and samples/areas.c compiled with pkg-config. Then takes it away again.
#
#     tests/install.sh VERSION ARCHIVE VERDICT
set -eu
cd "$(dirname "$0")/.."
version=$1 archive=$2 verdict=$3
room=$(mktemp -d)
trap 'rm -rf "$room"' EXIT
checks=0

expect() { # WHAT EXPECTED CAME
    checks=$((checks + 1))
    [ "$2" = "$3" ] && return
    printf 'FAILED install, %s: expected\n%s\ncame\n%s\n' "$1" "$2" "$3"
    exit 1
}

files_below() { (cd "$1" && find . ! -type d | sort); }

# README's first program, and the first lines that README says it prints.
first_program() { awk '/^```c$/ { on = 1; next } on && /^```$/ { exit } on' README.md; }
its_output() { awk '/^```c$/ { seen = 1 } seen && /^prints$/ { on = 1; next } on && /^    / { print substr($0, 5); some = 1; next } some { exit }' README.md; }

installed='./bin/cc100
./bin/verdict
./include/cc100.h
./lib/libcc100.a
./lib/pkgconfig/cc100.pc
./share/man/man1/cc100.1
./share/man/man3/cc100.3
./share/man/man3/cc100_allocate.3
./share/man/man3/cc100_check.3
./share/man/man3/cc100_check_placed.3
./share/man/man3/cc100_check_straight.3
./share/man/man3/cc100_read.3
./share/man/man3/cc100_release.3
./share/man/man3/cc100_resume.3
./share/man/man3/cc100_run.3
./share/man/man3/cc100_start.3
./share/man/man3/cc100_step.3
./share/man/man3/cc100_write.3'

placed() {
    make --no-print-directory install PREFIX="$room/usr" > "$room/log"
    expect 'what is installed' "$installed" "$(files_below "$room/usr")"
    expect 'the header' '' "$(cmp include/cc100.h "$room/usr/include/cc100.h" 2>&1)"
    expect 'the version of cc100' "cc100 $version" "$("$room/usr/bin/cc100" --version)"
    expect 'cc100' 'accept 8' "$("$room/usr/bin/cc100" check samples/m.module)"
    expect 'verdict' 'accept 8' "$("$room/usr/bin/verdict" < samples/m.module)"
    expect 'the release in CHANGELOG.md' "## $version" "$(grep -m 1 -o '^## [0-9][0-9.]*' CHANGELOG.md)"
}

compiled() {
    export PKG_CONFIG_PATH=$room/usr/lib/pkgconfig
    expect 'the version of the library' "$version" "$(pkg-config --modversion cc100)"
    first_program > "$room/example.c"
    # shellcheck disable=SC2046
    (cd "$room" && cc -o example example.c $(pkg-config --cflags --libs cc100))
    expect "README's first program" "$(its_output)" "$("$room/example")"
    [ -n "$(its_output)" ] || expect 'the output that README tells' 'some lines' ''
    # shellcheck disable=SC2046
    cc -O2 -Wall -Wextra -Werror -o "$room/areas" samples/areas.c $(pkg-config --cflags --libs cc100)
    expect 'samples/areas.c' "$(cat tests/areas.expected)" "$("$room/areas")"
    if command -v c++ > /dev/null; then
        echo '#include <cc100.h>' > "$room/header.cc"
        echo 'cc100_allocated first(uint8_t *record) { return cc100_allocate(record, CC100_RECORD_LENGTH, 16); }' >> "$room/header.cc"
        # shellcheck disable=SC2046
        expect 'the header in C++' '' "$(cd "$room" && c++ -Wall -Wextra -Werror -fsyntax-only $(pkg-config --cflags cc100) header.cc 2>&1)"
    fi
}

# README's other commands, with the programs that are installed.
told() { PATH=$room/usr/bin:$PATH python3 tests/readme.py; }

# Rendered without a warning, under each name.
rendered() {
    local page
    for page in "$room"/usr/share/man/man1/cc100.1 "$room"/usr/share/man/man3/cc100.3; do
        expect "warnings of $(basename "$page")" '' "$(groff -man -ww -Tutf8 -z "$page" 2>&1)"
        expect "the version in $(basename "$page")" 1 "$(groff -man -Tutf8 "$page" | grep -c "Delkhvatsi $version")"
    done
    for page in "$room"/usr/share/man/man3/cc100_*.3; do
        expect "warnings of $(basename "$page")" '' "$(cd "$room/usr/share/man" && soelim "$page" 2>&1 | groff -man -ww -Tutf8 -z 2>&1)"
    done
}

# Into a folder that a package is made from: the paths inside are those without it.
staged() {
    make --no-print-directory install PREFIX=/usr DESTDIR="$room/stage" ARCHIVE="$archive" VERDICT="$verdict" > "$room/log"
    expect 'what is staged' "$installed" "$(files_below "$room/stage/usr")"
    expect 'the prefix that is told' 'prefix=/usr' "$(head -n 1 "$room/stage/usr/lib/pkgconfig/cc100.pc")"
    make --no-print-directory uninstall PREFIX=/usr DESTDIR="$room/stage"
    expect 'what is left where it was staged' '' "$(files_below "$room/stage")"
}

placed
compiled
told
rendered
staged
echo kept > "$room/usr/lib/other"
make --no-print-directory uninstall PREFIX="$room/usr"
expect 'what is left' './lib/other' "$(files_below "$room/usr")"
echo "installation: $checks checks, 0 failed"
