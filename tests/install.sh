#!/usr/bin/env bash
# Installs into an empty folder outside the repository, builds hosts in C and C++ there with the flags that the installed file for pkg-config gives, against the
# shared library and against the archive, runs them on the examples, on answers, on tickets and on pairs of questions against the words on file, holds the header,
# the program, the desk and the names that are exported against the library, tries hosts with names of their own and headers of other versions, and uninstalls.
# The last line is 'N passed, M failed'.
set -u
cd "$(dirname "$0")/.."
repository=$PWD
folder=$(mktemp -d)
trap 'rm -rf "$folder"' EXIT
prefix=$folder/prefix
pc=$prefix/lib/pkgconfig/nuldwich.pc
version=$(sed -n 's/^#define NULDWICH_VERSION_STRING "\(.*\)"$/\1/p' include/nuldwich.h)
major=${version%%.*}
export LD_LIBRARY_PATH=$prefix/lib
passed=0 failed=0

# One test: a command that passes by its exit status.
try() {
    local what=$1
    shift
    if "$@"; then
        passed=$((passed + 1))
    else
        echo "install: $what"
        failed=$((failed + 1))
    fi
}

# The compiler's flags as the file for pkg-config has them, with its variables put in.
flags_on_file() (
    eval "$(sed -n 's/^\([a-z]*\)=\(.*\)$/\1="\2"/p' "$pc")"
    eval "echo $(sed -n 's/^Cflags: //p' "$pc") $(sed -n 's/^Libs: //p' "$pc")"
)

has_pkg_config() { command -v pkg-config >/dev/null; }

# The flags for the shared library.
flags() {
    if has_pkg_config; then
        PKG_CONFIG_PATH=${pc%/*} pkg-config --cflags --libs nuldwich | xargs
    else
        flags_on_file
    fi
}

# The archive's path as the file for pkg-config has it.
archive_on_file() (
    eval "$(sed -n 's/^\([a-z]*\)=\(.*\)$/\1="\2"/p' "$pc")"
    # shellcheck disable=SC2154
    echo "$archive"
)

# The same for the archive.
archive_flags() { echo "-I$prefix/include $(archive_on_file)"; }

# The files below a folder.
files() (cd "$1" && find . ! -type d -printf '%P\n' | LC_ALL=C sort)

installed() {
    [ "$(files "$1")" = "bin/nuldwich
bin/nuldwich-verdict
include/nuldwich.h
lib/libnuldwich.a
lib/libnuldwich.so
lib/libnuldwich.so.$major
lib/libnuldwich.so.$version
lib/pkgconfig/nuldwich.pc" ]
}

# Builds a program in the folder: its name, the function that gives the library's flags, the sources, --, the compiler and its words.
built() {
    local name=$1 library=$2 sources=()
    shift 2
    while [ "$1" != -- ]; do
        sources+=("$repository/$1")
        shift
    done
    shift
    # shellcheck disable=SC2046
    (cd "$folder" && "$@" -Wall -Wextra -Wpedantic -Werror -O2 "${sources[@]}" -x none $("$library") -o "$name")
}

# Builds the host program with a compiler against a library, and compares what it says of the examples, of answers, of tickets and of pairs of questions.
host_says() {
    local library=$1
    shift
    built host "$library" examples/host.c -- "$@" && tests/host/words.sh "$folder/host" | diff tests/host/expected.txt -
}

# Runs a program of the folder on every ticket.
on_tickets() { find examples tests/vectors -name '*.ticket' -print0 | xargs -0 "$folder/$1"; }

header_holds() { built header "$@" && on_tickets header; }

# The reader of answers under sanitizers, and, since these may hide what the optimiser does, without.
answers_read() {
    built answer flags tests/host/answer.c -- gcc -std=c11 && on_tickets answer &&
        built answer archive_flags tests/host/answer.c -- gcc -std=c11 -fsanitize=address,undefined -fno-sanitize-recover=all && on_tickets answer
}

# A host with a check and a judge of its own.
own_names() { built own "$@" && "$folder/own"; }

# The entries that the header declares, and those that the shared library exports.
declared() {
    echo '#include "nuldwich.h"' | gcc -E -P -I"$prefix/include" - | tr '\n' ' ' | sed -E ':body; s/\{[^{}]*\}//g; t body' |
        grep -oE '\bnuldwich_\w+\([^()]*\);' | sed 's/(.*//' | sort
}
exported() { nm -D --defined-only "$prefix/lib/libnuldwich.so" | awk '$2 == "T" { sub(/@.*/, "", $3); print $3 }' | sort; }
exports_hold() { [ -n "$(declared)" ] && diff <(declared) <(exported); }

# Symbols by type: the short names are weak in both libraries, and in the archive no other one is there without the prefix.
weak_names_hold() {
    [ "$(nm -D --defined-only "$prefix/lib/libnuldwich.so" | awk '$2 == "W" { sub(/@.*/, "", $3); print $3 }' | sort | xargs)" = "check judge" ] &&
        [ "$(nm "$prefix/lib/libnuldwich.a" | awk '$2 == "W" { print $3 }' | sort | xargs)" = "check judge" ] &&
        [ -z "$(nm "$prefix/lib/libnuldwich.a" | awk '$2 ~ /[A-TV-Z]/ && $2 != "W" && $3 !~ /^nuldwich_/')" ]
}

soname_holds() { readelf -d "$prefix/lib/libnuldwich.so" | grep -q "soname: \[libnuldwich.so.$major\]"; }

# A host that is compiled with the header of another major version does not link, with either library.
other_major_fails() {
    mkdir -p "$folder/other" && sed "s/nuldwich_major_$major/nuldwich_major_$((major + 1))/" include/nuldwich.h >"$folder/other/nuldwich.h" || return 1
    for library in flags archive_flags; do
        built another "$library" examples/host.c -- gcc -std=c11 -I"$folder/other" 2>"$folder/log" && return 1
        grep -q "undefined reference to .nuldwich_major_$((major + 1))'" "$folder/log" || return 1
    done
}

# A later installation, with DESTDIR, that finds all of it built.
staged() {
    make --no-print-directory install DESTDIR="$folder/stage" PREFIX=/usr/local >"$folder/log" 2>&1 && installed "$folder/stage/usr/local"
}

desk_says() { [ "$("$prefix/bin/nuldwich" same examples/office/01-numbers-too-long.txt examples/office/01-numbers-too-long.ticket)" = "the proved library says: the same" ]; }

desk_version() { [ "$("$prefix/bin/nuldwich" --version)" = "nuldwich $version" ]; }

program_says() { [ "$("$prefix/bin/nuldwich-verdict" <examples/office/09-four-wards.ticket)" = "verdict none" ]; }

uninstalled() { make --no-print-directory uninstall DESTDIR= PREFIX="$prefix" && [ -z "$(files "$prefix")" ]; }

try "make install fails" make --no-print-directory install DESTDIR= PREFIX="$prefix"
try "other files than eight are there" installed "$prefix"
has_pkg_config && try "pkg-config reads other flags than are on file" test "$(flags)" = "$(flags_on_file)"
try "the version on file is not the header's" grep -qxF "Version: $version" "$pc"
for library in flags archive_flags; do
    for standard in c99 c11; do
        try "the host in $standard, $library" host_says $library gcc -std=$standard
        try "own names in one file in $standard, $library" own_names $library tests/host/own_names.c -- gcc -std=$standard
        try "own names in two files in $standard, $library" own_names $library tests/host/own_names.c tests/host/own_functions.c -- gcc -std=$standard -DAPART
    done
    for standard in c++11 c++17; do
        try "the host in $standard, $library" host_says $library g++ -std=$standard -x c++
        try "own names in one file in $standard, $library" own_names $library tests/host/own_names.c -- g++ -std=$standard -x c++
        try "own names in two files in $standard, $library" own_names $library tests/host/own_names.c tests/host/own_functions.c -- g++ -std=$standard -DAPART -x c++
    done
done
try "the header does not hold with the archive" header_holds archive_flags tests/host/header.c -- gcc -std=c11
try "the header does not hold with the shared library" header_holds flags tests/host/header.c -- gcc -std=c11
try "the reader of answers" answers_read
try "the shared library exports other names than the header declares" exports_hold
try "a library has other names, or strong short ones" weak_names_hold
try "the shared library's name" soname_holds
try "a header of another major version links" other_major_fails
try "the program" program_says
try "the desk" desk_says
try "the desk's version" desk_version
try "an installation with DESTDIR" staged
try "the file for pkg-config names DESTDIR" grep -qx 'prefix=/usr/local' "$folder/stage/usr/local/lib/pkgconfig/nuldwich.pc"
try "something is proved again" test -z "$(grep -E 'logic=proved|proved \([0-9]' "$folder/log")"
try "something is left" uninstalled

echo "$passed passed, $failed failed"
[ "$failed" -eq 0 ]
