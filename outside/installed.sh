#!/usr/bin/env bash
# outside/installed.sh
# make install and make uninstall, with and without rt on the path, and programs that have no more to go by than
# pkg-config: those of README.md, and one in C++.
set -uo pipefail
cd "$(dirname "$0")/.."
. outside/tally.sh

# Removed again: the gate refuses links.
top=$PWD/target/outside/installed
trap 'rm -rf "$top"' EXIT
version=$(cat VERSION)
major=${version%%.*}
rm -rf "$top"
mkdir -p "$top"

# The path without each folder that has rt.
path_without_rt() {
    local folder without=
    local IFS=:
    for folder in $PATH; do
        if [ ! -x "$folder/rt" ]; then without="${without:+$without:}$folder"; fi
    done
    echo "$without"
}

made() {
    env -u MAKEFLAGS -u MAKELEVEL make --no-print-directory "$@"
}

files() {
    (cd "$1" && find . ! -type d | sort | paste -sd ' ')
}

due_functions() {
    echo "harbour_broken harbour_examine harbour_lawful harbour_lawful_file harbour_read harbour_rows harbour_run" \
        "harbour_write"
}

due_files() {
    echo "./include/harbour.h ./lib/libharbour.a ./lib/libharbour.so ./lib/libharbour.so.$major" \
        "./lib/libharbour.so.$version ./lib/pkgconfig/harbour.pc"
}

# Of files and folders, each once.
modes() {
    find "$1" ! -type l -printf '%m\n' | sort -u | paste -sd ' '
}

visible() {
    nm --dynamic --defined-only "$1" | awk '{ print $3 }' | paste -sd ' '
}

soname() {
    readelf --dynamic "$1" | sed -n 's/.*SONAME.*\[\(.*\)\]/\1/p'
}

runs_when_loaded() {
    readelf --dynamic "$1" | grep --count --extended-regexp 'INIT|FINI'
}

# The block of one kind under a heading of README.md.
from_readme() {
    awk -v heading="## $1" -v kind="$2" '
        /^## / { inside = $0 == heading }
        /^```/ { taken = inside && !taken && $0 == "```" kind; next }
        taken' README.md
}

# What README.md says that `make run` prints, which is all from the methods on.
run_in_readme() {
    sed -n '/^    EVERY METHOD/,/^Two more commands/{/^Two more commands/d; s/^    //; p}' README.md
}

run_now() {
    made run | sed -n '/^EVERY METHOD/,$p'
}

# One program of README.md: its text to a file, its command run, and what it prints held to what README.md says.
program() {
    local heading=$1 kind=$2 file=$3 command due
    from_readme "$heading" "$kind" > "$top/$file"
    command=$(from_readme "$heading" sh)
    due=$(from_readme "$heading" text)
    holds "README.md has no program under $heading" test -s "$top/$file" -a -n "$command" -a -n "$due"
    same "README.md, $heading" "$(cd "$top" && bash -c "$command" 2>&1)" "$due"
}

in_cpp() {
    local asked='return harbour_examine_t(harbour_tables()).answer != HARBOUR_FINE;'
    printf '#include <harbour.h>\nint main() { %s }\n' "$asked" > "$top/no_boats.cpp"
    c++ -std=c++17 -Wall -Wextra -Wpedantic -Werror "$top/no_boats.cpp" $(pkg-config --cflags --libs harbour) \
        -o "$top/no_boats" && "$top/no_boats"
}

# Without the shared library the same words give a program that has the archive in it.
from_the_archive() {
    rm "$1"/lib/libharbour.so*
    cc "$top/night.c" $(pkg-config --cflags --libs harbour) -o "$top/night" && "$top/night" > /dev/null &&
        ! readelf --dynamic "$top/night" | grep --quiet libharbour
}

installed_under() {
    local prefix=$1
    same "what is installed" "$(files "$prefix")" "$(due_files)"
    same "what can be seen" "$(visible "$prefix/lib/libharbour.so")" "$(due_functions)"
    same "soname" "$(soname "$prefix/lib/libharbour.so")" "libharbour.so.$major"
    same "what runs when it is loaded" "$(runs_when_loaded "$prefix/lib/libharbour.so")" 0
    same "pkg-config's version" "$(pkg-config --modversion harbour)" "$version"
    program "In C" c night.c
    LD_LIBRARY_PATH=$prefix/lib program "In Python" python night.py
    holds "a program in C++" in_cpp
    holds "a program with the archive in it" from_the_archive "$prefix"
}

# All of it under a path: with rt, or without.
on_path() {
    local prefix=$top/$1
    export PATH=$2 PKG_CONFIG_PATH=$prefix/lib/pkgconfig
    holds "make install" made install PREFIX="$prefix"
    installed_under "$prefix"
    holds "make uninstall" made uninstall PREFIX="$prefix"
    same "what is left" "$(files "$prefix")" ""
}

# A package is put together elsewhere than where it will stand; where a loader looks by itself, none is told where.
staged() {
    local stage=$top/stage pc=$top/stage/usr/lib/pkgconfig/harbour.pc
    holds "make install, staged" made install PREFIX=/usr DESTDIR="$stage"
    same "what is staged" "$(files "$stage/usr")" "$(due_files)"
    same "where it will stand" "$(sed -n 's/^prefix=//p' "$pc")" /usr
    same "what a linker is told" "$(sed -n 's/^Libs: //p' "$pc")" '-L${libdir} -lharbour'
    holds "make uninstall, staged" made uninstall PREFIX=/usr DESTDIR="$stage"
    same "what is left of the stage" "$(files "$stage")" ""
}

# Folders of other names, and one that no loader knows though the prefix is /usr.
elsewhere() {
    local where=(PREFIX=/usr INCLUDEDIR=include/oonjaluvai LIBDIR=/opt/lib DESTDIR="$top/other")
    holds "make install, elsewhere" made install "${where[@]}"
    holds "the header elsewhere" test -e "$top/other/usr/include/oonjaluvai/harbour.h"
    same "what a linker is told elsewhere" "$(sed -n 's/^Libs: //p' "$top/other/opt/lib/pkgconfig/harbour.pc")" \
        '-L${libdir} -lharbour -Wl,-rpath,${libdir}'
    holds "make uninstall, elsewhere" made uninstall "${where[@]}"
    same "what is left elsewhere" "$(files "$top/other")" ""
}

without_rt=$(path_without_rt)
if command -v "${RT-rt}" > /dev/null; then on_path with_rt "$PATH"; fi
on_path without_rt "$without_rt"
said=$(umask 077 && made install PREFIX="$top/again")
holds "nothing says that dist/ is used" grep --quiet 'dist/libharbour.a is used' <<< "$said"
holds "nothing says where pkg-config is to look" grep --quiet "PKG_CONFIG_PATH=$top/again/lib/pkgconfig" <<< "$said"
same "what others may do with what is installed" "$(modes "$top/again")" "644 755"
same "what make run prints" "$(run_now)" "$(run_in_readme)"
staged
elsewhere
told
