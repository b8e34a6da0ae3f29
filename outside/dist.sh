#!/usr/bin/env bash
# outside/dist.sh
# Is dist/ what the proofs build, and are version and header the same everywhere?
set -uo pipefail
cd "$(dirname "$0")/.."
. outside/tally.sh

of() {
    sed -n "s/^$1 //p" dist/FROM
}

defined() {
    sed -n "s/^#define $1 \(\"\?\)\([^\" ]*\)\1.*/\2/p" include/harbour.h
}

binding_version() {
    sed -n 's/^__version__ = "\([^"]*\)".*/\1/p' bindings/python/oonjaluvai.py
}

# 1.2.3 as 10203
number_of() {
    local IFS=.
    set -- $1
    echo $((10000 * $1 + 100 * $2 + $3))
}

# Of every part of memory that a program of the library would keep from call to call.
kept_bytes() {
    size dist/libharbour.a | awk 'NR > 1 { bytes += $2 + $3 } END { print bytes }'
}

version=$(cat VERSION)
rt=${RT-rt}
if command -v "$rt" > /dev/null; then
    holds "dist/ has not the archive that the proofs build: make dist" cmp target/staticlib/libharbour.a dist/libharbour.a
    same "the toolchain of dist/FROM" "$(of toolchain)" "$("$rt" version)"
else
    echo "NOT COMPARED: there is no rt, so nothing was built from proofs"
fi
holds "dist/harbour.h is not include/harbour.h: make dist" cmp include/harbour.h dist/harbour.h
holds "dist/SHA256SUMS" env -C dist sha256sum --check --quiet --strict SHA256SUMS
same "what dist/SHA256SUMS is of" "$(awk '{ print $2 }' dist/SHA256SUMS | sort | paste -sd ' ')" "harbour.h libharbour.a"
if [ -e .git ]; then
    same "the tree of dist/FROM" "$(of tree)" "$(bash package/tree.sh 2>&1)"
else
    echo "NOT COMPARED: this is no checkout of git, so crates/ has no tree"
fi
same "the target of dist/FROM" "$(of target)" "x86-64 Linux"
same "the version of dist/FROM" "$(of version)" "$version"
same "HARBOUR_VERSION" "$(defined HARBOUR_VERSION)" "$version"
same "HARBOUR_VERSION_NUMBER" "$(defined HARBOUR_VERSION_NUMBER)" "$(number_of "$version")"
same "the version of the Python binding" "$(binding_version)" "$version"
same "the newest version of CHANGELOG.md" "$(sed -n 's/^## //p' CHANGELOG.md | head -n 1)" "$version"
same "what the archive asks of its host" "$(nm --undefined-only dist/libharbour.a | awk 'NF == 2 { print $2 }')" memset
same "bytes that the archive keeps between calls" "$(kept_bytes)" 0
told
