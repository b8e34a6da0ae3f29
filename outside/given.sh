#!/usr/bin/env bash
# outside/given.sh
# Where there is no prover, is an archive refused that is not what dist/ says, and is another tree told?
set -uo pipefail
cd "$(dirname "$0")/.."
. outside/tally.sh

# Removed again: the gate refuses files of Rattle's anywhere but in a crate.
top=$PWD/target/outside/given
trap 'rm -rf "$top"' EXIT

# A checkout of its own, with what stands here now.
copied() {
    rm -rf "$top"
    mkdir -p "$top"
    git init --quiet "$top"
    tar --create --exclude=out crates dist include package VERSION | tar --extract --directory="$top"
    git -C "$top" add --all &&
        git -C "$top" -c user.name=copy -c user.email=copy commit --quiet --message=copy
}

given() {
    bash "$top/package/given.sh" 2>&1
}

# refused WHY: by given.sh, with these words.
refused() {
    local said
    said=$(given) && said="it was used"
    same "$1" "$(tail -n 1 <<< "$said")" "dist/ is not used: $1"
}

holds "a copy" copied
holds "what dist/ says is used" given
holds "another tree is told though it is none" test "$(given | grep --count BUT)" -eq 0

echo '// more' >> "$top/crates/problem/src/lib.rt"
holds "another tree is not told" test "$(given | grep --count BUT)" -eq 1

mv "$top/.git" "$top/no_git"
holds "that there is no checkout is not told" test "$(given | grep --count 'no checkout of git')" -eq 1

copied
printf 'x' | dd of="$top/dist/libharbour.a" bs=1 seek=5000 conv=notrunc 2> /dev/null
refused "its files are not those of dist/SHA256SUMS"
sed -i '/libharbour.a/d' "$top/dist/SHA256SUMS"
refused "dist/SHA256SUMS is not of its two files"

copied
echo '/* more */' >> "$top/include/harbour.h"
refused "its header is not include/harbour.h"
told
