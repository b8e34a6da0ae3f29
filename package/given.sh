#!/usr/bin/env bash
# package/given.sh
# Where there is no prover: says that the archive of dist/ is used, and refuses one that is not what dist/ says.
set -euo pipefail
cd "$(dirname "$0")/.."

wrong() {
    echo "dist/ is not used: $1" >&2
    exit 1
}

# A file without a sum would pass for one that fits.
summed() {
    awk '{ print $2 }' dist/SHA256SUMS | sort | paste -sd ' '
}

command -v sha256sum > /dev/null || wrong "there is no sha256sum to test it with"
[ "$(summed)" = "harbour.h libharbour.a" ] || wrong "dist/SHA256SUMS is not of its two files"
(cd dist && sha256sum --check --quiet --strict SHA256SUMS) || wrong "its files are not those of dist/SHA256SUMS"
cmp --quiet include/harbour.h dist/harbour.h || wrong "its header is not include/harbour.h"
echo "rt is not found, so nothing is proved here: dist/libharbour.a is used, which was built from proofs:"
sed 's/^/  /' dist/FROM
if [ ! -e .git ]; then
    echo "  (whether crates/ is still that tree is not known: this is no checkout of git)"
elif ! tree=$(bash package/tree.sh 2>&1); then
    printf '  (whether crates/ is still that tree is not known: %s)\n' "$tree"
elif ! grep --quiet --line-regexp "tree $tree" dist/FROM; then
    echo "  BUT crates/ is now another tree, $tree: the archive is not built from what stands there"
fi
