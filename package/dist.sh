#!/usr/bin/env bash
# package/dist.sh RT CPU
# Fills dist/ with the archive that this prover builds for that processor in a folder of its own, the header, and what
# they were built from. What rt keeps on this machine of earlier proofs of the same files it does not prove again: the
# gate is what proves.
set -euo pipefail
cd "$(dirname "$0")/.."

tree=$(bash package/tree.sh)
anew=target/anew
trap 'rm -rf "$anew"' EXIT
rm -rf "$anew"
mkdir -p "$anew" dist
tar --create --exclude=out crates crates.txt | tar --extract --directory="$anew"
(cd "$anew/crates/harbour" && "$1" lib --cpu "$2")

install -m 644 "$anew/crates/harbour/out/libharbour.a" dist/libharbour.a
install -m 644 include/harbour.h dist/harbour.h
(cd dist && sha256sum libharbour.a harbour.h > SHA256SUMS)
printf 'version %s\ntarget %s Linux\ntree %s\ntoolchain %s\n' "$(cat VERSION)" "$2" "$tree" "$("$1" version)" > dist/FROM
cat dist/FROM dist/SHA256SUMS
