#!/usr/bin/env bash
# package/uninstall.sh
# Removes what package/install.sh put there.
set -euo pipefail
cd "$(dirname "$0")/.."
. package/where.sh

rm -f "$include/harbour.h" "$lib/libharbour.a" "$lib/libharbour.so" "$lib/libharbour.so.$major" \
    "$lib/libharbour.so.$version" "$lib/pkgconfig/harbour.pc"
tell_loader
