#!/usr/bin/env bash
# package/install.sh ARCHIVE SHARED
# What `make install` does.
set -euo pipefail
cd "$(dirname "$0")/.."
. package/where.sh

# A program that is linked by it has to be told where the library is, unless the loader knows in any case.
pkg_config_file() {
    local rpath=
    if [ $looked_in != always ]; then rpath=' -Wl,-rpath,${libdir}'; fi
    cat << PC
prefix=$prefix
includedir=$includedir
libdir=$libdir

Name: harbour
Description: Oonjaluvai, the harbour's planner: landing slots for fishing boats, by a proved search
Version: $version
Cflags: -I\${includedir}
Libs: -L\${libdir} -lharbour$rpath
PC
}

umask 022
mkdir -p "$include" "$lib/pkgconfig"
install -m 644 include/harbour.h "$include/harbour.h"
install -m 644 "$1" "$lib/libharbour.a"
install -m 755 "$2" "$lib/libharbour.so.$version"
ln -sf "libharbour.so.$version" "$lib/libharbour.so.$major"
ln -sf "libharbour.so.$major" "$lib/libharbour.so"
pkg_config_file > "$lib/pkgconfig/harbour.pc"
tell_loader

echo "harbour $version: $include/harbour.h, $lib/libharbour.a, $lib/libharbour.so.$version, $lib/pkgconfig/harbour.pc"
if [ -z "$DESTDIR" ] && [ $looked_in = never ]; then
    echo "pkg-config finds it by PKG_CONFIG_PATH=$libdir/pkgconfig, and Python by LD_LIBRARY_PATH=$libdir"
fi
