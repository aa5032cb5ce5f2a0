#!/usr/bin/env bash
# Proves and builds the static library target/staticlib/libmc33_c.a and, of it, the shared object libmc33.so.MAJOR with
# the link libmc33.so beside it. With a PREFIX, puts header, archive, shared object and pkg-config's mc33.pc under it
# (DESTDIR, where set, stands before it):
#
#     ./install.sh /usr/local
#     gcc yours.c $(pkg-config --cflags --libs mc33)
set -euo pipefail
usage() { sed -n '2,7s/^# \{0,1\}//p' "$0"; }
case "${1-}" in
'' | /*) prefix=${1-} ;;
-h | --help) usage; exit 0 ;;
-*) usage >&2; exit 2 ;;
*) prefix=$PWD/$1 ;;
esac
cd "$(dirname "$0")"
built=target/staticlib
version() { sed -n "s/^#define MC33_VERSION_$1 //p" include/mc33.h; }
major=$(version MAJOR)

command -v rt > /dev/null || { echo "install.sh: rt, of the Rattle kit, is not at hand" >&2; exit 2; }
mkdir -p "$built"
echo "install.sh: proving and building the library, which takes minutes the first time" >&2
bin/archive.sh > "$built/build.log" 2>&1 || { cat "$built/build.log" >&2; exit 1; }
gcc -shared -Wl,-soname,"libmc33.so.$major" -Wl,-z,defs -Wl,--whole-archive "$built/libmc33_c.a" -Wl,--no-whole-archive \
    -o "$built/libmc33.so.$major"
ln -sfn "libmc33.so.$major" "$built/libmc33.so"
[ -n "$prefix" ] || exit 0

to=${DESTDIR-}$prefix
mkdir -p "$to/include" "$to/lib/pkgconfig"
install -m 644 include/mc33.h "$to/include/mc33.h"
install -m 644 "$built/libmc33_c.a" "$to/lib/libmc33_c.a"
install -m 755 "$built/libmc33.so.$major" "$to/lib/libmc33.so.$major"
ln -sfn "libmc33.so.$major" "$to/lib/libmc33.so"
cat > "$to/lib/pkgconfig/mc33.pc" <<PC
prefix=$prefix
includedir=\${prefix}/include
libdir=\${prefix}/lib

Name: mc33
Description: A proved chooser for Marching Cubes 33
Version: $major.$(version MINOR)
Cflags: -I\${includedir}
Libs: -L\${libdir} -lmc33
PC
echo "under $to: include/mc33.h, lib/libmc33_c.a, lib/libmc33.so.$major, lib/libmc33.so, lib/pkgconfig/mc33.pc"
