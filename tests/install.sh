#!/usr/bin/env bash
# Installs under a DESTDIR and looks at what came there: the files, the shared object's name and functions, and what
# pkg-config tells. One line a check; ends at the first that fails.
set -euo pipefail
cd "$(dirname "$0")/.."
to=$PWD/target/tests/install
rm -rf "$to"
DESTDIR=$to ./install.sh /opt/mc33
there=$to/opt/mc33
part() { sed -n "s/^#define MC33_VERSION_$1 //p" include/mc33.h; }
major=$(part MAJOR)

# same WHAT FOUND EXPECTED
same() {
    [ "$2" = "$3" ] || { printf '%s: found\n%s\nexpected\n%s\n' "$1" "$2" "$3"; exit 1; }
    echo "$1: as expected"
}

same files "$(cd "$there" && find . ! -type d | sort)" "./include/mc33.h
./lib/libmc33.so
./lib/libmc33.so.$major
./lib/libmc33_c.a
./lib/pkgconfig/mc33.pc"
same link "$(readlink "$there/lib/libmc33.so")" "libmc33.so.$major"
same soname "$(readelf -d "$there/lib/libmc33.so" | sed -n 's/.*soname: \[\(.*\)\]/\1/p')" "libmc33.so.$major"
same functions "$(nm -D --defined-only "$there/lib/libmc33.so" | sed -n 's/.* T //p' | sort)" \
    "$(grep -o '\bmc33_[a-z_]*(' include/mc33.h | tr -d '(' | sort -u | grep -vE '_text|_name|_configurations|_most_readings')"
export PKG_CONFIG_PATH=$there/lib/pkgconfig
same version "$(pkg-config --modversion mc33)" "$major.$(part MINOR)"
same flags "$(pkg-config --cflags --libs mc33 | xargs)" "-I/opt/mc33/include -L/opt/mc33/lib -lmc33"
same usage "$(./install.sh --unknown 2> /dev/null || echo "status $?")" "status 2"
