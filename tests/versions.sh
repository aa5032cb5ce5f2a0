#!/usr/bin/env bash
# Holds every place that has the version to the header's: 'where: version' for each, status 1 where one lags. That the
# library has the header's too is in header.c beside this, and in the gate's run of library_calls.
set -euo pipefail
cd "$(dirname "$0")/.."
part() { sed -n "s/^#define MC33_VERSION_$1 //p" include/mc33.h; }
version=$(part MAJOR).$(part MINOR)
lags=0

# has PLACE VERSION
has() {
    echo "$1: $2"
    [ "$2" = "$version" ] || [ "$2" = "$version.0" ] || { echo "  not $version, which include/mc33.h has"; lags=1; }
}

defined() { sed -n "s/^$1 = //p" crates/mc33_c/specs/Version.antt; }
quoted() { sed -n "s/^$1 *= *\"\(.*\)\"/\1/p" "$2" | head -n 1; }
has crates/mc33_c/specs/Version.antt "$(defined major).$(defined minor)"
has rust/Cargo.toml "$(quoted version rust/Cargo.toml)"
has python/mc33/release.py "$(quoted VERSION python/mc33/release.py)"
exit "$lags"
