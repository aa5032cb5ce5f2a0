#!/usr/bin/env bash
# Builds the static library and the driver oracle/NAME.rs, and runs it with the other words:
#
#   oracle/driver.sh NAME WORDS..
set -euo pipefail
cd "$(dirname "$0")/.."
bin/archive.sh >&2
mkdir -p target/oracle
rustc -O --edition 2021 "oracle/$1.rs" -o "target/oracle/$1" -L target/staticlib -l static=mc33_c
exec "target/oracle/$1" "${@:2}"
