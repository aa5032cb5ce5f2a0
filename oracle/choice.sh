#!/usr/bin/env bash
# Builds the static library, takes the Rust's text out of a checkout of the source (the first word, or
# else ../shared/docs/src), builds the driver round it and runs that with the other words:
#
#   oracle/choice.sh SOURCE compare 200000000 1
#   oracle/choice.sh SOURCE families
#   oracle/choice.sh SOURCE sets > crates/set_families/stdout
#   oracle/choice.sh SOURCE speed
#   oracle/choice.sh SOURCE once 'case 4'
#   oracle/choice.sh SOURCE sample 1 > crates/mc33/stdin
#   oracle/choice.sh SOURCE altered < crates/mc33/stdin
#   oracle/choice.sh SOURCE input 1000000 1 > INPUT
#   oracle/choice.sh SOURCE text < crates/mc33/stdin > crates/mc33/stdout
#   oracle/choice.sh SOURCE choices < crates/mc33/stdin
#   oracle/choice.sh SOURCE signs < crates/mc33/stdin
set -euo pipefail
here="$PWD"
cd "$(dirname "$0")/.."
case "${1-}" in
    "" | compare | families | sets | speed | once | sample | altered | input | text | choices | signs)
        source=../shared/docs/src
        ;;
    /*) source=$1; shift ;;
    *) source=$here/$1; shift ;;
esac
bin/archive.sh >&2
mkdir -p target/oracle
python3 oracle/extract.py "$source" target/oracle/extract.rs
rustc -C opt-level=3 -C codegen-units=1 -C debug-assertions=off --edition 2021 oracle/choice.rs \
    -o target/oracle/choice -L target/staticlib -l static=mc33_c
exec target/oracle/choice "$@"
