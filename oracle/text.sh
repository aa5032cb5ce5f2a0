#!/usr/bin/env bash
# Builds the program mc33 and runs it, outside the gate:
#
#   oracle/text.sh inputs                 on the inputs of crates/mc33_inputs, through a pipe at once and a byte at
#                                         a time, and from a file; and with a read and a write that fail
#   oracle/text.sh blocks                 on 300 blocks of the cubes of crates/mc33/stdin, through a pipe and from a
#                                         file, against their answers in crates/mc33/stdout
#   oracle/text.sh SOURCE speed [BYTES]   against the plain Rust program of oracle/choice/text.rs, on a
#                                         gigabyte of mixed cubes or on BYTES; SOURCE as for oracle/choice.sh
set -euo pipefail
here="$PWD"
cd "$(dirname "$0")/.."
case "${1-}" in
    inputs | blocks | speed | "") source=../shared/docs/src ;;
    /*) source=$1; shift ;;
    *) source=$here/$1; shift ;;
esac
bin/program.sh >&2
case "${1-}" in
    inputs)
        exec python3 oracle/text.py target/bin/mc33 crates/mc33_inputs/stdin
        ;;
    blocks)
        exec python3 oracle/text.py target/bin/mc33 --blocks crates/mc33
        ;;
    speed)
        mkdir -p target/oracle
        oracle/choice.sh "$source" input "${2-1000000000}" 1 > target/oracle/input
        exec python3 oracle/throughput.py target/oracle/input target/bin/mc33 target/oracle/choice text
        ;;
    *)
        echo "inputs | blocks | [SOURCE] speed [BYTES]" >&2
        exit 2
        ;;
esac
