#!/usr/bin/env bash
# The speed of the choice, the front, lists with and without numbers, the root, a face with its trust and the text
# program against the Rust's, in one table: medians of interleaved rounds on the same inputs, ours, theirs, and how many
# times theirs ours is; the root's row and the trust's by processor time. The Rust's own `handle_cube` stands against
# the choice, with its lookup in CASES, at the set of the corners above 0 that plain Rust makes, against the front, a
# plain Rust loop over it against a list, the machine's square root, which the Rust calls, against the root, plain Rust
# with the same comparison against the trust, and a plain Rust program over `handle_cube` against the text program. The
# Rust's loop writes code, row, column and centre, since the Rust counts nothing; the plain program counts and prints
# what ours does. Ends with status 1 where a limit is passed: 1.0 times the Rust's time for choices of mixed and of
# ambiguous families and lists of ambiguous ones, 0.8 for lists of mixed ones; by signs 0.85 for choices and lists of
# mixed families and 1.0 for each other kind of cube; 25 times the machine's for the root, 0.95 of the plain program's
# throughput.
#
#   oracle/speed.sh [SOURCE] [BYTES]     SOURCE as for oracle/choice.sh; BYTES of input for the text program, or 10^9
set -euo pipefail
here="$PWD"
cd "$(dirname "$0")/.."
case "${1-}" in
    /*) source=$1; shift ;;
    *[!0-9]*) source=$here/$1; shift ;;
    *) source=$PWD/../shared/docs/src ;;
esac
echo "$(sed -n 's/^model name[^:]*: //p' /proc/cpuinfo | head -n 1), $(nproc) cores; $(rustc --version)"
mkdir -p target
good=0
oracle/choice.sh "$source" speed 2> target/speed.log || good=1
oracle/root.sh speed 2>> target/speed.log || good=1
oracle/trust.sh speed 2>> target/speed.log || good=1
oracle/text.sh "$source" speed "${1-1000000000}" 2>> target/speed.log || good=1
[ "$good" = 0 ] || echo "a limit was passed, or something did not run: target/speed.log" >&2
exit "$good"
