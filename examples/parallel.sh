#!/usr/bin/env bash
# Tries GNU parallel on this machine's cores: inputs are cut into blocks of lines, each with the names line, mc33
# answers the blocks side by side, and the joined answers are held to those of one run. split.sh does it without
# GNU parallel.
set -euo pipefail
if [[ $(parallel --version 2>&1 < /dev/null) != "GNU parallel"* ]]; then
    echo "parallel.sh needs GNU parallel: Debian's package parallel, not the parallel of moreutils" >&2
    exit 2
fi
blocks() { parallel --will-cite --pipepart -a "$1" --header : --block "$2" -k target/bin/mc33; }
words() { echo "blocks of $1"; }
. "$(dirname "$0")/blocks.sh"
all_tried 1M 100k 5M -1
