#!/usr/bin/env bash
# As parallel.sh, with split and xargs: inputs are cut into so many parts at lines' ends, mc33 answers the parts side
# by side on this machine's cores, and the joined answers are held to those of one run.
set -euo pipefail

# part FILE COUNT FOLDER K: answers part K of COUNT, in front of which the names line stands, into the folder. It is
# well where all went well, or the part was refused, at which mc33 reads no further.
part() {
    { [ "$4" = 1 ] || head -n 1 "$1"; split -n "l/$4/$2" "$1"; } | bin/mc33.sh > "$3/$4"
    case "${PIPESTATUS[*]}" in
        "0 0" | "0 1" | "141 1") ;;
        *) return 1 ;;
    esac
}
export -f part

blocks() {
    local parts=$out/parts
    rm -rf "$parts"
    mkdir "$parts"
    seq "$2" | xargs -P "$(nproc)" -n 1 bash -c 'part "$@"' part "$1" "$2" "$parts"
    seq -f "$parts/%g" "$2" | xargs cat
}
words() { echo "$1 parts"; }
. "$(dirname "$0")/blocks.sh"
all_tried 8 1 3 200
