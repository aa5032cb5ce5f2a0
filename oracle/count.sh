#!/usr/bin/env bash
# Instructions and mispredicted branches of a cube, ours and the Rust's, by callgrind's model, for some rows of the
# table of oracle/speed.sh. Needs valgrind.
#
#   oracle/count.sh [SOURCE]     SOURCE as for oracle/choice.sh
set -euo pipefail
oracle="$(cd "$(dirname "$0")" && pwd)"
command -v valgrind > /dev/null || { echo "valgrind is not there" >&2; exit 1; }
log="$oracle/../target/count.log"
mkdir -p "$oracle/../target"
"$oracle/choice.sh" "$@" once 'case 0' > "$log" 2>&1 || { cat "$log"; exit 1; }
cd "$oracle/.."

# counted FUNCTION COURSE: what callgrind prints of the events: instructions, branches and those mispredicted, and so
# for jumps that are computed.
counted() {
    valgrind --tool=callgrind --branch-sim=yes --collect-atstart=no --toggle-collect="*$1*" \
        --callgrind-out-file=/dev/null target/oracle/choice once "$2" 2>&1 | sed -n 's/.*Collected : //p'
}

printf '%-24s%18s%18s\n' 'a cube' instructions mispredicted
printf '%-24s%9s%9s%9s%9s\n' '' ours "Rust's" ours "Rust's"
for course in 'mixed families' 'case 1' 'case 4' 'case 13'; do
    ours=$(counted time_ours "$course")
    theirs=$(counted time_theirs "$course")
    echo "$ours $theirs" | awk -v course="$course" '
        { printf "%-24s%9.0f%9.0f%9.1f%9.1f\n", course, $1 / 4096, $6 / 4096, ($3 + $5) / 4096, ($8 + $10) / 4096 }'
done
