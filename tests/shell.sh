#!/usr/bin/env bash
# Tries the text program in the shell, by itself and by bin/mc33.sh: its statuses, its words on standard error, and
# streams that interrupt, block or fail. Prints a line for each check, and ends at the first that fails.
#
#   tests/shell.sh [PROGRAM]     PROGRAM is target/bin/mc33, which is built first, or another
set -euo pipefail
cd "$(dirname "$0")/.."
out=target/shell
mkdir -p "$out"
if [ $# = 0 ]; then
    bin/program.sh > "$out/check.log" 2>&1 || { cat "$out/check.log"; exit 1; }
fi
MC33_PROGRAM=$(realpath "${1-target/bin/mc33}")
export MC33_PROGRAM
gcc -shared -fPIC -O2 -Wall -Wextra -Werror tests/interrupts.c -o "$out/interrupts.so"

# tried NAME COMMAND..: runs it, with what it writes in out, its words in err, and its status in status.
tried() {
    name=$1
    status=0
    "${@:2}" > "$out/out" 2> "$out/err" || status=$?
}

fail() {
    echo "FAILED $name: $*"
    exit 1
}

# gave STATUS [FILE [LINE..]]: the last one's status, what it wrote as in FILE, and its words, each line of which has
# what is given; with no FILE it wrote nothing or was not asked.
gave() {
    [ "$status" = "$1" ] || fail "status $status, not $1; words: $(cat "$out/err")"
    [ -z "${2-}" ] || cmp "$2" "$out/out" || fail "wrote something else"
    local n=0 line
    while IFS= read -r line; do
        n=$((n + 1))
        [ $# -ge $((n + 2)) ] && [[ $line = *"${*:n+2:1}"* ]] || fail "words: $line"
    done < "$out/err"
    [ "$n" = $(($# > 2 ? $# - 2 : 0)) ] || fail "$n lines of words"
    echo "$name: status $1"
}

# 60,000 cubes, and what is known of them from the gate's run.
repeated() { sed -n '1,5201p' "$1"; for _ in {1..10}; do sed -n '2,5201p' "$1"; done; sed -n '2,2801p' "$1"; }
cubes=$out/cubes
answers=$out/answers
repeated crates/mc33/stdin > "$cubes"
repeated crates/mc33/stdout > "$answers"

# refused_at LINE NUMBER: the answers up to a line that is refused.
refused_at() { head -n $(($1 - 1)) "$answers"; echo "refused $2 $1"; }

tried "answered" bin/mc33.sh < "$cubes"
gave 0 "$answers"

rm -rf "$out/installed" "$out/link" "$out/target"
mkdir "$out/installed"
cp "$MC33_PROGRAM" "$out/installed/mc33"
cp bin/mc33.sh "$out/installed"
ln -s installed/mc33.sh "$out/link"
tried "the program beside the script, by a link to it" env -u MC33_PROGRAM "$out/link" < "$cubes"
gave 0 "$answers"
mkdir -p "$out/target/bin"
mv "$out/installed/mc33" "$out/target/bin/mc33"
tried "the program of the checkout" env -u MC33_PROGRAM "$out/installed/mc33.sh" < "$cubes"
gave 0 "$answers"

sed '300s/ /  /' "$cubes" > "$out/malformed"
refused_at 300 8 > "$out/up_to_300"
tried "refused" bin/mc33.sh < "$out/malformed"
gave 1 "$out/up_to_300" "mc33: refused at line 300"

sed '50001s/^[0-9]* /15 /' "$cubes" > "$out/no_case"
refused_at 50001 1 > "$out/up_to_50001"
tried "refused further on" bin/mc33.sh < "$out/no_case"
gave 1 "$out/up_to_50001" "mc33: refused at line 50001"

{ cat "$cubes"; printf '3 0'; } > "$out/unended"
refused_at 60002 8 > "$out/up_to_60002"
tried "a last line without its end" bin/mc33.sh < "$out/unended"
gave 1 "$out/up_to_60002" "mc33: refused at line 60002"

refused_at 1 8 > "$out/up_to_1"
refused_at 2 8 > "$out/up_to_2"
tried "nothing at all" bin/mc33.sh < /dev/null
gave 1 "$out/up_to_1" "mc33: refused at line 1"
sed 's/$/\r/' "$cubes" > "$out/returns"
tried "carriage returns" bin/mc33.sh < "$out/returns"
gave 1 "$out/up_to_1" "mc33: refused at line 1"
sed '2s/$/\r/' "$cubes" > "$out/a_return"
tried "a carriage return behind a cube" bin/mc33.sh < "$out/a_return"
gave 1 "$out/up_to_2" "mc33: refused at line 2"
sed '2s/ /\t/' "$cubes" > "$out/tab"
tried "a tab" bin/mc33.sh < "$out/tab"
gave 1 "$out/up_to_2" "mc33: refused at line 2"
{ printf '\xef\xbb\xbf'; cat "$cubes"; } > "$out/mark"
tried "a byte order mark" bin/mc33.sh < "$out/mark"
gave 1 "$out/up_to_1" "mc33: refused at line 1"

full() { bin/mc33.sh "$@" > /dev/full; }
closed() { bin/mc33.sh >&-; }
unheard() { bin/mc33.sh 2>&-; }
unread() { { sleep 0.2; bin/mc33.sh 2>&4; } 4> >(exec true); }
cut_short() { bin/mc33.sh | head -n 1; }
and_removed() { bin/mc33.sh < "$out/kept" > /dev/full && rm "$out/kept"; }
tried "a full disk" full < "$cubes"
gave 2 "" "mc33: write failed"
tried "a full disk, and refused" full < "$out/malformed"
gave 2 "" "mc33: write failed"
cp "$cubes" "$out/kept"
tried "removed if all was answered" and_removed
gave 2 "" "mc33: write failed"
cmp "$cubes" "$out/kept" || fail "the input is gone"
tried "a directory" bin/mc33.sh < "$out"
gave 2 "" "mc33: read failed"
tried "no standard input" bin/mc33.sh <&-
gave 2 "" "mc33: read failed"
tried "no standard output" closed < "$cubes"
gave 2 "" "mc33.sh: standard output is closed"
tried "no standard error" unheard < "$out/malformed"
gave 1 "$out/up_to_300"
tried "nobody reads standard error" unread < "$out/malformed"
gave 1 "$out/up_to_300"
tried "a reader that leaves" cut_short < "$cubes"
gave 2 "" "mc33: write failed"
printf '#!/bin/sh\nkill -KILL $$\n' > "$out/dies"
chmod +x "$out/dies"
tried "a program that dies" env MC33_PROGRAM="$PWD/$out/dies" bin/mc33.sh < "$cubes"
grep -q 'ended by signal 9' "$out/err" || fail "words: $(cat "$out/err")"
: > "$out/err"
gave 2
tried "no such program" env MC33_PROGRAM="$out/none" bin/mc33.sh < "$cubes"
gave 2 "" "$out/none: No such file or directory" "$out/none could not be started"

first_hint="mc33: takes no argument, and read nothing"
second_hint="'case config c0 c1 c2 c3 c4 c5 c6 c7', then a cube a line; see README.md"
tried "an argument" bin/mc33.sh --help < "$cubes"
gave 2 "" "$first_hint" "$second_hint"
then_the_rest() { "$MC33_PROGRAM" cubes.txt; cat; }
tried "an argument, and nothing read" then_the_rest < "$cubes"
gave 0 "$cubes" "$first_hint" "$second_hint"
head -n 100 "$cubes" > "$out/hundred"
head -n 100 "$answers" > "$out/hundred_answers"
tried "a terminal" python3 tests/streams.py terminal "$out/hundred" bin/mc33.sh
gave 0 "$out/hundred_answers" "mc33: reads cubes from this terminal" "$second_hint"

tried "output that does not block" python3 tests/streams.py out "$cubes" bin/mc33.sh
gave 0 "$answers"
tried "input that does not block" python3 tests/streams.py in "$cubes" bin/mc33.sh
gave 0 "$answers"
tried "interrupted" env LD_PRELOAD="$PWD/$out/interrupts.so" "$MC33_PROGRAM" < "$cubes"
gave 0 "$answers"
tried "interrupted and refused" env LD_PRELOAD="$PWD/$out/interrupts.so" "$MC33_PROGRAM" < "$out/no_case"
gave 0 "$out/up_to_50001" "mc33: refused at line 50001"
echo "all as expected"
