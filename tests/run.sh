#!/usr/bin/env bash
# Tries all that stands round the proved code: `tests/run.sh [SOURCE]`, with SOURCE a checkout of the source, whose
# tilings the grid is drawn with (without it ../shared/docs/src beside the repository). Ends in 'N passed, M failed';
# what could not be tried here, for want of a program, is told and counted.
set -uo pipefail
cd "$(dirname "$0")/.." || exit 2
source=${1:-../shared/docs/src}
out=target/tests
mkdir -p "$out"
passed=0
failed=0
skipped=0

# tried NAME COMMAND..: the command's last lines where it fails.
tried() {
    local begun=$SECONDS status=0
    "${@:2}" > "$out/$1.log" 2>&1 < /dev/null || status=$?
    if [ "$status" = 0 ]; then
        passed=$((passed + 1))
        echo "$1: passed ($((SECONDS - begun)) s)"
    else
        failed=$((failed + 1))
        echo "$1: FAILED, status $status; the end of $out/$1.log:"
        tail -n 20 "$out/$1.log"
    fi
}

# wanting NAME WHAT
wanting() {
    skipped=$((skipped + 1))
    echo "$1: not tried, $2 is not at hand"
}

header() {
    local strict=(-O2 -Wall -Wextra -pedantic -Werror -Iinclude)
    gcc -std=c99 "${strict[@]}" tests/header.c target/staticlib/libmc33_c.a -o "$out/header_c" && "$out/header_c" &&
    g++ -std=c++98 "${strict[@]}" -x c++ tests/header.c -x none target/staticlib/libmc33_c.a -o "$out/header_cc" && "$out/header_cc"
}

python_tests() {
    (cd python && "$1" -m unittest)
}

numpy_python() {
    for python in python3 /usr/bin/python3; do
        "$python" -c 'import numpy' 2> /dev/null && { echo "$python"; return; }
    done
}

tried examples examples/run.sh
tried install tests/install.sh
tried header header
tried versions tests/versions.sh
tried names python3 tests/names.py
tried rust tests/rust.sh
tried python python_tests python3
numpy=$(numpy_python)
if [ -n "$numpy" ]; then tried numpy python_tests "$numpy"; else wanting numpy "Debian's python3-numpy"; fi
tried program bin/program.sh
tried shell tests/shell.sh
tried split examples/split.sh
if [[ $(parallel --version 2>&1 < /dev/null) = "GNU parallel"* ]]; then tried parallel examples/parallel.sh; else wanting parallel "GNU parallel"; fi
if [ -d "$source" ]; then tried grid python3 examples/grid/check.py "$source"; else wanting grid "a checkout of the source"; fi

echo "$passed passed, $failed failed, $skipped skipped"
[ "$failed" -eq 0 ]
