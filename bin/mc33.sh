#!/usr/bin/env bash
# mc33 with an exit status, since the program itself ends with 0 whatever happened:
#
#   mc33.sh < cubes.txt > answers.txt
#
#   0  all was answered
#   1  the input was refused: the output's last line has the refusal's number and the line's
#   2  a read or a write failed, the program died or could not be started, or it was given an argument
#
# The program has this script's standard input and output, and only its standard error goes through here. It is the
# file that MC33_PROGRAM names, or mc33 beside this script, or target/bin/mc33 of the checkout.
program=${MC33_PROGRAM-}
if [ -z "$program" ]; then
    here=$(dirname -- "$(readlink -f -- "${BASH_SOURCE[0]}")")
    program=$here/mc33
    [ -x "$program" ] || program=$here/../target/bin/mc33
fi

# failed WORDS..: says them, and ends with 2.
failed() {
    printf 'mc33.sh: %s\n' "$*" >&2
    exit 2
}

# heard: passes standard input on to standard error, line by line as it comes, and ends with the status that mc33's
# words mean. It goes on where nobody reads standard error.
heard() {
    trap '' PIPE
    local line status=0
    while IFS= read -r line || [ -n "$line" ]; do
        case $line in
            'mc33: refused at line '*) status=1 ;;
            'mc33: '*' failed' | 'mc33: takes no argument'*) status=2 ;;
        esac
        printf '%s\n' "$line" >&2 2> /dev/null
    done
    exit "$status"
}

{ : 3>&1; } 2> /dev/null || failed "standard output is closed"
{
    "$program" "$@" 2>&1 >&3 3>&- | heard 3>&-
    ended=("${PIPESTATUS[@]}")
} 3>&1
[ "${ended[0]}" -le 128 ] || failed "$program was ended by signal $((ended[0] - 128))"
[ "${ended[0]}" = 0 ] || failed "$program could not be started"
[ "${ended[1]}" -le 2 ] || failed "what $program said could not be read"
exit "${ended[1]}"
