#!/usr/bin/env bash
# Runs the driver of the trust: the comparison on 200 million faces, or on as many as the first word says; the second
# word is the seed.
#
#   oracle/trust.sh
#   oracle/trust.sh 20000000 2
#   oracle/trust.sh speed
exec "$(dirname "$0")/driver.sh" trust "$@"
