#!/usr/bin/env bash
# Runs the driver of the root: the comparison at all patterns and the speed by processor time, with the word `speed` the
# speed alone; with the word `sample` it prints the sample that crates/root_sample reads from its `stdin`.
exec "$(dirname "$0")/driver.sh" root "$@"
