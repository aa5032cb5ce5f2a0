#!/usr/bin/env bash
# Proves the text program, builds it, runs it on its sample, and puts it to target/bin/mc33.
set -euo pipefail
cd "$(dirname "$0")/../crates/mc33"
rt run < stdin | cmp - stdout
mkdir -p ../../target/bin
install -p -m 755 out/mc33 ../../target/bin/mc33
