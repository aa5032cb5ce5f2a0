#!/usr/bin/env bash
# Proves the static library, builds it, and puts it where C, Rust and Python look: target/staticlib/libmc33_c.a.
set -euo pipefail
cd "$(dirname "$0")/../crates/mc33_c_c"
rt lib
mkdir -p ../../target/staticlib
install -p -m 644 out/libmc33_c_c.a ../../target/staticlib/libmc33_c.a
