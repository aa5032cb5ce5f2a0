#!/usr/bin/env bash
# Tries the Rust crate: its tests and what its example prints; clippy, where it is there; a program without std; its
# documentation without the archive, and what a person reads who links without it. Wants target/staticlib/libmc33_c.a,
# which ./install.sh makes.
set -euo pipefail
cd "$(dirname "$0")/.."
unset MC33_LIB_DIR
export CARGO_TARGET_DIR="$PWD/target/rust" RUSTFLAGS="-D warnings" RUSTDOCFLAGS="-D warnings"
out=target/tests/rust
mkdir -p "$out/empty"

crate() { cargo "$1" --quiet --offline --manifest-path rust/Cargo.toml "${@:2}"; }
without() { MC33_LIB_DIR="$PWD/$out/empty" crate "$@"; }

crate test
crate run --example choose > "$out/choose.out"
cat examples/routines.txt examples/list.txt | diff - "$out/choose.out"
echo "example: as expected"

if cargo clippy --version > /dev/null 2>&1; then
    crate clippy --all-targets -- -D warnings
    echo "clippy: as expected"
fi

CARGO_PROFILE_RELEASE_PANIC=abort crate build --release
rustc --edition 2021 -O -C panic=abort -D warnings tests/no_std.rs -o "$out/no_std" \
    --extern mc33="$CARGO_TARGET_DIR/release/libmc33.rlib"
"$out/no_std"
echo "without std: as expected"

rm -rf "$CARGO_TARGET_DIR/doc"
without doc
test -f "$CARGO_TARGET_DIR/doc/mc33/fn.choose.html"
without check
echo "documentation and check without the archive: as expected"

for step in build test; do
    if without "$step" > "$out/$step.out" 2>&1; then
        echo "$step without the archive did not fail"
        exit 1
    fi
    grep -q 'run ./install.sh, or set MC33_LIB_DIR' "$out/$step.out" || { cat "$out/$step.out"; exit 1; }
done
echo "linking without the archive: as expected"
