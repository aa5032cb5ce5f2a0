#!/usr/bin/env bash
# Puts the library under a prefix in target/, builds the example in C from there (with the archive, as C++ too, and with
# the shared object by pkg-config), runs it and those in Rust and Python, and holds what each prints to routines.txt and
# list.txt beside this file.
set -euo pipefail
cd "$(dirname "$0")/.."
out=target/examples
prefix=$PWD/$out/prefix
mkdir -p "$out"
./install.sh "$prefix"

strict=(-O2 -Wall -Wextra -pedantic -Werror "-I$prefix/include")
gcc -std=c99 "${strict[@]}" examples/choose.c "$prefix/lib/libmc33_c.a" -o "$out/choose_c"
g++ -std=c++98 "${strict[@]}" -x c++ examples/choose.c -x none "$prefix/lib/libmc33_c.a" -o "$out/choose_cc"
read -ra flags <<< "$(PKG_CONFIG_PATH=$prefix/lib/pkgconfig pkg-config --cflags --libs mc33)"
gcc -std=c99 "${strict[@]}" examples/choose.c "${flags[@]}" -o "$out/choose_so"

# held NAME COMMAND..: the command prints the two files.
held() {
    "${@:2}" > "$out/$1.out"
    cat examples/routines.txt examples/list.txt | diff - "$out/$1.out"
    echo "$1: as expected"
}

export CARGO_TARGET_DIR="$PWD/target/rust"
held c "$out/choose_c"
held c++ "$out/choose_cc"
held shared env LD_LIBRARY_PATH="$prefix/lib" "$out/choose_so"
held rust cargo run --quiet --offline --manifest-path rust/Cargo.toml --example choose
held python python3 python/choose.py
