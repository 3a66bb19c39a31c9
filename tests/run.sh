#!/bin/sh
# Every test that is no proof: the library from Rust and from C against the reference and the guide's tables, and the layouts and constants of the header.
# Needs the kit, a C compiler and cargo, and no network. Ends with `tests: all passed`, or fails at the first that doesn't.
set -eu
cd "$(dirname "$0")/.."
export CARGO_TARGET_DIR="$PWD/target/cargo"
out=target/tests
library=crates/flowpewter/out/libflowpewter.a
(cd crates/flowpewter && rt lib --cpu=x86-64)
mkdir -p "$out"

cargo test --offline --release --manifest-path rust/Cargo.toml

# compile NAME SOURCE: a C program against the header and the library
compile() {
    "${CC:-cc}" -std=c11 -O2 -Wall -Wextra -Werror -pedantic -I include -o "$out/$1" "$2" "$library"
}

# same WHAT A B: fails loudly where two files differ
same() {
    if ! cmp -s "$2" "$3"; then
        echo "tests: $1 differ:" >&2
        diff "$2" "$3" >&2 || true
        exit 1
    fi
    echo "tests: $1 agree"
}

compile layout tests/layout.c
"$out/layout" >"$out/layout.c.out"
cargo run --offline --release --quiet --manifest-path rust/Cargo.toml --bin layout >"$out/layout.rust.out"
same "layouts and constants in C and Rust" "$out/layout.c.out" "$out/layout.rust.out"

# example NAME: an example in C and in Rust, and what both print
example() {
    compile "$1" "examples/c/$1.c"
    "$out/$1" >"$out/$1.c.out"
    cargo run --offline --release --quiet --manifest-path rust/Cargo.toml --example "$1" >"$out/$1.rust.out"
    same "the $1 in C and its listing" "$out/$1.c.out" "examples/$1.out"
    same "the $1 in Rust and its listing" "$out/$1.rust.out" "examples/$1.out"
}

example valve
example correction
example renewal
example sheet

compile stack tests/stack.c
"$out/stack"

compile empty_slices tests/empty_slices.c
"$out/empty_slices"

# The library is read-only memory of the drawing tablet: its constants stay below the 288 bytes of the table that request 2.4 took out.
size -A "$library" | awk '
    $1 ~ /^[.]text/ { code += $2 }
    $1 ~ /^[.]rodata/ { constants += $2 }
    END {
        print "size: " code " bytes of code, " constants " bytes of read-only data"
        exit !(code > 0 && constants < 288)
    }'

sh tests/unproved.sh <examples/pump.txt >"$out/pump.unproved.out"
same "the listing program without a proof and its listing" "$out/pump.unproved.out" examples/pump.out

echo "tests: all passed"
