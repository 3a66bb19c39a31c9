#!/bin/sh
# Compiles the listing program in seconds, WITHOUT ANY PROOF, and runs it on standard input. For a first look: what is proved is `rt run` in crates/numerals.
# Nothing is kept. `rt try` runs it twice, interpreted and compiled with checks, and compares; what it says of itself comes on standard error.
set -eu
cd "$(dirname "$0")/../crates/numerals"
exec rt try
