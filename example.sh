#!/bin/sh
# Proves and builds book_check, and runs it on the example book.
set -e
cd "$(dirname "$0")"
sh tools/build_program.sh book_check
cd examples/seal
../../crates/book_check/out/book_check
