#!/bin/sh
# Compares the markup reader and the program catalogue_check with expat and with a second judge on seeded texts.
# Fails where they disagree.
set -eu
cd "$(dirname "$0")/.."
sh tools/build_host.sh
sh tools/build_program.sh catalogue_check
gcc -O2 -Wall -Wextra -o target/markup_driver host/markup_driver.c target/libmarkup_host.a
python3 -B host/compare_markup.py target/markup_driver crates/catalogue_check/out/catalogue_check
