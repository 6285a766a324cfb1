#!/bin/sh
# Proves and builds the program NAME as crates/NAME/out/NAME; says what was wrong where it can't.
# usage: tools/build_program.sh NAME
set -eu
cd "$(dirname "$0")/../crates/$1"
log=$(mktemp)
trap 'rm -f "$log"' EXIT
rt check >"$log" 2>&1 || { cat "$log"; exit 1; }
rm -f "out/$1" "out/$1.stamp"
# `rt run` builds the program and runs it, here on nothing: it is built where it stands afterwards.
rt run </dev/null >"$log" 2>&1 || true
[ -x "out/$1" ] || { cat "$log"; exit 1; }
