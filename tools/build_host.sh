#!/bin/sh
# Proves the reader for host programs in C and builds it as target/libmarkup_host.a.
set -eu
cd "$(dirname "$0")/.."
mkdir -p target
(cd crates/markup_host_c && rt lib) >target/build_host.log 2>&1 || { cat target/build_host.log; exit 1; }
cp crates/markup_host_c/out/libmarkup_host_c.a target/libmarkup_host.a
