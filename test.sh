#!/usr/bin/env bash
# All tests: the proofs, edits, programs and tests of every crate (rt ci), what the compiler must refuse, and the comparisons with
# other programs. The last line is that of rt ci.
set -euo pipefail
cd "$(dirname "$0")"
mkdir -p target
rt ci 2>&1 | tee target/ci.log
# an edit that does not fit its file any more counts for nothing, and rt ci passes over it
if grep -qE '^rt: ok.*, [1-9][0-9]* bad' target/ci.log; then
    echo "must-fail edits are bad: see 'BAD EDIT' above"
    exit 1
fi
sh refused/check.sh
sh host/compare_markup.sh
tail -n 1 target/ci.log
