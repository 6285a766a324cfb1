#!/bin/sh
# Misuse that the compiler must stop before the prover sees it: `rt must-fail` does not count such an edit, so this does.
# A case is five lines: the crate, the file, the error's name, the text to replace (standing once) and the text in its place.
set -u
here=$(cd "$(dirname "$0")/.." && pwd)
work=$(mktemp -d)
trap 'rm -rf "$work"' EXIT
(cd "$here" && tar cf - --exclude=out crates.txt crates) | (cd "$work" && tar xf -)
bad=0
for case in "$here"/refused/*.case; do
    name=${case##*/}
    crate=$(sed -n 's/^crate: //p' "$case")
    file=$(sed -n 's/^file: //p' "$case")
    error=$(sed -n 's/^error: //p' "$case")
    if OLD=$(sed -n 's/^old: //p' "$case") NEW=$(sed -n 's/^new: //p' "$case") awk '
        { i = index($0, ENVIRON["OLD"]); if (i) { $0 = substr($0, 1, i - 1) ENVIRON["NEW"] substr($0, i + length(ENVIRON["OLD"])); n++ } print }
        END { exit n != 1 }' "$here/crates/$crate/$file" >"$work/crates/$crate/$file"
    then
        (cd "$work/crates/$crate" && rt check) >"$work/log" 2>&1
        if grep -q "$file:.*error\[$error\]" "$work/log"; then echo "$name: refused, $error"; else echo "$name: NOT REFUSED as $error"; tail -5 "$work/log"; bad=1; fi
    else
        echo "$name: BAD CASE, its text does not stand once in $crate/$file"
        bad=1
    fi
    cp "$here/crates/$crate/$file" "$work/crates/$crate/$file"
done
exit $bad
