#!/bin/sh
# Measures the markup reader beside expat and libxml2's SAX reader on one catalogue of 64 MiB.
# A library whose headers are not there is left out with a message.
set -eu
cd "$(dirname "$0")/.."
sh tools/build_host.sh
flags="" libs=""
if echo '#include <expat.h>' | gcc -E - >/dev/null 2>&1; then flags="$flags -DHAVE_EXPAT"; libs="$libs -lexpat"; fi
if echo '#include <libxml/parser.h>' | gcc -I/usr/include/libxml2 -E - >/dev/null 2>&1; then flags="$flags -DHAVE_LIBXML2 -I/usr/include/libxml2"; libs="$libs -lxml2"; fi
# shellcheck disable=SC2086
gcc -O2 -Wall -Wextra $flags -o target/bench_markup host/bench_markup.c target/libmarkup_host.a $libs
target/bench_markup
