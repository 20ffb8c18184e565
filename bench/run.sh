#!/bin/sh
# run.sh [SECONDS [-m MODE]...]: the engine against the C baseline, call by call in turn: first without the baseline's SSE2
# scans (libc's memchr instead), then with them. Three tables each, SECONDS (30) for a table: the glossary with images in
# rotation, with one image, and long entries in rotation; or those that -m names, such as pairs, the glossary with headwords in
# Shift JIS. Then come the tables of docs/BENCH.md. At the end, but for -m, the engine on the glossary in version 5 beside itself
# on that in version 4, in rotation. PDIC_LIB names another folder with a libpdic.a to measure. PDIC_BEFORE names a folder with
# that of another landing, and is measured in the baseline's place.
set -eu
here=$(cd "$(dirname "$0")" && pwd)
seconds=${1:-30}
[ $# -eq 0 ] || shift
work=$(mktemp -d)
trap 'rm -rf "$work"' EXIT
lib=${PDIC_LIB:-$here/../target/staticlib}
[ -n "${PDIC_LIB:-}" ] || "$here/../tools/engine.sh"

# shared FOLDER NAME: the folder's library as a shared one
shared() { gcc -shared -o "$work/$2.so" -Wl,--whole-archive "$1/libpdic.a" -Wl,--no-whole-archive; }

shared "$lib" engine
if [ -n "${PDIC_BEFORE:-}" ]; then
    others=./before.so
    shared "$PDIC_BEFORE" before
else
    others="./plain.so ./SSE2.so"
    baseline="gcc -O3 -march=x86-64-v2 -fPIC -shared -Wall -Wextra -Werror"
    $baseline -DPDIC_PLAIN -o "$work/plain.so" "$here/baseline.c"
    $baseline -o "$work/SSE2.so" "$here/baseline.c"
fi
gcc -O2 -std=gnu11 -Wall -Wextra -Werror -o "$work/bench" "$here/bench.c" -ldl -lm
echo "load average: $(cut -d' ' -f1-3 /proc/loadavg), processors: $(getconf _NPROCESSORS_ONLN)"
cd "$work"
./bench -s "$seconds" "$@" ./engine.so $others
[ $# -gt 0 ] || ./bench -s "$seconds" -m rotation ./engine.so:5 ./engine.so
