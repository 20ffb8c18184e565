#!/bin/sh
# Fuzzes the compiled engine (libpdic.a in the folder PDIC_LIB, else target/staticlib), after a test that the harness
# notices wrong engines. Arguments: seed, number of executions. An input at fault is left in target/fuzz/found.bin.
set -eu
cd "$(dirname "$0")"
lib=${PDIC_LIB:-$PWD/../../target/staticlib}/libpdic.a
work=$PWD/../../target/fuzz
mkdir -p "$work"
wrong/try.sh
gcc -std=c11 -O1 -g -Wall -Wextra -Werror -fsanitize=undefined,address -fno-sanitize-recover=undefined -I../../include \
    -o "$work/drive" drive.c harness.c facts.c decode.c reader.c lent.c guard.c mutate.c seeds.c "$lib"
cd "$work"
rm -f found.bin
ASAN_OPTIONS=detect_leaks=0 ./drive "${1:-1}" "${2:-400000}"
