#!/bin/sh
# Stands for the kit's clang (guided.sh puts the paths here): compiles the proved module with edge coverage, traced comparisons
# and the address sanitizer. A module given as IR has to be told which functions the sanitizer is for, by an attribute. Beside
# it goes the same module without optimisation and without the sanitizer, for coverage by function.
set -eu
real=@CLANG@
module= previous=
for word; do
    [ "$previous" != ir ] || module=$word
    previous=$word
done
[ -n "$module" ] || exec "$real" "$@"
target=--target=x86_64-unknown-linux-gnu
"$real" $target -fPIC -O0 -c -x ir "$module" -o "@PLAIN@" -fsanitize-coverage=inline-bool-flag,pc-table
"$real" $target -S -emit-llvm -Xclang -disable-llvm-passes -x ir "$module" -o "$module.ll"
sed -i '/^attributes .*"target-cpu"/s/{ /{ sanitize_address /' "$module.ll"
left=$#
while [ "$left" -gt 0 ]; do
    word=$1
    shift
    [ "$word" != "$module" ] || word=$module.ll
    set -- "$@" "$word"
    left=$((left - 1))
done
exec "$real" "$@" -fsanitize=address -fsanitize-coverage=inline-8bit-counters,pc-table,trace-cmp
