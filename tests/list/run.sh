#!/usr/bin/env bash
# run.sh [PROGRAM]: runs the program (target/bin/list) on each input that make.py writes, and compares what it prints with
# expected/NAME.txt (for NAME-5, the same in version 5, too), or with make.py's own list where that is too long to be stored. Each input
# is a file, then a pipe.
set -u
here=$(cd "$(dirname "$0")" && pwd)
program=${1:-$here/../../target/bin/list}
work=$(mktemp -d)
trap 'rm -rf "$work"' EXIT
python3 "$here/make.py" "$work" || exit 1
runs=0
failed=0
for list in "$work"/*.list; do
  name=$(basename "$list" .list)
  expected=$here/expected/${name%-5}.txt
  [ -e "$expected" ] || expected=$list
  "$program" <"$work/$name" >"$work/out" || failed=1
  cat "$work/$name" | "$program" >"$work/piped" || failed=1
  for out in out piped; do
    runs=$((runs + 1))
    if ! cmp "$work/$out" "$expected"; then
      echo "list: $name ($out) is not as stored"
      failed=1
    fi
  done
done
[ "$failed" -eq 0 ] || exit 1
echo "list: $runs runs as stored"
