#!/bin/sh
# run.sh: `make install` into a folder with a blank in its name, tested by test.sh; wrong installations, which it must notice; and `make
# uninstall`, which must leave what is not ours and nothing else.
set -eu
here=$(cd "$(dirname "$0")" && pwd)
work=$(mktemp -d)
trap 'rm -rf "$work"' EXIT
installed="$work/a folder"
from_make() { make -s -j2 -C "$here/../.." "$1" PREFIX=/usr DESTDIR="$installed"; }

from_make install
tested=$("$here/test.sh" "$installed") || { echo "install: $tested"; exit 1; }
noticed=$("$here/wrong.sh" "$installed") || { echo "install: $noticed"; exit 1; }
touch "$installed/usr/lib/other"
from_make uninstall
[ "$(find "$installed" ! -type d)" = "$installed/usr/lib/other" ] || { echo 'install: make uninstall leaves or takes something'; exit 1; }
echo "install: $tested; $noticed; nothing left by uninstall"
