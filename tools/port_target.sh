#!/usr/bin/env bash
# port.py passes by a folder named `target`, so the crate of that name is turned under another name, in a copy, and brought back.
# usage: tools/port_target.sh    at the top of a checkout in the older form, before or after port.py ran there; writes crates/target alone
set -euo pipefail
commit=${1:-HEAD}
top=$(pwd)
copy=$(mktemp -d)/copy
git clone -q "$top" "$copy"
cd "$copy"
git checkout -q "$commit"
git mv crates/target crates/targetx
name() { find crates crates.txt -name '*.rt' -o -name '*.antt' -o -name crates.txt | xargs perl -CSD -Mutf8 -pi -e "$1"; }
name 's/Rattle·target(?=[·.])/Rattle·targetx/g; s/\btarget::/targetx::/g; s/^target:/targetx:/; s/(?<=[ :])target(?= |$)/targetx/g if $ARGV eq "crates.txt"'
git commit -qam 'the crate target under another name'
python3 "$(dirname "$(rt doc)")/port/port.py"
name 's/Rattle\.targetx(?=\.)/Rattle.target/g; s/Rattle·targetx(?=[·.])/Rattle·target/g; s/\btargetx::/target::/g'
rm -rf "$top/crates/target"
cp -r crates/targetx "$top/crates/target"
rm -rf "$top/crates/target/out"
