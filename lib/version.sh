#!/bin/sh
# version.sh: prints the version that include/pdic.h has, then the name of the shared library. While the major number is 0 each minor
# number is an interface of its own.
set -eu
header=$(dirname "$0")/../include/pdic.h
number() { sed -n "s/^#define PDIC_VERSION_$1 //p" "$header"; }
major=$(number MAJOR) minor=$(number MINOR)
interface=$major
[ "$major" -ne 0 ] || interface=$major.$minor
echo "$major.$minor.$(number PATCH) libpdic.so.$interface"
