#!/bin/sh
# build.sh FOLDER: makes the library for C in the folder: libpdic.a, and the shared library with its link libpdic.so. The engine's object is
# that of the libpdic.a in the folder PDIC_LIB, else in target/staticlib; strerror.c is added. The shared library exports the calls that
# include/pdic.h declares and nothing else.
set -eu
here=$(cd "$(dirname "$0")" && pwd)
header=$here/../include/pdic.h
engine=${PDIC_LIB:-$here/../target/staticlib}/libpdic.a
folder=$1
work=$(mktemp -d)
trap 'rm -rf "$work"' EXIT
set -- $("$here/version.sh")
shared=$2

gcc -std=c11 -O2 -fPIC -Wall -Wextra -Wpedantic -Werror -I"$here/../include" -c -o "$work/strerror.o" "$here/strerror.c"
cp "$engine" "$work/libpdic.a"
ar r "$work/libpdic.a" "$work/strerror.o"
{
    echo '{ global:'
    gcc -E -P "$header" | grep -o 'pdic_[a-z_]*(' | tr '(' ';'
    echo 'local: *; };'
} >"$work/exports"
# -z text refuses code that is not position independent
gcc -shared -o "$work/$shared" -Wl,-soname,"$shared" -Wl,--version-script="$work/exports" -Wl,-z,text,-z,defs,-z,relro,-z,now \
    -Wl,--whole-archive "$work/libpdic.a" -Wl,--no-whole-archive
ln -s "$shared" "$work/libpdic.so"
mkdir -p "$folder"
rm -f "$folder"/libpdic.so*
mv -f "$work"/libpdic.* "$folder"
