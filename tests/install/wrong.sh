#!/bin/sh
# wrong.sh FOLDER: test.sh notices wrong installations. Each is a copy of the right one in the folder with one thing changed, and test.sh
# must say what is wrong with it.
set -eu
here=$(cd "$(dirname "$0")" && pwd)
right=$(cd "$1" && pwd)
work=$(mktemp -d)
trap 'rm -rf "$work"' EXIT
count=0

# noticed WHAT COMMAND..: the command, run in a copy, makes it wrong, and this is said of it
noticed() {
    what=$1
    shift
    rm -rf "$work/copy"
    cp -a "$right" "$work/copy"
    (cd "$work/copy/usr" && "$@")
    if "$here/test.sh" "$work/copy" >"$work/said" 2>&1 || ! grep -q "$what" "$work/said"; then
        cat "$work/said"
        echo "wrong installation not noticed: $what"
        exit 1
    fi
    count=$((count + 1))
}
# linked FLAG..: the shared library linked in another way
linked() {
    shared=$(readlink lib/libpdic.so)
    gcc -shared -o "lib/$shared" "$@" -Wl,--whole-archive lib/libpdic.a -Wl,--no-whole-archive
    chmod 644 "lib/$shared"
}
more_symbols() {
    echo 'int pdic_more(void); int pdic_more(void) { return 0; }' >../../more.c
    linked -fPIC ../../more.c -Wl,-soname,"$(readlink lib/libpdic.so)"
}
# more_needed: the archive with an object that calls memmove
more_needed() {
    echo 'void *memmove(void *, const void *, unsigned long); void pdic_more(char *p); void pdic_more(char *p) { memmove(p, p + 1, 9); }' >../../more.c
    gcc -O0 -fPIC -c -o ../../more.o ../../more.c
    ar r lib/libpdic.a ../../more.o
}

noticed '^wrong: files' rm share/man/man3/pdic.3
noticed '^wrong: files' touch lib/libpdic.la
noticed '^wrong: rights' chmod 700 bin/fill
noticed '^wrong: header' sed -i 's/PDIC_ABSENT = 100/PDIC_ABSENT = 99/' include/pdic.h
noticed '^wrong: exported symbols' more_symbols
noticed '^wrong: name of the shared library' linked
noticed '^wrong: names that the archive needs' more_needed
noticed '^wrong: version in pdic.pc' sed -i 's/^Version:.*/Version: 9.9/' lib/pkgconfig/pdic.pc
noticed '^wrong: lookup is not built' sed -i 's|^libdir=.*|libdir=${prefix}/lib64|' lib/pkgconfig/pdic.pc
noticed '^wrong: lookup is not built' sed -i 's|^includedir=.*|includedir=/usr/include|; s|^prefix=.*|prefix=/opt|' lib/pkgconfig/pdic.pc
noticed '^wrong: static.* is not built' ar d lib/libpdic.a strerror.o
noticed '^wrong: pdic-list' cp bin/fill bin/pdic-list
noticed '^fill.1: options' sed -i 's/unmarked/marked/' share/man/man1/fill.1
noticed '^glossary.1: commands' sed -i 's/^\.BI dump/.BI export/' share/man/man1/glossary.1
noticed '^pdic.3: calls' sed -i 's/uint8_t " above ,/int " above ,/' share/man/man3/pdic.3
noticed '^pdic.3: constants' sed -i 's/^PDIC_FULL\t15/PDIC_FULL\t16/' share/man/man3/pdic.3
noticed '^pdic.3: the example' sed -i 's/sizeof headword, text/headword, text/' share/man/man3/pdic.3
echo "$count wrong installations noticed"
