#!/bin/sh
# test.sh FOLDER: tests what `make install` put into the folder with PREFIX=/usr. Says what it tested, or what is wrong.
set -eu
here=$(cd "$(dirname "$0")" && pwd)
root=$here/../..
installed=$(cd "$1" && pwd)
lib=$installed/usr/lib header=$installed/usr/include/pdic.h
work=$(mktemp -d)
trap 'rm -rf "$work"' EXIT
set -- $("$root/lib/version.sh")
version=$1 shared=$2
strict='-Wall -Wextra -Wpedantic -Werror'
wrong() {
    echo "wrong: $*"
    exit 1
}

# all files, and nothing else
sort >"$work/listed" <<END
bin/fill
bin/glossary
bin/pdic-list
include/pdic.h
lib/libpdic.a
lib/libpdic.so
lib/$shared
lib/pkgconfig/pdic.pc
share/man/man1/fill.1
share/man/man1/glossary.1
share/man/man1/pdic-list.1
share/man/man3/pdic.3
share/man/man5/pdic.5
END
(cd "$installed" && find . ! -type d) | sed 's|^./usr/||' | sort >"$work/there"
diff "$work/listed" "$work/there" || wrong 'files'
[ -z "$(find "$installed/usr/bin" -type f ! -perm 755)$(find "$installed" -type f ! -path '*/bin/*' ! -perm 644)" ] || wrong 'rights'
cmp "$root/include/pdic.h" "$header" || wrong 'header'

# the header in each language
languages='c:c99 c:c11 c++:c++11'
for language in $languages; do
    echo '#include <pdic.h>' | gcc -x "${language%:*}" "-std=${language#*:}" $strict -I"$installed/usr/include" -fsyntax-only - ||
        wrong "header in $language"
done

# the shared library: exactly the calls that the compiler sees in the header, by its name, position independent
gcc -x c -fsyntax-only -aux-info "$work/seen" "$header"
sed -n 's/.*[ *]\(pdic_[a-z_]*\) (.*/\1/p' "$work/seen" | sort >"$work/declared"
nm -D --defined-only "$lib/libpdic.so" | cut -d ' ' -f 3 | sort >"$work/exported"
diff "$work/declared" "$work/exported" || wrong 'exported symbols'
readelf -d "$lib/libpdic.so" >"$work/dynamic"
grep -q "SONAME.*\[$shared\]" "$work/dynamic" || wrong 'name of the shared library'
! grep -q TEXTREL "$work/dynamic" || wrong 'code that is not position independent'

# what README says that the archive needs from outside
nm -u "$lib/libpdic.a" | sed -n 's/^ *U //p' | sort -u >"$work/needed"
printf 'memcpy\nmemset\n' | diff - "$work/needed" || wrong 'names that the archive needs from outside'

# programs built by pkg-config: for another root, where it knows no blank in a name, and from where the files are
ln -s "$installed" "$work/root"
rooted() { PKG_CONFIG_LIBDIR=$work/root/usr/lib/pkgconfig PKG_CONFIG_SYSROOT_DIR=$work/root pkg-config "$@" pdic; }
moved() { PKG_CONFIG_LIBDIR=$lib/pkgconfig pkg-config --define-prefix --cflags --libs pdic; }
[ "$(rooted --modversion)" = "$version" ] || wrong 'version in pdic.pc'
count=0
# built NAME WORDS COMPILER..: builds a program with pkg-config's words for it
built() {
    name=$1 words=$2
    shift 2
    eval '"$@" -o "$work/$name"' "$words" || wrong "$name is not built by pkg-config"
    count=$((count + 1))
}
built lookup "$(rooted --cflags --libs)" gcc $strict "$root/examples/lookup.c"
for language in $languages; do
    set -- gcc -x "${language%:*}" "-std=${language#*:}" $strict "$here/calls.c" -x none
    built "shared-$language" "$(rooted --cflags --libs)" "$@"
    built "moved-$language" "$(moved)" "$@"
    built "static-$language" "$(rooted --static --cflags --libs)" "$@" -static
    for name in "shared-$language" "moved-$language"; do
        readelf -d "$work/$name" | grep -q "NEEDED.*\[$shared\]" || wrong "$name does not use $shared"
        LD_LIBRARY_PATH=$lib "$work/$name" | cmp - "$here/calls.txt" || wrong "$name"
    done
    "$work/static-$language" | cmp - "$here/calls.txt" || wrong "static-$language"
done

# the programs, and the example on a dictionary of theirs
PATH=$installed/usr/bin:$PATH
cd "$work"
printf 'ABC\tone\nABDEF\ttwo\n' >small.tsv
glossary make small.dic small.tsv >made.txt || wrong 'glossary'
printf '<<ABDEF>>\n' >manual.txt
[ "$(fill -q small.dic manual.txt)" = two ] || wrong 'fill'
pdic-list <small.dic | cmp - "$root/tests/list/expected/p3.txt" || wrong 'pdic-list'
# lookup STATUS OUTPUT FILE HEADWORD
lookup() {
    status=0
    said=$(LD_LIBRARY_PATH=$lib ./lookup "$3" "$4" 2>said.txt) || status=$?
    [ "$status $said" = "$1 $2" ] || wrong "lookup $4"
}
lookup 0 one small.dic ABC
lookup 1 '' small.dic AB
lookup 2 '' small.tsv ABC

# the Python module, by the library's name and by a path
cd "$root/bindings/python"
LD_LIBRARY_PATH=$lib python3 -B -m unittest test_pdic 2>"$work/python.txt" || { cat "$work/python.txt"; wrong 'Python module'; }
PDIC_LIBRARY=$lib/libpdic.so python3 -B -c 'import pdic' || wrong 'PDIC_LIBRARY'

pages=$("$here/man.py" "$installed/usr/share/man" "$installed/usr/bin" "$header") || wrong 'man pages'
python=$(sed -n 's/^Ran \([0-9]* tests\).*/\1/p' "$work/python.txt")
echo "$(wc -l <"$work/listed") files, $(wc -l <"$work/exported") symbols, $count programs by pkg-config, $python in Python, $pages"
