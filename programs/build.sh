#!/bin/sh
# build.sh FOLDER [FLAG..]: builds fill and glossary into the folder, against the libpdic.a of the folder PDIC_LIB, else
# target/staticlib.
set -eu
here=$(cd "$(dirname "$0")" && pwd)
lib=${PDIC_LIB:-$here/../target/staticlib}/libpdic.a
folder=$1
shift
mkdir -p "$folder"
for program in fill glossary; do
    gcc -std=c11 -O2 -Wall -Wextra -Wpedantic -Werror "$@" -I"$here/../include" -o "$folder/$program" \
        "$here/$program.c" "$here/alike.c" "$here/book.c" "$here/bytes.c" "$here/file.c" "$here/lists.c" "$here/marks.c" \
        "$here/near.c" "$here/progress.c" "$here/seal.c" "$here/sha256.c" "$here/terms.c" "$here/../lib/strerror.c" "$lib"
done
