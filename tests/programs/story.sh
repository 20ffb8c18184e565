#!/bin/sh
# story.sh STORY FOLDER [WRAPPER..]: tells a story of stories/: runs the programs of the folder, each behind the wrapper if
# there is one, and prints each command, what it says and its exit status. Works in the present folder, which must be empty.
set -eu
here=$(cd "$(dirname "$0")" && pwd)
story=$1
programs=$2
shift 2
wrapper=$*
cp "$here"/../../examples/machinery.tsv "$here"/../../examples/manual.txt "$here"/../../examples/draft.txt .
"$programs/glossary" make machinery.dic machinery.tsv >/dev/null

# a comment, then a run: program and arguments, standard output and error, exit status
note() { printf '\n# %s\n' "$*"; }
run() {
    echo "\$ $*" | cut -c 1-100
    program=$1
    shift
    status=0
    $wrapper "$programs/$program" "$@" 2>&1 || status=$?
    [ "$status" -eq 0 ] || echo "[$status]"
}
# the same with standard output on a full disk
full() {
    echo "\$ $* >/dev/full"
    program=$1
    shift
    status=0
    $wrapper "$programs/$program" "$@" >/dev/full 2>said.txt || status=$?
    cat said.txt
    echo "[$status]"
}
letters() { printf "%$1s" '' | tr ' ' "$2"; }
# damaged FROM NAME OFFSET BYTES: a copy of the dictionary FROM.dic, or itself, with bytes, in octal, at an offset
damaged() {
    [ "$1" = "$2" ] || cp "$1.dic" "$2.dic"
    printf "$4" | dd of="$2.dic" bs=1 seek="$3" conv=notrunc 2>/dev/null
}
. "$here/stories/$story.sh"
