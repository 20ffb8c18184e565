#!/bin/sh
# tell.sh FOLDER [STORY..]: stores what the stories, or all of them, print with the programs of the folder. Read the difference
# before it is committed.
set -eu
here=$(cd "$(dirname "$0")" && pwd)
programs=$(cd "$1" && pwd)
shift
[ "$#" -gt 0 ] || set -- $(basename -s .sh "$here"/stories/*.sh)
for story in "$@"; do
    work=$(mktemp -d)
    (cd "$work" && "$here/story.sh" "$story" "$programs") >"$here/stories/$story.txt"
    rm -rf "$work"
done
