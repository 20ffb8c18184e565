#!/bin/sh
# demo.sh [FOLDER]: the main job, with the programs of the folder (else target/programs): a glossary made from a list, a
# manual filled, a draft that names an absent term, and what the engine says of a file that breaks a rule.
set -eu
here=$(cd "$(dirname "$0")" && pwd)
programs=$(cd "${1:-$here/../target/programs}" && pwd)
work=$(mktemp -d)
trap 'rm -rf "$work"' EXIT
cp "$here/machinery.tsv" "$here/manual.txt" "$here/draft.txt" "$work"
cd "$work"

# one step: shows the command, what it prints and, if it is not 0, its exit status
step() {
    printf '\n$'
    for word in "$@"; do
        case $word in *' '*) printf " '%s'" "$word" ;; *) printf ' %s' "$word" ;; esac
    done
    echo
    program=$1
    shift
    status=0
    "$programs/$program" "$@" 2>&1 || status=$?
    [ "$status" -eq 0 ] || echo "[exit status $status]"
}

echo "A dictionary from a list of machinery terms, and a look into it:"
step glossary make machinery.dic machinery.tsv
step glossary find machinery.dic 'bleed screw'

printf '\nA manual with its terms marked, as it is written:\n\n'
sed -n 7,11p manual.txt
printf '\n.. and filled:\n'
step fill machinery.dic manual.txt manual.filled.txt
sed -n 7,11p manual.filled.txt

printf '\nA draft that asks for terms the dictionary does not have. Nothing is written but this list:\n'
step fill machinery.dic draft.txt draft.filled.txt
[ ! -e draft.filled.txt ] || exit 1

printf '\nThe author files them as the glossary does, and adds the missing one:\n'
step glossary add machinery.dic radiator radiateur
sed -i 's/<<bleed valve>>/<<valve, bleed>>/' draft.txt
step fill machinery.dic draft.txt

printf '\nA byte of the dictionary file is changed, and a rule of the format broken. The engine does not guess:\n'
printf '\377' | dd of=machinery.dic bs=1 seek=514 conv=notrunc 2>/dev/null
step fill machinery.dic manual.txt
