#!/bin/sh
# damaged.sh NUMBER FOLDER [WRAPPER..]: runs the programs on so many damaged dictionaries, every second one of version 5. A
# dictionary that check refuses is refused by every program with the same number, nothing is written and the file stays; one that
# is accepted is accepted after every change, with the version and the identifier that it had. Works in the present folder, which
# must be empty.
set -eu
here=$(cd "$(dirname "$0")" && pwd)
samples=$here/../../examples
number=$1
programs=$2
shift 2
wrapper=$*
refused=0
accepted=0
fives=0

fail() {
    echo "damaged dictionary $dic: $*"
    exit 1
}
# runs a program: status and said.txt
run() {
    program=$1
    shift
    status=0
    $wrapper "$programs/$program" "$@" >said.txt 2>&1 || status=$?
    [ "$status" -le 2 ] || fail "$program $*: status $status"
}
must_refuse() {
    run "$@"
    [ "$status" -eq 2 ] && cmp -s said.txt check.txt || fail "$* says $(cat said.txt)"
}
must_do() {
    run "$@"
    [ "$status" -eq 0 ] || fail "$* says $(cat said.txt)"
}

# kind_of FILE: what check says of version and identifier
kind_of() { "$programs/glossary" check "$1" | sed -n 's/.*: version/version/p'; }

# whole FILE [OPTION..]: a dictionary with free blocks
whole() {
    "$programs/glossary" make "$@" "$samples/machinery.tsv" >/dev/null
    "$programs/glossary" delete "$1" clutch >/dev/null
    "$programs/glossary" add "$1" zinc "$(printf '%900s' '' | tr ' ' t)" >/dev/null
    "$programs/glossary" delete "$1" zinc >/dev/null
}

whole four.dic
whole five.dic --format=5 --identifier=0123456789ABCDEF
mkdir all
python3 "$here/damage.py" 1 "$number" all four.dic five.dic
for dic in all/*.dic; do
    cp "$dic" now.dic
    run glossary check now.dic
    cp said.txt check.txt
    if [ "$status" -eq 2 ]; then
        refused=$((refused + 1))
        must_refuse fill now.dic "$samples/manual.txt" out.txt
        must_refuse glossary add now.dic zinc text
        must_refuse glossary delete now.dic coolant
        must_refuse glossary list now.dic
        must_refuse glossary optimise now.dic
        cmp -s now.dic "$dic" || fail "a refusal changed the file"
        [ ! -e out.txt ] || fail "a refusal wrote the manual"
    else
        accepted=$((accepted + 1))
        kind=$(kind_of now.dic)
        case $kind in *identifier*) fives=$((fives + 1)) ;; esac
        run fill now.dic "$samples/manual.txt"
        run glossary add now.dic zinc text
        if [ "$status" -eq 0 ]; then
            must_do glossary find now.dic zinc
            must_do glossary delete now.dic zinc
            must_do glossary optimise now.dic
        fi
        must_do glossary list now.dic
        must_do glossary check now.dic
        [ "$(kind_of now.dic)" = "$kind" ] || fail "$kind became $(kind_of now.dic)"
    fi
done
said="$refused refused, $accepted accepted, of which $fives of version 5"
[ "$refused" -ge $((number / 4)) ] && [ "$accepted" -gt "$fives" ] && [ "$fives" -ge 1 ] || { echo "damaged: $said"; exit 1; }
echo "$number damaged dictionaries ($said)"
