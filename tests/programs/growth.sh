#!/bin/sh
# growth.sh FOLDER: the time that fill takes is linear in the manual. Manuals of 4 and 8 MB, with many marks on one line or on many:
# the longer may take three times as long as the shorter, and two seconds at most, both the best of three runs. Works in the
# present folder, which must be empty.
set -eu
programs=$1
printf 'clutch\tembrayage\noil pan\tcarter\n' >terms.tsv
"$programs/glossary" make terms.dic terms.tsv >/dev/null

# manual PIECE MEGABYTES: the piece, in which \n is a line's end, so often that it makes so much
manual() { awk -v piece="$1" -v most="$2" 'BEGIN { for (n = 0; n < most * 1000000; n += length(piece)) printf "%s", piece }' >manual.txt; }
# shortest: the milliseconds that filling the manual takes, 5000 at most
shortest() {
    best=
    for i in 1 2 3; do
        start=$(date +%s%N)
        timeout 5 "$programs/fill" -q terms.dic manual.txt >filled.txt || { echo 5000; return; }
        took=$((($(date +%s%N) - start) / 1000000))
        if [ -z "$best" ] || [ "$took" -lt "$best" ]; then best=$took; fi
    done
    echo "$best"
}
report=
for piece in '<<clutch>> ' '<<clutch>>, <<oil pan>>; ' 'le <<clutch>> et le <<oil pan>> du moteur\n'; do
    manual "$piece" 4
    half=$(shortest)
    manual "$piece" 8
    whole=$(shortest)
    if [ "$whole" -gt $((3 * half)) ] || [ "$whole" -gt 2000 ]; then
        echo "manuals of $piece take $half ms for 4 MB and $whole ms for 8 MB"
        exit 1
    fi
    report="$report${report:+, }$half and $whole ms"
done
echo "manuals of 4 and 8 MB filled in $report"
