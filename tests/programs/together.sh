#!/bin/sh
# together.sh FOLDER: 20 programs at once add an entry each to one dictionary of version 5, five times; no edit is lost. Then so
# many make one file at once, and one of them does; a slow one finds it made. Then a seal, and a new file, come while a change goes
# on. Works in the present folder, which must be empty.
set -eu
programs=$1
# until_held FILE: waits until a program holds the file
until_held() {
    for i in $(seq 200); do
        flock -n "$1" true || return 0
        sleep 0.05
    done
}
AT_ONCE=20
ROUNDS=5

"$programs/glossary" make --format=5 --identifier=0123456789ABCDEF shared.dic - </dev/null >/dev/null
for round in $(seq $ROUNDS); do
    for i in $(seq $AT_ONCE); do
        "$programs/glossary" add --wait=300 shared.dic "round $round entry $i" "text $round $i" >/dev/null 2>&1 || echo "$round $i" >>failed &
    done
    wait
done
[ ! -e failed ] || { echo "together: $(wc -l <failed) additions failed"; exit 1; }
for round in $(seq $ROUNDS); do
    for i in $(seq $AT_ONCE); do printf 'round %s entry %s\ttext %s %s\n' "$round" "$i" "$round" "$i"; done
done | LC_ALL=C sort >expected
"$programs/glossary" list shared.dic >kept
"$programs/glossary" check shared.dic | grep -q 'identifier 0123456789ABCDEF$' || { echo "together: the identifier is another"; exit 1; }
cmp kept expected || { echo "together: $(wc -l <kept) of $((ROUNDS * AT_ONCE)) entries are there"; exit 1; }

for i in $(seq $AT_ONCE); do
    printf 'maker\t%s\n' "$i" >list-$i.tsv
    { "$programs/glossary" make made.dic list-$i.tsv >/dev/null 2>&1 && echo "$i" >>makers; } &
done
wait
[ "$(wc -l <makers)" -eq 1 ] && [ "$("$programs/glossary" look made.dic maker)" = "$(cat makers)" ] ||
    { echo "together: $(wc -l <makers) programs made one file"; exit 1; }
# a maker whose list comes late finds that another was faster
mkfifo late
"$programs/glossary" make raced.dic - <late >/dev/null 2>&1 &
slow=$!
exec 3>late
sleep 0.5
printf 'maker\tfast\n' | "$programs/glossary" make raced.dic - >/dev/null
printf 'maker\tslow\n' >&3
exec 3>&-
! wait $slow && [ "$("$programs/glossary" look raced.dic maker)" = fast ] || { echo "together: a file was made over another"; exit 1; }
# a change that takes long: a seal waits for it, and a file that came in the dictionary's place is not written over
awk 'BEGIN { for (i = 0; i < 8000; i++) printf "term %05d\t%060d\n", i, i }' >many.tsv
"$programs/glossary" merge shared.dic many.tsv >/dev/null 2>&1 &
until_held shared.dic
"$programs/glossary" seal --wait=300 shared.dic >/dev/null 2>&1
wait
"$programs/glossary" check shared.dic | grep -q 'headwords 8100,' || { echo "together: a dictionary was sealed while it was changed"; exit 1; }
"$programs/glossary" merge made.dic many.tsv >/dev/null 2>said &
slow=$!
until_held made.dic
rm made.dic
printf 'mine\tx\n' | "$programs/glossary" make made.dic - >/dev/null
! wait $slow && grep -q 'another file has come in its place' said && [ "$("$programs/glossary" look made.dic mine)" = x ] ||
    { echo "together: a file that came in a dictionary's place was written over"; exit 1; }
left=$(ls -A | grep -c unfinished || true)
[ "$left" -eq 0 ] || { echo "together: $left unfinished files are left"; exit 1; }
echo "$AT_ONCE at once, $ROUNDS times: all $((ROUNDS * AT_ONCE)) entries are there; of $AT_ONCE that make one file, one does; a seal waits for a change"
