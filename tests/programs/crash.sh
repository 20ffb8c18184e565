#!/bin/sh
# crash.sh FOLDER: ends glossary in the midst of its work, by a limit on file sizes and by kill at several moments. The
# dictionary must be the old or the new one, byte for byte. Works in the present folder, which must be empty.
set -eu
programs=$1
awk 'BEGIN { for (i = 0; i < 12000; i++) printf "term %05d\t%060d\n", i, i }' >many.tsv
printf 'a\tb\n' >one.tsv
"$programs/glossary" make old.dic one.tsv >/dev/null
cp old.dic new.dic
"$programs/glossary" merge new.dic many.tsv >/dev/null

# the file that is written beside passes the limit: the system ends the program while it writes
cp old.dic now.dic
status=0
{ (ulimit -f 8 && exec "$programs/glossary" merge now.dic many.tsv) >/dev/null || status=$?; } 2>/dev/null
[ "$status" -gt 128 ] || { echo "crash: status $status under a limit on file sizes"; exit 1; }
cmp now.dic old.dic

were_old=0
were_new=0
for moment in 0.01 0.1 0.2 0.4 0.6 0.8 1.0 1.5 2.0 3.0 60; do
    cp old.dic now.dic
    timeout -s KILL "$moment" "$programs/glossary" merge now.dic many.tsv >/dev/null 2>&1 || true
    if cmp -s now.dic old.dic; then
        were_old=$((were_old + 1))
    else
        cmp now.dic new.dic
        were_new=$((were_new + 1))
    fi
done
left=$(ls -A | grep -c '^\.now\.dic\.unfinished-' || true)
[ "$left" -le 1 ] || { echo "crash: $left unfinished files are left"; exit 1; }
"$programs/glossary" delete now.dic a >/dev/null
[ "$(ls -A | grep -c unfinished || true)" -eq 0 ] || { echo "crash: an unfinished file stays"; exit 1; }
[ "$were_old" -ge 1 ] && [ "$were_new" -ge 1 ] || { echo "crash: old $were_old, new $were_new"; exit 1; }
echo "ended in the midst 12 times: the dictionary was whole each time"
