# the files themselves: links, rights, files that are no files, another program at work, files left over
# hold FILE, release: another program holds the file
hold() {
    flock -o "$1" sleep 30 >said.txt 2>&1 &
    holder=$!
    while flock -n "$1" true; do sleep 0.05; done
}
release() {
    kill $holder
    { wait $holder || true; } 2>said.txt
}
names() { ls -A | grep -v '^machinery\.tsv$\|^manual\.txt$\|^draft\.txt$\|^said\.txt$' | tr '\n' ' '; echo; }

note "what a symbolic link leads to is replaced"
mkdir kept
mv machinery.dic kept/real.dic
ln -s kept/real.dic link.dic
run glossary add link.dic horn avertisseur
readlink link.dic
run glossary look kept/real.dic horn
ln -s kept/not-there.dic nowhere.dic
run glossary add nowhere.dic horn avertisseur
run glossary make nowhere.dic machinery.tsv
run fill kept/real.dic manual.txt nowhere.dic
printf 'old' >kept/filled.txt
ln -s kept/filled.txt filled.txt
run fill kept/real.dic manual.txt filled.txt
readlink filled.txt
sed -n 3p kept/filled.txt
ls kept
rm nowhere.dic filled.txt

note "the mode is kept, and the owner where the system lets us"
cp kept/real.dic mode.dic
chmod 640 mode.dic
[ "$(id -u)" -ne 0 ] || chown 12:34 mode.dic
before=$(stat -c '%a %u %g' mode.dic)
run glossary add mode.dic klaxon avertisseur
[ "$(stat -c '%a %u %g' mode.dic)" = "$before" ] || echo "not kept: $before"
printf 'a <<klaxon>>\n' >short.txt
printf 'old' >out.txt
chmod 604 out.txt
run fill mode.dic short.txt out.txt
stat -c %a out.txt
cat out.txt

note "a file that may only be read"
chmod 444 mode.dic
run glossary add mode.dic horn2 avertisseur
run glossary look mode.dic klaxon
chmod 444 out.txt
run fill mode.dic short.txt out.txt
cat out.txt

note "a second name would keep the old dictionary"
ln kept/real.dic second.dic
run glossary add kept/real.dic horn2 avertisseur
rm second.dic

note "standard output and error are closed, or nobody reads what they say"
cp kept/real.dic closed.dic
cp kept/real.dic whole.dic
"$programs/glossary" delete closed.dic nosuch 2>&- || echo "[$?]"
"$programs/glossary" add closed.dic ' x' y >&- 2>&- <&- || echo "[$?]"
cmp closed.dic whole.dic
full glossary add closed.dic horn2 avertisseur
run glossary look closed.dic horn2
$wrapper "$programs/glossary" delete closed.dic horn2 2>said.txt | :
run glossary look closed.dic horn2
long=$(letters 250 n)
run glossary make "$long" machinery.tsv | cut -c 240-
run glossary add "$long" x y | cut -c 240-
rm "$long" closed.dic whole.dic

note "FIFOs, a device that never ends, and folders"
mkfifo pipe
timeout 20 cat pipe >from-pipe.txt &
run fill kept/real.dic manual.txt pipe
wait
cmp from-pipe.txt manual.txt >/dev/null || echo "filled through the pipe"
[ -p pipe ] && echo "the pipe is there"
run glossary add pipe a b
run glossary make pipe machinery.tsv
run glossary check /dev/zero
run glossary check .
run glossary add . a b
run fill kept/real.dic manual.txt kept
run fill kept/real.dic manual.txt no/folder.txt
run glossary check - <kept/real.dic
run glossary add - a b <kept/real.dic
run glossary make - machinery.tsv
run fill - manual.txt <kept/real.dic
[ ! -e ./- ]

note "another program changes the dictionary"
cp kept/real.dic shared.dic
hold shared.dic
run glossary add --wait=1 shared.dic horn2 avertisseur
run glossary look shared.dic horn
run glossary merge --dry-run shared.dic machinery.tsv
release
run glossary add --wait=0 shared.dic horn2 avertisseur
for wait in x -1 1s 86401 ''; do run glossary add --wait=$wait shared.dic a b; done

note "files that a program left when it was ended are removed, those of a living one and of a user are not"
: >.shared.dic.unfinished-0000012345-Ab3dEf
: >.shared.dic.unfinished-0000012345-living
: >.shared.dic.unfinished-0000012345-toolong
: >.shared.dic.unfinished-backup
: >.other.dic.unfinished-0000012345-Ab3dEf
hold .shared.dic.unfinished-0000012345-living
run glossary add shared.dic horn3 avertisseur
names
release
run glossary delete shared.dic horn3
names

note "a sealed dictionary is read while its bytes are those that were sealed, and is not changed"
cp kept/real.dic sealed.dic
ln -s sealed.dic link-to-sealed.dic
run glossary seal sealed.dic
cat sealed.dic.sha256
sha256sum -c sealed.dic.sha256
run glossary look sealed.dic horn
run glossary look link-to-sealed.dic horn
run glossary add sealed.dic horn2 avertisseur
run glossary delete link-to-sealed.dic horn
run glossary merge --dry-run sealed.dic machinery.tsv
run glossary seal sealed.dic
run glossary make sealed.dic machinery.tsv
cp sealed.dic whole.dic
printf X | dd of=sealed.dic bs=1 seek=531 conv=notrunc 2>said.txt
cmp sealed.dic whole.dic | sed 's/.*differ/differ/'
run glossary check sealed.dic
run glossary look link-to-sealed.dic horn
run fill sealed.dic manual.txt
run glossary seal sealed.dic
cp whole.dic sealed.dic
printf 'no digest' >sealed.dic.sha256
run glossary check sealed.dic
rm sealed.dic.sha256
mkfifo sealed.dic.sha256
run glossary check sealed.dic
rm sealed.dic.sha256
run glossary seal link-to-sealed.dic
rm sealed.dic.sha256
cp sealed.dic 'a\b.dic'
run glossary seal 'a\b.dic'
sha256sum -c 'a\b.dic.sha256'
sha256sum 'a\b.dic' >sum.txt
cmp sum.txt 'a\b.dic.sha256'
run glossary check 'a\b.dic'
printf x >made.dic.sha256
run glossary make made.dic machinery.tsv
run glossary add sealed.dic horn2 avertisseur
run glossary seal missing.dic
