# manuals filled, and manuals that are refused
note "filled"
run fill machinery.dic manual.txt
run fill machinery.dic manual.txt filled.txt
cat filled.txt
run fill machinery.dic draft.txt filled-draft.txt
[ ! -e filled-draft.txt ]
printf 'kept' >filled-draft.txt
run fill machinery.dic draft.txt filled-draft.txt
cat filled-draft.txt
echo
run fill machinery.dic manual.txt no/folder.txt
run fill machinery.dic missing.txt
run fill machinery.dic .
full fill machinery.dic manual.txt
full fill --help
ln manual.txt other-name.txt
for output in manual.txt ./machinery.dic other-name.txt; do run fill machinery.dic manual.txt $output; done
run fill machinery.dic - manual.txt <manual.txt

note "standard input and output"
sed -n 11p manual.txt >line.txt
run fill machinery.dic - <line.txt
run fill machinery.dic - - <line.txt
run fill machinery.dic line.txt -
run fill machinery.dic - filled.txt <line.txt
cat filled.txt
run fill machinery.dic - <draft.txt
[ ! -e - ]

note "options and arguments"
run fill --help
run fill --version
run fill -q machinery.dic line.txt
run fill machinery.dic --quiet line.txt filled.txt
cat filled.txt
cp line.txt ./-q
run fill -- machinery.dic -q
rm ./-q
run fill machinery.dic --fast line.txt
run fill -qq machinery.dic line.txt
run fill
run fill machinery.dic
run fill machinery.dic line.txt filled.txt more
run fill -- machinery.dic line.txt -q --help

# a dictionary with headwords that are not easily marked, and with odd blanks and signs
# escaped BYTES: what printf writes, each byte as %XX
escaped() { printf '%b' "$1" | od -An -v -t x1 | tr -d '\n' | tr ' ' %; }
# stored HEADWORD TEXT: adds an entry, both as printf writes them
stored() { printf '%%headword\ttext\n%s\t%s\n' "$(escaped "$1")" "$(escaped "$2")" | "$programs/glossary" merge terms.dic - >/dev/null; }
: >none.tsv
"$programs/glossary" make terms.dic none.tsv >/dev/null
stored valve soupape
stored 'valve>' '>'
stored '<b' '<'
stored 'a<b' less
stored 'a>b' more
stored '50%' half
stored '%open' open
stored 'a\nb' feed
stored mark '<<valve>> <<'
stored x y
stored '\0203\0134' so
stored '\0203\0174' po
stored 'clé' key

# try MANUAL [OPTION..]: shows a manual, as printf writes it, and fills it
try() {
    printf '\n| %s\n' "$1"
    printf '%b' "$1" >m.txt
    shift
    run fill "$@" terms.dic m.txt $output
}
output=
# try_bytes MANUAL [OPTION..]: the same, and shows each byte that is written
try_bytes() {
    output=filled.txt
    try "$@"
    output=
    od -An -c filled.txt
}
note "marks and their faults"
try 'a <<valve>> b <<x>><<valve>> c\n'
try '<<x>>'
echo
try 'a <<valve>>> b\n'
try 'a <<valve%3E>> b\n'
try 'a <<<b>> b <<<<valve>>>> c\n'
try 'a <<%3Cb>> b\n'
try 'a >> b >>> c\n'
try 'a <<valve <<x>> b>> c <<%>>\n'
try 'a <<valve <<<x>> b>> c >> d\n'
try 'a <<valve\nb>> c >> d\n'
try 'a <<valve\n\n>> d\n'
try 'a <<valve>\r\nb <<x>>\r\n'
try 'a <<x>>\nb <<valve'
try 'a <<'
try 'a <<>> b <<>>> c\n'
try '<<50%>> <<%>> <<%4>> <<%4g>> <<%Open>> <<%open >> <<%5%>>\n'
try '<<50%25>> <<%76alv%65>> <<a%0Ab>> <<%25open>>\n'
try 'a%zz < b > c <> d >< e <<a<b>> <<a>b>> <x> %\n'
try 'a <<%open>>valve<<%close>> <<valve>>\n'
try '<<%open>>\n'
try '<<%lt>><<valve>><<%gt>>, <<%lt>>b<<%gt>>\n'
try '<<mark>>\n'
try 'a <<a%00b>> <<valve>> <<absent>>\n'
printf 'x<<%s>>\n' "$(letters 249 w)" >long-mark.txt
run fill terms.dic long-mark.txt

note "twenty faults are told"
for number in 20 21 25; do
    letters $number '#' | sed 's/#/a >> b\n/g' >faults.txt
    run fill terms.dic faults.txt filled-faults.txt | sed '3,19d'
    [ ! -e filled-faults.txt ]
done

note "Shift JIS, UTF-8, and CR LF"
try_bytes '\0203\0134 <<\0203\0134>> <<\0203\0174>> <<\0203%5C>>\n'
try '<<clé>> <<cl%C3%A9>>\n'
try_bytes 'a <<valve>>\r\n\r\nb\r'

note "UTF-16, zero bytes"
try '\0377\0376<\0000<\0000x\0000>\0000>\0000'
try '\0376\0377\0000<\0000<\0000x\0000>\0000>'
try '\0377\0376<<x>>\n'
try 'a <<x>>\n<\0000<\0000'
try_bytes '<<x>>\nabc\0000\n' --binary
try '\0377\0376<\0000<\0000x\0000>\0000>\0000' --binary
try_bytes '\0377\0376<\0000<\0000x\0000>\0000>\0000' --binary --unmarked
try_bytes '\0377' --unmarked

note "a text that is empty"
stored nothing ''
try 'a <<nothing>> <<x>> <<nothing>>\n'
try 'a <<nothing>> <<x>>\n' --empty

note "nothing is marked"
try 'a < b\n'
try 'a < b\n' --unmarked
try ''
try '' --unmarked
try '<<x>>\n' --unmarked
try '<<x\n' --unmarked

note "headwords that look alike"
stored 'bleed valve' purgeur
stored 'oil\0302\0240pan' carter
stored 'pompe à huile' pump
stored "vis d'arrêt" screw
stored 'e\0314\0201crou' nut
stored 'lock-nut' contre-écrou
stored 'zero\0302\0255width' nothing
stored Relais relay
stored RELAIS relay
stored '\0227\0255\0201\0100A' shift-jis
stored '\0203T\0203T' shift-jis
stored 'tail ' tail
cat >alike.txt <<END
$(printf '%b' '<<bleed\0302\0240valve>> <<bleed\0342\0200\0257valve>> <<bleed\0343\0200\0200valve>> <<bleed\tvalve>> <<bleed%0Avalve>>')
$(printf '%b' '<< bleed valve>> <<bleed valve >> <<bleed  valve>> <<Bleed valve>> <<BLEED\0302\0240VALVE>>')
$(printf '%b' '<<bl\0302\0255eed valve>> <<bleed\0342\0200\0213 valve>> <<\0357\0273\0277bleed valve>> <<bleed\0342\0200\0214 \0342\0200\0215valve>>')
<<oil pan>> <<Oil  pan>>
$(printf '%b' '<<pompe a\0314\0200 huile>> <<écrou>> <<Écrou>> <<E\0314\0201crou>>')
$(printf '%b' '<<vis d\0342\0200\0231arrêt>> <<vis d\0342\0200\0230arre\0314\0202t>>')
$(printf '%b' '<<lock\0342\0200\0220nut>> <<lock\0342\0200\0221nut>> <<lock\0342\0200\0223nut>> <<lock\0342\0210\0222nut>> <<lock nut>>')
<<zerowidth>> <<zero width>> <<relais>> <<tail>> <<tail  >> <<VALVE%3E>>
END
run fill terms.dic alike.txt >said.txt
cat said.txt
# what is shown as stored can be copied into a mark
sed -n 's/.* stored is "\(.*\)"$/<<\1>>/p' said.txt | sed 's/", "/>> <</g' | LC_ALL=C sort -u >copied.txt
run fill terms.dic copied.txt
# bytes of Shift JIS are shown as question marks: a blank in a headword of ASCII and in one of pairs; letters as second bytes are none
try '<<bleed\0201\0100valve>> <<\0227\0255 A>> <<\0227\0255\0201\0100a>> <<\0203t\0203T>>\n' | LC_ALL=C tr '\200-\377' '?'
run glossary find terms.dic 'Bleed  valve'
run glossary find terms.dic 'relais'

note "many absent headwords"
for number in 100 101 103; do
    awk -v n=$number 'BEGIN { for (i = 1; i <= n; i++) printf "<<zz %d>> <<zz %d>>\n", i, i }' >absent.txt
    run fill machinery.dic absent.txt filled-absent.txt | sed '4,99d'
    [ ! -e filled-absent.txt ]
done
