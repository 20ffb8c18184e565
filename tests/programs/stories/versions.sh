# dictionaries of version 4 and of version 5
# bytes_of FILE FROM COUNT: these bytes of a file
bytes_of() { od -An -v -t x1 -j "$2" -N "$3" "$1"; }
# ident_of FILE: the identifier that check prints
ident_of() { "$programs/glossary" check "$1" | sed -n 's/.* identifier //p'; }
IDENT=0123456789ABCDEF

note "made in version 5, with an identifier, low byte first in the file"
run glossary make --format=5 --identifier=$IDENT five.dic machinery.tsv
run glossary check five.dic
bytes_of five.dic 140 2
bytes_of five.dic 216 8
run glossary make five-again.dic machinery.tsv --identifier 0123456789abcdef --format 5
cmp five.dic five-again.dic
for ident in 0000000000000000 0000000000000001 FFFFFFFFFFFFFFFF 8000000000000000; do
    run glossary make --format=5 --identifier=$ident $ident.dic - </dev/null
    run glossary check $ident.dic
    bytes_of $ident.dic 216 8
done

note "version 4 if none is told; it has no identifier"
run glossary check machinery.dic
run glossary make --format=4 four.dic machinery.tsv
cmp four.dic machinery.dic
bytes_of four.dic 140 2
bytes_of four.dic 216 8

note "drawn identifiers differ, and nothing else does"
run glossary make --format=5 drawn-0.dic machinery.tsv
for i in 1 2 3 4 5 6 7; do "$programs/glossary" make --format=5 drawn-$i.dic machinery.tsv >/dev/null; done
for i in 0 1 2 3 4 5 6 7; do ident_of drawn-$i.dic; done >drawn.txt
echo "$(grep -c '^[0-9A-F]\{16\}$' drawn.txt) drawn, $(sort -u drawn.txt | wc -l) different"
for i in 1 2 3 4 5 6 7; do cmp -l drawn-0.dic drawn-$i.dic || true; done | awk '$1 < 217 || $1 > 224'

note "every command reads and changes both, and keeps version and identifier"
printf 'coolant\tantigel\nflat\tplat\n' >more.tsv
for name in four five; do
    run glossary add $name.dic horn avertisseur
    run glossary add $name.dic 'wear plate' "$(letters 3000 t)"
    run glossary delete $name.dic 'wear plate' clutch
    run glossary merge $name.dic more.tsv
    run glossary look $name.dic coolant
    run glossary list $name.dic f
    run glossary check $name.dic
    run glossary optimise $name.dic
    run glossary dump $name.dic | tail -n +2 >$name.tsv
    run fill $name.dic manual.txt $name.txt
    run glossary check $name.dic
done
cmp four.tsv five.tsv
cmp four.txt five.txt
tail -c +257 four.dic >four.rest
tail -c +257 five.dic | cmp - four.rest
run glossary make --format=5 copy.dic five.tsv
[ "$(ident_of copy.dic)" != $IDENT ] && echo "a new dictionary has another identifier"
run glossary seal five.dic
run fill five.dic draft.txt
run glossary check five.dic
rm five.dic.sha256

note "the index grows, and the list is long"
awk 'BEGIN { for (i = 0; i < 400; i++) printf "term %05d\t%0*d\n", (i * 7919) % 100000, 20 + i % 90, i }' >many.tsv
run glossary make --format=5 --identifier=$IDENT many.dic many.tsv
run glossary look many.dic 'term 15838'
run glossary check many.dic

note "what is refused before anything is made"
for format in 3 6 45 05 0x5 5x -5 ''; do run glossary make --format=$format no.dic machinery.tsv; done
run glossary make --format 6 no.dic machinery.tsv
run glossary make no.dic machinery.tsv --format
for ident in 0123456789ABCDE 0123456789ABCDEF0 0x23456789ABCDEF 0123456789ABCDEG ' 123456789ABCDEF' -123456789ABCDEF ''; do
    run glossary make --format=5 --identifier="$ident" no.dic machinery.tsv
done
run glossary make --identifier=$IDENT no.dic machinery.tsv
run glossary make --identifier=$IDENT --format=4 no.dic machinery.tsv
run glossary merge --format=5 machinery.dic machinery.tsv
run glossary add --identifier=$IDENT five.dic a b
told=$wrapper
PATH=$here:$PATH
wrapper="norandom.py $told"
run glossary make --format=5 no.dic machinery.tsv
run glossary make --format=5 --identifier=$IDENT told.dic machinery.tsv
wrapper=$told
[ ! -e no.dic ]

note "each field that has moved, damaged where version 5 has it"
run glossary make --format=5 --identifier=$IDENT whole.dic machinery.tsv
damaged whole os 167 '\001'
damaged whole index_blkbit 182 '\001'
damaged whole extheader 184 '\001'
damaged whole empty_block2 188 '\000'
damaged whole nindex2 192 '\377'
damaged whole nblock2 196 '\377'
for name in os index_blkbit extheader empty_block2 nindex2 nblock2; do run glossary check $name.dic; done

note ".. and where version 4 has it: another field of version 5, or a byte that is not tested"
for at in 171 182 186 190 194 198; do
    damaged whole at-$at $at '\001'
    run glossary check at-$at.dic
done

note "what only the other version names may be anything, and is kept"
damaged whole odd-five 168 '\001\002\003\004\005\006\007\010\011\012\013\014\015\016'
damaged odd-five odd-five 183 '\377'
damaged odd-five odd-five 200 '\001\002\003\004\005\006\007\010'
damaged machinery odd-four 167 '\001\002\003\004'
damaged odd-four odd-four 199 '\377'
damaged odd-four odd-four 216 '\001\002\003\004\005\006\007\010'
for name in four five; do
    run glossary check odd-$name.dic
    run glossary add odd-$name.dic horn avertisseur
    run glossary check odd-$name.dic
done
bytes_of odd-five.dic 167 17
bytes_of odd-five.dic 200 8
bytes_of odd-four.dic 167 4
bytes_of odd-four.dic 199 1
bytes_of odd-four.dic 216 8

note "other versions, the wrong one of the two, and versions that may only be read"
for high in 003 006 205; do
    damaged whole high-$high 141 "\\$high"
    run glossary check high-$high.dic
done
damaged machinery four-as-five 141 '\005'
damaged whole five-as-four 141 '\004'
run glossary check four-as-five.dic
run glossary check five-as-four.dic
damaged whole low-15 140 '\017'
damaged whole low-16 140 '\020'
for name in low-15 low-16; do
    run glossary add $name.dic horn avertisseur
    run glossary look $name.dic coolant
    run glossary check $name.dic
done
