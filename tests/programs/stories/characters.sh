# headwords in Shift JIS: no front that is written ends inside a character of two bytes, so that a viewer draws whole ones
# fronts NAME: the shared fronts of NAME.dic, and what a viewer draws that does not join them
fronts() { fronts.py "$1.dic" || echo "[$?]"; }
# changed NAME: those that were others at the last call, and the summary
changed() {
    fronts "$1" >now.txt
    diff "$1.txt" now.txt | grep '^[<>] [r ]' || echo "all fronts as before"
    grep -A 1 '^[0-9]* entries' now.txt
    mv now.txt "$1.txt"
}
cp "$here/../../examples/japanese.tsv" .
PATH=$here:$PATH
wrapper="sjis.py $wrapper"

note "a glossary in Shift JIS: of each headword the shared front, of how many bytes in common, and what is drawn of it"
run glossary make japanese.dic japanese.tsv
run glossary check japanese.dic
fronts japanese | tee japanese.txt
run glossary make --format=5 --identifier=0123456789ABCDEF five.dic japanese.tsv
fronts five | cmp - japanese.txt

note "looked up and listed"
run glossary look japanese.dic 'V プーリ' ロッド 歯車列 ﾊﾞﾙﾌﾞ 鑢 髙圧
run glossary look japanese.dic バルブステム
run glossary list japanese.dic ロ
run glossary list japanese.dic 安全
run glossary list --from=鉋 japanese.dic

note "changes"
run glossary add japanese.dic バルブステム 'valve stem'
changed japanese
run glossary add japanese.dic 'O ポート' 'O port'
changed japanese
run glossary delete japanese.dic バー クランク ローラ 軸
changed japanese
printf 'メモリ\tmemory\nモーメント\tmoment\nロータ\trotor\n歯先\ttip\n油\toil\nﾊﾞﾙﾌﾞ\tvalve, narrow\n' | sjis.py >more.tsv
run glossary merge japanese.dic more.tsv
changed japanese
run glossary optimise japanese.dic
changed japanese
run glossary check japanese.dic

note "a first byte without a second one, at a headword's end, stands alone"
printf '%%headword\ttext\nバルブ%%83\tone\n%%83\ttwo\n%%83%%83\tthree\n%%83%%83%%83\tfour\n%%83%%83%%83%%83\tfive\n' >alone.utf-8
sjis.py <alone.utf-8 >alone.tsv
run glossary merge japanese.dic alone.tsv
changed japanese

note "a first byte is one from 0x81 to 0x9F or from 0xE0 to 0xFC; the rest stand alone"
printf '%%headword\ttext\n' >bounds.tsv
for byte in 7F 80 81 9F A0 DF E0 FC FD FF; do printf '%%%s\tone\n%%%sA\ttwo\n' $byte $byte; done >>bounds.tsv
run glossary make bounds.dic bounds.tsv
fronts bounds

note "another program's dictionary, with fronts inside characters, is read as before"
fronted.py japanese.tsv other.dic
fronts other | tee other.txt
run glossary check other.dic
run glossary look other.dic 'V プーリ' ロッド 歯車列 ﾊﾞﾙﾌﾞ 鑢 髙圧
run glossary list other.dic ロ
"$programs/glossary" dump other.dic >other.tsv
"$programs/glossary" dump five.dic | cmp - other.tsv

note "optimising moves its runs, and keeps their fronts"
run glossary optimise other.dic
changed other

note "a change writes the fronts of its own run anew"
run glossary add other.dic アース earth
changed other
run glossary delete other.dic 弁
changed other
run glossary add other.dic 弁 valve
run glossary delete other.dic アース
changed other
"$programs/glossary" dump other.dic | cmp - other.tsv
