# a dictionary made, read and changed
note "made, looked into"
rm machinery.dic
run glossary make machinery.dic machinery.tsv
run glossary check machinery.dic
run glossary look machinery.dic 'valve, bleed'
run glossary find machinery.dic 'valve, bleed'
run glossary look machinery.dic 'bleed valve'
run glossary look machinery.dic zzz
run glossary look machinery.dic ''
run glossary look machinery.dic "$(letters 249 w)"
run glossary look machinery.dic "$(letters 246 v) v"
run glossary look machinery.dic spindle clutch
run glossary look machinery.dic spindle absent '' clutch
printf 'spindle\r\nclutch\n\nabsent\n' >wanted.txt
run glossary look machinery.dic - <wanted.txt
printf 'clutch\nclutch \nclutch\ta\nclutch\n' >wanted.txt
run glossary look machinery.dic - <wanted.txt
printf '%%headword\nclu%%74ch\n' >wanted.txt
run glossary look machinery.dic - <wanted.txt
: >wanted.txt
run glossary look machinery.dic - <wanted.txt
run glossary list machinery.dic valve
run glossary list machinery.dic --from=washer
run glossary list machinery.dic --from='valve, c' valve
run glossary list machinery.dic zzz
run glossary list machinery.dic "$(letters 249 w)"
run glossary list machinery.dic >listed
tail -n +2 listed | cmp - machinery.tsv

note "changed"
cp machinery.dic changed.dic
run glossary add changed.dic 'bleed valve' purgeur
run glossary add changed.dic 'bleed valve' 'purgeur manuel'
run glossary look changed.dic 'bleed valve'
run glossary add changed.dic 'wear plate' "$(letters 3000 t)"
run glossary add changed.dic 'wear plate' "$(letters 3001 t)"
run glossary add changed.dic '' text
run glossary delete changed.dic 'wear plate'
run glossary delete changed.dic 'wear plate'
run glossary check changed.dic
run glossary optimise changed.dic
run glossary optimise changed.dic
printf 'coolant\tantigel\r\n\r\nadaptor\tadaptateur\n\nclutch\tembrayage\nflat\tplat' >more.tsv
cp changed.dic before.dic
run glossary merge --dry-run changed.dic more.tsv
cmp changed.dic before.dic
run glossary merge changed.dic more.tsv
before=$(stat -c '%i %Y' changed.dic)
run glossary merge changed.dic more.tsv
run glossary add changed.dic clutch embrayage
[ "$(stat -c '%i %Y' changed.dic)" = "$before" ] || echo "written though nothing changed"
run glossary look changed.dic coolant
run glossary look changed.dic flat
run glossary delete changed.dic adaptor absent flat also-absent
run glossary look changed.dic adaptor
run glossary delete changed.dic adaptor adaptor
run glossary delete changed.dic adaptor flat
run glossary delete changed.dic adaptor flat
printf 'clutch\ncoolant\n' >unwanted.txt
run glossary delete changed.dic - <unwanted.txt

note "what nobody sees is not stored"
for headword in 'pump ' ' pump' "pump$(printf '\302\240')" "pump$(printf '\r')" "pu	mp"; do run glossary add changed.dic "$headword" pompe; done
run glossary add changed.dic pump "pompe$(printf '\r')"
run glossary add changed.dic pump ''
run glossary add changed.dic "pump$(printf '\342\200\213')" pompe
run glossary add changed.dic "$(printf '\302\205')pump" pompe
run glossary add changed.dic "$(printf '\303\201@')" 'ends in no blank'
run glossary add changed.dic "$(printf '\202\201@')" 'in Shift JIS neither'

note "an entry's attribute is kept unless another is told"
run glossary add --attribute=0xA3 changed.dic marked one
run glossary add changed.dic marked two
run glossary dump changed.dic >dumped
grep marked dumped
printf '%%headword\tattribute\ttext\nmarked\t0x80\ttwo\n' >marked.tsv
run glossary merge --dry-run changed.dic marked.tsv
printf 'marked\tthree\n' >marked.tsv
run glossary merge changed.dic marked.tsv
run glossary dump changed.dic >dumped
grep marked dumped
run glossary add --attribute=192 changed.dic marked three
run glossary dump changed.dic >dumped
grep marked dumped
for attribute in 0x90 0x20 256 0x 80x 0200x -128 ''; do run glossary add --attribute=$attribute changed.dic marked four; done

note "a headword that begins with a sign of options"
run glossary add changed.dic -- --help 'aide'
run glossary look -- changed.dic --help
run glossary delete changed.dic -- --help

note "a list for which the slices grow several times"
awk 'BEGIN { for (i = 0; i < 2500; i++) printf "term %05d\t%0*d\n", (i * 7919) % 100000, 20 + i % 90, i }' >many.tsv
run glossary make many.dic many.tsv
run glossary look many.dic 'term 15838'

note "standard output is full"
full glossary list machinery.dic
full glossary dump machinery.dic
full glossary look machinery.dic coolant
full glossary --help
