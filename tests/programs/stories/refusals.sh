# dictionaries that break a rule: each number with its meaning
note "damaged dictionaries: each number with its meaning"
head -c 2000 machinery.dic >length.dic
damaged machinery version 141 '\006'
damaged machinery order 164 '\001'
damaged machinery index-blocks 148 '\377'
damaged machinery index 511 '\001'
damaged machinery run 512 '\000'
damaged machinery entry 514 '\377'
damaged machinery free-list 186 '\000'
damaged machinery count 160 '\377'
for name in length version order index-blocks index run entry free-list count missing; do
    run fill $name.dic manual.txt
    run glossary delete $name.dic coolant
done
damaged machinery reading 140 '\020'
run glossary look reading.dic coolant
run glossary delete reading.dic coolant
printf 'x\ty\n' >one.tsv
run glossary merge --dry-run reading.dic one.tsv
run glossary optimise reading.dic

