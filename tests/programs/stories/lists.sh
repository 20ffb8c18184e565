# lists as they come, lists that are refused, and tables
note "lists that are refused; the dictionary stays"
cp machinery.dic changed.dic
printf 'a\tb\nno tab here\n' >no-tab.tsv
printf 'a\tb\tc\n' >two-tabs.tsv
printf 'oil pump\tone\nb\ttwo\noil pump\tthree\n' >twice.tsv
printf 'a\tb\n\ttext\n' >no-headword.tsv
printf 'a\0c\tb\n' >zero.tsv
printf 'a\tb\rc\n' >carriage-return.tsv
printf '\377\376a\000\t\000b\000\n\000' >utf-16.tsv
printf 'a \tb\n c\td\ne\302\240\tf\ng\343\200\200\th\n\201\100i\tj\nk l\tm \n' >blanks.tsv
printf '%s\tb\nc\t%s\n' "$(letters 249 w)" "$(letters 3001 t)" >long.tsv
awk 'BEGIN { for (i = 1; i <= 23; i++) print "line " i }' >faults.tsv
printf 'x\ty\nx\tz\nno tab\n \tblank\nunfinished\t\n' >all-kinds.tsv
for name in no-tab two-tabs twice no-headword zero carriage-return utf-16 blanks long faults all-kinds missing; do
    run glossary merge changed.dic $name.tsv
done
cmp changed.dic machinery.dic
run glossary make changed.dic machinery.tsv
run glossary make no/folder.dic machinery.tsv
run glossary make new.dic all-kinds.tsv
[ ! -e new.dic ]
: >none.tsv
run glossary make none.dic none.tsv
run glossary list none.dic
run glossary look none.dic a

note "a mark in front, CR LF, an end without a line feed"
printf '\357\273\277air\tone\r\n\r\nwater\ttwo' >mark.tsv
run glossary make mark.dic mark.tsv
run glossary list mark.dic
run glossary make piped.dic - <mark.tsv
cmp mark.dic piped.dic

note "tables"
printf '%%headword\tattribute\ttext\r\na%%09b\t0xA1\tone%%0D%%0Atwo %%25 %%5C \\\n%%20c%%20\t128\t%%EF\n' >table.tsv
run glossary make table.dic table.tsv
run glossary dump table.dic
run glossary dump table.dic >dumped
tail -n +2 dumped >again.tsv
run glossary make again.dic again.tsv
cmp table.dic again.dic
run glossary list table.dic
run glossary look table.dic ' c '
printf '\n\r\n%%headword\ttext\nclutch\t50%%25\nempty\t\n' >short.tsv
run glossary merge --dry-run changed.dic short.tsv
printf 'clutch\t50%%25\n' >plain.tsv
run glossary merge --dry-run changed.dic plain.tsv
printf '%%headword\tattribute\n' >no-text.tsv
printf '%%headword\ttext\ttext\n' >twice-text.tsv
printf '%%headword\tlevel\ttext\n' >unknown.tsv
printf '%%headword\tattribute\ttext\tparts\n' >too-many.tsv
printf '%%headwords\ttext\n' >misspelt.tsv
printf '%%headword\tattribute\ttext\na\t0x80\nb\t0x90\tc\nd%%\t0x80\te\nf\t0x80\tg%%0x\n%%00\t128\th\ni\t128\t%%00\nj \t128\tk\n\t128\tl\n%%41%%42 \t128\tm\n%%41%%42\t128\tn\001\n' >rows.tsv
for name in no-text twice-text unknown too-many misspelt rows; do run glossary merge changed.dic $name.tsv; done
cmp changed.dic machinery.dic
