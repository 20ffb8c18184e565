# arguments
note "help and version, on standard output"
run glossary --help 2>/dev/null
run glossary --version 2>/dev/null
for command in make merge add delete look find list dump check optimise seal; do
    run glossary $command --help 2>/dev/null >said.txt
    sed -n '1p; 5,/^$/p' said.txt
    run glossary $command --version 2>/dev/null
done

note "a value behind an equals sign, or as a word of its own"
run glossary list --from=washer machinery.dic
run glossary list --from washer machinery.dic
run glossary add --wait 0 machinery.dic --attribute 0xA3 horn avertisseur
run glossary dump machinery.dic | sed -n '1p; /^horn/p'
run glossary list machinery.dic horn --from
run glossary add machinery.dic --attribute horn avertisseur
run glossary add --waiting=0 machinery.dic horn avertisseur

note "what is not understood"
run glossary
run glossary add machinery.dic x
run glossary sort machinery.dic
run glossary check
run glossary check machinery.dic x
run glossary check --from=a machinery.dic
run glossary list --wait=3 machinery.dic
run glossary merge --dry machinery.dic machinery.tsv
run glossary look -v machinery.dic clutch
