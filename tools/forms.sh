#!/bin/sh
# The places that docs/DESIGN-PASS.md counts, in the crates' src/ below the folder that is given (default: this repository).
cd "${1:-$(dirname "$0")/..}" || exit 1
src() { cat crates/*/src/*.rt; }
echo "1 enums                       $(src | grep -cE '^\s*(pub )?enum ')"
echo "1 refusals by number          $(src | grep -oE 'Refused\([0-9]+\)' | wc -l)"
echo "3 while and loop              $(src | grep -cE "^\s*('[a-z]+: )?(while|loop)\b")"
echo "3 for                         $(src | grep -cE '^\s*for\b')"
echo "3 chains                      $(src | grep -oE '\.(iter|iter_mut|chunks_exact|chunks_mut|position|fold|all|any|take_while|zip|count)\(' | wc -l)"
echo "4 casts by as                 $(src | grep -v 'ghost use' | grep -cE ' as (u8|u32|u64|usize)\b')"
echo "4 fields named twice          $(src | grep -oE '\b([a-z_]+): \1,' | wc -l)"
echo "4 derives of Clone, Copy only $(src | grep -c 'derive(Clone, Copy)\]')"
echo "6 buffers                     $(src | grep -cE '= \[0(u8|u32|u64)?; ')"
echo "7 flags of one bit            $(src | grep -cE '\b(above|fresh|v|replaced): bool\b')"
echo "8 answers                     $(git ls-files 'crates/*/Answers.antt' | xargs cat | grep -cE '^pub .* : goal\.')"
echo "8 files of answers            $(git ls-files 'crates/*/Answers.antt' | wc -l)"
echo "8 files of invariants         $(git ls-files 'crates/*/Invariants.antt' | wc -l)"
echo "8 lines of proofs             $(git ls-files 'crates/*/proofs/*.antt' | xargs cat | wc -l)"
echo "  lines of src                $(src | wc -l)"
echo "  kept places                 $(src | grep -c '// Kept: ')"
