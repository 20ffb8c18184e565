#!/bin/sh
# Proves that the harness notices: builds wrong engines from the right one (its libpdic.a in
# the folder PDIC_LIB) and expects a difference from each, and none from the right one.
set -eu
here=$(cd "$(dirname "$0")" && pwd)
work=$(mktemp -d)
trap 'rm -rf "$work"' EXIT
"$here/../../right.sh" "$work/libpdic.a"
for part in wrong changes; do
    gcc -O2 -Wall -Werror -c "$here/$part.c" -o "$work/$part.o"
    ar rs "$work/libpdic.a" "$work/$part.o" 2>/dev/null
done
cd "$here/.."
PDIC_LIB=$work CARGO_TARGET_DIR=$work/target cargo build --release --offline --quiet
failed=0

# try PROGRAM NUMBER WRONG..: the program must end in a difference for each wrong engine, and in none for the right one
try() {
    program=$work/target/release/$1
    number=$2
    shift 2
    for wrong in "$@"; do
        if WRONG=$wrong TMPDIR=$work "$program" 1 "$number" >"$work/out" 2>&1; then
            echo "NOT NOTICED: $wrong"
            failed=1
        else
            found=$(grep -A 4 -e '^DIFFERENCE' -e '^signal' "$work/out" | tr -s '\n ' '  ' | cut -c 1-190)
            if [ -n "$found" ]; then
                echo "$wrong: $found"
            else
                echo "ENDED OTHERWISE: $wrong"
                failed=1
            fi
        fi
    done
    if WRONG= "$program" 1 "$number" >"$work/out" 2>&1; then
        echo "right: $(tail -n 1 "$work/out")"
    else
        echo "THE RIGHT ENGINE DIFFERS"
        tail -n 3 "$work/out"
        failed=1
    fi
}

try compare 20000 absent-always text-length-one-more 14-for-absent zero-behind-text byte-past-slice \
    attribute-on-absent argument-first headword-8-bits count-by-guess refuse-all accept-10 9-as-10 \
    chain-16-bits touch-behind-L number-on-refusal length-32-bits skip-run-start above-low-bit \
    write-before-14 walk-empty-12 crash version-6-read os-at-171 os-at-167-too nblock2-at-194 \
    8-for-front-in-a-pair
try histories 500 15-without-placing image-untouched first-call-only same-entry-ignored replaced-counted \
    L-one-block-more behind-end-marks touch-behind-new-L byte-past-image highest-of-equals full-slice-refused \
    old-headword-in-index front-shorter chain-not-renumbered moved-run-trimmed chain-descending \
    free-block-wiped optimise-zeroes-too-far optimise-keeps-old-bytes optimise-not-counted \
    optimise-15-none-free optimise-15-full-slice optimise-15-full-packed optimise-15-no-run \
    optimise-15-index-shrinks optimise-15-longest-run count-not-wrapped \
    empty_block-written work-kept-past-L 15-at-index-32767 15-at-data-65536 L-on-refusal L-on-absent \
    absent-counted work-zeroed-on-2 work-kept-on-12 work-kept-on-15 half-done-on-15 12-before-11 \
    absent-as-12 crash-on-15 create-in-255 create-clears-all text-first text-16-bits \
    attribute-high-bit-only version-16-changed counts-at-version-4 version-5-becomes-4 identifier-altered \
    identifier-altered-on-15 optimise-zeroes-identifier identifier-high-byte-first identifier-32-bits \
    identifier-in-version-4 version-6-created create-low-bits create-3-before-1 create-clears-on-3 L-on-3 \
    empty_block2-at-186 front-in-a-pair front-a-pair-shorter pairs-of-the-earlier pairs-from-second-byte \
    pairs-by-the-byte-before 80-leads lead-from-82 lead-to-9e a0-leads df-leads lead-from-e1 lead-to-fb fd-leads \
    optimise-mends-fronts change-mends-fronts
exit $failed
