#!/bin/sh
# engine.sh [PROGRAM]: proves the engine and compiles it to target/staticlib/libpdic.a; or proves a program and compiles it to
# target/bin/PROGRAM. Prints one line for each crate that is proved, and on a terminal a last line, overwritten, that says what is being
# proved. All that rt says goes to target/proof.log; where something is not proved, the end of it is shown.
set -eu
cd "$(dirname "$0")/.."
goal=${1:-pdic}
folder=crates/$goal
log=target/proof.log
[ -d "$folder" ] || { echo "engine.sh: there is no $folder" >&2; exit 2; }
clear=
[ ! -t 1 ] || clear=$(printf '\r\033[K')

# The goal proved and compiled, after what it needs. A program is also run, on nothing.
prove() {
    if [ -e "$folder/src/main.rt" ]; then
        (cd "$folder" && rt run 2>&1 >/dev/null </dev/null)
    else
        (cd "$folder" && rt lib 2>&1)
    fi
}

# Tells of each crate when rt says that it is proved.
tell() {
    crate= began=$(date +%s)
    while IFS= read -r line; do
        case $line in
        'rt: chose --jobs '*)
            crate=${line##* } began=$(date +%s)
            [ -z "$clear" ] || printf '%sproving %s' "$clear" "$crate"
            ;;
        'logic=proved '*)
            echo "${clear}proved $crate ($(($(date +%s) - began)) s)"
            ;;
        esac
    done
    printf %s "$clear"
}

mkdir -p target/staticlib target/bin
{ prove && echo 'engine.sh: done'; } | tee "$log" | tell
if ! tail -n 1 "$log" | grep -qx 'engine.sh: done'; then
    grep -vE ': proved$|^checked |^(library|statements|axioms|crate) |^logic |^rt: (chose|[a-z_0-9]+: begins) ' "$log" | tail -n 20 | cut -c 1-240
    echo "$goal is not proved; all that rt said stands in $log"
    exit 1
fi
if [ -e "$folder/src/main.rt" ]; then
    cp "$folder/out/$goal" target/bin
else
    cp "$folder/out/lib$goal.a" target/staticlib
fi
