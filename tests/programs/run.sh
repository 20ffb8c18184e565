#!/bin/sh
# The programs and the demo against what is stored, the commands in the documents, and the stack that the calls take;
# then the same runs under AddressSanitizer and UndefinedBehaviorSanitizer, and under valgrind; then damaged dictionaries and
# dictionaries that travel under all of them, crashes, many programs at once, random manuals, look-alikes, the time that long
# manuals take, and wrong programs. PDIC_LIB names another folder with a libpdic.a.
set -eu
here=$(cd "$(dirname "$0")" && pwd)
root=$here/../..
work=$(mktemp -d)
beside=
trap '[ -z "$beside" ] || kill "$beside" 2>/dev/null || :; rm -rf "$work"' EXIT
"$root/programs/build.sh" "$work/plain" -g
"$root/programs/build.sh" "$work/sanitized" -g -fsanitize=address,undefined -fno-sanitize-recover=all
memory="valgrind -q --error-exitcode=99 --leak-check=full --show-leak-kinds=all --errors-for-leak-kinds=all"

# inside NAME COMMAND..: runs the command in a new folder
inside() {
    mkdir "$work/$1"
    cd "$work/$1"
    shift
    "$@"
}

"$here/docs.py" "$work/plain" "$root/README.md" "$root"/docs/*.md
gcc -std=c11 -O2 -Wall -Wextra -Wpedantic -Werror -I"$root/include" -o "$work/stack" "$here/stack.c" \
    "${PDIC_LIB:-$root/target/staticlib}/libpdic.a" -lpthread
"$work/stack"
gcc -std=c11 -O2 -Wall -Wextra -Wpedantic -Werror -I"$root/include" -o "$work/flips" "$here/flips.c" \
    "${PDIC_LIB:-$root/target/staticlib}/libpdic.a"
for version in 4 5; do
    "$work/plain/glossary" make --format=$version "$work/sample-$version.dic" "$root/examples/machinery.tsv" >/dev/null
    echo "sample glossary of version $version: $("$work/flips" "$work/sample-$version.dic")"
done
"$root/examples/demo.sh" "$work/plain" >"$work/demo.txt"
cmp "$work/demo.txt" "$here/demo.txt"
# tell STORY NAME FOLDER [WRAPPER..]: the story as stored
tell() {
    story=$1 name=$1-$2
    shift 2
    inside "$name" "$here/story.sh" "$story" "$@" >"$work/$name.txt"
    cmp "$work/$name.txt" "$here/stories/$story.txt"
}
# tell_all NAME FOLDER [WRAPPER..]: all stories
tell_all() {
    for path in "$here"/stories/*.sh; do tell "$(basename "$path" .sh)" "$@"; done
}
# valgrind takes longest: its runs go beside the others, up to those that are timed
tell_all valgrind "$work/plain" $memory &
beside=$!
tell_all plain "$work/plain"
tell_all sanitized "$work/sanitized"

# report NAME COMMAND..: what the command says last, if it succeeds
report() {
    name=$1
    shift
    said=$("$@") || { echo "$name: $said"; exit 1; }
    echo "$name: $said"
}
report 'programs, plain' inside damaged "$here/damaged.sh" 300 "$work/plain"
report 'programs, sanitized' inside damaged-sanitized "$here/damaged.sh" 100 "$work/sanitized"
report 'programs, valgrind' inside damaged-valgrind "$here/damaged.sh" 12 "$work/plain" $memory
report 'programs' inside crash "$here/crash.sh" "$work/plain"
report 'programs' inside together "$here/together.sh" "$work/plain"
report 'programs, sanitized' inside together-sanitized "$here/together.sh" "$work/sanitized"
report 'programs' inside exchange "$here/exchange.py" 1 60 "$work/plain"
report 'programs, sanitized' inside exchange-sanitized "$here/exchange.py" 2 15 "$work/sanitized"
report 'programs, valgrind' inside exchange-valgrind "$here/exchange.py" 3 2 "$work/plain" $memory
report 'programs' inside marks "$here/marks.py" 1 2000 "$work/plain"
report 'programs, sanitized' inside marks-sanitized "$here/marks.py" 2 300 "$work/sanitized"
gcc -std=c11 -O2 -Wall -Wextra -Wpedantic -Werror -I"$root/include" -I"$root/programs" -o "$work/alike" "$here/alike.c" \
    "$root/programs/alike.c" "$root/programs/bytes.c"
report 'programs' "$work/alike" 1 5000
wait "$beside"
beside=
echo "programs: $(cat "$here"/stories/*.txt | grep -c '^\$') runs as stored, plain, sanitized and under valgrind; the demo as stored"
report 'programs' inside growth "$here/growth.sh" "$work/plain"
report 'programs' "$here/wrong.sh" "$work"

# long work shows its progress on a terminal, and nothing in a pipe
cd "$work/crash"
script -qec "'$work/plain/glossary' make shown.dic many.tsv" /dev/null >shown.txt </dev/null
grep -q 'entries added: [0-9]* of 12000' shown.txt
"$work/plain/glossary" make silent.dic many.tsv 2>silent.txt >/dev/null
[ ! -s silent.txt ]
cmp shown.dic silent.dic
echo "programs: progress on a terminal, silence in a pipe"
