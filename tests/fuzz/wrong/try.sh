#!/bin/sh
# Proves that the harness notices: wrong engines are made from the right one (libpdic.a in the folder PDIC_LIB, else
# target/staticlib) by wrappers. Each must break a fact or fault at a guard page, at the place that it spoils; the right
# one behind the same wrappers must pass.
set -eu
here=$(cd "$(dirname "$0")" && pwd)
work=$(mktemp -d)
trap 'rm -rf "$work"' EXIT
"$here/../../right.sh" "$work/libpdic.a"
cd "$here/.."
gcc -std=c11 -O1 -Wall -Wextra -Werror -I../../include -o "$work/drive" wrong/wrong.c drive.c harness.c facts.c decode.c \
    reader.c lent.c guard.c mutate.c seeds.c "$work/libpdic.a"
cd "$work"
noticed=0 failed=0

# try WRONG FACT: the run must end with this fact broken, or at a guard page (signal 139); FACT is an extended pattern
try() {
    status=0
    WRONG=$1 ./drive 1 20000 >out 2>&1 || status=$?
    found=$(grep -m 1 '^BROKEN' out || true)
    [ -n "$found" ] || [ "$status" -le 128 ] || found="signal $status"
    if printf '%s' "$found" | grep -qE "$2"; then
        noticed=$((noticed + 1))
    else
        echo "NOT NOTICED: $1: status $status, ${found:-nothing}" && failed=1
    fi
}

guard='signal 139'
outside="$guard|a byte next to a lent slice or number changed"
entry='not the (entry|attribute) of this headword|look up after the change has the wrong entry'
reader='the second reader has another number'

try text-one-byte-longer 'an output byte past the answer changed'
try zero-past-text-slice "$outside"
try zero-before-text-slice "$outside"
try writes-past-work "$outside"
try byte-next-to-image "$outside"
try reads-past-image "$guard"
try reads-before-image "$guard"
try reads-past-headword "$guard"
try neighbours-text "$entry"
try neighbours-attribute "$entry"
try inserted-text-cut "$entry"
try length-on-absent 'an output slice or lent number changed'
try length-on-refusal 'an output slice or lent number changed'
try headword-before-14 'an output slice or lent number changed'
try refused-image-touched 'the image slice changed'
try check-writes-image 'the image slice changed'
try argument-lowered 'the headword argument changed'
try work-not-zeroed 'the working slice is not all zero'
try work-zeroed-on-2 'the working slice was touched'
try past-L-touched 'bytes past L changed'
try create-clears-all 'bytes past L changed'
try optimise-keeps-bytes 'what was given up is not zero'
try optimise-index-longer 'optimising made the index longer'
try optimise-run-longer 'optimising made more data blocks'
try optimise-15-none-free '15 is never given by optimise'
try empty_block-written 'a header byte changed'
try counts-at-4 'a header byte changed'
try ident-of-4-cleared 'a header byte changed'
try ident-altered 'the identifier changed'
try ident-high-byte-first 'not the bytes of an empty image'
try ident-for-4 'not the bytes of an empty image'
try create-always-4 'not the bytes of an empty image'
try create-takes-6 'another number applies first'
try create-3-before-1 'another number applies first'
try create-writes-on-3 'the image slice changed'
try L-on-3 'an output slice or lent number changed'
try check-takes-6 "$reader"
try 5-read-as-4 "$reader"
try os-of-5-at-171 "$reader"
try os-of-4-at-167 "$reader"
try update-twice 'update_count did not rise by one'
try optimise-drops-first 'the number of headwords is wrong'
try other-text-changed 'an entry not concerned changed'
try front-in-a-pair 'a written front is not the largest that ends inside no pair'
try nword-kept "check refuses|$reader"
try L-one-block-more "check refuses|$reader"
try accepts-10 "$reader"
try 9-as-10 "$reader"
try free-blocks-guessed 'the second reader has other free blocks'
try absent-always 'another number applies first|look up after the change has the wrong number'
try walk-12-for-empty 'another number applies first'
try 15-without-placing 'the change has room in the slice'
try returns-16 'the call may not return this number'
try work-decides 'the same call leaves another image'
try never-ends 'signal 154'
if WRONG= ./drive 1 20000 >out 2>&1; then
    echo "wrong engines: $noticed noticed; the right one: $(cat out)"
else
    echo "THE RIGHT ENGINE IS REPORTED" && cat out && failed=1
fi
exit $failed
