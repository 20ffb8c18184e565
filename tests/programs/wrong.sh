#!/bin/sh
# wrong.sh FOLDER: the tests notice wrong programs. Each is made from the right one by one edit, and must differ from the
# stored runs, fail under the sanitizers, or fail a test. Engines that write wrong fronts are made from the baseline, which
# must write the right ones.
set -eu
here=$(cd "$(dirname "$0")" && pwd)
root=$here/../..
work=$1/wrong
mkdir "$work"
count=0

# made NAME FILE EDIT [FLAG..]: builds the programs with a sed edit of one file, and goes to a folder for its runs
made() {
    name=$1 file=$2 edit=$3
    shift 3
    mkdir -p "$work/$name/programs" "$work/$name/run"
    cp "$root"/programs/* "$work/$name/programs"
    ln -s "$root/include" "$root/lib" "$work/$name"
    sed -i "$edit" "$work/$name/programs/$file"
    ! cmp -s "$work/$name/programs/$file" "$root/programs/$file" || missed "the edit changes nothing"
    PDIC_LIB=${PDIC_LIB:-$root/target/staticlib} "$work/$name/programs/build.sh" "$work/$name" "$@" -O0 -w || missed "it is not built"
    cd "$work/$name/run"
}
missed() {
    echo "wrong program $name: $1" >>"$work/missed"
    exit
}
told_otherwise() {
    story=$1
    shift
    made "$@"
    "$here/story.sh" "$story" "$work/$name" >"$work/$name.txt" 2>&1 || true
    ! cmp -s "$work/$name.txt" "$here/stories/$story.txt" || missed "not noticed"
}
failed_in_test() {
    test=$1
    shift
    made "$@"
    ! "$here"/$test "$work/$name" >"$work/$name.txt" 2>&1 || missed "not noticed"
}
# fronts_of NAME EDIT: tells the story on fronts by programs that have the edited baseline as their engine
fronts_of() {
    name=$1
    mkdir -p "$work/$name/run"
    sed "$2" "$root/bench/baseline.c" >"$work/$name/baseline.c"
    gcc -c -w -o "$work/$name/baseline.o" "$work/$name/baseline.c"
    ar rc "$work/$name/libpdic.a" "$work/$name/baseline.o"
    PDIC_LIB=$work/$name "$root/programs/build.sh" "$work/$name" -O0 -w || missed "it is not built"
    cd "$work/$name/run"
    "$here/story.sh" characters "$work/$name" >"$work/$name.txt" 2>&1 || true
}
fronted_otherwise() {
    fronts_of "$@"
    ! cmp -s "$work/$name.txt" "$here/stories/characters.txt" || missed "not noticed"
}
fronted_as_stored() {
    fronts_of "$@"
    cmp -s "$work/$name.txt" "$here/stories/characters.txt" || missed "it differs from the stored runs"
}
# Two wrong programs are tried at a time.
pace() {
    count=$((count + 1))
    [ $((count % 2)) -eq 0 ] && wait || true
}
# in_story STORY NAME FILE EDIT [FLAG..]: its runs must differ from the stored ones
in_story() {
    told_otherwise "$@" &
    pace
}
# in_test TEST NAME FILE EDIT [FLAG..]: the test, with its first arguments if it has such, must fail
in_test() {
    failed_in_test "$@" &
    pace
}
# in_engine NAME EDIT: the runs with this engine must differ from the stored ones
in_engine() {
    fronted_otherwise "$@" &
    pace
}
sanitized='-fsanitize=address,undefined -fno-sanitize-recover=all'

in_story fill output-with-absent fill.c 's/return status == STATUS_DONE ? \(write_filled.*)\) : status;/\1; return status;/'
in_story fill text-of-neighbour terms.c 's/compare_bytes(sorted\[i - 1\]->headword, sorted\[i\]->headword) != 0/sorted[i - 1]->headword.len > 200/'
in_story fill absent-not-counted terms.c 's/else if (status == STATUS_DONE) status = STATUS_ABSENT;//'
in_story refusals refusal-ignored book.c 's/if (number == PDIC_DONE .. test_seal/if (number >= PDIC_DONE \&\& test_seal/'
in_story glossary never-grows book.c 's/if (b->size >= PDIC_MAX_IMAGE) return 0;/if (b->size) return 0;/'
in_story glossary write-error-ignored glossary.c 's/if (fflush(stdout) == 0 .*return status;/return status;/'
in_story lists twice-accepted lists.c 's/if (y->headword.len == 0 || .*continue;/continue;/'
in_story glossary filed-one-short near.c 's/filed\[PDIC_MAX_HEADWORD + 1\]/filed[PDIC_MAX_HEADWORD]/' $sanitized
in_story fill filled-leaks fill.c 's/^    free(out);$//' $sanitized
in_story fill text-after-end terms.c 's/terms->texts_len += found->text_len;/terms->texts_len += found->text_len + 4000;/' $sanitized
in_story fill three-close marks.c 's/} else if (run == 2) keep_mark/} else if (run >= 2) keep_mark/'
in_story fill three-open marks.c "s/if (\*r->at == '<' && run == 2) {/if (*r->at == '<' \&\& run >= 2) {/"
in_story fill stray-close-kept marks.c 's/else if (run >= 2) fault(r, r->at, ">> closes no mark.*/else if (run >= 99) fault(r, r->at, "");/'
in_story fill mark-in-mark marks.c "s/if (byte == '<') {/if (byte == '<' \&\& run > 2) {/"
in_story fill escapes-kept bytes.c "s/if (byte == '%') {/if (byte == 0) {/"
in_story fill output-over-manual fill.c 's/if (test_output(o) != 0 || /if (/'
in_story fill empty-text-taken terms.c 's/ || (t->text_len == 0 .. !takes_empty);/ || (t->text_len == 0 \&\& takes_empty > 1);/'
in_story fill sign-as-term fill.c 's/print_count(stderr, m->marks.count - signs, "mark")/print_count(stderr, m->marks.count, "mark")/'
in_story fill faults-written fill.c 's/&m->marks) > 0) return -1;/\&m->marks) > 99) return -1;/'
in_story fill told-without-end marks.c 's/if (r->faults++ >= MOST_TOLD) return;/r->faults++;/'
in_story fill utf-16-taken fill.c 's/as_utf16 ? m->content : memchr/as_utf16 ? NULL : memchr/'
in_story fill zero-byte-taken fill.c 's/as_utf16 ? m->content : memchr(m->content, 0, m->len)/as_utf16 ? m->content : NULL/'
in_story fill unmarked-taken fill.c 's/m->marks.count > 0 || o->takes_unmarked/m->marks.count > 0 || !o->takes_unmarked/'
in_story fill summary-with-quiet fill.c 's/else if (!is_quiet) print_summary/else if (is_quiet >= 0) print_summary/'
in_story fill blanks-not-folded alike.c 's/if (!is_blank || !is_after_blank) end = /if (!is_blank || is_after_blank < 2) end = /'
in_story fill pairs-in-half alike.c 's/return is_pair && b.len >= 2 .*/return is_pair \&\& b.len > 999 ? 2 : 1;/'
in_test growth.sh search-restarts marks.c "s/^    uint8_t \*open = r->at;$/    uint8_t *open = r->at; if (memchr(open, 0, (size_t)(r->end - open))) return;/"
in_test crash.sh written-in-place file.c 's/int fd = open_beside(path, &beside);/beside = copy_of(path, strlen(path)); int fd = open(path, O_WRONLY | O_TRUNC | O_CREAT, 0666);/;s/|| rename_beside(beside, path, is_new) != 0//;s/unlink(beside);/;/'
in_test crash.sh unfinished-kept file.c 's/^    remove_stale(path);$//'
in_test together.sh not-locked file.c 's/while (flock(fd, LOCK_EX | LOCK_NB) != 0)/while (0)/'
in_test together.sh lock-of-a-replaced-file file.c 's/if (held == HELD \&\& is_same(h->fd, h->path)) return HELD;/if (held == HELD) return HELD;/'
in_test together.sh made-over-another file.c 's/if (!is_new) return rename/if (is_new >= 0) return rename/'
in_test together.sh sealed-while-changed glossary.c 's/0, 0, WORDS, CHANGES, 0, seal }/0, 0, WORDS, READS, 0, seal }/;s/c->use == CHANGES \&\& (value = value_of(words, "--wait", taken))/(value = value_of(words, "--wait", taken))/'
in_test together.sh new-file-written-over file.c 's/if (!is_same(h->fd, h->path)) return fault/if (h->fd < -1) return fault/'
in_story files told-in-the-dictionary glossary.c 's/^    open_standard_files();$//'
in_story files second-name-parted file.c 's/if (file.st_nlink > 1) return fault/if (file.st_nlink > 99) return fault/'
in_story files written-but-told-failed glossary.c 's/return is_saved ? status : STATUS_REFUSED;/return STATUS_REFUSED;/'
in_story files link-replaced file.c 's/h->path = realpath(path, NULL);/h->path = copy_of(path, strlen(path));/'
in_story files output-link-replaced file.c 's/char \*real = realpath(path, NULL);/char *real = copy_of(path, strlen(path));/'
in_story files mode-lost file.c 's/return fchmod(fd, .*/return 0;/'
in_story files read-only-replaced file.c 's/if ((file->st_mode \& 0222) == 0) return fault("it may only be read");//'
in_story files fifo-replaced file.c 's/if (!S_ISREG(old.st_mode)) return write_straight(path, bytes, len);//'
in_story files living-file-removed file.c 's/ \&\& flock(fd, LOCK_EX | LOCK_NB) == 0) unlink/) unlink/'
in_story files waits-not file.c 's/if (milliseconds() >= until) {/if (1) {/'
in_story files seal-not-tested book.c 's/ \&\& test_seal(.*) != SEAL_BROKEN)/)/'
in_story files sealed-changed book.c 's/if (!is_sealed(path) \&\& read_held/if (read_held/'
in_story lists blank-stored lists.c 's/if (has_unseen_end(written)) /if (0) /'
in_story glossary blank-added glossary.c 's/if (unseen) {/if (0) {/'
in_story lists mark-stored lists.c 's/ == 0 ? 3 : 0;/ == 0 ? 0 : 0;/'
in_story lists first-fault-alone lists.c 's/MOST_TOLD = 20/MOST_TOLD = 1/'
in_story lists inserted-with-faults lists.c 's/    int failed = tell_faults(&r);/    tell_faults(\&r); int failed = 0;/'
in_test 'exchange.py 1 10' percent-not-escaped lists.c "s/ || b.at\[i\] == '%')/)/"
in_test 'exchange.py 1 10' attribute-not-dumped lists.c 's/(unsigned)e->attribute/0x80u/'
in_story glossary attribute-lost glossary.c 's/is_stored ? stored.attribute : PDIC_PLAIN/PDIC_PLAIN/'
in_story glossary some-deleted glossary.c 's/return status == STATUS_DONE ? save(t) : status;/return save(t), status;/'
in_story glossary dry-run-writes glossary.c 's/return o->dry_run = 1, NULL;/return NULL;/'
in_story versions identifier-backwards glossary.c 's/k->ident = \(strtoull(digits, NULL, 16)\);/k->ident = __builtin_bswap64(\1);/'
in_story versions identifier-shown-backwards book.c 's/b->image\[at + i - 1\]/b->image[at + size - i]/'
in_story versions identifier-always-the-same book.c 's/return getrandom(.*/return k->ident = 0x0123456789ABCDEF, 0;/'
in_story versions identifier-from-the-clock book.c 's/return getrandom(.*/srand(time(NULL)); return k->ident = (uint64_t)rand() << 32 | rand(), 0;/;s/^#include <stdlib.h>/#include <stdlib.h>\n#include <time.h>/'
in_story versions identifier-not-drawn book.c 's/ == (ssize_t)sizeof k->ident ? 0 : -1/ > 0 ? 0 : 0/'
in_story versions identifier-of-version-4 glossary.c 's/\.made\.has_ident \&\& t->told\.made\.version != PDIC_FORMAT_5/.made.has_ident > 1/'
in_story versions identifier-of-15-digits glossary.c 's/strlen(digits) != IDENT_DIGITS || strspn(\(.*\)) != IDENT_DIGITS)/strspn(\1) != strlen(digits))/'
in_story versions format-ignored glossary.c "s/digits\[0\] == '4' ? PDIC_FORMAT_4 : PDIC_FORMAT_5/PDIC_FORMAT_4/"
in_test 'damaged.sh 60' identifier-altered book.c 's/^    return replace_held(\&b->file, /    b->image[PDIC_AT_IDENT]++;\n    return replace_held(\&b->file, /'
fronted_as_stored none-but-the-baseline '' &
in_engine front-inside-a-pair 's/return c - ((c - i) & 1);/return c;/'
in_engine front-before-any-first-byte 's/return c - ((c - i) & 1);/return c - (c > i);/'
in_engine front-of-whole-runs 's/return c - ((c - i) & 1);/return i;/'
in_engine half-width-kana-as-first-bytes 's/b <= 0x9F) || (b >= 0xE0/b <= 0xDF) || (b >= 0xE0/'
in_engine no-first-byte-FC 's/b <= 0xFC/b < 0xFC/'
wait
[ ! -e "$work/missed" ] || { cat "$work/missed"; exit 1; }
echo "$count wrong programs noticed"
