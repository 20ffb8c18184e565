/* What include/pdic.h and the papers promise of a call, tested after it. */
#include <stdio.h>
#include <stdlib.h>
#include <string.h>

#include "fuzz.h"

/* A fact that does not hold ends the program with the call, the number and the fact. */
void hold(int fact, const call *c, uint32_t number, const char *what) {
    if (fact) return;
    fprintf(stderr, "BROKEN: %s, number %u: %s\n", call_names[c->kind], number, what);
    abort();
}

/* The entry that a look up or a walk must answer, or that a deletion removes; NULL: none. */
const entry *answer(const state *s, const call *c) {
    if (!s->entries->known) return NULL;
    for (size_t i = 0; i < s->entries->count; i++) {
        const entry *e = &s->entries->entries[i];
        int order = order_of(e->word, e->word_size, c->word, c->word_size);
        if (c->kind == WALK ? c->word_size == 0 || order > 0 || (order == 0 && !c->above) : order == 0) return e;
    }
    return NULL;
}

static int changes(const call *c) { return c->kind >= INSERT; }

static int bad_word(const call *c) {
    if (c->kind < LOOK_UP || c->kind == OPTIMISE) return 0;
    return (c->word_size == 0 && c->kind != WALK) || c->word_size > PDIC_MAX_HEADWORD ||
           memchr(c->word, 0, c->word_size) != NULL;
}

static int bad_text(const call *c) {
    return c->kind == INSERT && (c->text_size > PDIC_MAX_TEXT || memchr(c->text, 0, c->text_size) != NULL ||
                                 !(c->attribute & 0x80) || c->attribute & 0x10);
}

/* The number that a call must return, by check's number for the image and by its list. Row 15 is not foretold. */
uint32_t foretold(const state *s, const call *c) {
    if (c->kind == CREATE) return c->image_size < 256 ? 1 : c->version == 4 || c->version == 5 ? 0 : 3;
    if (s->verdict == 1) return 1;
    if (changes(c) && c->work_size < c->image_size) return 2;
    if (s->verdict != 0) return s->verdict;
    if (changes(c) && s->slice[AT_VERSION] > 15) return 11;
    if (bad_word(c)) return 12;
    if (bad_text(c)) return 13;
    if (c->kind == CHECK || c->kind == INSERT || c->kind == OPTIMISE) return 0;
    if (!s->entries->known) return UNKNOWN;
    const entry *e = answer(s, c);
    if (e == NULL) return PDIC_ABSENT;
    if (c->kind == DELETE) return 0;
    int short_word = c->kind == WALK && c->word_out_size < e->word_size;
    return short_word || c->text_out_size < e->text_size ? 14 : 0;
}

int may_return(int kind, uint32_t number) {
    static const uint32_t may[KINDS] = {0x000B, 0x07FB, 0x57FB, 0x57FB, 0xBFFF, 0x9FFF, 0x0FFF}; /* bit n: n */
    if (number == PDIC_ABSENT) return kind == LOOK_UP || kind == WALK || kind == DELETE;
    return number < 16 && may[kind] >> number & 1;
}

/* A number that the call may return: of optimise 0 to 11, and "15 is never given by optimise". */
void hold_may_return(const call *c, uint32_t number) {
    hold(c->kind != OPTIMISE || number != 15, c, number, "15 is never given by optimise");
    hold(may_return(c->kind, number), c, number, "the call may not return this number");
}

/* A number that the call may return, and the one foretold. */
void hold_number(const state *s, const call *c, uint32_t number) {
    hold_may_return(c, number);
    uint32_t wanted = foretold(s, c);
    int may_be_15 = number == 15 && (c->kind == INSERT || c->kind == DELETE) && (wanted == 0 || wanted == UNKNOWN);
    hold(number == wanted || may_be_15 || (wanted == UNKNOWN && (number == 0 || number >= 14)), c, number,
         "another number applies first");
}

static int buffers_kept_around(const lent *l) {
    int kept = only_lent_part_changed(&l->image) && only_lent_part_changed(&l->work) &&
               only_lent_part_changed(&l->word) && only_lent_part_changed(&l->text) &&
               only_lent_part_changed(&l->word_out) && only_lent_part_changed(&l->text_out);
    for (int i = 0; i < NUMBERS; i++) kept = kept && only_lent_part_changed(&l->number[i]);
    return kept;
}

static int filled(const buffer *b, size_t from, uint8_t fill) { return all_bytes(b->at + from, b->size - from, fill); }

static int outputs_kept(const lent *l) {
    int kept = filled(&l->word_out, 0, l->fill) && filled(&l->text_out, 0, l->fill);
    for (int i = 0; i < NUMBERS; i++) kept = kept && filled(&l->number[i], 0, l->fill);
    return kept;
}

/* No call alters the identifier of a version 5 image. */
static int ident_kept(const state *s, const lent *l, const call *c) {
    if (c->kind == CREATE || s->verdict != 0 || !is_5(s->slice)) return 1;
    return memcmp(l->image.at + AT_IDENT, s->slice + AT_IDENT, 8) == 0;
}

/* The header keeps its bytes, but for the fields that a change names; update_count rose by one. */
static int header_kept(const uint8_t *before, const uint8_t *after) {
    const uint8_t *at = moved_to[is_5(before)];
    uint8_t wanted[256];
    memcpy(wanted, before, 256);
    memcpy(wanted + AT_INDEX_BLOCK, after + AT_INDEX_BLOCK, 2);
    memcpy(wanted + AT_NWORD, after + AT_NWORD, 4);
    for (int field = EMPTY_BLOCK2; field <= NBLOCK2; field++) memcpy(wanted + at[field], after + at[field], 4);
    put_four(wanted + AT_UPDATE_COUNT, four(before + AT_UPDATE_COUNT) + 1);
    return memcmp(wanted, after, 256) == 0;
}

/* The 256 bytes of create. */
static int is_empty_image(const uint8_t *image, const call *c) {
    uint8_t wanted[256] = {0};
    put_two(wanted + AT_VERSION, c->version == 5 ? 0x0500 : 0x0400);
    put_two(wanted + 142, 248);
    put_two(wanted + 144, 3000);
    put_two(wanted + 146, 256);
    put_two(wanted + 150, 256);
    put_two(wanted + 154, 0xFFFF);
    wanted[166] = 1;
    put_four(wanted + moved_to[c->version == 5][EMPTY_BLOCK2], 0xFFFFFFFF);
    if (c->version == 5) put_eight(wanted + AT_IDENT, c->ident);
    return memcmp(wanted, image, 256) == 0;
}

/* "An accepted image never needs a longer index or more data blocks when packed." What is given up is zero. */
static void hold_packed(const state *s, const uint8_t *image, size_t len, const call *c) {
    size_t index = two(image + AT_INDEX_BLOCK), index_before = two(s->slice + AT_INDEX_BLOCK);
    hold(index <= index_before, c, 0, "optimising made the index longer");
    hold(len / 256 - index <= c->len / 256 - index_before, c, 0, "optimising made more data blocks");
    hold(all_bytes(image + len, c->len - len, 0), c, 0, "what was given up is not zero");
}

/* The slice after a change that was done. */
static void hold_slice(const state *s, const lent *l, const call *c) {
    size_t len = number_at(l, NUMBER_A), old = c->kind == CREATE ? 256 : c->len, past = len > old ? len : old;
    const uint8_t *image = l->image.at;
    hold(len >= 256 && len % 256 == 0 && len <= c->image_size, c, 0, "the new L is no length of an image in the slice");
    hold(memcmp(image + past, s->slice + past, c->image_size - past) == 0, c, 0, "bytes past L changed");
    if (c->kind == CREATE) {
        hold(len == 256 && is_empty_image(image, c), c, 0, "not the bytes of an empty image");
        return;
    }
    hold(header_kept(s->slice, image), c, 0, "a header byte changed that must not, or update_count did not rise by one");
    hold(c->kind == OPTIMISE ? len <= old : len >= old, c, 0, "L shrank, or grew by optimising");
    if (c->kind == OPTIMISE) hold_packed(s, image, len, c);
}

static void hold_work(const lent *l, const call *c, uint32_t number) {
    int touched = changes(c) && number != 1 && number != 2;
    hold(filled(&l->work, 0, touched ? 0 : l->fill), c, number,
         touched ? "the working slice is not all zero" : "the working slice was touched");
}

/* Every lent byte after a call; the answers of reading calls are in hold_answer. */
void hold_bytes(const state *s, const lent *l, const call *c, uint32_t number) {
    hold(buffers_kept_around(l), c, number, "a byte next to a lent slice or number changed");
    hold(memcmp(l->word.at, c->word, c->word_size) == 0, c, number, "the headword argument changed");
    hold(memcmp(l->text.at, c->text, c->text_size) == 0, c, number, "the text argument changed");
    hold_work(l, c, number);
    hold(ident_kept(s, l, c), c, number, "the identifier changed");
    if (number == 0 && (changes(c) || c->kind == CREATE)) {
        hold_slice(s, l, c);
        hold(filled(&l->word_out, 0, l->fill) && filled(&l->text_out, 0, l->fill), c, number, "a slice not lent changed");
        return;
    }
    hold(memcmp(l->image.at, s->slice, c->image_size) == 0, c, number, "the image slice changed");
    if (number == 0) hold_answer(s, l, c);
    else hold(outputs_kept(l), c, number, "an output slice or lent number changed");
}

static void hold_counts(const lent *l, const call *c) {
    const uint8_t *image = l->image.at;
    uint64_t index = number_at(l, NUMBER_B), data = number_at(l, NUMBER_C), unused = number_at(l, NUMBER_D);
    hold(number_at(l, NUMBER_A) == four(image + AT_NWORD), c, 0, "headwords are not nword");
    hold(index == two(image + AT_INDEX_BLOCK), c, 0, "index blocks are not index_block");
    hold(256 * (1 + index + data) == c->len, c, 0, "data blocks do not fill L");
    hold(unused <= data && data - unused == moved(image, NBLOCK2), c, 0, "free blocks are not those outside runs");
}

/* An output: the answer's bytes, and behind them what was there. */
static void hold_output(const lent *l, const call *c, const buffer *b, const uint8_t *bytes, size_t size, size_t told) {
    hold(told == size, c, 0, "a length is not the answer's");
    hold(size <= b->size && memcmp(b->at, bytes, size) == 0, c, 0, "not the entry of this headword");
    hold(filled(b, size, l->fill), c, 0, "an output byte past the answer changed");
}

/* The answer of a reading call that was done. */
void hold_answer(const state *s, const lent *l, const call *c) {
    if (c->kind == CHECK) {
        hold_counts(l, c);
        return;
    }
    const entry *e = answer(s, c);
    size_t size = number_at(l, NUMBER_B);
    hold(size <= c->text_out_size && filled(&l->text_out, size, l->fill), c, 0, "an output byte past the answer changed");
    if (e == NULL) return; /* the list is not known */
    hold(number_at(l, NUMBER_D) == e->attribute, c, 0, "not the attribute of this headword");
    hold_output(l, c, &l->text_out, e->text, e->text_size, number_at(l, NUMBER_B));
    if (c->kind == WALK) hold_output(l, c, &l->word_out, e->word, e->word_size, number_at(l, NUMBER_A));
    else hold(filled(&l->number[NUMBER_A], 0, l->fill), c, 0, "a number not lent changed");
}

int same_entry(const entry *a, const entry *b) {
    return a->word_size == b->word_size && a->text_size == b->text_size && a->attribute == b->attribute &&
           memcmp(a->word, b->word, a->word_size) == 0 && memcmp(a->text, b->text, a->text_size) == 0;
}

static int concerned(const entry *e, const call *c) {
    return c->kind != OPTIMISE && order_of(e->word, e->word_size, c->word, c->word_size) == 0;
}

/* The list after a change: the one before, but for the headword concerned. */
void hold_step(const list *before, const list *after, const call *c) {
    size_t i = 0, found = 0;
    for (size_t j = 0; j < after->count; j++) {
        const entry *e = &after->entries[j];
        if (i < before->count && concerned(&before->entries[i], c)) i++;
        if (concerned(e, c)) {
            found++;
            hold(c->kind == INSERT && e->attribute == c->attribute && e->text_size == c->text_size &&
                     memcmp(e->text, c->text, e->text_size) == 0, c, 0, "the headword concerned has the wrong entry");
            continue;
        }
        hold(i < before->count && same_entry(&before->entries[i], e), c, 0, "an entry not concerned changed");
        i++;
    }
    if (i < before->count && concerned(&before->entries[i], c)) i++;
    hold(i == before->count, c, 0, "entries not concerned are missing");
    hold(found == (c->kind == INSERT), c, 0, "the headword concerned is not there, or still there");
}

static int leads(uint8_t byte) { return (byte >= 0x81 && byte <= 0x9F) || (byte >= 0xE0 && byte <= 0xFC); }

static size_t common_front(const entry *earlier, const entry *later) {
    size_t most = less(earlier->word_size, later->word_size), common = 0;
    while (common < most && earlier->word[common] == later->word[common]) common++;
    return common;
}

/* "the largest front, up to the common one, that ends inside no pair of the later headword": where the common one ends inside a
 * pair, the place before that pair. */
static size_t whole_front(const entry *earlier, const entry *later) {
    size_t common = common_front(earlier, later), at = 0;
    while (at < common) at += leads(later->word[at]) && at + 1 < later->word_size ? 2 : 1;
    return at > common ? common - 1 : common;
}

/* The fronts in the run that holds an inserted headword. Returns how many are shorter than the common one. */
uint64_t hold_fronts(const list *read, const call *c) {
    size_t inserted = 0;
    uint64_t shorter = 0;
    while (inserted < read->count && !concerned(&read->entries[inserted], c)) inserted++;
    hold(inserted < read->count, c, 0, "the headword concerned is not there");
    for (size_t i = 1; i < read->count; i++) {
        const entry *earlier = &read->entries[i - 1], *later = &read->entries[i];
        if (earlier->run != later->run || later->run != read->entries[inserted].run) continue;
        hold(later->front == whole_front(earlier, later), c, 0, "a written front is not the largest that ends inside no pair");
        shorter += later->front < common_front(earlier, later);
    }
    return shorter;
}
