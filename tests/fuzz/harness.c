/* Runs the calls of one input on the engine and tests every promise after each (facts.c).
 *
 * Each call is made twice, on two sets of guarded buffers with opposite sides against the guards and with other
 * bytes in what is not an argument: the second must give the same. */
#include <stdlib.h>
#include <string.h>

#include "fuzz.h"

tally seen[VERSIONS];

static lent first, second;
static state now;
static list lists[2];
static call made, asked;
static reading own;

static void set_up(void) {
    static int ready;
    if (ready) return;
    ready = 1;
    make_lent(&first);
    make_lent(&second);
    now.entries = &lists[0];
}

/* A call of the harness's own on `image`, in the second set of buffers. */
static uint32_t ask(int kind, const uint8_t *image, size_t size, size_t len) {
    asked.kind = kind;
    asked.image_size = size;
    asked.len = len;
    asked.work_size = 0;
    asked.text_size = 0;
    asked.word_out_size = PDIC_MAX_HEADWORD;
    asked.text_out_size = PDIC_MAX_TEXT;
    prepare(&second, &asked, image);
    return perform(&second, &asked);
}

/* Check's number, which must be that of the harness's own reader; with 0 the counts stand in the second set's lent
   numbers and the entries in `own`. */
static uint32_t ask_check(const uint8_t *image, size_t size, size_t len) {
    asked.word_size = 0;
    uint32_t number = ask(CHECK, image, size, len);
    hold(number == read_image(image, size, len, &own), &asked, number, "the second reader has another number");
    if (number != 0) return number;
    hold(number_at(&second, NUMBER_A) == own.headwords, &asked, 0, "the second reader has other headwords");
    hold(number_at(&second, NUMBER_D) == own.unused, &asked, 0, "the second reader has other free blocks");
    return number;
}

/* Takes over the entry that a walk answered; it must be above the one before it. */
static void take_entry(list *to) {
    entry *e = &to->entries[to->count];
    e->word_size = number_at(&second, NUMBER_A);
    e->text_size = number_at(&second, NUMBER_B);
    e->attribute = (uint8_t)number_at(&second, NUMBER_D);
    hold(e->word_size >= 1 && e->word_size <= PDIC_MAX_HEADWORD && e->text_size <= PDIC_MAX_TEXT, &asked, 0,
         "a length is outside its rule");
    memcpy(e->word, second.word_out.at, e->word_size);
    memcpy(e->text, second.text_out.at, e->text_size);
    hold(memchr(e->word, 0, e->word_size) == NULL && memchr(e->text, 0, e->text_size) == NULL, &asked, 0,
         "a zero byte in a headword or text");
    hold(order_of(e->word, e->word_size, asked.word, asked.word_size) > 0, &asked, 0, "headwords do not ascend");
    hold(same_entry(e, &own.entries.entries[to->count]), &asked, 0, "the second reader has another entry");
    to->count++;
}

/* Reads the whole list of an image that check has just accepted by walking, where it is not too long. */
static void read_list(list *to, const uint8_t *image, size_t size, size_t len, uint64_t headwords) {
    to->count = 0;
    to->known = headwords <= MOST_ENTRIES;
    asked.word_size = 0;
    asked.above = 1;
    while (to->known) {
        uint32_t number = ask(WALK, image, size, len);
        hold(number == 0 || number == PDIC_ABSENT, &asked, number, "an accepted image is refused");
        if (number != 0) break;
        hold(to->count < headwords, &asked, number, "more entries than headwords counted");
        take_entry(to);
        const entry *last = &to->entries[to->count - 1];
        memcpy(asked.word, last->word, last->word_size);
        asked.word_size = last->word_size;
    }
    hold(!to->known || to->count == headwords, &asked, 0, "fewer entries than headwords counted");
}

/* Check's number and the list for a length of the slice. */
static void take_len(size_t len) {
    now.len = len;
    now.entries->known = 0;
    now.verdict = ask_check(now.slice, now.size, len);
    if (now.verdict != 0) return;
    now.headwords = number_at(&second, NUMBER_A);
    read_list(now.entries, now.slice, now.size, len, now.headwords);
}

/* The changed image is accepted and counts as it must. */
static uint64_t hold_accepted(const uint8_t *image, size_t len) {
    uint32_t number = ask_check(image, now.size, len);
    hold(number == 0, &made, 0, "check refuses the changed image");
    hold_answer(&now, &second, &asked);
    uint64_t headwords = number_at(&second, NUMBER_A), old = made.kind == CREATE ? 0 : now.headwords;
    int good = made.kind == INSERT   ? headwords == old || headwords == old + 1
               : made.kind == DELETE ? headwords + 1 == old
                                     : headwords == old;
    hold(good, &made, 0, "the number of headwords is wrong");
    hold(made.kind != OPTIMISE || number_at(&second, NUMBER_D) == 0, &made, 0, "a block is free");
    return headwords;
}

/* Look up answers what was inserted, and nothing after a deletion. */
static void hold_looked_up(const uint8_t *image, size_t len) {
    if (made.kind != INSERT && made.kind != DELETE) return;
    memcpy(asked.word, made.word, made.word_size);
    asked.word_size = made.word_size;
    uint32_t number = ask(LOOK_UP, image, now.size, len);
    hold(number == (made.kind == INSERT ? 0 : PDIC_ABSENT), &made, 0, "look up after the change has the wrong number");
    if (number != 0) return;
    hold(number_at(&second, NUMBER_B) == made.text_size && number_at(&second, NUMBER_D) == made.attribute &&
             memcmp(second.text_out.at, made.text, made.text_size) == 0, &made, 0,
         "look up after the change has the wrong entry");
}

/* Optimising again changes update_count alone. */
static void hold_optimised(const uint8_t *image, size_t len) {
    asked = made;
    asked.len = len;
    prepare(&second, &asked, image);
    uint32_t number = perform(&second, &asked);
    hold_may_return(&asked, number);
    put_four(second.image.at + AT_UPDATE_COUNT, four(image + AT_UPDATE_COUNT));
    hold(number == 0 && number_at(&second, NUMBER_A) == len && memcmp(second.image.at, image, now.size) == 0, &made, 0,
         "optimising again changes the image");
}

/* What a change did to index and runs, and whether optimise had no room in the slice. */
static void count_change(const uint8_t *image) {
    tally *t = &seen[is_5(image)];
    uint32_t grown = two(image + AT_INDEX_BLOCK) - two(now.slice + AT_INDEX_BLOCK);
    uint32_t runs = moved(image, NINDEX2), runs_before = moved(now.slice, NINDEX2);
    t->full_packed += made.kind == OPTIMISE && made.len == made.image_size;
    if (made.kind != INSERT && made.kind != DELETE) return;
    t->index_grown += grown > 0;
    t->run_moved += grown > 0 && runs > 1;
    t->run_split += runs > runs_before;
    t->run_gone += runs < runs_before;
}

/* The changed image in the first set of buffers becomes the state. */
static void take_changed(void) {
    list *after = &lists[now.entries == &lists[0]];
    size_t len = number_at(&first, NUMBER_A);
    const uint8_t *image = first.image.at;
    now.size = made.image_size; /* create may have been lent less */
    uint64_t headwords = hold_accepted(image, len);
    count_change(image);
    hold_looked_up(image, len);
    if (made.kind == INSERT && own.entries.known) seen[is_5(image)].whole_fronts += hold_fronts(&own.entries, &made);
    if (made.kind == OPTIMISE) hold_optimised(image, len);
    read_list(after, image, now.size, len, headwords);
    if (made.kind != CREATE && now.entries->known && after->known) hold_step(now.entries, after, &made);
    memcpy(now.slice, image, now.size);
    now.entries = after;
    now.len = len;
    now.headwords = headwords;
    now.verdict = 0;
}

/* 15 is due: with room enough the change is done, and its image is longer than the slice. */
static void hold_15(void) {
    asked = made;
    asked.image_size = asked.work_size = MOST_SLICE;
    memset(now.slice + now.size, 0, MOST_SLICE - now.size);
    prepare(&second, &asked, now.slice);
    uint32_t number = perform(&second, &asked);
    hold(number == 0 && number_at(&second, NUMBER_A) > made.image_size, &made, 15, "the change has room in the slice");
}

static int same_buffer(const buffer *a, const buffer *b, size_t size) { return memcmp(a->at, b->at, size) == 0; }

/* The same call with other sides against the guards and other contents of what is only written. */
static void hold_same_again(uint32_t number) {
    prepare(&second, &made, now.slice);
    uint32_t again = perform(&second, &made);
    hold(again == number, &made, again, "the same call returns another number");
    hold_bytes(&now, &second, &made, again);
    hold(same_buffer(&first.image, &second.image, made.image_size), &made, number, "the same call leaves another image");
    if (number != 0 || made.kind == CHECK) return;
    if (made.kind == LOOK_UP || made.kind == WALK) {
        hold(same_buffer(&first.text_out, &second.text_out, number_at(&first, NUMBER_B)), &made, 0,
             "the same call gives another text");
        hold(number_at(&first, NUMBER_B) == number_at(&second, NUMBER_B), &made, 0, "the same call gives another length");
    } else {
        hold(number_at(&first, NUMBER_A) == number_at(&second, NUMBER_A), &made, 0, "the same call gives another L");
    }
}

static int version_concerned(void) {
    return made.kind == CREATE ? made.version == 5 : now.size >= 256 && is_5(now.slice);
}

static void run_call(void) {
    size_t len = now.len;
    if (made.len != len) take_len(made.len);
    prepare(&first, &made, now.slice);
    uint32_t number = perform(&first, &made);
    hold_number(&now, &made, number);
    hold_bytes(&now, &first, &made, number);
    hold_same_again(number);
    seen[version_concerned()].returned[made.kind][number]++;
    if (number == 15) hold_15();
    if (number == 0 && (made.kind >= INSERT || made.kind == CREATE)) take_changed();
    else if (now.len != len) take_len(len);
}

int LLVMFuzzerTestOneInput(const uint8_t *data, size_t size) {
    set_up();
    size_t calls = decode_state(&now, data, size);
    first.sides = size > SIDES ? data[SIDES] : 0;
    second.sides = ~first.sides;
    first.fill = size > FILL ? data[FILL] | 1 : 1;
    second.fill = first.fill ^ 0xC6;
    take_len(now.len);
    if (now.verdict == 0) seen[is_5(now.slice)].accepted++;
    for (size_t i = 0; i < calls; i++) {
        decode_call(&made, &now, data, size, i);
        run_call();
    }
    return 0;
}
