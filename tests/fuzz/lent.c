/* Everything that is lent for one call, each part in a guarded buffer of its own, and the call. */
#include <string.h>

#include "fuzz.h"

const char *const call_names[KINDS] = {"create", "check", "look up", "walk", "insert", "delete", "optimise"};

void make_lent(lent *l) {
    make_buffer(&l->image, MOST_SLICE);
    make_buffer(&l->work, MOST_SLICE);
    make_buffer(&l->word, MOST_WORD);
    make_buffer(&l->text, MOST_TEXT);
    make_buffer(&l->word_out, MOST_WORD);
    make_buffer(&l->text_out, MOST_TEXT);
    for (int i = 0; i < NUMBERS; i++) make_buffer(&l->number[i], sizeof(uint64_t));
}

/* An attribute is one byte, every other lent number eight. */
static size_t number_size(const call *c, int which) {
    return which == NUMBER_D && (c->kind == LOOK_UP || c->kind == WALK) ? 1 : sizeof(uint64_t);
}

/* Image and arguments are copied to their buffers; all else gets the fill byte. */
void prepare(lent *l, const call *c, const uint8_t *image) {
    unsigned sides = l->sides;
    memcpy(lend(&l->image, c->image_size, sides & 1, l->fill), image, c->image_size);
    lend(&l->work, c->work_size, sides >> 1 & 1, l->fill);
    memcpy(lend(&l->word, c->word_size, sides >> 2 & 1, l->fill), c->word, c->word_size);
    memcpy(lend(&l->text, c->text_size, sides >> 3 & 1, l->fill), c->text, c->text_size);
    lend(&l->word_out, c->word_out_size, sides >> 4 & 1, l->fill);
    lend(&l->text_out, c->text_out_size, sides >> 5 & 1, l->fill);
    for (int i = 0; i < NUMBERS; i++) lend(&l->number[i], number_size(c, i), sides >> 6 & 1, l->fill);
}

static void *number(const lent *l, int which) { return l->number[which].at; }

/* A lent number after a call. */
size_t number_at(const lent *l, int which) {
    uint64_t value;
    if (l->number[which].size == 1) return l->number[which].at[0];
    memcpy(&value, l->number[which].at, sizeof value);
    return (size_t)value;
}

uint32_t perform(const lent *l, const call *c) {
    uint8_t *image = l->image.at, *work = l->work.at, *word = l->word.at;
    size_t size = l->image.size, len = c->len, work_size = l->work.size, word_size = l->word.size;
    switch (c->kind) {
    case CREATE:
        return pdic_create(image, size, c->version, c->ident, number(l, NUMBER_A));
    case CHECK:
        return pdic_check(image, size, len, number(l, NUMBER_A), number(l, NUMBER_B), number(l, NUMBER_C),
                          number(l, NUMBER_D));
    case LOOK_UP:
        return pdic_look_up(image, size, len, word, word_size, l->text_out.at, l->text_out.size,
                            number(l, NUMBER_D), number(l, NUMBER_B));
    case WALK:
        return pdic_walk(image, size, len, word, word_size, c->above, l->word_out.at, l->word_out.size,
                         l->text_out.at, l->text_out.size, number(l, NUMBER_D), number(l, NUMBER_A),
                         number(l, NUMBER_B));
    case INSERT:
        return pdic_insert(image, size, len, work, work_size, word, word_size, c->attribute, l->text.at,
                           l->text.size, number(l, NUMBER_A));
    case DELETE:
        return pdic_delete(image, size, len, work, work_size, word, word_size, number(l, NUMBER_A));
    default:
        return pdic_optimise(image, size, len, work, work_size, number(l, NUMBER_A));
    }
}
