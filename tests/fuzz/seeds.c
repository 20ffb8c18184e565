/* Images made by the engine itself: created, filled, thinned out and optimised; each in version 4 and in version 5. */
#include <stdio.h>
#include <stdlib.h>
#include <string.h>

#include "fuzz.h"

enum { ROOM = 1 << 17 };

/* What a seed is made of: how many entries, lengths, how many of them are deleted again, and whether it is optimised. Of the
 * last row two need an index block more when the first entry is deleted. */
typedef struct {
    uint16_t entries, word_least, word_most, text_most, deleted;
    uint8_t letters, optimised;
} recipe;

static const recipe recipes[SEEDS / 2] = {
    {0, 1, 1, 0, 0, 2, 0},         {1, 3, 3, 3, 0, 3, 0},         {2, 3, 5, 3, 0, 3, 0},         {1, 1, 1, 3000, 0, 1, 0},
    {3, 1, 3, 10, 3, 4, 0},        {3, 1, 3, 10, 3, 4, 1},        {8, 1, 6, 40, 0, 3, 0},        {8, 1, 6, 300, 3, 3, 0},
    {8, 1, 6, 300, 3, 3, 1},       {12, 1, 4, 700, 5, 3, 0},      {12, 1, 4, 1100, 6, 3, 0},     {6, 240, 248, 20, 0, 2, 0},
    {12, 240, 248, 1000, 5, 2, 0}, {12, 240, 248, 1000, 5, 2, 1}, {20, 100, 248, 600, 9, 3, 0},  {20, 100, 248, 600, 20, 3, 0},
    {30, 1, 10, 200, 10, 3, 0},    {30, 1, 10, 60, 0, 3, 1},      {40, 1, 248, 500, 12, 5, 0},   {40, 1, 248, 500, 12, 5, 1},
    {6, 1, 5, 3000, 2, 5, 0},      {10, 1, 5, 3000, 5, 5, 0},     {60, 1, 8, 400, 25, 5, 0},     {60, 200, 248, 60, 20, 4, 0},
    {100, 1, 8, 30, 20, 5, 0},     {150, 1, 12, 100, 30, 5, 0},   {210, 1, 8, 60, 0, 20, 0},     {150, 1, 12, 100, 60, 5, 1},
    {3, 1, 248, 3, 0, 1, 1},       {7, 1, 248, 500, 0, 1, 1},     {4, 1, 248, 400, 0, 1, 1},     {40, 248, 248, 3, 2, 3, 0},
};

static uint8_t image[ROOM], working[ROOM];
static size_t length;

static void done(uint32_t number, const char *what) {
    if (number == PDIC_DONE || number == PDIC_ABSENT) return;
    printf("seed: %s was refused with %u\n", what, number);
    exit(1);
}

/* Letters from a, half-width kana, two-byte characters, or lead bytes: a byte of a pair may be left at the end, and the second
 * byte of a pair may be a lead byte. */
static size_t draw_word(source *r, const recipe *p, uint8_t *word) {
    static const uint8_t bases[8][2] = {{'a', 'a'},   {'a', 'a'},   {'a', 'a'},   {'a', 'a'},
                                        {0xC1, 0xC1}, {0x82, 0xA0}, {0xE0, 0x40}, {0x81, 0x81}};
    size_t size = p->word_least + below(r, p->word_most - p->word_least + 1u);
    const uint8_t *base = bases[below(r, 8)];
    for (size_t i = 0; i < size; i++) word[i] = (uint8_t)(base[i % 2] + below(r, p->letters));
    return size;
}

static void insert(source *r, const recipe *p) {
    uint8_t word[256], text[PDIC_MAX_TEXT];
    size_t word_size = draw_word(r, p, word), text_size = below(r, p->text_most + 1u);
    if (below(r, 4) == 0) text_size = p->text_most;
    memset(text, 't', text_size);
    done(pdic_insert(image, ROOM, length, working, ROOM, word, word_size, below(r, 4) ? 0x80 : 0xC3, text, text_size,
                     &length), "insert");
}

/* Deletes the entry at or after a random headword, else the first of all. */
static void delete(source *r, const recipe *p) {
    uint8_t word[256], found[PDIC_MAX_HEADWORD], text[PDIC_MAX_TEXT], attribute;
    size_t size = draw_word(r, p, word), found_size, text_size;
    uint32_t number = pdic_walk(image, ROOM, length, word, size, 0, found, sizeof found, text, sizeof text, &attribute,
                                &found_size, &text_size);
    if (number == PDIC_ABSENT)
        number = pdic_walk(image, ROOM, length, word, 0, 0, found, sizeof found, text, sizeof text, &attribute,
                           &found_size, &text_size);
    done(number, "walk");
    if (number == PDIC_DONE)
        done(pdic_delete(image, ROOM, length, working, ROOM, found, found_size, &length), "delete");
}

static void make_seed(const recipe *p, seed *to, uint64_t number, uint8_t version) {
    source r = {number * 977};
    done(pdic_create(image, ROOM, version, number * 0x9E3779B97F4A7C15u, &length), "create");
    for (size_t i = 0; i < p->entries; i++) insert(&r, p);
    for (size_t i = 0; i < p->deleted; i++) delete(&r, p);
    if (p->optimised) done(pdic_optimise(image, ROOM, length, working, ROOM, &length), "optimise");
    if (length > MOST_IMAGE) length = MOST_IMAGE;
    to->size = length;
    to->bytes = malloc(length);
    if (to->bytes == NULL) exit(2);
    memcpy(to->bytes, image, length);
}

void make_seeds(seed *seeds) {
    for (size_t i = 0; i < SEEDS; i++) make_seed(&recipes[i / 2], &seeds[i], i / 2 + 1, i % 2 ? 5 : 4);
}
