/* What an input means: the slice and its length, and the calls with their arguments.
 *
 * A call's record, by byte: kind; where the headword is from; a number of two bytes for that; headword length; text
 * length; what the text is made of; attribute; sizes of the outputs, above, another L, another working slice. Create has
 * its version, identifier and slice from the same bytes. */
#include <string.h>

#include "fuzz.h"

enum { KIND, WORD_FROM, AT_LOW, AT_HIGH, WORD_SIZE, TEXT_SIZE, TEXT_OF, ATTRIBUTE, OUTPUTS };

static uint8_t byte_at(const uint8_t *data, size_t size, size_t at) { return at < size ? data[at] : 0; }

/* Unsigned byte order. */
int order_of(const uint8_t *a, size_t a_size, const uint8_t *b, size_t b_size) {
    int order = memcmp(a, b, less(a_size, b_size));
    if (order != 0) return order;
    return a_size < b_size ? -1 : a_size > b_size;
}

/* Bytes of the slice behind the image: blocks and some bytes, or bytes alone. */
static size_t spare(uint8_t setting) {
    if (setting & 0x80) return setting & 0x7F;
    return 256 * (size_t)(setting & 0x1F) + (setting >> 5) * 85u;
}

/* The L that is given: mostly the whole blocks of the image. */
static size_t given_len(uint8_t setting, size_t image, size_t slice, size_t any) {
    size_t blocks = image / 256 * 256;
    switch (setting % 32) {
    case 0: return image;
    case 1: return slice / 256 * 256;
    case 2: return any;
    case 3: return slice + 256 - slice % 256;
    case 4: return (size_t)0 - 256 * any;
    case 5: return blocks + ((size_t)1 << 32);
    case 6: return 256 * (any % (slice / 256 + 1));
    default: return blocks;
    }
}

/* Fills the slice; returns the number of calls. */
size_t decode_state(state *s, const uint8_t *data, size_t size) {
    size_t image = size > CONTROL ? less(size - CONTROL, MOST_IMAGE) : 0;
    size_t any = byte_at(data, size, ANY_LOW) | (size_t)byte_at(data, size, ANY_HIGH) << 8;
    s->size = image + spare(byte_at(data, size, SPARE));
    if (image > 0) memcpy(s->slice, data + CONTROL, image);
    memset(s->slice + image, byte_at(data, size, FILL) & 0x40 ? 0 : 0xA5, s->size - image);
    s->len = given_len(byte_at(data, size, LENGTH), image, s->size, any);
    return 1 + byte_at(data, size, CALL_COUNT) % CALLS;
}

static int kind_of(uint8_t b, uint8_t more) {
    static const uint8_t kinds[16] = {CHECK,  LOOK_UP, LOOK_UP, LOOK_UP, WALK,   WALK,   WALK,     INSERT,
                                      INSERT, INSERT,  INSERT,  DELETE,  DELETE, DELETE, OPTIMISE, CREATE};
    return kinds[b % 16] == CREATE && more % 4 ? DELETE : kinds[b % 16];
}

/* Headwords near those of the list: the same, a byte more, a byte less, the last byte changed, almost as long as can be. */
static void word_of_list(call *c, const state *s, size_t at, uint8_t way) {
    const entry *e = &s->entries->entries[at % s->entries->count];
    memcpy(c->word, e->word, e->word_size);
    c->word_size = e->word_size;
    switch (way % 16) {
    case 0: c->word[c->word_size++] = (uint8_t)(at >> 8 | 1); break;
    case 1: c->word_size--; break;
    case 2: c->word[c->word_size - 1]++; break;
    case 3: c->word[c->word_size - 1]--; break;
    case 4:
        memset(c->word + c->word_size, (uint8_t)(at >> 8 | 1), PDIC_MAX_HEADWORD - c->word_size);
        c->word_size = PDIC_MAX_HEADWORD - at % 8;
        break;
    default: break;
    }
}

static void word_of_letters(call *c, size_t size, size_t at, uint8_t base, uint8_t letters) {
    c->word_size = size;
    for (size_t i = 0; i < size; i++) {
        c->word[i] = (uint8_t)(base + at % letters);
        at = at * 31 / 7 + i + at;
    }
}

/* The limits: none, one byte too many, a length whose low bits look good, a zero byte, the last word of all. */
static void word_at_limit(call *c, size_t at) {
    static const size_t sizes[8] = {0, 1, 248, 249, 256, 257, 65537, 65536 + 248};
    word_of_letters(c, sizes[at % 8], at / 8, 0xFF, 1);
    if (at & 0x40 && c->word_size > 0) c->word[at / 128 % c->word_size] = 0;
}

static void decode_word(call *c, const state *s, const uint8_t *r) {
    size_t at = r[AT_LOW] | (size_t)r[AT_HIGH] << 8, way = r[WORD_FROM] >> 5;
    if (way < 4 && s->entries->known && s->entries->count > 0) {
        word_of_list(c, s, at, r[WORD_FROM]);
    } else if (way == 4 && s->size > 0) {
        at %= s->size;
        c->word_size = less(r[WORD_SIZE], s->size - at);
        memcpy(c->word, s->slice + at, c->word_size);
    } else if (way < 6) {
        word_of_letters(c, 1 + r[WORD_SIZE] % 12, at, r[WORD_FROM] & 1 ? 0x9D : 'a', 5);
    } else if (way == 6) {
        word_of_letters(c, r[WORD_SIZE], at, 1, 255);
    } else {
        word_at_limit(c, at);
    }
}

/* Lengths from 0 to 199, a range up to 3,002, and some at limits. */
static size_t text_size(uint8_t b) {
    static const uint16_t limits[16] = {3000, 3001, 500, 508,  509,  762, 763, 246,
                                        247,  1009, 1010, 1018, 1019, 2999, 250, 503};
    if (b < 200) return b;
    if (b < 238) return (b - 199) * (size_t)79;
    if (b == 238) return 65536;
    if (b == 239) return 65536 + 1000;
    return limits[b - 240];
}

static void decode_text(call *c, const uint8_t *r) {
    uint8_t of = r[TEXT_OF];
    c->text_size = text_size(r[TEXT_SIZE]);
    memset(c->text, of ? of : 't', c->text_size);
    for (size_t i = 0; i < c->text_size && of & 1; i += 3) c->text[i] = (uint8_t)(i | 1);
    if (of == 0xFE && c->text_size > 0) c->text[r[AT_LOW] % c->text_size] = 0;
    c->attribute = r[ATTRIBUTE] < 0xE0 ? (uint8_t)(0x80 | (r[ATTRIBUTE] & 0x6F)) : (uint8_t)(r[ATTRIBUTE] << 3);
}

/* Outputs: long enough for every answer, just as long as this one, a byte too short, empty. */
static size_t output_size(unsigned way, size_t most, size_t needed) {
    switch (way) {
    case 1: return needed;
    case 2: return needed > 0 ? needed - 1 : 0;
    case 3: return 0;
    case 4: return needed + 1;
    case 5: return most + 1;
    default: return most;
    }
}

static void decode_outputs(call *c, const state *s, uint8_t b) {
    c->above = b & 0x20 ? b : 0;
    const entry *e = c->kind == LOOK_UP || c->kind == WALK ? answer(s, c) : NULL;
    c->text_out_size = output_size(b & 7, PDIC_MAX_TEXT, e ? e->text_size : PDIC_MAX_TEXT);
    c->word_out_size = output_size(b >> 3 & 3, PDIC_MAX_HEADWORD, e ? e->word_size : PDIC_MAX_HEADWORD);
}

static size_t working_size(uint8_t setting, size_t slice) {
    switch (setting % 16) {
    case 0: return slice > 0 ? slice - 1 : 0;
    case 1: return 0;
    case 2: return slice / 2;
    case 3: return slice + 1;
    case 4: return slice + 4096;
    default: return slice;
    }
}

/* Create: 4 or 5, near them, or any version; an identifier at a limit, or spread over all bytes; the whole slice, or 255 or
 * 256 bytes of it. */
static void decode_create(call *c, const uint8_t *r) {
    static const uint8_t versions[8] = {4, 5, 4, 5, 4, 5, 3, 6};
    static const uint64_t idents[4] = {0, 1, UINT64_MAX, 0x0102030405060708};
    c->version = r[ATTRIBUTE] < 0xE0 ? versions[r[ATTRIBUTE] % 8] : r[WORD_SIZE];
    c->ident = r[TEXT_SIZE] % 8 < 4 ? idents[r[TEXT_SIZE] % 8] : four(r + WORD_FROM) * 0x9E3779B97F4A7C15u;
    if (r[OUTPUTS] % 8 < 2) c->image_size = less(c->image_size, 255u + r[OUTPUTS] % 8);
}

void decode_call(call *c, const state *s, const uint8_t *data, size_t size, size_t which) {
    uint8_t r[CALL_BYTES];
    for (size_t i = 0; i < CALL_BYTES; i++) r[i] = byte_at(data, size, SETTINGS + which * CALL_BYTES + i);
    c->kind = kind_of(r[KIND], r[TEXT_OF]);
    c->image_size = s->size;
    c->len = s->len;
    if (r[OUTPUTS] >= 0xF8) c->len = given_len(r[AT_LOW] % 7, s->len % MOST_SLICE, s->size, r[WORD_SIZE]);
    c->work_size = working_size((uint8_t)(byte_at(data, size, WORKING) + (r[KIND] >> 4)), s->size);
    decode_word(c, s, r);
    decode_text(c, r);
    decode_outputs(c, s, r[OUTPUTS]);
    if (c->kind == CREATE) decode_create(c, r);
}
