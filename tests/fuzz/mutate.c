/* Changes of an input. Some are blind; some know the format and often leave an image that is accepted. */
#include <string.h>

#include "fuzz.h"

/* splitmix64 */
uint64_t draw(source *r) {
    uint64_t z = r->state += 0x9E3779B97F4A7C15u;
    z = (z ^ z >> 30) * 0xBF58476D1CE4E5B9u;
    z = (z ^ z >> 27) * 0x94D049BB133111EBu;
    return z ^ z >> 31;
}

size_t below(source *r, size_t end) { return end == 0 ? 0 : (size_t)(draw(r) % end); }

/* An insertion of a long headword with a long text: a new run, and often a longer index. */
static void draw_long_insertion(source *r, uint8_t *record) {
    record[0] = 7;
    record[1] = below(r, 4) ? 4 : 6 << 5;
    record[4] = (uint8_t)(200 + below(r, 49));
    record[5] = (uint8_t)(205 + below(r, 33));
    record[6] = (uint8_t)below(r, 200);
    record[7] = 0;
}

/* A deletion of the first entry from a slice without spare bytes: its run's next headword may be longer. */
static void draw_tight_deletion(uint8_t *control, uint8_t *record) {
    control[SPARE] = 0x80;
    record[0] = 11;
    record[1] = 8;
    record[2] = record[3] = 0;
}

/* Control bytes: calls of all kinds, most with good slices and lengths. */
void draw_control(source *r, uint8_t *control) {
    for (size_t i = 0; i < CONTROL; i++) control[i] = (uint8_t)draw(r);
    if (below(r, 8) != 0) control[LENGTH] = 31;
    if (below(r, 8) != 0) control[WORKING] = 8, control[SPARE] |= 1;
    for (size_t i = 0; i < CALLS; i++) {
        uint8_t *record = control + SETTINGS + i * CALL_BYTES;
        if (below(r, 8) != 0) record[0] &= 0x0F;
        if (below(r, 4) != 0) record[1] %= 0xC0;
        if (below(r, 16) != 0) record[8] %= 0xF8;
        if (below(r, 8) == 0) draw_long_insertion(r, record);
    }
    if (below(r, 16) == 0) draw_tight_deletion(control, control + SETTINGS);
}

/* An image in the making. */
typedef struct {
    source *random;
    uint8_t *bytes;
    size_t size, most;
    const uint8_t *other;
    size_t other_size;
} work;

static uint32_t index_blocks(const work *w) { return two(w->bytes + AT_INDEX_BLOCK); }

/* Where the data blocks start, and how many there are; 0 where the header is not usable. */
static size_t data_blocks(const work *w, size_t *from) {
    if (w->size < 256) return 0;
    *from = 256 * (1 + (size_t)index_blocks(w));
    return *from < w->size ? (w->size - *from) / 256 : 0;
}

static uint8_t odd_byte(source *r) {
    static const uint8_t odd[6] = {0, 1, 0x7F, 0x80, 0xFF, 0x10};
    return odd[below(r, 6)];
}

/* Somewhere in the image: half of the time in the header, the index or a block's first bytes. */
static size_t some_place(const work *w) {
    source *r = w->random;
    if (w->size < 512 || below(r, 2)) return below(r, w->size);
    switch (below(r, 3)) {
    case 0: return 140 + below(r, 84);
    case 1: return 256 + below(r, 256);
    default: return below(r, w->size / 256) * 256 + below(r, 16);
    }
}

static void flip_bit(work *w) { w->bytes[some_place(w)] ^= (uint8_t)(1 << below(w->random, 8)); }
static void set_odd_byte(work *w) { w->bytes[some_place(w)] = odd_byte(w->random); }

/* A byte that is not zero becomes another that is not: texts and headwords stay without zero bytes. */
static void change_letter(work *w) {
    uint8_t *p = w->bytes + below(w->random, w->size);
    if (*p != 0) *p = (uint8_t)(1 + below(w->random, 255));
}

/* A number that matters: near the one that is there, near the number of blocks, or at a limit. */
static uint32_t number_for(const work *w, uint32_t old) {
    static const uint32_t limits[8] = {0, 1, 0x7FFF, 0x8000, 0xFFFF, 0x10000, 0x7FFFFFFF, 0xFFFFFFFF};
    source *r = w->random;
    switch (below(r, 4)) {
    case 0: return old + 1;
    case 1: return old - 1;
    case 2: return limits[below(r, 8)];
    default: return (uint32_t)below(r, w->size / 256 + 2);
    }
}

static void set_field(work *w, size_t at, int width) {
    uint8_t *p = w->bytes + at;
    if (w->size < 256) return;
    if (width == 1) *p = odd_byte(w->random);
    else if (width == 2) put_two(p, number_for(w, two(p)));
    else put_four(p, number_for(w, four(p)));
}

/* A header field that the papers name and that stands in one place; of the identifier a half. */
static void set_header(work *w) {
    static const uint8_t at[14] = {140, 142, 144, 146, 148, 150, 154, 160, 164, 165, 166, 208, 216, 220};
    static const uint8_t width[14] = {2, 2, 2, 2, 2, 2, 2, 4, 1, 1, 1, 4, 4, 4};
    size_t i = below(w->random, 14);
    set_field(w, at[i], width[i]);
}

/* A header field that version 5 moved, at its place in either version. */
static void set_moved(work *w) {
    int field = (int)below(w->random, MOVED);
    set_field(w, moved_to[below(w->random, VERSIONS)][field], field < EXTHEADER ? 1 : 4);
}

/* One of the first index elements, or where one may stand; `from` is the index's end. */
static uint8_t *some_element(const work *w, size_t from) {
    uint8_t *p = w->bytes + 256, *end = w->bytes + from;
    for (size_t skip = below(w->random, 4); skip > 0; skip--) {
        uint8_t *zero = end - p > 3 ? memchr(p + 2, 0, (size_t)(end - p) - 3) : NULL;
        if (zero && end - zero >= 3) p = zero + 1;
    }
    return p;
}

/* The run of some element, and its end; NULL where there is none. */
static uint8_t *some_run(const work *w, uint8_t **end) {
    size_t from, count = data_blocks(w, &from);
    if (count == 0 || from < 512) return NULL;
    uint32_t number = two(some_element(w, from));
    if (number >= count) return NULL;
    uint8_t *run = w->bytes + from + 256 * (size_t)number;
    *end = run + 256 * less(two(run), count - number);
    return *end > run ? run : NULL;
}

/* One of the first entries of a run. */
static uint8_t *some_entry(const work *w, uint8_t **end) {
    uint8_t *p = some_run(w, end);
    if (p == NULL) return NULL;
    p += 2;
    for (size_t skip = below(w->random, 4); skip > 0; skip--)
        if ((size_t)(*end - p) > 3 + (size_t)two(p) + 4) p += 3 + two(p);
    return p;
}

/* A block number: of an index element, of a run's size, or of the free list. */
static void set_block_number(work *w) {
    size_t from, count = data_blocks(w, &from);
    if (count == 0) return;
    uint8_t *block = w->bytes + from + 256 * below(w->random, count), *p = some_element(w, from);
    switch (below(w->random, 3)) {
    case 0: put_two(p, number_for(w, two(p))); break;
    case 1: put_two(block, number_for(w, two(block))); break;
    default: put_four(block + 2, number_for(w, four(block + 2))); break;
    }
}

static void copy_range(work *w) {
    size_t size = 1 + below(w->random, less(w->size, 300));
    size_t from = below(w->random, w->size - size + 1), to = below(w->random, w->size - size + 1);
    memmove(w->bytes + to, w->bytes + from, size);
}

/* Bytes or whole blocks go. */
static void cut_range(work *w) {
    size_t unit = below(w->random, 2) ? 256 : 1, units = w->size / unit;
    if (units < 2) return;
    size_t count = 1 + below(w->random, less(units - 1, 8)), at = below(w->random, units - count + 1);
    memmove(w->bytes + at * unit, w->bytes + (at + count) * unit, w->size - (at + count) * unit);
    w->size -= count * unit;
}

/* Bytes or whole blocks are doubled. */
static void double_range(work *w) {
    size_t unit = below(w->random, 2) ? 256 : 1, units = w->size / unit;
    if (units == 0) return;
    size_t count = 1 + below(w->random, less(units, 8)), at = below(w->random, units - count + 1);
    if (w->size + count * unit > w->most) return;
    memmove(w->bytes + (at + count) * unit, w->bytes + at * unit, w->size - at * unit);
    w->size += count * unit;
}

static void swap_blocks(work *w) {
    uint8_t held[256];
    size_t count = w->size / 256;
    if (count < 3) return;
    uint8_t *a = w->bytes + 256 * (1 + below(w->random, count - 1)), *b = w->bytes + 256 * (1 + below(w->random, count - 1));
    memcpy(held, a, 256);
    memmove(a, b, 256);
    memcpy(b, held, 256);
}

/* This image to a place, then the other's from there on; half of the time at a block's start. */
static void splice(work *w) {
    if (w->other_size == 0) return;
    size_t at = below(w->random, less(w->size, w->other_size) + 1);
    if (below(w->random, 2)) at = at / 256 * 256;
    size_t size = less(w->other_size, w->most);
    if (size > at) memcpy(w->bytes + at, w->other + at, size - at);
    w->size = size > at ? size : at;
}

/* Longer by zero or odd bytes, or shorter; by bytes or by blocks. */
static void change_length(work *w) {
    size_t by = 1 + below(w->random, 3);
    if (below(w->random, 2)) by *= 256;
    if (below(w->random, 2)) {
        w->size -= less(by, w->size - 1);
    } else if (w->size + by <= w->most) {
        memset(w->bytes + w->size, odd_byte(w->random), by);
        w->size += by;
    }
}

/* An entry's field length, by a little. */
static void change_field(work *w) {
    uint8_t *end, *p = some_entry(w, &end);
    if (p != NULL) put_two(p, two(p) + (uint32_t)below(w->random, 9) - 4);
}

/* A run's number of blocks, by one. */
static void change_run_size(work *w) {
    uint8_t *end, *p = some_run(w, &end);
    if (p != NULL) put_two(p, two(p) + (below(w->random, 2) ? 1 : 0xFFFF));
}

/* Where the free list's first number stands. */
static uint8_t *first_free(const work *w) { return w->bytes + moved_to[is_5(w->bytes)][EMPTY_BLOCK2]; }

/* The free list without its first block. */
static void drop_free_block(work *w) {
    size_t from, count = data_blocks(w, &from);
    uint32_t number = count ? moved(w->bytes, EMPTY_BLOCK2) : 0xFFFFFFFF;
    if (number < count) put_four(first_free(w), four(w->bytes + from + 256 * (size_t)number + 2));
}

/* Letters enter a headword, of an index element or of an entry, whose field grows; what follows moves up. */
static void lengthen_word(work *w) {
    size_t from, count = data_blocks(w, &from), more = 1 + below(w->random, 3);
    uint8_t *end, *p;
    if (count == 0 || from < 512) return;
    if (below(w->random, 2)) {
        end = w->bytes + from;
        p = some_element(w, from) + 2;
    } else {
        p = some_entry(w, &end);
        if (p == NULL) return;
        put_two(p, two(p) + (uint32_t)more);
        p += 3;
    }
    if ((size_t)(end - p) <= more) return;
    memmove(p + more, p, (size_t)(end - p) - more);
    memset(p, p[more] ? p[more] : 'a', more);
}

/* Hardly more than a header is left, or less. */
static void cut_short(work *w) { w->size = less(w->size, 1 + below(w->random, 600)); }

/* Well-formed changes. */

/* One free block more, at the data area's end and the free list's front. */
static void add_free_block(work *w) {
    if (w->size < 256 || w->size % 256 != 0 || w->size + 256 > w->most) return;
    size_t from = 256 * (1 + (size_t)index_blocks(w));
    if (from > w->size) return;
    uint8_t *block = w->bytes + w->size;
    memset(block, odd_byte(w->random), 256);
    put_two(block, 0);
    put_four(block + 2, four(first_free(w)));
    put_four(first_free(w), (uint32_t)((w->size - from) / 256));
    w->size += 256;
}

/* One index block more, all zero. */
static void add_index_block(work *w) {
    size_t from;
    if (data_blocks(w, &from) == 0 || w->size + 256 > w->most) return;
    memmove(w->bytes + from + 256, w->bytes + from, w->size - from);
    memset(w->bytes + from, 0, 256);
    put_two(w->bytes + AT_INDEX_BLOCK, index_blocks(w) + 1);
    w->size += 256;
}

/* The free list from its last block to its first. */
static void turn_free_list(work *w) {
    size_t from, count = data_blocks(w, &from);
    uint32_t before = 0xFFFFFFFF, number = count ? moved(w->bytes, EMPTY_BLOCK2) : before;
    for (size_t steps = 0; number < count && steps < count; steps++) {
        uint8_t *link = w->bytes + from + 256 * (size_t)number + 2;
        uint32_t next = four(link);
        put_four(link, before);
        before = number;
        number = next;
    }
    if (count) put_four(first_free(w), before);
}

/* A byte near a data block's end: often behind a run's end marks, or in a free block. */
static void change_block_end(work *w) {
    size_t from, count = data_blocks(w, &from);
    if (count) w->bytes[from + 256 * below(w->random, count) + 255 - below(w->random, 64)] = odd_byte(w->random);
}

/* An attribute, or the byte at a place where one may stand: behind a zero. */
static void change_attribute(work *w) {
    size_t at = below(w->random, w->size);
    uint8_t *zero = memchr(w->bytes + at, 0, w->size - at);
    if (zero && zero + 1 < w->bytes + w->size && zero[1] & 0x80) zero[1] ^= (uint8_t)(1 << below(w->random, 8));
}

/* The version's low byte: from 16 on the image may only be read. */
static void set_version(work *w) {
    if (w->size >= 256) w->bytes[AT_VERSION] = (uint8_t)below(w->random, 32);
}

/* The version's high byte alone, so that the image is read by another version's places, or not at all. */
static void set_high_version(work *w) {
    static const uint8_t versions[8] = {4, 4, 5, 5, 3, 6, 0, 0x85};
    if (w->size >= 256) w->bytes[AT_HIGH_VERSION] = versions[below(w->random, 8)];
}

/* The same image in the other version; bytes that the new version does not name stay. */
static void turn_version(work *w) {
    uint32_t fields[MOVED];
    if (w->size < 256) return;
    for (int i = 0; i < MOVED; i++) fields[i] = moved(w->bytes, i);
    w->bytes[AT_HIGH_VERSION] = is_5(w->bytes) ? 4 : 5;
    for (int i = 0; i < MOVED; i++) {
        uint8_t *p = w->bytes + moved_to[is_5(w->bytes)][i];
        if (i < EXTHEADER) *p = (uint8_t)fields[i];
        else put_four(p, fields[i]);
    }
}

/* The update count is about to wrap. */
static void set_update_count(work *w) {
    if (w->size >= 256) put_four(w->bytes + AT_UPDATE_COUNT, (uint32_t)0 - (uint32_t)below(w->random, 4));
}

typedef void change(work *w);
static change *const changes[] = {
    flip_bit,      flip_bit,    set_odd_byte,   set_odd_byte,    change_letter,  change_letter,    change_letter,
    set_header,    set_header,  set_moved,      set_block_number, set_block_number, copy_range,    cut_range,
    double_range,  swap_blocks, splice,         change_length,   add_free_block, add_index_block,  turn_free_list,
    change_block_end, change_attribute, set_version, set_update_count, change_field, change_run_size, drop_free_block,
    lengthen_word, cut_short,   set_moved,      set_high_version, turn_version,
};

/* One change of an input; returns its new size. An input without an image gets control bytes only. */
size_t mutate(source *r, uint8_t *data, size_t size, size_t most, const uint8_t *other, size_t other_size) {
    size_t other_image = other_size > CONTROL ? other_size - CONTROL : 0;
    if (size <= CONTROL || below(r, 8) == 0) {
        if (size < CONTROL) return size;
        data[below(r, CONTROL)] = (uint8_t)draw(r);
        return size;
    }
    work w = {r, data + CONTROL, size - CONTROL, most - CONTROL, other + (other_image ? CONTROL : 0), other_image};
    changes[below(r, sizeof changes / sizeof changes[0])](&w);
    return CONTROL + w.size;
}
