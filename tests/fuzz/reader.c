/* A reader of the harness's own, written from document 01 and document 02's F-1: rows 1 and 3 to 10 in their order, and
 * the entries. Guided runs so compare two readers on every image that they find. */
#include <string.h>

#include "fuzz.h"

enum { MOST_DATA = 65536, MOST_BLOCKS = 32767, MOST_ELEMENTS = MOST_SLICE / 4 };
#define LIST_END 0xFFFFFFFFu

static const uint8_t *image;          /* the image that is read */
static size_t elements[MOST_ELEMENTS]; /* offset of each index element */
static size_t element_count, data_start;
static uint64_t data;                 /* number of data blocks */
static uint8_t uses[MOST_DATA];       /* of each data block: how often it is in a run or on the free list */

const uint8_t moved_to[VERSIONS][MOVED] = {{171, 198, 182, 186, 190, 194}, {167, 182, 184, 188, 192, 196}};

int is_5(const uint8_t *image) { return image[AT_HIGH_VERSION] == 5; }

/* A field that version 5 moved. */
uint32_t moved(const uint8_t *image, int field) {
    const uint8_t *p = image + moved_to[is_5(image)][field];
    return field < EXTHEADER ? *p : four(p);
}

static uint32_t read_header(size_t size, size_t len) {
    if (len < 256 || len % 256 != 0 || len > size) return 1;
    if (image[AT_HIGH_VERSION] != 4 && image[AT_HIGH_VERSION] != 5) return 3;
    if (two(image + 146) != 256 || two(image + 150) != 256 || image[166] != 1) return 3;
    if (image[164] || image[165] || moved(image, OS) || moved(image, INDEX_BLKBIT) || moved(image, EXTHEADER)) return 4;
    uint32_t index = two(image + AT_INDEX_BLOCK);
    if (index > MOST_BLOCKS || 256 * (1 + (size_t)index) > len) return 5;
    data_start = 256 * (1 + (size_t)index);
    data = (len - data_start) / 256;
    return data > MOST_DATA ? 5 : 0;
}

/* The headword of an element; it ends before a zero byte, which is there once the index was read. */
static const uint8_t *element_word(size_t i, size_t *size) {
    const uint8_t *word = image + elements[i] + 2;
    *size = strlen((const char *)word);
    return word;
}

/* One element at `at`: 0, or where the next one starts. */
static size_t read_element(size_t at) {
    if (data_start - at < 4) return 0;
    const uint8_t *word = image + at + 2, *zero = memchr(word, 0, data_start - at - 2);
    size_t size = zero ? (size_t)(zero - word) : 0, before_size;
    if (size < 1 || size > PDIC_MAX_HEADWORD) return 0;
    if (element_count > 0) {
        const uint8_t *before = element_word(element_count - 1, &before_size);
        if (order_of(before, before_size, word, size) >= 0) return 0;
    }
    elements[element_count++] = at;
    return at + 2 + size + 1;
}

static uint32_t read_index(void) {
    uint32_t wanted = moved(image, NINDEX2);
    size_t at = 256;
    element_count = 0;
    if (data_start == 256) return wanted == 0 ? 0 : 6;
    while (element_count < wanted)
        if ((at = read_element(at)) == 0) return 6;
    return data_start - at >= 4 && all_bytes(image + at, data_start - at, 0) ? 0 : 6;
}

/* The entry at `at`, above the one before it in *e: its size with its front part; 0: a rule is broken. */
static size_t read_entry(const uint8_t *at, const uint8_t *end, entry *e) {
    size_t field = two(at), front = end - at >= 3 ? at[2] : 0;
    if (end - at < 3 || (size_t)(end - at) - 3 < field || front > e->word_size) return 0;
    const uint8_t *rest = at + 3, *zero = memchr(rest, 0, field), *stop = rest + field;
    if (zero == NULL || stop - zero < 2) return 0;
    size_t rest_size = (size_t)(zero - rest), before_size = e->word_size;
    uint8_t before[PDIC_MAX_HEADWORD];
    memcpy(before, e->word, before_size);
    e->front = front;
    e->word_size = front + rest_size;
    e->text_size = (size_t)(stop - zero) - 2;
    e->attribute = zero[1];
    if (e->word_size < 1 || e->word_size > PDIC_MAX_HEADWORD || e->text_size > PDIC_MAX_TEXT) return 0;
    memcpy(e->word + front, rest, rest_size);
    memcpy(e->text, zero + 2, e->text_size);
    if (!(e->attribute & 0x80) || e->attribute & 0x10 || memchr(e->text, 0, e->text_size)) return 0;
    if (order_of(before, before_size, e->word, e->word_size) >= 0) return 0;
    return 3 + field;
}

static void add_entry(reading *to, const entry *e) {
    if (to->headwords++ >= MOST_ENTRIES) return;
    entry *next = &to->entries.entries[to->entries.count++];
    next->word_size = e->word_size;
    next->text_size = e->text_size;
    next->attribute = e->attribute;
    next->front = e->front;
    next->run = e->run;
    memcpy(next->word, e->word, e->word_size);
    memcpy(next->text, e->text, e->text_size);
}

/* The entries of the run of element i, from its count's end to its last block's. */
static uint32_t read_entries(size_t i, const uint8_t *at, const uint8_t *end, reading *to) {
    static entry e;
    size_t size, wanted_size, count = 0;
    const uint8_t *wanted = element_word(i, &wanted_size);
    e.word_size = 0;
    e.run = i;
    for (; end - at >= 2 && two(at) != 0; at += size, count++) {
        if ((size = read_entry(at, end, &e)) == 0) return 8;
        if (count == 0 && order_of(e.word, e.word_size, wanted, wanted_size) != 0) return 8;
        add_entry(to, &e);
    }
    if (end - at < 2 || count == 0) return 8;
    if (i + 1 == element_count) return 0;
    const uint8_t *next = element_word(i + 1, &wanted_size);
    return order_of(e.word, e.word_size, next, wanted_size) < 0 ? 0 : 8;
}

static uint32_t read_run(size_t i, reading *to) {
    uint32_t number = two(image + elements[i]);
    if (number >= data) return 7;
    const uint8_t *run = image + data_start + 256 * (size_t)number;
    uint32_t blocks = two(run);
    if (blocks == 0 || blocks > MOST_BLOCKS || number + blocks > data) return 7;
    for (uint32_t n = number; n < number + blocks; n++) uses[n] += uses[n] < 2;
    to->in_runs += blocks;
    return read_entries(i, run + 2, run + 256 * (size_t)blocks, to);
}

/* The free list, and that each data block is in one place. */
static uint32_t read_free_list(reading *to) {
    uint32_t number = moved(image, EMPTY_BLOCK2);
    while (number != LIST_END) {
        if (number >= data || uses[number]++ != 0) return 9;
        const uint8_t *block = image + data_start + 256 * (size_t)number;
        if (two(block) != 0) return 9;
        number = four(block + 2);
        to->unused++;
    }
    return all_bytes(uses, (size_t)data, 1) ? 0 : 9;
}

/* The number that check must return for the first `len` bytes of a slice, and what is read. */
uint32_t read_image(const uint8_t *slice, size_t size, size_t len, reading *to) {
    image = slice;
    to->entries.count = 0;
    to->headwords = to->in_runs = to->unused = 0;
    uint32_t number = read_header(size, len);
    if (number == 0) number = read_index();
    if (number == 0) memset(uses, 0, (size_t)data);
    for (size_t i = 0; number == 0 && i < element_count; i++) number = read_run(i, to);
    if (number == 0) number = read_free_list(to);
    if (number != 0) return number;
    to->entries.known = to->headwords <= MOST_ENTRIES;
    return to->headwords == four(image + AT_NWORD) && to->in_runs == moved(image, NBLOCK2) ? 0 : 10;
}
