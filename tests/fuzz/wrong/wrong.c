/* Wrong engines: the calls of the right one, each spoiled in one way that WRONG names. The right engine's calls are
   renamed right_pdic_... in a copy of its library. */
#include <stddef.h>
#include <stdint.h>
#include <stdlib.h>
#include <string.h>

#include "pdic.h"

uint32_t right_pdic_check(const uint8_t *image, size_t image_size, size_t len, uint64_t *headwords,
                          uint64_t *index_blocks, uint64_t *data_blocks, uint64_t *free_blocks);
uint32_t right_pdic_look_up(const uint8_t *image, size_t image_size, size_t len, const uint8_t *headword,
                            size_t headword_size, uint8_t *text, size_t text_size, uint8_t *attribute, size_t *text_len);
uint32_t right_pdic_walk(const uint8_t *image, size_t image_size, size_t len, const uint8_t *headword,
                         size_t headword_size, uint8_t above, uint8_t *headword_out, size_t headword_out_size,
                         uint8_t *text, size_t text_size, uint8_t *attribute, size_t *headword_len, size_t *text_len);
uint32_t right_pdic_create(uint8_t *image, size_t image_size, uint8_t version, uint64_t ident, size_t *new_len);
uint32_t right_pdic_insert(uint8_t *image, size_t image_size, size_t len, uint8_t *work, size_t work_size,
                           const uint8_t *headword, size_t headword_size, uint8_t attribute, const uint8_t *text,
                           size_t text_size, size_t *new_len);
uint32_t right_pdic_delete(uint8_t *image, size_t image_size, size_t len, uint8_t *work, size_t work_size,
                           const uint8_t *headword, size_t headword_size, size_t *new_len);
uint32_t right_pdic_optimise(uint8_t *image, size_t image_size, size_t len, uint8_t *work, size_t work_size,
                             size_t *new_len);

/* The calls that make the seeds lend at least this much; they are not spoiled. */
enum { SEED_SLICE = 1 << 17 };

static int is(const char *name) {
    static const char *way;
    if (way == NULL) way = getenv("WRONG");
    return way != NULL && strcmp(way, name) == 0;
}

/* Reads a byte that may be outside what was lent. */
static void touch(const volatile uint8_t *p) { (void)*p; }

enum { HIGH_VERSION = 141, IDENT = 216 };

static int is_5(const uint8_t *image) { return image[HIGH_VERSION] == 5; }

/* What a version is taken for by the wrong engines of these names. */
static uint8_t taken_for(uint8_t version, const char *six_as_5, const char *five_as_4) {
    if (version == 6 && is(six_as_5)) return 5;
    return version == 5 && is(five_as_4) ? 4 : version;
}

/* Row 4 for the byte that is os in the other version. */
static int other_os(const uint8_t *image) {
    return (is("os-of-5-at-171") && is_5(image) && image[171]) || (is("os-of-4-at-167") && !is_5(image) && image[167]);
}

uint32_t pdic_check(const uint8_t *image, size_t image_size, size_t len, uint64_t *headwords, uint64_t *index_blocks,
                    uint64_t *data_blocks, uint64_t *free_blocks) {
    uint8_t own = image_size >= 256 ? image[HIGH_VERSION] : 0, taken = taken_for(own, "check-takes-6", "5-read-as-4");
    if (taken != own) ((uint8_t *)image)[HIGH_VERSION] = taken;
    uint32_t number = right_pdic_check(image, image_size, len, headwords, index_blocks, data_blocks, free_blocks);
    if (taken != own) ((uint8_t *)image)[HIGH_VERSION] = own;
    if (number == 0 && other_os(image)) return 4;
    if (number == 0 && is("reads-past-image")) touch(image + image_size);
    if (number == 0 && is("reads-before-image")) touch(image - 1);
    if (number == 0 && is("check-writes-image")) ((uint8_t *)image)[255] ^= 1;
    if (number == 8 && is("length-on-refusal")) *headwords = 0;
    if (number == 0 && is("free-blocks-guessed")) *free_blocks = *data_blocks - *headwords;
    if (number == 10 && is("accepts-10")) {
        *headwords = *index_blocks = *data_blocks = *free_blocks = 1;
        return 0;
    }
    if (number == 9 && is("9-as-10")) return 10;
    if (number == 9 && is("never-ends"))
        for (volatile int i = 0; i == 0;) continue;
    return number;
}

/* A look up that answers the next entry's text or attribute. */
static void spoil_entry(const uint8_t *image, size_t image_size, size_t len, const uint8_t *headword,
                        size_t headword_size, uint8_t *text, size_t text_size, uint8_t *attribute, size_t *text_len) {
    uint8_t word[PDIC_MAX_HEADWORD], other[PDIC_MAX_TEXT], other_attribute;
    size_t word_size, size;
    if (right_pdic_walk(image, image_size, len, headword, headword_size, 1, word, sizeof word, other, sizeof other,
                        &other_attribute, &word_size, &size) != 0)
        return;
    if (is("neighbours-attribute")) *attribute = other_attribute;
    if (is("neighbours-text") && size == *text_len && size <= text_size) memcpy(text, other, size);
}

uint32_t pdic_look_up(const uint8_t *image, size_t image_size, size_t len, const uint8_t *headword,
                      size_t headword_size, uint8_t *text, size_t text_size, uint8_t *attribute, size_t *text_len) {
    uint32_t number = right_pdic_look_up(image, image_size, len, headword, headword_size, text, text_size, attribute,
                                         text_len);
    if (is("reads-past-headword")) touch(headword + headword_size);
    if (number == 0 && is("absent-always")) return PDIC_ABSENT;
    if (number == 0 && is("text-one-byte-longer") && *text_len < text_size) text[*text_len] = 0;
    if (number == 0 && is("zero-past-text-slice")) text[text_size] = 0;
    if (number == 0 && is("zero-before-text-slice")) text[-1] = 0;
    if (number == 0)
        spoil_entry(image, image_size, len, headword, headword_size, text, text_size, attribute, text_len);
    if (number == PDIC_ABSENT && is("length-on-absent")) *text_len = 0;
    if (headword_size > 0 && is("argument-lowered")) ((uint8_t *)headword)[0] |= 0x20;
    return number;
}

uint32_t pdic_walk(const uint8_t *image, size_t image_size, size_t len, const uint8_t *headword, size_t headword_size,
                   uint8_t above, uint8_t *headword_out, size_t headword_out_size, uint8_t *text, size_t text_size,
                   uint8_t *attribute, size_t *headword_len, size_t *text_len) {
    uint32_t number = right_pdic_walk(image, image_size, len, headword, headword_size, above, headword_out,
                                      headword_out_size, text, text_size, attribute, headword_len, text_len);
    if (number == 14 && is("headword-before-14") && headword_out_size > 0) headword_out[0] ^= 1;
    if (number == PDIC_ABSENT && headword_size == 0 && above == 0 && is("walk-12-for-empty")) return 12;
    return number;
}

uint32_t pdic_create(uint8_t *image, size_t image_size, uint8_t version, uint64_t ident, size_t *new_len) {
    if (is("ident-high-byte-first")) ident = __builtin_bswap64(ident);
    if (image_size < SEED_SLICE) version = taken_for(version, "create-takes-6", "create-always-4");
    uint32_t number = right_pdic_create(image, image_size, version, ident, new_len);
    if (number == 0 && is("create-clears-all")) memset(image + 256, 0, image_size - 256);
    if (number == 0 && version == 4 && is("ident-for-4")) memcpy(image + IDENT, &ident, sizeof ident);
    if (number == 3 && is("create-writes-on-3")) image[0] ^= 1;
    if (number == 3 && is("L-on-3")) *new_len = 256;
    return number == 1 && version > 5 && is("create-3-before-1") ? 3 : number;
}

static void add_one(uint8_t *p) {
    for (int i = 0; i < 4 && ++p[i] == 0; i++) continue;
}

/* A changed image, its working slice and its length, spoiled. */
static void spoil_done(uint8_t *image, size_t image_size, size_t *new_len, uint8_t *work, size_t work_size, uint8_t first) {
    if (is("writes-past-work")) work[work_size] = 0;
    if (is("byte-next-to-image")) image[image_size] = 0;
    if (is("work-not-zeroed")) work[work_size - 1] = 1;
    if (is("past-L-touched") && *new_len < image_size) image[*new_len] ^= 1;
    if (is("empty_block-written")) image[154] ^= 1;
    if (is("ident-altered") && is_5(image)) image[IDENT + 7] ^= 1;
    if (is("ident-of-4-cleared") && !is_5(image)) memset(image + IDENT, 0, 8);
    if (is("update-twice")) add_one(image + 208);
    if (is("L-one-block-more") && *new_len + 256 <= image_size) *new_len += 256;
    if (is("work-decides") && *new_len > 256) image[*new_len - 1] ^= first;
}

/* The first of the image's first three letters t becomes a u: it is of some text. */
static void change_text(uint8_t *image, size_t len) {
    size_t at = 256;
    while (at + 3 < len && memcmp(image + at, "ttt", 3) != 0) at++;
    if (at + 3 < len) image[at] = 'u';
}

/* The image slice before an insertion or an optimising. */
static uint8_t before[SEED_SLICE];

/* Empty_block2, nindex2 and nblock2 of a version 5 image stand where version 4 has them. */
static void counts_at_4(uint8_t *image) {
    uint8_t counts[12];
    memcpy(counts, image + 188, sizeof counts);
    memcpy(image + 186, before + 186, 14);
    memcpy(image + 186, counts, sizeof counts);
}

static size_t two(const uint8_t *p) { return p[0] | (size_t)p[1] << 8; }

/* A field that version 5 has two bytes later than version 4. */
static uint8_t *moved(uint8_t *image, size_t at) { return image + at + (is_5(image) ? 2 : 0); }

/* The run that holds a headword: that of the last element not above it. */
static uint8_t *run_of(uint8_t *image, const uint8_t *headword, size_t size) {
    uint8_t *element = image + 256, *found = element;
    for (size_t left = two(moved(image, 190)); left > 0; left--) {
        size_t length = strlen((char *)element + 2);
        int order = memcmp(element + 2, headword, length < size ? length : size);
        if (order < 0 || (order == 0 && length <= size)) found = element;
        element += 2 + length + 1;
    }
    return image + 256 * (1 + two(image + 148) + two(found));
}

/* The fronts of a run become the common ones: a byte longer where they ended before a pair. */
static void common_fronts(uint8_t *run) {
    uint8_t word[256] = {0}, *end = run + 2;
    while (two(end)) end += 3 + two(end);
    for (uint8_t *at = run + 2; two(at); at += 3 + two(at)) {
        if (at[3] == word[at[2]]) {
            at[1] -= at[0] == 0, at[0]--;
            at[2]++;
            memmove(at + 3, at + 4, (size_t)(end - (at + 4)));
            *--end = 0;
        }
        strcpy((char *)word + at[2], (char *)at + 3);
    }
}

/* What is spoiled after an insertion. */
static uint32_t spoil_inserted(uint8_t *image, size_t image_size, size_t len, uint32_t number) {
    if (number == 0 && is("15-without-placing")) {
        memcpy(image, before, image_size);
        return 15;
    }
    if (number == 0 && is("nword-kept")) memcpy(image + 160, before + 160, 4);
    if (number == 0 && is("counts-at-4") && is_5(image)) counts_at_4(image);
    if (number == 0 && is("other-text-changed")) change_text(image, len);
    if (number == 13 && is("refused-image-touched")) image[0] ^= 1;
    return number == 12 && is("returns-16") ? 16 : number;
}

uint32_t pdic_insert(uint8_t *image, size_t image_size, size_t len, uint8_t *work, size_t work_size,
                     const uint8_t *headword, size_t headword_size, uint8_t attribute, const uint8_t *text,
                     size_t text_size, size_t *new_len) {
    uint8_t first = work_size > 0 ? work[0] : 0;
    size_t old = *new_len, less_text = text_size > 0 && is("inserted-text-cut");
    if (image_size < SEED_SLICE) memcpy(before, image, image_size);
    uint32_t number = right_pdic_insert(image, image_size, len, work, work_size, headword, headword_size, attribute,
                                        text, text_size - less_text, new_len);
    if (image_size >= SEED_SLICE) return number;
    if (number == 0) spoil_done(image, image_size, new_len, work, work_size, first);
    if (number == 0 && is("front-in-a-pair")) common_fronts(run_of(image, headword, headword_size));
    uint32_t spoiled = spoil_inserted(image, image_size, *new_len, number);
    if (number == 0 && spoiled != 0) *new_len = old;
    return spoiled;
}

uint32_t pdic_delete(uint8_t *image, size_t image_size, size_t len, uint8_t *work, size_t work_size,
                     const uint8_t *headword, size_t headword_size, size_t *new_len) {
    uint32_t number = right_pdic_delete(image, image_size, len, work, work_size, headword, headword_size, new_len);
    if (number == 2 && is("work-zeroed-on-2")) memset(work, 0, work_size);
    return number;
}

/* Removes the first entry; the update count stays. */
static void drop_first(uint8_t *image, size_t image_size, uint8_t *work, size_t work_size, size_t *new_len) {
    uint8_t word[PDIC_MAX_HEADWORD], text[PDIC_MAX_TEXT], attribute, count[4];
    size_t word_size, text_size;
    memcpy(count, image + 208, 4);
    if (right_pdic_walk(image, image_size, *new_len, count, 0, 0, word, sizeof word, text, sizeof text, &attribute,
                        &word_size, &text_size) == 0)
        right_pdic_delete(image, image_size, *new_len, work, work_size, word, word_size, new_len);
    memcpy(image + 208, count, 4);
}

/* An index block more, where a block was given up. */
static void longer_index(uint8_t *image, size_t len, size_t *new_len) {
    uint8_t *data = image + 256 * (1 + (size_t)image[148]);
    if (*new_len == len) return;
    memmove(data + 256, data, (size_t)(image + *new_len - data));
    memset(data, 0, 256);
    image[148]++;
    *new_len += 256;
}

/* The last run takes the blocks that were given up. */
static void longer_run(uint8_t *image, size_t len, size_t *new_len) {
    uint8_t *element = image + 256, *data = element + 256 * (size_t)image[148];
    if (image[148] == 0) return;
    for (int i = 1; i < *moved(image, 190); i++) element += 2 + strlen((char *)element + 2) + 1;
    for (; *new_len < len; *new_len += 256) {
        add_one(data + 256 * (size_t)*element);
        add_one(moved(image, 194));
    }
}

/* Where no block was free, 15. */
static uint32_t refuse_packed(uint8_t *image, size_t image_size, size_t *new_len, size_t old) {
    static const uint8_t none[4] = {0xFF, 0xFF, 0xFF, 0xFF};
    if (memcmp(moved(before, 186), none, sizeof none) != 0) return 0;
    memcpy(image, before, image_size);
    *new_len = old;
    return 15;
}

uint32_t pdic_optimise(uint8_t *image, size_t image_size, size_t len, uint8_t *work, size_t work_size, size_t *new_len) {
    size_t old = *new_len;
    if (image_size < SEED_SLICE) memcpy(before, image, image_size);
    uint32_t number = right_pdic_optimise(image, image_size, len, work, work_size, new_len);
    if (number != 0 || image_size >= SEED_SLICE) return number;
    if (is("optimise-keeps-bytes") && *new_len < len) image[len - 1] = 7;
    if (is("optimise-drops-first")) drop_first(image, image_size, work, work_size, new_len);
    if (is("optimise-index-longer")) longer_index(image, len, new_len);
    if (is("optimise-run-longer")) longer_run(image, len, new_len);
    return is("optimise-15-none-free") ? refuse_packed(image, image_size, new_len, old) : 0;
}
