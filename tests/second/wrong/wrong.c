/* Wrong engines: the calls of a right one, each spoiled in one way that WRONG names.
   The right engine's calls are renamed right_pdic_... in a copy of its library. */

#include <stddef.h>
#include <stdint.h>
#include <stdlib.h>
#include <string.h>

uint32_t right_pdic_check(const uint8_t *image, size_t image_size, size_t len, uint64_t *headwords,
                          uint64_t *index_blocks, uint64_t *data_blocks, uint64_t *free_blocks);
uint32_t right_pdic_look_up(const uint8_t *image, size_t image_size, size_t len, const uint8_t *headword,
                            size_t headword_size, uint8_t *text, size_t text_size, uint8_t *attribute,
                            size_t *text_len);
uint32_t right_pdic_walk(const uint8_t *image, size_t image_size, size_t len, const uint8_t *headword,
                         size_t headword_size, uint8_t above, uint8_t *headword_out,
                         size_t headword_out_size, uint8_t *text, size_t text_size, uint8_t *attribute,
                         size_t *headword_len, size_t *text_len);

/* Whether a stored front of an accepted image ends inside a pair (changes.c). */
int front_inside_pair(uint8_t *image);

static const char *way(void) {
    const char *name = getenv("WRONG");
    return name ? name : "";
}

static int is(const char *name) { return strcmp(way(), name) == 0; }

/* How much later a header has empty_block2, nindex2 and nblock2 than version 4. */
static size_t later(const uint8_t *image) { return image[141] == 5 ? 2 : 0; }

/* A header whose fields are looked for at the wrong places, as one with them at the right ones. */
static void misread(uint8_t *header) {
    if (is("version-6-read") && header[141] == 6)
        header[141] = 5;
    if (is("os-at-171") && header[141] == 5)
        header[167] = header[171];
    if (is("os-at-167-too") && header[141] == 4)
        header[171] |= header[167];
    if (is("nblock2-at-194") && header[141] == 5)
        memmove(header + 196, header + 194, 4);
}

/* Check by a misread header, which stands there again afterwards. */
static uint32_t check_misread(const uint8_t *image, size_t image_size, size_t len, uint64_t *headwords,
                              uint64_t *index_blocks, uint64_t *data_blocks, uint64_t *free_blocks) {
    uint8_t *header = (uint8_t *)image, kept[256];
    size_t size = image_size < 256 ? 0 : 256;
    memcpy(kept, header, size);
    if (size)
        misread(header);
    uint32_t number =
        right_pdic_check(image, image_size, len, headwords, index_blocks, data_blocks, free_blocks);
    memcpy(header, kept, size);
    return number;
}

uint32_t pdic_check(const uint8_t *image, size_t image_size, size_t len, uint64_t *headwords,
                    uint64_t *index_blocks, uint64_t *data_blocks, uint64_t *free_blocks) {
    if (is("length-32-bits"))
        len = (uint32_t)len;
    uint32_t number =
        check_misread(image, image_size, len, headwords, index_blocks, data_blocks, free_blocks);
    if (is("count-by-guess") && number == 0)
        *headwords = *data_blocks;
    if (is("refuse-all") && number == 0)
        return 8;
    if (is("accept-10") && number == 10) {
        *headwords = *index_blocks = *data_blocks = *free_blocks = 1;
        return 0;
    }
    if (is("9-as-10") && number == 9)
        return 10;
    if (is("8-for-front-in-a-pair") && number == 0 && front_inside_pair((uint8_t *)image))
        return 8;
    if (is("chain-16-bits") && number == 9) {
        /* A chain whose first number is right in its low half. */
        uint8_t *other = malloc(image_size);
        memcpy(other, image, image_size);
        memset(other + 188 + later(image), 0, 2);
        uint64_t n[4];
        uint32_t again = right_pdic_check(other, image_size, len, n, n + 1, n + 2, n + 3);
        free(other);
        if (again == 0) {
            *headwords = n[0], *index_blocks = n[1], *data_blocks = n[2], *free_blocks = n[3];
            return 0;
        }
    }
    if (is("touch-behind-L") && number == 0 && len < image_size)
        ((uint8_t *)image)[len] ^= 1;
    if (is("number-on-refusal") && number == 6)
        *free_blocks = 0;
    if (is("crash") && number == 9)
        *(volatile int *)0 = 0;
    return number;
}

uint32_t pdic_look_up(const uint8_t *image, size_t image_size, size_t len, const uint8_t *headword,
                      size_t headword_size, uint8_t *text, size_t text_size, uint8_t *attribute,
                      size_t *text_len) {
    if (is("argument-first") && (headword_size == 0 || headword_size > 248))
        return 12;
    if (is("headword-8-bits"))
        headword_size = (uint8_t)headword_size;
    uint32_t number = right_pdic_look_up(image, image_size, len, headword, headword_size, text, text_size,
                                         attribute, text_len);
    if (is("absent-always") && number == 0)
        return 100;
    if (is("text-length-one-more") && number == 0)
        *text_len += 1;
    if (is("14-for-absent") && number == 100 && text_size == 0)
        return 14;
    if (is("zero-behind-text") && number == 0 && *text_len < text_size)
        text[*text_len] = 0;
    if (is("byte-past-slice") && number == 0)
        text[text_size] = 0;
    if (is("attribute-on-absent") && number == 100)
        *attribute = 0;
    return number;
}

/* Whether a headword is that of an index element. */
static int in_index(const uint8_t *image, const uint8_t *headword, size_t size) {
    const uint8_t *nindex2 = image + 190 + later(image);
    size_t elements = nindex2[0] | (size_t)nindex2[1] << 8, at = 256;
    for (size_t i = 0; i < elements; i++) {
        size_t length = strlen((const char *)image + at + 2);
        if (length == size && memcmp(image + at + 2, headword, size) == 0)
            return 1;
        at += length + 3;
    }
    return 0;
}

uint32_t pdic_walk(const uint8_t *image, size_t image_size, size_t len, const uint8_t *headword,
                   size_t headword_size, uint8_t above, uint8_t *headword_out, size_t headword_out_size,
                   uint8_t *text, size_t text_size, uint8_t *attribute, size_t *headword_len,
                   size_t *text_len) {
    if (is("above-low-bit"))
        above &= 1;
    if (is("skip-run-start") && headword_size > 0) {
        uint8_t h[248], t[3000], a;
        size_t h_len, t_len;
        uint32_t number = right_pdic_walk(image, image_size, len, headword, headword_size, above, h, 248, t,
                                          3000, &a, &h_len, &t_len);
        if (number == 0 && in_index(image, h, h_len) &&
            !(h_len == headword_size && memcmp(h, headword, h_len) == 0))
            return right_pdic_walk(image, image_size, len, h, h_len, 1, headword_out, headword_out_size,
                                   text, text_size, attribute, headword_len, text_len);
    }
    uint32_t number =
        right_pdic_walk(image, image_size, len, headword, headword_size, above, headword_out,
                        headword_out_size, text, text_size, attribute, headword_len, text_len);
    if (is("write-before-14") && number == 14 && headword_out_size > 0)
        headword_out[0] ^= 1;
    if (is("walk-empty-12") && headword_size == 0 && (number == 0 || number == 100))
        return 12;
    return number;
}
