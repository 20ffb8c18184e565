/* pdic.h - PDIC Hyper dictionaries, versions 4 and 5, in code order: calls on memory that the caller lends.
 *
 * An image is the first `len` bytes of a lent slice. Nothing is allocated, nothing is kept between
 * calls, and each call tests the whole image before it answers: no byte of an answer comes from an
 * image that breaks a rule. (The format has no checksum: a byte of a text that became another legal
 * byte breaks no rule. docs/ROBUSTNESS.md says how often that is so.) A slice is a pointer and a
 * length; it may be empty but not null, and no two slices or lent numbers of a call may overlap.
 * Check, look up and walk write nothing but their outputs. Create, insert, delete and optimise write
 * the image and return its new length; bytes of the slice past the length keep their contents, but
 * optimise zeroes what it gives up.
 *
 * The calls take images of both versions and go by the image's own. The versions differ in where some fields
 * of the header stand, and an image of version 5 has an identifier, eight bytes that create writes and no call
 * alters.
 *
 * Insert, delete and optimise also borrow a working slice, at least as long as the image slice. What
 * it holds does not matter, but it is read: take it from calloc, and lend the same one again. It is all
 * zero after the call, whatever the number returned, but 1 and 2 leave it untouched.
 *
 * Threads: reading calls (check, look up, walk) may share an image; a changing call (create, insert,
 * delete, optimise) needs it alone. Calls on different memory may run at the same time.
 *
 * Check, look up, walk, create and optimise take up to 32 KiB of stack, insert and delete up to 256 KiB.
 *
 * Every call returns one number: PDIC_DONE (0), done or found, and what is lent for the answer is
 * written; PDIC_ABSENT (100), no such entry, and nothing is written; or 1 to 99, refused, and nothing
 * is written. A refusal's number says why. It is the first of the enumeration below that applies, but
 * 7 and 8 are tested run by run: both for one run, then both for the next.
 *
 * These promises, and that the calls end and stay inside the lent memory whatever the bytes are,
 * are proved of the source that is compiled; docs/CLAIMS.md names each theorem.
 */
#ifndef PDIC_H
#define PDIC_H

#include <stddef.h>
#include <stdint.h>

#ifdef __cplusplus
extern "C" {
#endif

/* The version of this interface. The calls change with it until it is 1.0. */
#define PDIC_VERSION "0.2.0"
#define PDIC_VERSION_MAJOR 0
#define PDIC_VERSION_MINOR 2
#define PDIC_VERSION_PATCH 0

/* What a call returns. */
enum {
    PDIC_DONE = 0,
    PDIC_ABSENT = 100,

    /* the slices */
    PDIC_BAD_LENGTH = 1,    /* `len` is under 256, no multiple of 256, or over the slice (create: the slice is under 256) */
    PDIC_SHORT_WORK = 2,    /* the working slice is shorter than the image slice */
    /* the image */
    PDIC_BAD_VERSION = 3,   /* header: the high version byte is not 4 or 5, or block_size, header_size or attrlen is wrong
                               (create: the version asked for is not 4 or 5) */
    PDIC_LEFT_OUT = 4,      /* header: dicorder, dictype, os, index_blkbit or extheader is not 0 */
    PDIC_BAD_AREAS = 5,     /* header: index_block is over 32,767 or past `len`, or there are more than 65,536 data blocks */
    PDIC_BAD_INDEX = 6,     /* an index rule, or an element's headword rule, is broken */
    PDIC_BAD_PLACE = 7,     /* a run's block number, its number of blocks, or its place is outside the data blocks */
    PDIC_BAD_RUN = 8,       /* an entry rule or a rule of a run is broken */
    PDIC_BAD_BLOCKS = 9,    /* a data block lies in two runs, in a run and on the free list, twice on the list or in neither;
                               or the list leaves the data blocks or names a block that is not free */
    PDIC_BAD_COUNTS = 10,   /* nword or nblock2 does not count the entries or the blocks in runs */
    /* the call */
    PDIC_READ_ONLY = 11,    /* the version's low byte is over 15: the image may only be read */
    PDIC_BAD_HEADWORD = 12, /* the headword is empty (walk allows that), over 248 bytes long, or has a zero byte */
    PDIC_BAD_TEXT = 13,     /* the text is over 3,000 bytes long or has a zero byte, or the attribute has 0x80 clear or
                               0x10 set */
    PDIC_SHORT_OUTPUT = 14, /* an output slice is too short for the answer; then none of the outputs is written */
    PDIC_FULL = 15          /* insert and delete: the changed image would be longer than its slice, or have over 65,536 data
                               blocks or over 32,767 index blocks */
};

/* The versions that a dictionary can have: the high byte of the version in its header. (PDIC_VERSION is the
 * version of this interface.) */
enum {
    PDIC_FORMAT_4 = 4,
    PDIC_FORMAT_5 = 5
};

/* Where an image has its version (two bytes) and, in version 5, its identifier (eight), both low byte first. */
enum {
    PDIC_AT_VERSION = 140,
    PDIC_AT_IDENT = 216
};

/* Limits, in bytes: outputs of these sizes are never too short, and no image is longer. */
enum {
    PDIC_MAX_HEADWORD = 248,
    PDIC_MAX_TEXT = 3000,
    PDIC_MAX_IMAGE = 256 * (1 + 32767 + 65536) /* header, most index blocks, most data blocks */
};

/* The bits of an attribute. */
enum {
    PDIC_LEVEL = 0x0F,    /* the word's level, 0 to 15 */
    PDIC_PARTS = 0x10,    /* parts follow the text: such an entry is refused */
    PDIC_LEARN = 0x20,    /* a word to learn by heart */
    PDIC_CHANGED = 0x40,  /* a word that was corrected */
    PDIC_PLAIN = 0x80     /* set in every attribute; alone, the attribute of a plain entry */
};

/* What a number that a call returned means, in one English phrase; never null. Plain C beside the
 * engine, outside the proofs. */
const char *pdic_strerror(uint32_t number);

/* Tests the image and counts what it holds.
 *
 * Returns PDIC_DONE or 1, 3 to 10. With PDIC_DONE it writes the number of headwords, of index
 * blocks, of data blocks and of free data blocks. */
uint32_t pdic_check(const uint8_t *image, size_t image_size, size_t len,
                    uint64_t *headwords, uint64_t *index_blocks, uint64_t *data_blocks, uint64_t *free_blocks);

/* Looks a headword up.
 *
 * Returns PDIC_DONE, PDIC_ABSENT, or 1, 3 to 10, 12, 14. With PDIC_DONE the entry's text stands in the
 * first *text_len bytes of `text` (the others keep their contents; no zero byte is added), and its
 * attribute in *attribute. */
uint32_t pdic_look_up(const uint8_t *image, size_t image_size, size_t len,
                      const uint8_t *headword, size_t headword_size,
                      uint8_t *text, size_t text_size, uint8_t *attribute, size_t *text_len);

/* Finds the least entry not below a headword (`above` 0) or above it (`above` not 0); with an empty
 * headword the first of all. Headwords are in unsigned byte order. To walk through a dictionary, ask
 * from the empty headword, then above the headword found, until PDIC_ABSENT: past the last.
 *
 * Returns PDIC_DONE, PDIC_ABSENT, or 1, 3 to 10, 12, 14. With PDIC_DONE the entry's headword stands in
 * the first *headword_len bytes of `headword_out` and its text in the first *text_len bytes of `text`
 * (the others keep their contents), and its attribute in *attribute. */
uint32_t pdic_walk(const uint8_t *image, size_t image_size, size_t len,
                   const uint8_t *headword, size_t headword_size, uint8_t above,
                   uint8_t *headword_out, size_t headword_out_size, uint8_t *text, size_t text_size,
                   uint8_t *attribute, size_t *headword_len, size_t *text_len);

/* Makes an empty image of 256 bytes at the start of the slice. `version` is PDIC_FORMAT_4 or PDIC_FORMAT_5. For
 * 5 `ident` is written as the dictionary's identifier, low byte first, and no call alters it; take a number from
 * the system's random bytes, not from the clock, so that no two dictionaries have the same. For 4 `ident` is not
 * looked at.
 *
 * Returns PDIC_DONE or 1, 3. With PDIC_DONE *new_len is 256. Any other number leaves image and *new_len as they
 * were. */
uint32_t pdic_create(uint8_t *image, size_t image_size, uint8_t version, uint64_t ident, size_t *new_len);

/* Adds an entry, or replaces the one with this headword. A plain entry's attribute is PDIC_PLAIN.
 *
 * Returns PDIC_DONE or 1 to 13, 15. With PDIC_DONE the image's length is *new_len; it never gets
 * shorter. Any other number leaves image and *new_len as they were. */
uint32_t pdic_insert(uint8_t *image, size_t image_size, size_t len, uint8_t *work, size_t work_size,
                     const uint8_t *headword, size_t headword_size, uint8_t attribute,
                     const uint8_t *text, size_t text_size, size_t *new_len);

/* Removes the entry with this headword.
 *
 * Returns PDIC_DONE, PDIC_ABSENT, or 1 to 12, 15 (the index can grow where a run gets a longer first
 * headword). With PDIC_DONE the image's length is *new_len; it never gets shorter, blocks no longer
 * used are free. Any other number leaves image and *new_len as they were. */
uint32_t pdic_delete(uint8_t *image, size_t image_size, size_t len, uint8_t *work, size_t work_size,
                     const uint8_t *headword, size_t headword_size, size_t *new_len);

/* Puts the runs in headword order without a free block, and the index at the size it needs.
 *
 * Returns PDIC_DONE or 1 to 11, and never PDIC_FULL: packed, an image needs no longer index and no more data
 * blocks. With PDIC_DONE the image's length is *new_len, which is at most `len`, and the bytes from there to
 * `len` are zero. Any other number leaves image and *new_len as they were. */
uint32_t pdic_optimise(uint8_t *image, size_t image_size, size_t len, uint8_t *work, size_t work_size,
                       size_t *new_len);

#ifdef __cplusplus
}
#endif

#endif
