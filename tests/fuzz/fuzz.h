/* Shared by the parts of the fuzzer: the layout of an input, guarded buffers, calls, and what was seen.
 *
 * An input is CONTROL bytes and then the image, to the input's end. Missing control bytes count as 0. The control
 * bytes are SETTINGS bytes for the slices and CALLS records of CALL_BYTES each (see decode.c), all of a fixed size,
 * so that a change of the image leaves the calls as they are and the reverse; every value of every byte means something. */
#ifndef FUZZ_H
#define FUZZ_H

#include <stddef.h>
#include <stdint.h>

#include "pdic.h"

enum {
    SETTINGS = 10,
    CALLS = 6,
    CALL_BYTES = 9,
    CONTROL = SETTINGS + CALLS * CALL_BYTES,
    MOST_IMAGE = 65536,     /* longest image of an input */
    MOST_SLICE = 524288,    /* longest image slice or working slice */
    MOST_WORD = 66000,      /* longest headword argument: over 65,535 */
    MOST_TEXT = 67000,      /* longest text argument */
    MOST_ENTRIES = 200      /* most entries for which the whole list is read */
};

/* Settings, by byte. */
enum { SIDES, SPARE, LENGTH, WORKING, CALL_COUNT, FILL, ANY_LOW, ANY_HIGH };

enum { CREATE, CHECK, LOOK_UP, WALK, INSERT, DELETE, OPTIMISE, KINDS };

/* Header fields that stand in one place, by offset. */
enum {
    AT_VERSION = 140,
    AT_HIGH_VERSION = 141,
    AT_INDEX_BLOCK = 148,
    AT_NWORD = 160,
    AT_UPDATE_COUNT = 208,
    AT_IDENT = 216
};

/* Header fields that version 5 moved: the first two of one byte, the others of four. */
enum { OS, INDEX_BLKBIT, EXTHEADER, EMPTY_BLOCK2, NINDEX2, NBLOCK2, MOVED };

/* What is told apart by version: 5, and all others. */
enum { OTHER_VERSION, VERSION_5, VERSIONS };

/* Little-endian numbers. */
static inline uint32_t two(const uint8_t *p) { return p[0] | (uint32_t)p[1] << 8; }
static inline uint32_t four(const uint8_t *p) { return two(p) | two(p + 2) << 16; }
static inline void put_two(uint8_t *p, uint32_t v) { p[0] = (uint8_t)v, p[1] = (uint8_t)(v >> 8); }
static inline void put_four(uint8_t *p, uint32_t v) { put_two(p, v), put_two(p + 2, v >> 16); }
static inline void put_eight(uint8_t *p, uint64_t v) { put_four(p, (uint32_t)v), put_four(p + 4, (uint32_t)(v >> 32)); }
static inline size_t less(size_t a, size_t b) { return a < b ? a : b; }

/* A call with its arguments, apart from the image. */
typedef struct {
    int kind;
    size_t len, image_size, work_size, word_size, text_size, word_out_size, text_out_size;
    uint8_t attribute, above, version;
    uint64_t ident;
    uint8_t word[MOST_WORD], text[MOST_TEXT];
} call;

/* An entry; its front as stored and its run's place in the index only where the harness's own reader gives it. */
typedef struct {
    size_t word_size, text_size, front, run;
    uint8_t attribute, word[PDIC_MAX_HEADWORD], text[PDIC_MAX_TEXT];
} entry;

/* The entries of an image, where it is accepted and has no more than MOST_ENTRIES. */
typedef struct {
    int known;
    size_t count;
    entry entries[MOST_ENTRIES + 1];
} list;

/* The image before a call: its slice, its length, check's number for it, and its list. */
typedef struct {
    uint8_t slice[MOST_SLICE];
    size_t size, len;
    uint32_t verdict;
    uint64_t headwords;
    list *entries;
} state;

/* guard.c: memory between inaccessible pages. */
typedef struct {
    uint8_t *low, *high; /* the accessible pages */
    uint8_t *at;         /* the part lent now */
    size_t size;
    uint8_t around;
} buffer;

void make_buffer(buffer *b, size_t capacity);
uint8_t *lend(buffer *b, size_t size, int at_start, uint8_t fill);
int all_bytes(const uint8_t *p, size_t size, uint8_t value);
int only_lent_part_changed(const buffer *b);

/* lent.c: everything lent for one call, and the call itself. */
enum { NUMBER_A, NUMBER_B, NUMBER_C, NUMBER_D, NUMBERS };
typedef struct {
    buffer image, work, word, text, word_out, text_out, number[NUMBERS];
    uint8_t fill;
    unsigned sides;
} lent;

void make_lent(lent *l);
void prepare(lent *l, const call *c, const uint8_t *image);
uint32_t perform(const lent *l, const call *c);
size_t number_at(const lent *l, int which);
extern const char *const call_names[KINDS];

/* decode.c: the state and the calls that an input names. */
size_t decode_state(state *s, const uint8_t *data, size_t size);
void decode_call(call *c, const state *s, const uint8_t *data, size_t size, size_t which);
int order_of(const uint8_t *a, size_t a_size, const uint8_t *b, size_t b_size);
const entry *answer(const state *s, const call *c);

/* reader.c: what the harness itself reads from an image. */
typedef struct {
    list entries;
    uint64_t headwords, in_runs, unused;
} reading;
uint32_t read_image(const uint8_t *slice, size_t size, size_t len, reading *to);
extern const uint8_t moved_to[VERSIONS][MOVED]; /* offsets */
int is_5(const uint8_t *image);
uint32_t moved(const uint8_t *image, int field);

/* facts.c: what must hold after a call. */
void hold(int fact, const call *c, uint32_t number, const char *what);
uint32_t foretold(const state *s, const call *c);
int may_return(int kind, uint32_t number);
void hold_may_return(const call *c, uint32_t number);
void hold_number(const state *s, const call *c, uint32_t number);
void hold_bytes(const state *s, const lent *l, const call *c, uint32_t number);
void hold_answer(const state *s, const lent *l, const call *c);
int same_entry(const entry *a, const entry *b);
void hold_step(const list *before, const list *after, const call *c);
uint64_t hold_fronts(const list *read, const call *c);
enum { UNKNOWN = 0xFFFF }; /* foretold: the list is not known */

/* harness.c */
int LLVMFuzzerTestOneInput(const uint8_t *data, size_t size);
typedef struct {
    uint64_t accepted, returned[KINDS][PDIC_ABSENT + 1];
    uint64_t index_grown, run_moved, run_split, run_gone, full_packed; /* changes in which this happened */
    uint64_t whole_fronts; /* written fronts that are shorter than the common one */
} tally;
extern tally seen[VERSIONS]; /* by the image's version; for create by the one that it is given */

/* mutate.c: changes of an input; `other` is an input to splice with. */
typedef struct { uint64_t state; } source;
uint64_t draw(source *r);
size_t below(source *r, size_t end);
void draw_control(source *r, uint8_t *control);
size_t mutate(source *r, uint8_t *data, size_t size, size_t most, const uint8_t *other, size_t other_size);

/* seeds.c: images made by the engine, half of them in version 5. */
typedef struct { uint8_t *bytes; size_t size; } seed;
enum { SEEDS = 64 };
void make_seeds(seed *seeds);

#endif
