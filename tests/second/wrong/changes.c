/* Wrong engines, continued: the calls that change an image. Each is done right on the slices lent,
   then spoiled in the one way that WRONG names. */

#include <stddef.h>
#include <stdint.h>
#include <stdlib.h>
#include <string.h>

uint32_t right_pdic_create(uint8_t *image, size_t image_size, uint8_t version, uint64_t ident, size_t *new_len);
uint32_t right_pdic_insert(uint8_t *image, size_t image_size, size_t len, uint8_t *work, size_t work_size,
                           const uint8_t *headword, size_t headword_size, uint8_t attribute,
                           const uint8_t *text, size_t text_size, size_t *new_len);
uint32_t right_pdic_delete(uint8_t *image, size_t image_size, size_t len, uint8_t *work, size_t work_size,
                           const uint8_t *headword, size_t headword_size, size_t *new_len);
uint32_t right_pdic_optimise(uint8_t *image, size_t image_size, size_t len, uint8_t *work, size_t work_size,
                             size_t *new_len);

static int is(const char *name) {
    const char *way = getenv("WRONG");
    return way != NULL && strcmp(way, name) == 0;
}

static uint32_t two(const uint8_t *p) { return p[0] | (uint32_t)p[1] << 8; }
static uint32_t four(const uint8_t *p) { return two(p) | two(p + 2) << 16; }
static void put_two(uint8_t *p, uint32_t v) { p[0] = (uint8_t)v, p[1] = (uint8_t)(v >> 8); }
static void put_four(uint8_t *p, uint32_t v) { put_two(p, v), put_two(p + 2, v >> 16); }

enum { INSERT, DELETE, OPTIMISE };
#define CHAIN_END 0xFFFFFFFFu

/* A call: what was lent, and copies from before it. */
typedef struct {
    int kind;
    uint8_t *image, *work, *image_before, *work_before;
    size_t image_size, len, work_size;
    const uint8_t *headword;
    size_t headword_size;
    size_t *new_len, new_len_before;
} call;

static void take_back(call *c) {
    memcpy(c->image, c->image_before, c->image_size);
    *c->new_len = c->new_len_before;
}

/* The fields that version 5 has two bytes later than version 4. */
static uint8_t *moved(uint8_t *image, size_t place) { return image + place + (image[141] == 5 ? 2 : 0); }
static uint8_t *empty_block2(uint8_t *image) { return moved(image, 186); }
static uint8_t *nindex2(uint8_t *image) { return moved(image, 190); }

static uint32_t index_blocks(const uint8_t *image) { return two(image + 148); }
static uint8_t *block(uint8_t *image, uint32_t number) {
    return image + 256 * (1 + (size_t)index_blocks(image) + number);
}

/* The element of an image at a place; NULL past the last. */
static uint8_t *element(uint8_t *image, uint32_t place) {
    if (place >= four(nindex2(image))) return NULL;
    uint8_t *at = image + 256;
    while (place--) at += 2 + strlen((char *)at + 2) + 1;
    return at;
}

/* The place of the last element not above a headword, else 0. */
static uint32_t concerned(uint8_t *image, const uint8_t *headword, size_t size) {
    uint32_t found = 0, elements = four(nindex2(image));
    const char *word = (const char *)image + 256 + 2;
    for (uint32_t i = 0; i < elements; i++) {
        size_t length = strlen(word), common = length < size ? length : size;
        int order = memcmp(word, headword, common);
        if (order < 0 || (order == 0 && length <= size)) found = i;
        word += length + 1 + 2;
    }
    return found;
}

/* Behind a run's end marks. */
static uint8_t *behind_marks(uint8_t *run) {
    uint8_t *at = run + 2;
    while (two(at)) at += 3 + two(at);
    return at + 2;
}

static uint8_t *run_end(uint8_t *run) { return run + 256 * (size_t)two(run); }

/* Every number of the chain goes up. */
static void shift_chain(uint8_t *image, uint32_t by) {
    uint8_t *link = empty_block2(image);
    while (four(link) != CHAIN_END) {
        uint32_t number = four(link);
        put_four(link, number + by);
        link = block(image, number) + 2;
    }
}

/* The chain from its last block to its first. */
static void turn_chain(uint8_t *image) {
    uint32_t before = CHAIN_END, number = four(empty_block2(image));
    while (number != CHAIN_END) {
        uint8_t *link = block(image, number) + 2;
        uint32_t next = four(link);
        put_four(link, before);
        before = number;
        number = next;
    }
    put_four(empty_block2(image), before);
}

/* An entry with a shared front gets one that is a byte shorter, if its run has a byte left. */
static void shorten_front(uint8_t *run) {
    uint8_t headword[256];
    uint8_t *end = behind_marks(run);
    if (end == run_end(run)) return;
    for (uint8_t *at = run + 2; two(at); at += 3 + two(at)) {
        uint8_t front = at[2];
        if (front > 0) {
            memmove(at + 4, at + 3, (size_t)(end - (at + 3)));
            at[3] = headword[front - 1];
            at[2] = front - 1;
            put_two(at, two(at) + 1);
            return;
        }
        strcpy((char *)headword + front, (char *)at + 3);
    }
}

/* Wrong engines that take one byte for a lead byte, or do not. */
static const struct { const char *name; uint8_t byte; } other_leads[] = {
    { "80-leads", 0x80 }, { "lead-from-82", 0x81 }, { "lead-to-9e", 0x9F }, { "a0-leads", 0xA0 },
    { "df-leads", 0xDF }, { "lead-from-e1", 0xE0 }, { "lead-to-fb", 0xFC }, { "fd-leads", 0xFD },
};
enum { OTHER_LEADS = sizeof other_leads / sizeof other_leads[0] };

static int leads(uint8_t byte) {
    int right = (byte >= 0x81 && byte <= 0x9F) || (byte >= 0xE0 && byte <= 0xFC);
    for (int i = 0; i < OTHER_LEADS; i++)
        if (byte == other_leads[i].byte && is(other_leads[i].name)) return !right;
    return right;
}

/* Whether a place of a headword, which a zero ends, is inside a pair; read from a byte of it on. */
static int inside_pair(const uint8_t *word, size_t place, size_t from) {
    while (from < place) from += leads(word[from]) && word[from + 1] ? 2 : 1;
    return from > place;
}

/* Whether WRONG names a front that an insertion writes. */
static int writes_front(void) {
    for (int i = 0; i < OTHER_LEADS; i++)
        if (is(other_leads[i].name)) return 1;
    return is("front-in-a-pair") || is("pairs-of-the-earlier") || is("pairs-from-second-byte") ||
           is("pairs-by-the-byte-before") || is("front-a-pair-shorter");
}

/* The front that WRONG gives a headword behind another; where it names none, the one stored, but half a pair. */
static size_t wrong_front(const uint8_t *earlier, const uint8_t *later, size_t stored) {
    size_t front = 0, from = is("pairs-from-second-byte");
    while (earlier[front] && earlier[front] == later[front]) front++;
    if (is("front-in-a-pair")) return front;
    if (!writes_front()) front = stored;
    if (is("pairs-by-the-byte-before"))
        while (front > 0 && leads(later[front - 1])) front--;
    size_t common = front;
    while (front > 0 && inside_pair(is("pairs-of-the-earlier") ? earlier : later, front, from)) front--;
    if (is("front-a-pair-shorter") && 0 < front && front < common)
        while (--front > 0 && inside_pair(later, front, 0)) continue;
    return front;
}

/* The entries of a run with the fronts that WRONG gives, if it keeps its number of blocks. */
static int rewrite_fronts(uint8_t *run) {
    size_t size = (size_t)(run_end(run) - run), old = (size_t)(behind_marks(run) - run), used = 2;
    uint8_t word[256] = { 0 }, earlier[256], *to = calloc(2 * size + 256, 1);
    memcpy(to, run, 2);
    for (uint8_t *at = run + 2; two(at) && used < size; at += 3 + two(at)) {
        memcpy(earlier, word, sizeof word);
        strcpy((char *)word + at[2], (char *)at + 3);
        uint8_t *zero = at + 3 + strlen((char *)at + 3);
        size_t front = wrong_front(earlier, word, at[2]), rest = strlen((char *)word + front);
        size_t behind = (size_t)(at + 3 + two(at) - zero);
        put_two(to + used, (uint32_t)(rest + behind));
        to[used + 2] = (uint8_t)front;
        memcpy(to + used + 3, word + front, rest);
        memcpy(to + used + 3 + rest, zero, behind);
        used += 3 + rest + behind;
    }
    int keeps = used + 2 <= size && !(writes_front() && used + 2 <= size - 256);
    if (keeps) memcpy(run, to, used + 2 < old ? old : used + 2);
    free(to);
    return keeps;
}

/* Whether something holds of a run of an image, or could be done with one; all are taken. */
static int each_run(uint8_t *image, int (*with)(uint8_t *run)) {
    int some = 0;
    uint8_t *at = image + 256;
    for (uint32_t left = four(nindex2(image)); left > 0; left--) {
        some |= with(block(image, two(at)));
        at += 2 + strlen((char *)at + 2) + 1;
    }
    return some;
}

static int run_inside_pair(uint8_t *run) {
    uint8_t word[256];
    for (uint8_t *at = run + 2; two(at); at += 3 + two(at)) {
        strcpy((char *)word + at[2], (char *)at + 3);
        if (inside_pair(word, at[2], 0)) return 1;
    }
    return 0;
}

/* Whether a stored front of an image ends inside a pair. */
int front_inside_pair(uint8_t *image) { return each_run(image, run_inside_pair); }

/* The deleted headword stands in the index again, where the one in its place is as long. */
static void old_headword(call *c) {
    uint32_t place = concerned(c->image_before, c->headword, c->headword_size);
    uint8_t *old = element(c->image_before, place), *now = element(c->image, place);
    if (now && strlen((char *)now + 2) == c->headword_size && strlen((char *)old + 2) == c->headword_size &&
        memcmp(old + 2, c->headword, c->headword_size) == 0 &&
        four(nindex2(c->image)) == four(nindex2(c->image_before)))
        memcpy(now + 2, c->headword, c->headword_size);
}

/* The run that was placed goes to the highest stretch that is just as long, if it filled its own. */
static void place_highest(call *c) {
    uint8_t *image = c->image, *at = element(image, concerned(image, c->headword, c->headword_size));
    if (!at) return;
    uint32_t data = (uint32_t)(*c->new_len / 256) - 1 - index_blocks(image);
    uint32_t from = two(at), size = two(block(image, from)), to = 0, found = 0;
    uint8_t *is_free = calloc(data + 1, 1);
    for (uint32_t n = four(empty_block2(image)); n != CHAIN_END; n = four(block(image, n) + 2)) is_free[n] = 1;
    if (!is_free[from + size])
        for (uint32_t n = from + size, length = 0; n <= data; n++) {
            if (is_free[n]) length++;
            else {
                if (length == size) to = n - size, found = 1;
                length = 0;
            }
        }
    if (found) {
        memcpy(block(image, to), block(image, from), 256 * (size_t)size);
        memset(is_free + from, 1, size);
        memset(is_free + to, 0, size);
        put_two(at, to);
        uint8_t *link = empty_block2(image);
        for (uint32_t n = 0; n < data; n++)
            if (is_free[n]) {
                put_four(link, n);
                put_two(block(image, n), 0);
                link = block(image, n) + 2;
            }
        put_four(link, CHAIN_END);
    }
    free(is_free);
}

/* The counts go where version 4 has them, and version 5 keeps its own. */
static void counts_at_4(call *c) {
    uint8_t counts[12];
    memcpy(counts, c->image + 188, 12);
    memcpy(c->image + 182, c->image_before + 182, 18);
    memcpy(c->image + 186, counts, 12);
}

/* Whether an optimising that was done is taken back and answered with 15. */
static int optimise_full(call *c) {
    uint8_t *found = c->image_before, *first = element(found, 0);
    return (is("optimise-15-none-free") && four(empty_block2(found)) == CHAIN_END) ||
           (is("optimise-15-full-slice") && c->len == c->image_size) ||
           (is("optimise-15-full-packed") && *c->new_len == c->image_size) ||
           (is("optimise-15-no-run") && first == NULL) ||
           (is("optimise-15-index-shrinks") && index_blocks(c->image) < index_blocks(found)) ||
           (is("optimise-15-longest-run") && first && two(block(found, two(first))) == 32767);
}

/* What is spoiled after a call that was done on a file of version 5. */
static void done_wrong_5(call *c) {
    if (is("counts-at-version-4")) counts_at_4(c);
    if (is("identifier-altered")) c->image[223] ^= 0x80;
    if (is("optimise-zeroes-identifier") && c->kind == OPTIMISE) memset(c->image + 216, 0, 8);
    if (is("version-5-becomes-4")) c->image[141] = 4;
}

/* What is spoiled after a call that was done. */
static uint32_t done_wrong(call *c) {
    static int insertions;
    uint8_t *image = c->image;
    uint32_t grown = index_blocks(image) - index_blocks(c->image_before);
    uint32_t data = (uint32_t)(*c->new_len / 256) - 1 - index_blocks(image);
    uint32_t place = c->kind == OPTIMISE ? 0 : concerned(image, c->headword, c->headword_size);
    uint8_t *at = element(image, place), *run = at ? block(image, two(at)) : NULL;
    if (c->kind == INSERT) {
        insertions++;
        if (is("15-without-placing")) {
            take_back(c);
            return 15;
        }
        if (is("image-untouched")) memcpy(image, c->image_before, c->image_size);
        if (is("first-call-only") && insertions > 1) {
            take_back(c);
            *c->new_len = c->len;
        }
        if (is("same-entry-ignored") && four(image + 160) == four(c->image_before + 160)) {
            /* Nothing but the update count would differ. */
            uint8_t count[4];
            memcpy(count, image + 208, 4);
            memcpy(image + 208, c->image_before + 208, 4);
            if (memcmp(image, c->image_before, c->image_size) != 0) memcpy(image + 208, count, 4);
        }
        if (is("replaced-counted") && four(image + 160) == four(c->image_before + 160))
            put_four(image + 160, four(image + 160) + 1);
        if (is("L-one-block-more")) *c->new_len += 256;
        if (is("behind-end-marks") && run && behind_marks(run) != run_end(run)) run_end(run)[-1] = 1;
        if (is("touch-behind-new-L") && *c->new_len < c->image_size) image[*c->new_len] ^= 1;
        if (is("byte-past-image")) image[c->image_size] ^= 1;
        if (is("highest-of-equals")) place_highest(c);
        if (writes_front() && run) rewrite_fronts(run);
        if (is("full-slice-refused") && *c->new_len == c->image_size) {
            take_back(c);
            return 15;
        }
    }
    if (c->kind == DELETE && is("old-headword-in-index")) old_headword(c);
    if (c->kind != OPTIMISE) {
        if (is("front-shorter") && run) shorten_front(run);
        if (is("change-mends-fronts")) each_run(image, rewrite_fronts);
        if (is("chain-not-renumbered") && grown > 0) shift_chain(image, grown);
        if (is("moved-run-trimmed") && grown > 0)
            for (uint32_t i = 0; (at = element(image, i)); i++) {
                uint8_t *r = block(image, two(at));
                memset(behind_marks(r), 0, (size_t)(run_end(r) - behind_marks(r)));
            }
        if (is("chain-descending")) turn_chain(image);
        if (is("free-block-wiped"))
            for (uint32_t n = four(empty_block2(image)); n != CHAIN_END; n = four(block(image, n) + 2))
                memset(block(image, n) + 6, 0, 250);
    }
    if (c->kind == OPTIMISE) {
        if (is("optimise-mends-fronts")) each_run(image, rewrite_fronts);
        if (is("optimise-zeroes-too-far")) memset(image + *c->new_len, 0, c->image_size - *c->new_len);
        if (is("optimise-keeps-old-bytes"))
            memcpy(image + *c->new_len, c->image_before + *c->new_len, c->len - *c->new_len);
        if (is("optimise-not-counted") && *c->new_len == c->len)
            memcpy(image + 208, c->image_before + 208, 4);
    }
    if (image[141] == 5) done_wrong_5(c);
    if (is("count-not-wrapped") && four(image + 208) == 0) put_four(image + 208, CHAIN_END);
    if (is("empty_block-written")) put_two(image + 154, 0xFFFF);
    if (is("work-kept-past-L")) memcpy(c->work + c->len, c->work_before + c->len, c->work_size - c->len);
    if ((is("15-at-index-32767") && index_blocks(image) == 32767) ||
        (is("15-at-data-65536") && data == 65536) || (c->kind == OPTIMISE && optimise_full(c))) {
        take_back(c);
        return 15;
    }
    return 0;
}

/* What is spoiled after a call that was refused or found nothing. */
static uint32_t refused_wrong(call *c, uint32_t number) {
    if (is("L-on-refusal") && number != 100) *c->new_len = c->len;
    if (is("L-on-absent") && number == 100) *c->new_len = c->len;
    if (is("absent-counted") && number == 100) put_four(c->image + 208, four(c->image + 208) + 1);
    if (is("work-zeroed-on-2") && number == 2) memset(c->work, 0, c->work_size);
    if (is("work-kept-on-12") && number == 12) memcpy(c->work, c->work_before, c->work_size);
    if (is("work-kept-on-15") && number == 15) memcpy(c->work, c->work_before, c->work_size);
    if (is("half-done-on-15") && number == 15) c->image[c->len - 1] ^= 1;
    if (is("12-before-11") && number == 11 && c->kind != OPTIMISE && c->headword_size == 0) return 12;
    if (is("identifier-altered-on-15") && number == 15 && c->image[141] == 5) c->image[216] ^= 1;
    if (is("absent-as-12") && number == 100) return 12;
    if (is("crash-on-15") && number == 15) *(volatile int *)0 = 0;
    return number;
}

static uint8_t *copy(const uint8_t *from, size_t size) {
    uint8_t *to = malloc(size + 1);
    memcpy(to, from, size);
    return to;
}

static call before(int kind, uint8_t *image, size_t image_size, size_t len, uint8_t *work, size_t work_size,
                   const uint8_t *headword, size_t headword_size, size_t *new_len) {
    return (call){ kind, image, work, copy(image, image_size), copy(work, work_size), image_size, len,
                   work_size, headword, headword_size, new_len, *new_len };
}

static uint32_t after(call *c, uint32_t number) {
    number = number == 0 ? done_wrong(c) : refused_wrong(c, number);
    free(c->image_before);
    free(c->work_before);
    return number;
}

/* An identifier's eight bytes the other way round. */
static void turn_identifier(uint8_t *image) {
    for (int i = 0; i < 4; i++) {
        uint8_t low = image[216 + i];
        image[216 + i] = image[223 - i];
        image[223 - i] = low;
    }
}

uint32_t pdic_create(uint8_t *image, size_t image_size, uint8_t version, uint64_t ident, size_t *new_len) {
    int known = version == 4 || version == 5;
    if (is("create-in-255") && image_size == 255) return 0;
    if (is("create-3-before-1") && !known) return 3;
    if (is("create-low-bits") && !known) version &= 0x7F;
    if (is("identifier-32-bits")) ident = (uint32_t)ident;
    uint8_t as = is("version-6-created") && version == 6 ? 5 : version;
    uint32_t number = right_pdic_create(image, image_size, as, ident, new_len);
    if (number == 3 && is("create-clears-on-3")) memset(image, 0, 256);
    if (number == 3 && is("L-on-3")) *new_len = 256;
    if (number != 0) return number;
    image[141] = version;
    if (is("create-clears-all")) memset(image + 256, 0, image_size - 256);
    if (is("identifier-high-byte-first") && version == 5) turn_identifier(image);
    if (is("identifier-in-version-4") && version == 4)
        for (int i = 0; i < 8; i++) image[216 + i] = (uint8_t)(ident >> 8 * i);
    if (is("empty_block2-at-186") && version == 5) {
        memset(image + 188, 0, 4);
        put_four(image + 186, CHAIN_END);
    }
    return 0;
}

uint32_t pdic_insert(uint8_t *image, size_t image_size, size_t len, uint8_t *work, size_t work_size,
                     const uint8_t *headword, size_t headword_size, uint8_t attribute, const uint8_t *text,
                     size_t text_size, size_t *new_len) {
    if (is("text-first") && text_size > 3000) return 13;
    if (is("text-16-bits")) text_size = (uint16_t)text_size;
    if (is("attribute-high-bit-only")) attribute &= 0xEF;
    call c = before(INSERT, image, image_size, len, work, work_size, headword, headword_size, new_len);
    uint32_t number = right_pdic_insert(image, image_size, len, work, work_size, headword, headword_size,
                                        attribute, text, text_size, new_len);
    if (is("version-16-changed") && number == 11) {
        uint8_t version = image[140];
        image[140] = 0;
        number = right_pdic_insert(image, image_size, len, work, work_size, headword, headword_size,
                                   attribute, text, text_size, new_len);
        image[140] = version;
    }
    return after(&c, number);
}

uint32_t pdic_delete(uint8_t *image, size_t image_size, size_t len, uint8_t *work, size_t work_size,
                     const uint8_t *headword, size_t headword_size, size_t *new_len) {
    call c = before(DELETE, image, image_size, len, work, work_size, headword, headword_size, new_len);
    return after(&c, right_pdic_delete(image, image_size, len, work, work_size, headword, headword_size, new_len));
}

uint32_t pdic_optimise(uint8_t *image, size_t image_size, size_t len, uint8_t *work, size_t work_size,
                       size_t *new_len) {
    call c = before(OPTIMISE, image, image_size, len, work, work_size, NULL, 0, new_len);
    return after(&c, right_pdic_optimise(image, image_size, len, work, work_size, new_len));
}
