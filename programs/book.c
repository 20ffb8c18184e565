#include "book.h"
#include <inttypes.h>
#include <stdlib.h>
#include <string.h>
#include <sys/random.h>
#include "seal.h"

enum { FIRST_SIZE = 65536 };

void print_refused(FILE *out, bytes headword, uint32_t number)
{
    print_quoted(out, headword);
    fprintf(out, " is refused %" PRIu32 ": %s\n", number, pdic_strerror(number));
}

bytes headword_of(const entry *e)
{
    return (bytes){ e->headword, e->headword_len };
}

bytes text_of(const entry *e)
{
    return (bytes){ e->text, e->text_len };
}

int begins_with(const entry *e, bytes front)
{
    return e->headword_len >= front.len && memcmp(e->headword, front.at, front.len) == 0;
}

/* Makes the slices `size` bytes long. The working slice starts as zeros, which a call leaves there. */
static void book_resize(book *b, size_t size)
{
    b->image = take_memory(b->image, size);
    free(b->work);
    b->work = take_zeros(size);
    b->size = size;
}

/* Makes room for a larger dictionary; gives 0 where the format allows no larger one. */
static int book_grow(book *b)
{
    if (b->size >= PDIC_MAX_IMAGE) return 0;
    book_resize(b, b->size > PDIC_MAX_IMAGE / 2 ? PDIC_MAX_IMAGE : 2 * b->size);
    return 1;
}

/* A dictionary that was only read has no working slice yet. */
static void book_writable(book *b)
{
    if (!b->work) book_resize(b, b->size);
}

/* Says that a dictionary is refused, and why. */
static int refuse(const char *path, const char *what, const char *why)
{
    fprintf(stderr, "%s: %s%s\n", path, what, why);
    return STATUS_REFUSED;
}

/* A dictionary is a file with a name: standard input has no lock and no seal. */
static int has_name(const char *path)
{
    return strcmp(path, "-") != 0;
}

/* Draws an identifier that is not told. Gives 0, or -1 where the system has no random bytes. */
static int draw_ident(kind *k)
{
    if (k->version != PDIC_FORMAT_5 || k->has_ident) return 0;
    return getrandom(&k->ident, sizeof k->ident, 0) == (ssize_t)sizeof k->ident ? 0 : -1;
}

int book_create(book *b, const char *path, kind k)
{
    static const char what[] = "not made: ";
    *b = (book){ .file = { .fd = -1 } };
    if (!has_name(path)) return refuse(path, what, "it is no file");
    if (is_sealed(path)) return refuse(path, what, "a seal of its name is there");
    if (hold_new_file(&b->file, path) != HELD) return refuse(path, what, file_fault());
    if (draw_ident(&k) != 0) return refuse(path, what, "the system has no random bytes for its identifier");
    book_resize(b, FIRST_SIZE);
    uint32_t number = pdic_create(b->image, b->size, k.version, k.ident, &b->len);
    return number == PDIC_DONE ? STATUS_DONE : refuse(path, what, pdic_strerror(number));
}

/* Checks what was read, and its seal. */
static int checked(book *b, const char *path)
{
    figures f;
    b->size = b->len;
    uint32_t number = book_check(b, &f);
    if (number == PDIC_DONE && test_seal(path, (bytes){ b->image, b->len }) != SEAL_BROKEN) return STATUS_DONE;
    if (number == PDIC_DONE) refuse(path, "refused: ", "its seal is of other bytes, or cannot be read");
    else fprintf(stderr, "%s: refused %" PRIu32 ": %s\n", path, number, pdic_strerror(number));
    book_free(b);
    return STATUS_REFUSED;
}

int book_load(book *b, const char *path)
{
    *b = (book){ .file = { .fd = -1 } };
    if (!has_name(path)) return refuse(path, "", "it is no file");
    if (read_file(path, PDIC_MAX_IMAGE, &b->image, &b->len) != 0) return refuse(path, "", file_fault());
    return checked(b, path);
}

int book_hold(book *b, const char *path, unsigned seconds)
{
    static const char what[] = "not changed: ";
    *b = (book){ .file = { .fd = -1 } };
    if (!has_name(path)) return refuse(path, what, "it is no file");
    int held = hold_file(&b->file, path, seconds);
    if (held != HELD) {
        refuse(path, what, file_fault());
        return held == IN_USE ? STATUS_IN_USE : STATUS_REFUSED;
    }
    if (!is_sealed(path) && read_held(&b->file, PDIC_MAX_IMAGE, &b->image, &b->len) == 0) return checked(b, path);
    let_go(&b->file);
    return is_sealed(path) ? refuse(path, what, "it is sealed") : refuse(path, "", file_fault());
}

int book_load_to_change(book *b, const char *path)
{
    int status = book_load(b, path);
    if (status != STATUS_DONE || !is_sealed(path)) return status;
    book_free(b);
    return refuse(path, "not changed: ", "it is sealed");
}

int book_save(const book *b, const char *path)
{
    return replace_held(&b->file, b->image, b->len) == 0 ? STATUS_DONE : refuse(path, "not written: ", file_fault());
}

void book_free(book *b)
{
    free(b->image);
    free(b->work);
    let_go(&b->file);
    *b = (book){ .file = { .fd = -1 } };
}

/* A number of the header, low byte first. */
static uint64_t number_at(const book *b, size_t at, size_t size)
{
    uint64_t number = 0;
    for (size_t i = size; i > 0; i--) number = number << 8 | b->image[at + i - 1];
    return number;
}

unsigned book_version(const book *b)
{
    return (unsigned)number_at(b, PDIC_AT_VERSION, 2);
}

uint64_t book_ident(const book *b)
{
    return number_at(b, PDIC_AT_IDENT, 8);
}

uint32_t book_check(const book *b, figures *f)
{
    return pdic_check(b->image, b->size, b->len, &f->headwords, &f->index_blocks, &f->data_blocks, &f->free_blocks);
}

uint32_t book_look_up(const book *b, bytes headword, entry *found)
{
    uint32_t number = pdic_look_up(b->image, b->size, b->len, headword.at, headword.len, found->text,
                                   sizeof found->text, &found->attribute, &found->text_len);
    if (number == PDIC_DONE) {
        memcpy(found->headword, headword.at, headword.len);
        found->headword_len = headword.len;
    }
    return number;
}

uint32_t book_walk(const book *b, bytes from, int above, entry *found)
{
    uint8_t start[PDIC_MAX_HEADWORD]; /* `from` may be the headword of `found` */
    if (from.len > sizeof start) return PDIC_BAD_HEADWORD;
    memcpy(start, from.at, from.len);
    return pdic_walk(b->image, b->size, b->len, start, from.len, above != 0, found->headword, sizeof found->headword,
                     found->text, sizeof found->text, &found->attribute, &found->headword_len, &found->text_len);
}

uint32_t book_insert(book *b, bytes headword, uint8_t attribute, bytes text)
{
    uint32_t number;
    book_writable(b);
    do number = pdic_insert(b->image, b->size, b->len, b->work, b->size, headword.at, headword.len, attribute,
                            text.at, text.len, &b->len);
    while (number == PDIC_FULL && book_grow(b));
    return number;
}

uint32_t book_delete(book *b, bytes headword)
{
    uint32_t number;
    book_writable(b);
    do number = pdic_delete(b->image, b->size, b->len, b->work, b->size, headword.at, headword.len, &b->len);
    while (number == PDIC_FULL && book_grow(b));
    return number;
}

uint32_t book_optimise(book *b)
{
    book_writable(b);
    return pdic_optimise(b->image, b->size, b->len, b->work, b->size, &b->len);
}
