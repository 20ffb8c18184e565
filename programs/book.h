/* book.h - a dictionary file in memory, for the programs beside it: loaded, asked, changed, saved. */
#ifndef BOOK_H
#define BOOK_H

#include "bytes.h"
#include "file.h"
#include "pdic.h"

/* The image is the first `len` bytes of a slice of `size`; `work` is lent to the changing calls. */
typedef struct {
    uint8_t *image, *work;
    size_t size, len;
    held_file file; /* while the dictionary is held for a change */
} book;

/* What a new dictionary is to be: its version and, for version 5, its identifier, told or to be drawn. */
typedef struct {
    uint8_t version;
    int has_ident;
    uint64_t ident;
} kind;

/* The exit status of the programs. */
enum { STATUS_DONE = 0, STATUS_ABSENT = 1, STATUS_REFUSED = 2, STATUS_IN_USE = 3 };

/* An entry that was found. */
typedef struct {
    uint8_t headword[PDIC_MAX_HEADWORD], text[PDIC_MAX_TEXT], attribute;
    size_t headword_len, text_len;
} entry;

typedef struct {
    uint64_t headwords, index_blocks, data_blocks, free_blocks;
} figures;

/* Each gives STATUS_DONE, or says on standard error why not and gives another status. */

/* Reads a file and checks it, with its seal if it has one. */
int book_load(book *b, const char *path);

/* The same, for a change: the file is held until book_free, waiting as many seconds for another program. A sealed one is
 * refused. */
int book_hold(book *b, const char *path, unsigned seconds);

/* Reads a file to try a change that is not written. */
int book_load_to_change(book *b, const char *path);

/* An empty dictionary for a file that is not there yet. An identifier that is not told is the system's random bytes. */
int book_create(book *b, const char *path, kind k);

/* Writes a dictionary that is held or new. */
int book_save(const book *b, const char *path);

void book_free(book *b);

/* The version in the header, both bytes of it, and where its high byte is PDIC_FORMAT_5 the identifier. */
unsigned book_version(const book *b);
uint64_t book_ident(const book *b);

/* The engine's calls. Each gives the engine's number; a change takes longer slices where it answers 15. */
uint32_t book_check(const book *b, figures *f);
uint32_t book_look_up(const book *b, bytes headword, entry *found);
uint32_t book_walk(const book *b, bytes from, int above, entry *found);
uint32_t book_insert(book *b, bytes headword, uint8_t attribute, bytes text);
uint32_t book_delete(book *b, bytes headword);
uint32_t book_optimise(book *b);

/* Prints that a headword, or the entry that it was to have, is refused, and why. */
void print_refused(FILE *out, bytes headword, uint32_t number);

bytes headword_of(const entry *e);
bytes text_of(const entry *e);
int begins_with(const entry *e, bytes front);

#endif
