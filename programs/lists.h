/* lists.h - lists of entries as they come in files.
 *
 * A plain list has one entry on each line, headword and text with one tab between. A table begins with a line that names
 * its columns, "%headword", "attribute", "text", with tabs between; in it %XX, a percent sign and two hexadecimal digits,
 * stands for a byte, so that it can hold every entry. Lines end in LF or CR LF, empty ones are passed over, and so is a
 * UTF-8 mark at the front. Nothing is stored that nobody sees: a headword with a blank at one of its ends, a control byte or
 * an entry without a text is a fault, unless a table has it. So is a headword that stands there twice. */
#ifndef LISTS_H
#define LISTS_H

#include "book.h"

/* An entry of a list. */
typedef struct {
    bytes headword, text;
    int attribute; /* -1 where the list names none */
    size_t line;
} item;

typedef struct {
    const char *path; /* as messages show it */
    uint8_t *content;
    size_t len;
    item *items; /* entries in headword order, headwords alone as they stand */
    size_t count;
} list;

/* What a list is read for: headwords alone or whole entries. */
typedef enum { HEADWORDS, ENTRIES } wanted;

/* Reads a list; "-" is standard input. Gives 0, or tells all its faults on standard error (the first 20 and how many more)
 * and gives -1. */
int read_list(list *l, const char *path, wanted what);

void free_list(list *l);

/* What of an entry that stands plainly would be stored though nobody sees it, in words, or NULL: a control byte, a blank or
 * the like at one of the headword's ends, no text. */
const char *unseen_in(bytes headword, bytes text);

/* An attribute as a number, 0x and hexadecimal digits or decimal; -1 where it is none that an entry may have. */
int read_attribute(bytes written);

/* Writes the first line of a table, and an entry as a line of it. */
void print_columns(FILE *out);
void print_row(FILE *out, const entry *e);

#endif
