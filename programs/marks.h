/* marks.h - the marks of a manual, read in one way only.
 *
 * A mark is <<headword>>, on one line. Equal signs < or > that stand together are a run. Outside a mark a run of two < opens
 * one; a run of three or more is refused, and a run of two or more >, which closes nothing. In a mark a run of two > closes
 * it; a run of three or more is refused, and a run of two or more <, the line's end, and a mark with nothing in it. A single
 * < or > is text, or part of the headword.
 *
 * In a mark %XX stands for that byte, so that every headword can be marked; a percent sign without two hexadecimal digits
 * is refused. <<%open>> and <<%close>> write << and >> themselves, <<%lt>> and <<%gt>> a single sign; since none of %op, %cl,
 * %lt and %gt is an escape, no headword is lost to them.
 */
#ifndef MARKS_H
#define MARKS_H

#include "bytes.h"

/* Where a byte of the manual stands: line and column, both from 1, the column in bytes. */
typedef struct {
    size_t line, column;
} place;

/* A mark in the manual, from its first sign to behind its last. */
typedef struct {
    const uint8_t *start, *end;
    place where;
    const char *sign; /* what a literal sign writes; NULL for a term */
    bytes headword;   /* of a term */
    size_t term;      /* its number among the terms, when they are looked up */
} mark;

typedef struct {
    mark *all;
    size_t count, size;
} mark_list;

/* Prints "NAME:LINE:COLUMN: ". */
void print_place(FILE *out, const char *name, place where);

/* Prints a number and what is counted, "1 mark" or "2 marks". */
void print_count(FILE *out, size_t number, const char *one);

/* Reads all marks of a manual in one pass. Escapes are replaced where they stand, so that bytes inside marks change. Gives
 * the number of faults; the first twenty are told on standard error. The caller frees found->all. */
size_t read_marks(const char *name, uint8_t *manual, size_t len, mark_list *found);

#endif
