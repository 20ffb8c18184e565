/* terms.h - the terms of a manual: each different headword that is marked, looked up once. */
#ifndef TERMS_H
#define TERMS_H

#include "book.h"
#include "marks.h"

/* A term: the mark where it stands first, and what was found for it. */
typedef struct {
    const mark *first;
    uint32_t number;          /* the look up's answer */
    size_t text_at, text_len; /* the text's place among the texts */
} term;

typedef struct {
    term *all;
    size_t count;
    uint8_t *texts;
    size_t texts_len, texts_size;
} term_list;

/* Looks the headwords of the marks up, each once, and gives every mark its term. */
void look_up_terms(const book *b, mark_list *marks, term_list *found);

/* Says of the terms that have no text, or an empty one unless that is taken, why not: of the first hundred in the manual, then
 * how many more there are. Gives the program's status: done where all have a text, else absent, or refused where one is
 * refused. */
int report_terms(const char *name, const book *b, const mark_list *marks, const term_list *terms, int takes_empty);

/* What a mark is replaced by. */
bytes text_of_mark(const mark *m, const term_list *terms);

void free_terms(term_list *terms);

#endif
