#include "terms.h"
#include <stdlib.h>
#include "file.h"
#include "near.h"
#include "progress.h"

enum { MOST_TOLD = 100 };

/* By headword, and marks of one headword as they stand in the manual. */
static int compare_marks(const void *a, const void *b)
{
    const mark *x = *(mark *const *)a, *y = *(mark *const *)b;
    int order = compare_bytes(x->headword, y->headword);
    return order != 0 ? order : (x > y) - (x < y);
}

/* The marks that ask for a term, in headword order; the caller frees them. */
static mark **sorted_marks(mark_list *marks, size_t *count)
{
    mark **sorted = take_memory(NULL, marks->count * sizeof *sorted);
    *count = 0;
    for (size_t i = 0; i < marks->count; i++)
        if (!marks->all[i].sign) sorted[(*count)++] = &marks->all[i];
    qsort(sorted, *count, sizeof *sorted, compare_marks);
    return sorted;
}

static void keep_text(term_list *terms, term *t, const entry *found)
{
    if (terms->texts_size - terms->texts_len < PDIC_MAX_TEXT)
        terms->texts = take_memory(terms->texts, terms->texts_size = 2 * terms->texts_size + PDIC_MAX_TEXT);
    t->text_at = terms->texts_len;
    t->text_len = found->text_len;
    append(terms->texts + terms->texts_len, text_of(found));
    terms->texts_len += found->text_len;
}

static void look_up_term(const book *b, const mark *first, term_list *terms)
{
    entry found;
    term *t = &terms->all[terms->count++];
    *t = (term){ .first = first, .number = book_look_up(b, first->headword, &found) };
    if (t->number == PDIC_DONE) keep_text(terms, t, &found);
}

void look_up_terms(const book *b, mark_list *marks, term_list *found)
{
    size_t count;
    mark **sorted = sorted_marks(marks, &count);
    *found = (term_list){ .all = take_memory(NULL, count * sizeof *found->all) };
    for (size_t i = 0; i < count; i++) {
        if (i == 0 || compare_bytes(sorted[i - 1]->headword, sorted[i]->headword) != 0) {
            progress("marks looked up", i, count);
            look_up_term(b, sorted[i], found);
        }
        sorted[i]->term = found->count - 1;
    }
    progress_end();
    free(sorted);
}

/* Has a term nothing to put in? */
static int is_without(const term *t, int takes_empty)
{
    return t->number != PDIC_DONE || (t->text_len == 0 && !takes_empty);
}

/* Says why a term has nothing to put in. */
static void print_why(const book *b, const term *t)
{
    if (t->number == PDIC_ABSENT) print_absent(stderr, b, t->first->headword);
    else if (t->number != PDIC_DONE) print_refused(stderr, t->first->headword, t->number);
    else {
        print_quoted(stderr, t->first->headword);
        fputs(" has an empty text; --empty takes it\n", stderr);
    }
}

int report_terms(const char *name, const book *b, const mark_list *marks, const term_list *terms, int takes_empty)
{
    size_t without = 0;
    int status = STATUS_DONE;
    for (size_t i = 0; i < marks->count; i++) {
        const mark *m = &marks->all[i];
        const term *t = m->sign ? NULL : &terms->all[m->term];
        if (!t || t->first != m || !is_without(t, takes_empty)) continue;
        if (t->number != PDIC_ABSENT && t->number != PDIC_DONE) status = STATUS_REFUSED;
        else if (status == STATUS_DONE) status = STATUS_ABSENT;
        if (without++ >= MOST_TOLD) continue;
        print_place(stderr, name, m->where);
        print_why(b, t);
    }
    if (without > MOST_TOLD) {
        fprintf(stderr, "%s: and ", name);
        print_count(stderr, without - MOST_TOLD, "more headword");
        fputs(" without a text\n", stderr);
    }
    return status;
}

bytes text_of_mark(const mark *m, const term_list *terms)
{
    if (m->sign) return string_bytes(m->sign);
    const term *t = &terms->all[m->term];
    return (bytes){ terms->texts + t->text_at, t->text_len };
}

void free_terms(term_list *terms)
{
    free(terms->all);
    free(terms->texts);
}
