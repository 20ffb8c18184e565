/* fill.c - puts a dictionary's texts into a manual.
 *
 *   fill [OPTION].. DICTIONARY MANUAL [OUTPUT]
 *
 * A term is marked in the manual as <<headword>>; marks.h says how that is read, and there is one way only. Each mark is
 * replaced by its entry's text, every other byte is kept, and the texts put in are not searched for marks again.
 *
 * The dictionary is checked when it is loaded; a bad one is refused with the engine's number and its meaning. Where anything
 * is refused or absent nothing is written: standard error gets the faults of the manual, or each headword that has no text,
 * an absent one with those near it. Options and exit status are in the help below.
 */
#include <errno.h>
#include <stdio.h>
#include <stdlib.h>
#include <string.h>
#include "book.h"
#include "file.h"
#include "marks.h"
#include "terms.h"

enum { LONGEST_MANUAL = 1 << 30, MOST_ARGUMENTS = 3 };

static const char usage[] = "usage: fill [OPTION].. DICTIONARY MANUAL [OUTPUT]\n";
static const char help[] =
    "\n"
    "Puts a dictionary's texts where a manual marks its terms. MANUAL - is standard\n"
    "input; OUTPUT - or no OUTPUT is standard output, and OUTPUT is neither of the\n"
    "others. Where a term is absent, or anything is refused, nothing is written.\n"
    "\n"
    "Marks, each on one line:\n"
    "  <<headword>>           is replaced by the text of that headword's entry\n"
    "  <<%open>>, <<%close>>  write << and >> themselves\n"
    "  <<%lt>>, <<%gt>>       write a single < or >, beside a mark for instance\n"
    "In a headword %XX, a percent sign and two hexadecimal digits, stands for that\n"
    "byte: %25 for a percent sign, %3C for <, %3E for >, %0A for a line feed. A\n"
    "single < or > stands for itself. Three or more together, >> outside a mark,\n"
    "<< in a mark, a mark with nothing in it, one that its line does not close and\n"
    "any other percent sign are refused, with line and column (counted in bytes).\n"
    "\n"
    "Options, before or between the arguments:\n"
    "  -q, --quiet   do not say what was filled\n"
    "  --unmarked    take a manual in which nothing is marked\n"
    "  --binary      take a manual that has zero bytes or begins as UTF-16\n"
    "  --empty       take entries whose text is empty\n"
    "  --help        print this\n"
    "  --version     print the version\n"
    "  --            what follows is no option\n"
    "\n"
    "Exit status: 0 filled, 1 terms are absent or have an empty text, 2 the\n"
    "dictionary, the manual or an argument is refused.\n";

typedef struct {
    int is_quiet, takes_unmarked, takes_binary, takes_empty;
    const char *arguments[MOST_ARGUMENTS];
    int count; /* of arguments */
} options;

typedef struct {
    const char *name;
    uint8_t *content;
    size_t len;
    mark_list marks;
    term_list terms;
} manual;

/* Reads the manual. Gives 0, or says why not and gives -1. */
static int read_manual(manual *m, const char *path)
{
    m->name = shown_path(path);
    int failed = read_file(path, LONGEST_MANUAL, &m->content, &m->len);
    if (failed) fprintf(stderr, "%s: %s\n", m->name, file_fault());
    return failed;
}

/* Where a byte of the manual stands. */
static place place_of(const manual *m, const uint8_t *byte)
{
    place p = { 1, 1 };
    for (const uint8_t *at = m->content; at < byte; at++) {
        p.column++;
        if (*at == '\n') p = (place){ p.line + 1, 1 };
    }
    return p;
}

/* Says what shows that the manual is no text of bytes, and gives -1; else gives 0. */
static int refuse_binary(const manual *m)
{
    int as_utf16 = is_utf16((bytes){ m->content, m->len });
    const uint8_t *evidence = as_utf16 ? m->content : memchr(m->content, 0, m->len);
    if (!evidence) return 0;
    print_place(stderr, m->name, place_of(m, evidence));
    fputs(as_utf16 ? "begins as UTF-16 does" : "a zero byte, as UTF-16 has them", stderr);
    fputs("; --binary takes the manual as it is\n", stderr);
    return -1;
}

/* Finds the marks. Gives 0, or says what is wrong with the manual and gives -1. */
static int find_marks(manual *m, const options *o)
{
    if (!o->takes_binary && refuse_binary(m) != 0) return -1;
    if (read_marks(m->name, m->content, m->len, &m->marks) > 0) return -1;
    if (m->marks.count > 0 || o->takes_unmarked) return 0;
    fprintf(stderr, "%s: nothing is marked; --unmarked takes the manual as it is\n", m->name);
    return -1;
}

/* The manual with its marks replaced; the caller frees it. */
static uint8_t *filled(const manual *m, size_t *len)
{
    size_t size = m->len;
    for (size_t i = 0; i < m->marks.count; i++) size += text_of_mark(&m->marks.all[i], &m->terms).len;
    uint8_t *out = take_memory(NULL, size), *to = out;
    const uint8_t *from = m->content;
    for (size_t i = 0; i < m->marks.count; i++) {
        const mark *k = &m->marks.all[i];
        to = append(to, (bytes){ from, (size_t)(k->start - from) });
        to = append(to, text_of_mark(k, &m->terms));
        from = k->end;
    }
    to = append(to, (bytes){ from, (size_t)(m->content + m->len - from) });
    *len = (size_t)(to - out);
    return out;
}

/* Says what was filled; literal signs are no terms. */
static void print_summary(const manual *m, size_t written)
{
    size_t signs = 0;
    for (size_t i = 0; i < m->marks.count; i++) signs += m->marks.all[i].sign != NULL;
    fprintf(stderr, "%s: ", m->name);
    print_count(stderr, m->marks.count - signs, "mark");
    fputs(" filled, ", stderr);
    print_count(stderr, m->terms.count, "different term");
    fputs(", ", stderr);
    if (signs > 0) {
        print_count(stderr, signs, "literal sign");
        fputs(", ", stderr);
    }
    print_count(stderr, written, "byte");
    fputs(" written\n", stderr);
}

/* Writes the filled manual; no path, or "-", is standard output. Gives the program's status. */
static int write_filled(const manual *m, const char *path, int is_quiet)
{
    size_t len;
    uint8_t *out = filled(m, &len);
    int is_file = path && strcmp(path, "-") != 0;
    int failed = is_file ? replace_file(path, out, len) : write_out(out, len);
    if (failed) fprintf(stderr, "%s: not written: %s\n", is_file ? path : "standard output", file_fault());
    else if (!is_quiet) print_summary(m, len);
    free(out);
    return failed ? STATUS_REFUSED : STATUS_DONE;
}

/* Refuses an output that is the dictionary or the manual: it would be lost. Gives 0 or -1. */
static int test_output(const options *o)
{
    int is_file = o->arguments[2] && strcmp(o->arguments[2], "-") != 0;
    for (int i = 0; is_file && i < 2; i++) {
        if (!is_same_file(o->arguments[i], o->arguments[2])) continue;
        fprintf(stderr, "%s: not written: it is the %s\n", o->arguments[2], i == 0 ? "dictionary" : "manual");
        return -1;
    }
    return 0;
}

static int fill(const book *b, manual *m, const options *o)
{
    if (test_output(o) != 0 || read_manual(m, o->arguments[1]) != 0 || find_marks(m, o) != 0) return STATUS_REFUSED;
    look_up_terms(b, &m->marks, &m->terms);
    int status = report_terms(m->name, b, &m->marks, &m->terms, o->takes_empty);
    return status == STATUS_DONE ? write_filled(m, o->arguments[2], o->is_quiet) : status;
}

/* Prints to standard output. Gives the program's status. */
static int print_out(const char *first, const char *second)
{
    if (fputs(first, stdout) != EOF && fputs(second, stdout) != EOF && fflush(stdout) == 0) return STATUS_DONE;
    fprintf(stderr, "standard output: %s\n", strerror(errno));
    return STATUS_REFUSED;
}

/* Takes one option. Gives -1, or the program's status where the program ends with it. */
static int take_option(options *o, const char *option)
{
    if (strcmp(option, "--help") == 0) return print_out(usage, help);
    if (strcmp(option, "--version") == 0) return print_out("fill " PDIC_VERSION "\n", "");
    if (strcmp(option, "-q") == 0 || strcmp(option, "--quiet") == 0) o->is_quiet = 1;
    else if (strcmp(option, "--unmarked") == 0) o->takes_unmarked = 1;
    else if (strcmp(option, "--binary") == 0) o->takes_binary = 1;
    else if (strcmp(option, "--empty") == 0) o->takes_empty = 1;
    else {
        fprintf(stderr, "fill: no such option: %s; fill --help says which there are\n", option);
        return STATUS_REFUSED;
    }
    return -1;
}

/* Reads options and arguments. Gives -1, or the program's status where the program ends with them. */
static int read_arguments(options *o, int argc, char **argv)
{
    int status = -1, is_option = 1;
    for (int i = 1; i < argc && status < 0; i++) {
        if (is_option && strcmp(argv[i], "--") == 0) is_option = 0;
        else if (is_option && argv[i][0] == '-' && argv[i][1]) status = take_option(o, argv[i]);
        else if (o->count++ < MOST_ARGUMENTS) o->arguments[o->count - 1] = argv[i];
    }
    if (status < 0 && (o->count < 2 || o->count > MOST_ARGUMENTS)) {
        fprintf(stderr, "%sfill --help says more\n", usage);
        status = STATUS_REFUSED;
    }
    return status;
}

int main(int argc, char **argv)
{
    options o = { 0 };
    open_standard_files();
    int status = read_arguments(&o, argc, argv);
    if (status >= 0) return status;
    book b;
    manual m = { 0 };
    if (book_load(&b, o.arguments[0]) != STATUS_DONE) return STATUS_REFUSED;
    status = fill(&b, &m, &o);
    free(m.content);
    free(m.marks.all);
    free_terms(&m.terms);
    book_free(&b);
    return status;
}
