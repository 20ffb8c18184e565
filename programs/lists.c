#include "lists.h"
#include <stdlib.h>
#include <string.h>
#include "alike.h"

enum { LONGEST_LIST = 1 << 30, MOST_COLUMNS = 3, MOST_TOLD = 20 };

/* What is wrong with a line: words, behind the bytes that are shown if there are any, and in front of another line's number;
 * or the engine's refusal of the bytes shown. */
typedef struct {
    size_t line, other;
    const char *words;
    uint32_t number;
    bytes shown;
    size_t found; /* how many were found before it */
} fault;

/* The columns of a list, in order. */
typedef enum { HEADWORD, ATTRIBUTE, TEXT } column;
static const char *const column_names[] = { [HEADWORD] = "headword", [ATTRIBUTE] = "attribute", [TEXT] = "text" };

/* A list while it is read. */
typedef struct {
    list *l;
    wanted what;
    int is_table;
    column columns[MOST_COLUMNS];
    size_t column_count, items_size;
    fault *faults;
    size_t fault_count, faults_size;
} reading;

static void add_fault(reading *r, fault f)
{
    if (r->fault_count == r->faults_size)
        r->faults = take_memory(r->faults, (r->faults_size = 2 * r->faults_size + 64) * sizeof *r->faults);
    f.found = r->fault_count;
    r->faults[r->fault_count++] = f;
}

static int compare_faults(const void *a, const void *b)
{
    const fault *x = a, *y = b;
    int order = (x->line > y->line) - (x->line < y->line);
    return order != 0 ? order : (x->found > y->found) - (x->found < y->found);
}

static void print_words(const fault *f)
{
    if (f->shown.at) {
        print_exact(stderr, f->shown);
        putc(' ', stderr);
    }
    fputs(f->words, stderr);
    if (f->other) fprintf(stderr, " %zu", f->other);
    putc('\n', stderr);
}

/* Tells the faults in the order of the lines. Gives 0 where there is none, else -1. */
static int tell_faults(reading *r)
{
    if (r->fault_count == 0) return 0;
    qsort(r->faults, r->fault_count, sizeof *r->faults, compare_faults);
    for (size_t i = 0; i < r->fault_count && i < MOST_TOLD; i++) {
        const fault *f = &r->faults[i];
        fprintf(stderr, "%s:%zu: ", r->l->path, f->line);
        if (f->number) print_refused(stderr, f->shown, f->number);
        else print_words(f);
    }
    if (r->fault_count > MOST_TOLD) fprintf(stderr, "%s: and %zu more faults\n", r->l->path, r->fault_count - MOST_TOLD);
    return -1;
}

/* Is there a control byte? */
static int has_control(bytes b)
{
    for (size_t i = 0; i < b.len; i++)
        if (is_control(b.at[i])) return 1;
    return 0;
}

static const char blank_words[] = "begins or ends with a blank or a sign that nobody sees; a table can have it as %XX";
static const char control_words[] = "has a control byte, in it or in its text; a table can have it as %XX";
static const char empty_words[] = "has no text; a table can have that";

const char *unseen_in(bytes headword, bytes text)
{
    if (has_control(headword) || has_control(text)) return control_words;
    if (has_unseen_end(headword)) return blank_words;
    return text.len == 0 ? empty_words : NULL;
}

/* Cuts the next column off a line. */
static bytes next_column(bytes *line)
{
    const uint8_t *tab = line->len ? memchr(line->at, '\t', line->len) : NULL;
    bytes cut = { line->at, tab ? (size_t)(tab - line->at) : line->len };
    size_t gone = cut.len + (tab != NULL);
    *line = (bytes){ line->at + gone, line->len - gone };
    return cut;
}

/* Splits a line into its columns. Gives how many there are; those behind the last place are only counted. */
static size_t split(bytes line, bytes columns[MOST_COLUMNS])
{
    size_t count = 0, tabs = 0;
    for (size_t i = 0; i < line.len; i++) tabs += line.at[i] == '\t';
    while (count <= tabs && count < MOST_COLUMNS) columns[count++] = next_column(&line);
    return tabs + 1;
}

/* The column with a name, or -1. */
static int column_called(bytes name)
{
    for (int c = HEADWORD; c <= TEXT; c++)
        if (compare_bytes(name, string_bytes(column_names[c])) == 0) return c;
    return -1;
}

/* Reads a table's first line: %headword, then other columns, each once. Gives 0 or -1. */
static int read_columns(reading *r, bytes line, size_t number)
{
    bytes names[MOST_COLUMNS];
    unsigned seen = 0;
    r->column_count = split((bytes){ line.at + 1, line.len - 1 }, names);
    int is_good = r->column_count <= MOST_COLUMNS;
    for (size_t i = 0; is_good && i < r->column_count; i++) {
        int c = column_called(names[i]);
        is_good = c >= 0 && !(seen & 1u << c) && (c == HEADWORD) == (i == 0);
        if (is_good) seen |= 1u << (r->columns[i] = (column)c);
    }
    if (is_good && (r->what == HEADWORDS || seen & 1u << TEXT)) return 0;
    add_fault(r, (fault){ .line = number, .words = "a table's columns are %headword, attribute and text" });
    return -1;
}

/* The columns of a plain list. */
static void plain_columns(reading *r)
{
    r->columns[0] = HEADWORD;
    r->columns[1] = TEXT;
    r->column_count = r->what == HEADWORDS ? 1 : 2;
}

int read_attribute(bytes written)
{
    char digits[8], *end;
    if (written.len == 0 || written.len >= sizeof digits || written.at[0] < '0' || written.at[0] > '9') return -1;
    *append((uint8_t *)digits, written) = '\0';
    unsigned long number = strtoul(digits, &end, strncmp(digits, "0x", 2) == 0 ? 16 : 10);
    int is_good = *end == '\0' && number <= 255 && (number & PDIC_PLAIN) && !(number & PDIC_PARTS);
    return is_good ? (int)number : -1;
}

/* The bytes that a column stands for, in their place in the list's content. */
static bytes column_bytes(reading *r, bytes written, size_t number)
{
    uint8_t *to = r->l->content + (written.at - r->l->content);
    size_t len, at;
    if (!r->is_table) return written;
    if (unescape(written, to, &len, &at) == 0) return (bytes){ to, len };
    add_fault(r, (fault){ .line = number, .shown = written, .words = "has a percent sign without two hexadecimal digits: write %25" });
    return (bytes){ to, 0 };
}

static void read_headword(reading *r, item *x, bytes written)
{
    size_t faults = r->fault_count;
    x->headword = written;
    if (has_unseen_end(written)) add_fault(r, (fault){ .line = x->line, .shown = written, .words = blank_words });
    else x->headword = column_bytes(r, written, x->line);
    if (r->fault_count > faults) return;
    if (x->headword.len == 0 || x->headword.len > PDIC_MAX_HEADWORD || memchr(x->headword.at, 0, x->headword.len))
        add_fault(r, (fault){ .line = x->line, .shown = x->headword, .number = PDIC_BAD_HEADWORD });
}

static void read_text(reading *r, item *x, bytes written)
{
    if (written.len == 0 && !r->is_table) add_fault(r, (fault){ .line = x->line, .shown = x->headword, .words = empty_words });
    x->text = column_bytes(r, written, x->line);
    if (x->text.len > PDIC_MAX_TEXT || (x->text.len && memchr(x->text.at, 0, x->text.len)))
        add_fault(r, (fault){ .line = x->line, .shown = x->headword, .number = PDIC_BAD_TEXT });
}

static void read_number(reading *r, item *x, bytes written)
{
    x->attribute = read_attribute(written);
    if (x->attribute < 0)
        add_fault(r, (fault){ .line = x->line, .shown = written, .words = "is no attribute: 0x80 set, 0x10 clear" });
}

/* Reads one line that is not empty. */
static void read_line(reading *r, bytes line, size_t number)
{
    bytes columns[MOST_COLUMNS];
    list *l = r->l;
    item x = { .line = number, .attribute = -1 };
    if (split(line, columns) != r->column_count) {
        add_fault(r, (fault){ .line = number, .words = r->is_table ? "not as many columns as the first line names" :
                              r->what == HEADWORDS ? "a tab in a list of headwords" : "not headword, one tab and text" });
        return;
    }
    for (size_t i = 0; i < r->column_count; i++) {
        if (!has_control(columns[i])) continue;
        add_fault(r, (fault){ .line = number, .shown = columns[0], .words = control_words });
        return;
    }
    for (size_t i = 0; i < r->column_count; i++) {
        if (r->columns[i] == HEADWORD) read_headword(r, &x, columns[i]);
        else if (r->columns[i] == TEXT) read_text(r, &x, columns[i]);
        else read_number(r, &x, columns[i]);
    }
    if (l->count == r->items_size)
        l->items = take_memory(l->items, (r->items_size = 2 * r->items_size + 256) * sizeof *l->items);
    l->items[l->count++] = x;
}

/* Reads all lines; the first that is not empty says whether the list is a table. */
static void read_lines(reading *r, bytes content)
{
    const uint8_t *at = content.at, *end = at + content.len;
    int is_first = 1;
    plain_columns(r);
    for (size_t number = 1; at < end; number++) {
        const uint8_t *stop = memchr(at, '\n', (size_t)(end - at)), *next = stop ? stop + 1 : end;
        bytes line = { at, (size_t)((stop ? stop : end) - at) };
        if (line.len > 0 && line.at[line.len - 1] == '\r') line.len--;
        at = next;
        if (line.len == 0) continue;
        r->is_table |= is_first && line.len >= 9 && memcmp(line.at, "%headword", 9) == 0;
        if (is_first && r->is_table) {
            if (read_columns(r, line, number) != 0) return;
        } else {
            read_line(r, line, number);
        }
        is_first = 0;
    }
}

static int compare_lines(const void *a, const void *b)
{
    const item *x = a, *y = b;
    return (x->line > y->line) - (x->line < y->line);
}

/* By headword, and equal ones as they stand in the list. */
static int compare_headwords(const void *a, const void *b)
{
    int order = compare_bytes(((const item *)a)->headword, ((const item *)b)->headword);
    return order != 0 ? order : compare_lines(a, b);
}

/* Puts entries in headword order; headwords alone stay as they stand. A headword that stands there twice is a fault. */
static void sort_items(reading *r)
{
    list *l = r->l;
    if (l->count > 0) qsort(l->items, l->count, sizeof *l->items, compare_headwords);
    for (size_t i = 1; i < l->count; i++) {
        const item *x = &l->items[i - 1], *y = &l->items[i];
        if (y->headword.len == 0 || compare_bytes(x->headword, y->headword) != 0) continue;
        add_fault(r, (fault){ .line = y->line, .shown = y->headword, .words = "stands there already, in line", .other = x->line });
    }
    if (l->count > 0 && r->what == HEADWORDS) qsort(l->items, l->count, sizeof *l->items, compare_lines);
}

int read_list(list *l, const char *path, wanted what)
{
    *l = (list){ .path = shown_path(path) };
    if (read_file(path, LONGEST_LIST, &l->content, &l->len) != 0) {
        fprintf(stderr, "%s: %s\n", l->path, file_fault());
        return -1;
    }
    reading r = { .l = l, .what = what };
    bytes content = { l->content, l->len };
    if (is_utf16(content)) {
        add_fault(&r, (fault){ .line = 1, .words = "UTF-16; a list has the bytes that the dictionary is to have" });
    } else {
        size_t mark = content.len >= 3 && memcmp(content.at, "\xEF\xBB\xBF", 3) == 0 ? 3 : 0;
        read_lines(&r, (bytes){ content.at + mark, content.len - mark });
        sort_items(&r);
    }
    int failed = tell_faults(&r);
    free(r.faults);
    return failed;
}

void free_list(list *l)
{
    free(l->content);
    free(l->items);
    *l = (list){ 0 };
}

void print_columns(FILE *out)
{
    fprintf(out, "%%%s\t%s\t%s\n", column_names[HEADWORD], column_names[ATTRIBUTE], column_names[TEXT]);
}

/* Prints bytes with control bytes and percent signs as %XX, and so many first and last ones. */
static void print_column(FILE *out, bytes b, size_t first, size_t last)
{
    for (size_t i = 0; i < b.len; i++) {
        if (i < first || i + last >= b.len || is_control(b.at[i]) || b.at[i] == '%') fprintf(out, "%%%02X", (unsigned)b.at[i]);
        else putc(b.at[i], out);
    }
}

void print_row(FILE *out, const entry *e)
{
    bytes headword = headword_of(e);
    print_column(out, headword, unseen_bytes(headword, 0), unseen_bytes(headword, 1));
    fprintf(out, "\t0x%02X\t", (unsigned)e->attribute);
    print_column(out, text_of(e), 0, 0);
    putc('\n', out);
}
