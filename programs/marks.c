#include "marks.h"
#include <string.h>
#include "file.h"

enum { MOST_TOLD = 20 };

/* A manual that is being read: from `at` on, in the line that begins at `line_start`. */
typedef struct {
    const char *name;
    uint8_t *at, *end, *line_start;
    size_t line, faults;
    size_t forgiven; /* how many >> to come on this line belong to marks that are told as faults already */
    mark_list *found;
} reading;

void print_place(FILE *out, const char *name, place where)
{
    fprintf(out, "%s:%zu:%zu: ", name, where.line, where.column);
}

void print_count(FILE *out, size_t number, const char *one)
{
    fprintf(out, "%zu %s%s", number, one, number == 1 ? "" : "s");
}

static place place_of(const reading *r, const uint8_t *at)
{
    return (place){ r->line, (size_t)(at - r->line_start) + 1 };
}

static void fault(reading *r, const uint8_t *at, const char *why)
{
    if (r->faults++ >= MOST_TOLD) return;
    print_place(stderr, r->name, place_of(r, at));
    fprintf(stderr, "%s\n", why);
}

/* How many equal bytes stand together here. */
static size_t run_length(const reading *r)
{
    const uint8_t *at = r->at;
    while (at < r->end && *at == *r->at) at++;
    return (size_t)(at - r->at);
}

static void next_line(reading *r, size_t forgiven)
{
    r->line_start = ++r->at;
    r->line++;
    r->forgiven = forgiven;
}

/* Replaces the escapes of a headword. Gives 0, or tells each percent sign that is none and gives -1. */
static int decode(reading *r, uint8_t *headword, size_t *len)
{
    bytes rest = { headword, *len };
    size_t stray;
    int failed = 0;
    while (unescape(rest, headword, len, &stray) != 0) {
        fault(r, rest.at + stray, "a percent sign without two hexadecimal digits; write %25 for a percent sign");
        rest = (bytes){ rest.at + stray + 1, rest.len - stray - 1 };
        failed = -1;
    }
    return failed;
}

/* What a literal sign writes, or NULL where a mark is none. */
static const char *sign_of(bytes inside)
{
    static const struct {
        const char *name, *sign;
    } signs[] = { { "%open", "<<" }, { "%close", ">>" }, { "%lt", "<" }, { "%gt", ">" } };
    for (size_t i = 0; i < sizeof signs / sizeof signs[0]; i++)
        if (compare_bytes(inside, string_bytes(signs[i].name)) == 0) return signs[i].sign;
    return NULL;
}

/* Keeps the mark that opens at `open` and whose >> stands at `close`. */
static void keep_mark(reading *r, uint8_t *open, const uint8_t *close)
{
    mark_list *l = r->found;
    mark m = { .start = open, .end = close + 2, .where = place_of(r, open),
               .headword = { open + 2, (size_t)(close - open - 2) } };
    m.sign = sign_of(m.headword);
    if (m.headword.len == 0) fault(r, open, "a mark with nothing in it");
    else if (m.sign || decode(r, open + 2, &m.headword.len) == 0) {
        if (l->count == l->size) l->all = take_memory(l->all, (l->size = 2 * l->size + 64) * sizeof *l->all);
        l->all[l->count++] = m;
    }
}

/* Reads a mark, from its << to behind its >> or to where it goes wrong. */
static void read_mark(reading *r)
{
    uint8_t *open = r->at;
    size_t run;
    for (r->at += 2; r->at < r->end && *r->at != '\n'; r->at += run) {
        uint8_t byte = *r->at;
        run = byte == '<' || byte == '>' ? run_length(r) : 1;
        if (run == 1) continue;
        if (byte == '<') {
            fault(r, r->at, "a mark inside a mark; the one before it is not closed");
            r->forgiven += 2;
        } else if (run == 2) keep_mark(r, open, r->at);
        else fault(r, r->at, "three or more > together; two close a mark, %3E in it stands for a >, and <<%gt>> writes one");
        r->at += run;
        return;
    }
    fault(r, open, "a mark that is not closed on its line; <<%open>> writes a << itself");
    if (r->at < r->end) next_line(r, 1);
}

/* Reads a run of < or > outside a mark, and the mark if it opens one. */
static void read_run(reading *r)
{
    size_t run = run_length(r);
    if (*r->at == '<' && run == 2) {
        read_mark(r);
        return;
    }
    if (*r->at == '<' && run > 2) {
        fault(r, r->at, "three or more < together; two open a mark, %3C in it stands for a <, and <<%lt>> writes one");
        r->forgiven++;
    } else if (run >= 2 && r->forgiven > 0) r->forgiven--;
    else if (run >= 2) fault(r, r->at, ">> closes no mark; <<%close>> writes a >> itself");
    r->at += run;
}

size_t read_marks(const char *name, uint8_t *manual, size_t len, mark_list *found)
{
    reading r = { .name = name, .at = manual, .end = manual + len, .line_start = manual, .line = 1, .found = found };
    while (r.at < r.end) {
        if (*r.at == '<' || *r.at == '>') read_run(&r);
        else if (*r.at == '\n') next_line(&r, 0);
        else r.at++;
    }
    if (r.faults > MOST_TOLD) {
        fprintf(stderr, "%s: and ", name);
        print_count(stderr, r.faults - MOST_TOLD, "more fault");
        putc('\n', stderr);
    }
    return r.faults;
}
