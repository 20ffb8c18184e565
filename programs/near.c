#include "near.h"
#include <string.h>
#include "alike.h"

/* Each call of the engine goes through the whole dictionary, so their number is limited: to 60 for one absent headword. */
enum { MOST = 8, EACH = 3, MOST_WORDS = 3, ALIKE_CALLS = 32 };

/* Headwords that are worth printing. */
typedef struct {
    uint8_t headword[MOST][PDIC_MAX_HEADWORD];
    size_t len[MOST], count;
} offers;

static bytes offered(const offers *o, size_t i)
{
    return (bytes){ o->headword[i], o->len[i] };
}

static int is_offered(const offers *o, bytes headword)
{
    for (size_t i = 0; i < o->count; i++)
        if (compare_bytes(offered(o, i), headword) == 0) return 1;
    return 0;
}

static void offer(offers *o, bytes headword)
{
    if (o->count == MOST || is_offered(o, headword)) return;
    append(o->headword[o->count], headword);
    o->len[o->count++] = headword.len;
}

/* Offers the headwords that look like the absent one. A walk from the least front with which one can begin passes over all
 * others. */
static void offer_alike(const book *b, offers *o, bytes absent)
{
    uint8_t form[LONGEST_FOLDED];
    bytes absent_form = folded(absent, form);
    entry e = { .headword_len = 0 };
    for (int i = 0; i < ALIKE_CALLS && book_walk(b, headword_of(&e), 0, &e) == PDIC_DONE; i++) {
        if (look_alike(absent, headword_of(&e))) offer(o, headword_of(&e));
        if (!next_alike(absent_form, e.headword, &e.headword_len)) return;
    }
}

/* Is there a headword with this front? The least that is not below the front is it, if there is one. */
static int has_front(const book *b, bytes front)
{
    entry e;
    return book_walk(b, front, 0, &e) == PDIC_DONE && begins_with(&e, front);
}

/* Offers the first headwords with this front. */
static void offer_front(const book *b, offers *o, bytes front)
{
    entry e;
    uint32_t number = book_walk(b, front, 0, &e);
    for (int i = 0; i < EACH && number == PDIC_DONE && begins_with(&e, front); i++) {
        offer(o, headword_of(&e));
        number = book_walk(b, headword_of(&e), 1, &e);
    }
}

/* The longest front of the absent headword that another has. A headword with a front has every shorter one, so halving
 * finds it. */
static bytes longest_front(const book *b, bytes absent)
{
    size_t low = 0, high = absent.len;
    while (low < high) {
        size_t middle = (low + high + 1) / 2;
        if (has_front(b, (bytes){ absent.at, middle })) low = middle;
        else high = middle - 1;
    }
    return (bytes){ absent.at, low };
}

/* Offers the headword with its last word first: "chuck, three-jaw" for "three-jaw chuck". */
static void offer_filed(const book *b, offers *o, bytes absent)
{
    uint8_t filed[PDIC_MAX_HEADWORD + 1], *to = filed;
    size_t last = absent.len;
    while (last > 0 && absent.at[last - 1] != ' ') last--;
    if (last < 2) return;
    to = append(to, (bytes){ absent.at + last, absent.len - last });
    to = append(to, string_bytes(", "));
    to = append(to, (bytes){ absent.at, last - 1 });
    if (to - filed <= PDIC_MAX_HEADWORD) offer_front(b, o, (bytes){ filed, (size_t)(to - filed) });
}

/* Offers headwords that begin with a later word of the absent one; not with each word of a long one. */
static void offer_words(const book *b, offers *o, bytes absent)
{
    int words = 0;
    for (size_t i = 1; i < absent.len && words < MOST_WORDS; i++) {
        if (absent.at[i - 1] != ' ' || absent.at[i] == ' ') continue;
        const uint8_t *end = memchr(absent.at + i, ' ', absent.len - i);
        offer_front(b, o, (bytes){ absent.at + i, end ? (size_t)(end - absent.at) - i : absent.len - i });
        words++;
    }
}

static void offer_near(const book *b, offers *o, bytes absent)
{
    entry e;
    offer_filed(b, o, absent);
    bytes front = longest_front(b, absent);
    if (front.len > 0) offer_front(b, o, front);
    offer_words(b, o, absent);
    if (o->count == 0 && book_walk(b, absent, 1, &e) == PDIC_DONE) offer(o, headword_of(&e));
}

static void print_offers(FILE *out, const offers *o, void (*print)(FILE *out, bytes headword))
{
    for (size_t i = 0; i < o->count; i++) {
        if (i > 0) fputs(", ", out);
        print(out, offered(o, i));
    }
}

/* Prints what differs where headwords look like the absent one. */
static void print_alike(FILE *out, const offers *o, bytes absent)
{
    int is_case = 1;
    for (size_t i = 0; i < o->count; i++) is_case = is_case && differ_in_case(absent, offered(o, i));
    if (is_case) fputs("only capital and small letters differ: ", out);
    else {
        fputs("it looks like ", out);
        print_offers(out, o, print_quoted);
        fputs(", but ", out);
    }
    fputs("asked for is ", out);
    print_exact(out, absent);
    fputs(", and stored is ", out);
    print_offers(out, o, print_exact);
}

void print_absent(FILE *out, const book *b, bytes absent)
{
    offers o = { .count = 0 };
    print_quoted(out, absent);
    fputs(" is absent; ", out);
    offer_alike(b, &o, absent);
    if (o.count > 0) print_alike(out, &o, absent);
    else {
        offer_near(b, &o, absent);
        fputs(o.count ? "near it: " : "nothing is near it", out);
        print_offers(out, &o, print_quoted);
    }
    putc('\n', out);
}
