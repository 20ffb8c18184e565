/* alike.c - the search for look-alikes against a list read whole: alike SEED NUMBER.
 *
 * So many random lists of headwords, made of signs that are easily mistaken for one another. For each list and a headword, the
 * walks from front to front that near.c does must find just those that look_alike tells, whatever their number. */
#include "alike.h"
#include <stdlib.h>
#include <string.h>

enum { MOST_HEADWORDS = 60, MOST_PIECES = 7 };

static const char *const pieces[] = {
    "a", "A", "e", "E", "z", " ", " ", "\t", "\xC2\xA0", "\xE2\x80\xAF", "\xE3\x80\x80", "\x81\x40", "\xC2\xAD", "\xE2\x80\x8B",
    "\xEF\xBB\xBF", "-", "\xE2\x80\x90", "\xE2\x88\x92", "'", "\xE2\x80\x99", "\xC3\xA9", "\xC3\x89", "e\xCC\x81", "\xCC\x81",
    "\xE2\x80\xA6", "\xC2\xB0", "\x83\x41", "\x83\x61", "\x81", "\x40", "\xC2", "\xE2\x80", "\xFF",
};

typedef struct {
    uint8_t at[PDIC_MAX_HEADWORD];
    size_t len;
} word;

static bytes bytes_of(const word *w)
{
    return (bytes){ w->at, w->len };
}

static int compare_words(const void *a, const void *b)
{
    return compare_bytes(bytes_of(a), bytes_of(b));
}

static word random_word(int kinds)
{
    word w = { .len = 0 };
    for (int i = 1 + rand() % MOST_PIECES; i > 0; i--) {
        bytes piece = string_bytes(pieces[rand() % kinds]);
        append(w.at + w.len, piece);
        w.len += piece.len;
    }
    return w;
}

/* The first headword that is not below a front, or NULL. */
static const word *walk(const word *words, size_t count, const word *front)
{
    for (size_t i = 0; i < count; i++)
        if (compare_words(&words[i], front) >= 0) return &words[i];
    return NULL;
}

static size_t found_by_walks(const word *words, size_t count, bytes headword)
{
    uint8_t form[LONGEST_FOLDED];
    bytes folded_headword = folded(headword, form);
    word front = { .len = 0 };
    size_t found = 0;
    for (const word *w = walk(words, count, &front); w; w = walk(words, count, &front)) {
        found += (size_t)look_alike(headword, bytes_of(w));
        front = *w;
        if (!next_alike(folded_headword, front.at, &front.len)) return found;
        if (compare_words(&front, w) <= 0) return SIZE_MAX;
    }
    return found;
}

int main(int argc, char **argv)
{
    if (argc != 3) return 2;
    srand((unsigned)atoi(argv[1]));
    size_t all = 0;
    for (int k = atoi(argv[2]); k > 0; k--) {
        word words[MOST_HEADWORDS];
        size_t count = 1 + (size_t)rand() % MOST_HEADWORDS, alike = 0;
        int kinds = k % 2 ? 13 : (int)(sizeof pieces / sizeof pieces[0]);
        for (size_t i = 0; i < count; i++) words[i] = random_word(kinds);
        qsort(words, count, sizeof words[0], compare_words);
        word headword = random_word(kinds);
        for (size_t i = 0; i < count; i++)
            if (i == 0 || compare_words(&words[i - 1], &words[i]) != 0)
                alike += (size_t)look_alike(bytes_of(&headword), bytes_of(&words[i]));
        if (found_by_walks(words, count, bytes_of(&headword)) != alike) {
            print_exact(stdout, bytes_of(&headword));
            printf(": the walks do not find the %zu that look like it\n", alike);
            return 1;
        }
        all += alike;
    }
    printf("%zu look-alikes in %s random lists found by walking\n", all, argv[2]);
    return all > 0 ? 0 : 1;
}
