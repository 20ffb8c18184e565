#include "alike.h"
#include <string.h>

/* Signs with the form that they are folded to. */
static const struct {
    const char *sign, *form;
} signs[] = {
    { " ", " " },            { "\t", " " },           { "\n", " " },           { "\r", " " },
    { "\xC2\xA0", " " },     /* no-break space */
    { "\xE2\x80\xAF", " " }, /* narrow no-break space */
    { "\xE3\x80\x80", " " }, /* ideographic space */
    { "\xE2\x80\x80", " " }, /* spaces by their width, from one quad of en to the hair space */
    { "\xE2\x80\x81", " " },
    { "\xE2\x80\x82", " " },
    { "\xE2\x80\x83", " " },
    { "\xE2\x80\x84", " " },
    { "\xE2\x80\x85", " " },
    { "\xE2\x80\x86", " " },
    { "\xE2\x80\x87", " " },
    { "\xE2\x80\x88", " " },
    { "\xE2\x80\x89", " " },
    { "\xE2\x80\x8A", " " },
    { "\xE2\x80\xA8", " " }, /* line separator */
    { "\xE2\x80\xA9", " " }, /* paragraph separator */
    { "\xE2\x81\x9F", " " }, /* mathematical space */
    { "\x81\x40", " " },     /* ideographic space of Shift JIS */
    { "\xC2\xAD", "" },      /* soft hyphen */
    { "\xE2\x80\x8B", "" },  /* zero-width space */
    { "\xE2\x80\x8C", "" },  /* zero-width non-joiner */
    { "\xE2\x80\x8D", "" },  /* zero-width joiner */
    { "\xE2\x80\x8E", "" },  /* left-to-right mark */
    { "\xE2\x80\x8F", "" },  /* right-to-left mark */
    { "\xE2\x81\xA0", "" },  /* word joiner */
    { "\xEF\xBB\xBF", "" },  /* zero-width no-break space, also called byte order mark */
    { "\xE2\x80\x90", "-" }, /* hyphen */
    { "\xE2\x80\x91", "-" }, /* no-break hyphen */
    { "\xE2\x80\x93", "-" }, /* en dash */
    { "\xE2\x88\x92", "-" }, /* minus sign */
    { "\xE2\x80\x98", "'" }, /* left single quotation mark */
    { "\xE2\x80\x99", "'" }, /* right single quotation mark, the typographic apostrophe */
};

/* Combining marks with the letters that have a sign together with them, each of two bytes. */
static const struct {
    const char *mark, *letters, *composed;
} accents[] = {
    { "\xCC\x80", "AEIOUaeiou", "ÀÈÌÒÙàèìòù" },
    { "\xCC\x81", "AEIOUYCLNRSZaeiouyclnrsz", "ÁÉÍÓÚÝĆĹŃŔŚŹáéíóúýćĺńŕśź" },
    { "\xCC\x82", "AEIOUCGHJSWYaeioucghjswy", "ÂÊÎÔÛĈĜĤĴŜŴŶâêîôûĉĝĥĵŝŵŷ" },
    { "\xCC\x83", "ANOIUanoiu", "ÃÑÕĨŨãñõĩũ" },
    { "\xCC\x88", "AEIOUYaeiouy", "ÄËÏÖÜŸäëïöüÿ" },
    { "\xCC\x8A", "AUau", "ÅŮåů" },
    { "\xCC\x8C", "CDELNRSTZcdelnrstz", "ČĎĚĽŇŘŠŤŽčďěľňřšťž" },
    { "\xCC\xA7", "CGKLNRSTcgklnrst", "ÇĢĶĻŅŖŞŢçģķļņŗşţ" },
};

enum { SIGNS = sizeof signs / sizeof signs[0], ACCENTS = sizeof accents / sizeof accents[0], LONGEST_SIGN = 3 };

static uint8_t small(uint8_t byte)
{
    return byte >= 'A' && byte <= 'Z' ? (uint8_t)(byte + 32) : byte;
}

/* The length of the UTF-8 character at the front, or 0 where there is none. */
static size_t utf8_len(bytes b)
{
    uint8_t first = b.at[0];
    size_t len = first < 0x80 ? 1 : first < 0xC2 ? 0 : first < 0xE0 ? 2 : first < 0xF0 ? 3 : first < 0xF5 ? 4 : 0;
    if (len > b.len) return 0;
    for (size_t i = 1; i < len; i++)
        if ((b.at[i] & 0xC0) != 0x80) return 0;
    return len;
}

/* The length of the Shift JIS character at the front; a byte that begins none is one by itself. */
static size_t shift_jis_len(bytes b)
{
    uint8_t first = b.at[0];
    int is_pair = (first >= 0x81 && first <= 0x9F) || (first >= 0xE0 && first <= 0xFC);
    return is_pair && b.len >= 2 && b.at[1] >= 0x40 && b.at[1] != 0x7F ? 2 : 1;
}

static bytes behind(bytes b, size_t len)
{
    return (bytes){ b.at + len, b.len - len };
}

static int is_utf8(bytes b)
{
    size_t len = 1;
    for (; b.len > 0 && len > 0; b = behind(b, len)) len = utf8_len(b);
    return len > 0;
}

/* The form of one character; `small_form` has room for three bytes. */
static bytes form_of(bytes character, uint8_t *small_form)
{
    for (size_t i = 0; i < SIGNS; i++)
        if (compare_bytes(character, string_bytes(signs[i].sign)) == 0) return string_bytes(signs[i].form);
    for (size_t i = 0; i < ACCENTS && character.len == 2; i++)
        for (size_t k = 0; accents[i].letters[k]; k++)
            if (memcmp(character.at, accents[i].composed + 2 * k, 2) == 0) {
                small_form[0] = small((uint8_t)accents[i].letters[k]);
                append(small_form + 1, string_bytes(accents[i].mark));
                return (bytes){ small_form, 3 };
            }
    if (character.len > 1) return character;
    small_form[0] = small(character.at[0]);
    return (bytes){ small_form, 1 };
}

bytes folded(bytes headword, uint8_t *to)
{
    int as_utf8 = is_utf8(headword), is_after_blank = 1;
    uint8_t *end = to, small_form[3];
    while (headword.len > 0) {
        bytes character = { headword.at, as_utf8 ? utf8_len(headword) : shift_jis_len(headword) };
        bytes form = form_of(character, small_form);
        int is_blank = form.len == 1 && form.at[0] == ' ';
        if (!is_blank || !is_after_blank) end = append(end, form);
        if (form.len > 0) is_after_blank = is_blank;
        headword = behind(headword, character.len);
    }
    if (is_after_blank && end > to) end--;
    return (bytes){ to, (size_t)(end - to) };
}

/* Is a character one that nobody sees: a blank, a sign that takes no room, or a control character of UTF-8? */
static int is_unseen(bytes character)
{
    for (size_t i = 0; i < SIGNS; i++)
        if (compare_bytes(character, string_bytes(signs[i].sign)) == 0) return signs[i].form[0] == ' ' || !signs[i].form[0];
    return character.len == 2 && character.at[0] == 0xC2 && character.at[1] >= 0x80 && character.at[1] < 0xA0;
}

int has_unseen_end(bytes headword)
{
    int as_utf8 = is_utf8(headword), is_first = 1;
    bytes character = { headword.at, 0 };
    while (headword.len > 0) {
        character = (bytes){ headword.at, as_utf8 ? utf8_len(headword) : shift_jis_len(headword) };
        headword = behind(headword, character.len);
        if (is_first && is_unseen(character)) return 1;
        is_first = 0;
    }
    return is_unseen(character);
}

size_t unseen_bytes(bytes headword, int is_last)
{
    for (size_t len = headword.len < LONGEST_SIGN ? headword.len : LONGEST_SIGN; len > 0; len--)
        if (is_unseen((bytes){ is_last ? headword.at + headword.len - len : headword.at, len })) return len;
    return 0;
}

int look_alike(bytes a, bytes b)
{
    uint8_t form_of_a[LONGEST_FOLDED], form_of_b[LONGEST_FOLDED];
    return compare_bytes(folded(a, form_of_a), folded(b, form_of_b)) == 0;
}

int differ_in_case(bytes a, bytes b)
{
    size_t same = 0;
    while (same < a.len && same < b.len && small(a.at[same]) == small(b.at[same])) same++;
    return same == a.len && same == b.len;
}

/* A headword that is held against all ways of writing a form. */
typedef struct {
    bytes form, headword;
    uint8_t reached[LONGEST_SIGN + 1][LONGEST_FOLDED + 1]; /* can so many bytes of the headword stand for so many of the
                                                              form? kept for four numbers of the former at a time */
    size_t len; /* of the longest front of the headword that can go on with a byte above its own, */
    int byte;   /* and the least such byte; -1 where there is none yet */
} writing;

/* Holds the headword from `at` on against a sign, with which `formed` bytes of the form are written. */
static void go_on(writing *w, size_t at, bytes sign, size_t formed)
{
    bytes rest = behind(w->headword, at);
    size_t len = 0;
    while (len < sign.len && len < rest.len && sign.at[len] == rest.at[len]) len++;
    size_t front = at + len;
    if (len == sign.len) {
        w->reached[front % (LONGEST_SIGN + 1)][formed] = 1;
        return;
    }
    if (front == PDIC_MAX_HEADWORD || (len < rest.len && sign.at[len] < rest.at[len])) return;
    if (w->byte < 0 || front > w->len || (front == w->len && sign.at[len] < w->byte)) {
        w->len = front;
        w->byte = sign.at[len];
    }
}

/* How much of the form is written with a sign of the table behind `formed` bytes of it; -1 where it cannot stand there. */
static int formed_with(bytes form, size_t formed, const char *sign_form)
{
    if (!sign_form[0]) return (int)formed;
    if (formed < form.len && form.at[formed] == (uint8_t)sign_form[0]) return (int)formed + 1;
    int is_blank_more = formed == 0 || formed == form.len || form.at[formed - 1] == ' ';
    return sign_form[0] == ' ' && is_blank_more ? (int)formed : -1;
}

/* Goes on behind `formed` bytes of the form with every sign that can stand there. */
static void go_on_with_all(writing *w, size_t at, size_t formed)
{
    bytes form = behind(w->form, formed);
    for (size_t i = 0; i < SIGNS; i++) {
        int next = formed_with(w->form, formed, signs[i].form);
        if (next >= 0) go_on(w, at, string_bytes(signs[i].sign), (size_t)next);
    }
    if (form.len == 0) return;
    uint8_t letter = form.at[0], capital = (uint8_t)(letter - 32);
    go_on(w, at, (bytes){ &letter, 1 }, formed + 1);
    if (small(capital) == letter) go_on(w, at, (bytes){ &capital, 1 }, formed + 1);
    for (size_t i = 0; i < ACCENTS; i++) {
        if (form.len < 3 || memcmp(form.at + 1, accents[i].mark, 2) != 0) continue;
        for (size_t k = 0; accents[i].letters[k]; k++)
            if (small((uint8_t)accents[i].letters[k]) == letter)
                go_on(w, at, (bytes){ (const uint8_t *)accents[i].composed + 2 * k, 2 }, formed + 3);
    }
}

int next_alike(bytes form, uint8_t *headword, size_t *len)
{
    writing w = { .form = form, .headword = { headword, *len }, .byte = -1 };
    w.reached[0][0] = 1;
    for (size_t at = 0; at <= *len; at++) {
        uint8_t *reached = w.reached[at % (LONGEST_SIGN + 1)];
        for (size_t formed = 0; formed <= form.len; formed++)
            if (reached[formed]) go_on_with_all(&w, at, formed);
        memset(reached, 0, LONGEST_FOLDED + 1);
    }
    if (w.byte < 0) return 0;
    headword[w.len] = (uint8_t)w.byte;
    *len = w.len + 1;
    return 1;
}
