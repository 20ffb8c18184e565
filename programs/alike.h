/* alike.h - headwords that look alike on a page and differ in their bytes, and what nobody sees of them. */
#ifndef ALIKE_H
#define ALIKE_H

#include "bytes.h"
#include "pdic.h"

/* No folded headword is longer: a letter with an accent grows most, from two bytes to three. */
enum { LONGEST_FOLDED = 2 * PDIC_MAX_HEADWORD };

/* Brings a headword to the form that its look-alikes share. Blanks of every kind become one blank, none at the ends; signs
 * that take no room are dropped; hyphens and apostrophes become those of ASCII; a letter with an accent becomes letter and
 * combining mark; capital letters of ASCII become small. A headword that is no UTF-8 is taken as Shift JIS. `to` has room
 * for LONGEST_FOLDED bytes. */
bytes folded(bytes headword, uint8_t *to);

int look_alike(bytes a, bytes b);

/* Is the first or the last character of a headword one that nobody sees: a blank, a sign that takes no room or a control
 * character? */
int has_unseen_end(bytes headword);

/* How many bytes at the front, or at the end, are such a character in UTF-8 or Shift JIS, whichever the headword is; else 0. */
size_t unseen_bytes(bytes headword, int is_last);

/* Do look-alikes differ in nothing but capital and small letters? */
int differ_in_case(bytes a, bytes b);

/* Replaces a headword by the least front above it with which a headword of this folded form can begin, so that a walk from
 * there passes over all that have another. `headword` has room for PDIC_MAX_HEADWORD bytes. Gives 0 where there is no such
 * front. */
int next_alike(bytes form, uint8_t *headword, size_t *len);

#endif
