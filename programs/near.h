/* near.h - headwords near one that is absent, for whoever has to mend the manual or the glossary. */
#ifndef NEAR_H
#define NEAR_H

#include "book.h"

/* Prints that a headword is absent. Where others look like it, shows the bytes of both sides, as they can be copied into a
 * mark; else up to eight headwords near it, found by walking: the same words as a glossary files them ("valve, bleed" for
 * "bleed valve"), those with the longest common front, those that begin with one of its later words; if there is none, the
 * next in order. */
void print_absent(FILE *out, const book *b, bytes absent);

#endif
