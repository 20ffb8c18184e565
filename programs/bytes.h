/* bytes.h - bytes that belong to somebody else, and bytes written as %XX. */
#ifndef BYTES_H
#define BYTES_H

#include <stddef.h>
#include <stdint.h>
#include <stdio.h>

typedef struct {
    const uint8_t *at;
    size_t len;
} bytes;

bytes string_bytes(const char *s);

/* Unsigned byte order, as in a dictionary: below, equal or above 0. */
int compare_bytes(bytes a, bytes b);

/* Copies bytes to a place and gives the place behind them. */
uint8_t *append(uint8_t *to, bytes b);

/* The bytes that %XX, a percent sign and two hexadecimal digits, stand for; all others stand for themselves. `to` has
 * room for as many bytes as there are, and may be where they stand. Gives 0, or -1 where a percent sign has no two digits
 * behind it; then *fault is its place. A percent sign is never part of a longer character in Shift JIS or UTF-8. */
int unescape(bytes written, uint8_t *to, size_t *len, size_t *fault);

/* Does a file's content begin with the byte order mark of UTF-16, in either order? */
int is_utf16(bytes content);

/* Is it a control byte? */
int is_control(uint8_t byte);

/* Prints bytes in double quotes, control bytes as %XX. */
void print_quoted(FILE *out, bytes b);

/* Prints bytes in double quotes so that none is mistaken for another: as %XX a percent sign, a < or >, a blank that is the
 * first, the last or behind a blank, and all that is no plain letter, digit or sign. What stands between the quotes can be
 * copied into a mark of a manual. */
void print_exact(FILE *out, bytes b);

#endif
