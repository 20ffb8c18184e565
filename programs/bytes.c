#include "bytes.h"
#include <string.h>

bytes string_bytes(const char *s)
{
    return (bytes){ (const uint8_t *)s, strlen(s) };
}

int compare_bytes(bytes a, bytes b)
{
    int order = memcmp(a.at, b.at, a.len < b.len ? a.len : b.len);
    return order != 0 ? order : (a.len > b.len) - (a.len < b.len);
}

uint8_t *append(uint8_t *to, bytes b)
{
    if (b.len > 0) memcpy(to, b.at, b.len);
    return to + b.len;
}

/* What a hexadecimal digit counts, or -1. */
static int digit(uint8_t byte)
{
    if (byte >= '0' && byte <= '9') return byte - '0';
    if (byte >= 'A' && byte <= 'F') return byte - 'A' + 10;
    if (byte >= 'a' && byte <= 'f') return byte - 'a' + 10;
    return -1;
}

/* Is there a percent sign at a place, with two digits behind it? */
static int is_escape(bytes written, size_t i)
{
    return i + 2 < written.len && digit(written.at[i + 1]) >= 0 && digit(written.at[i + 2]) >= 0;
}

int unescape(bytes written, uint8_t *to, size_t *len, size_t *fault)
{
    for (*fault = 0; *fault < written.len; ++*fault)
        if (written.at[*fault] == '%' && !is_escape(written, *fault)) return -1;
    *len = 0;
    for (size_t i = 0; i < written.len; i++) {
        uint8_t byte = written.at[i];
        if (byte == '%') {
            byte = (uint8_t)(16 * digit(written.at[i + 1]) + digit(written.at[i + 2]));
            i += 2;
        }
        to[(*len)++] = byte;
    }
    return 0;
}

int is_utf16(bytes content)
{
    return content.len >= 2 && (memcmp(content.at, "\xFF\xFE", 2) == 0 || memcmp(content.at, "\xFE\xFF", 2) == 0);
}

int is_control(uint8_t byte)
{
    return byte < 32 || byte == 127;
}

void print_quoted(FILE *out, bytes b)
{
    putc('"', out);
    for (size_t i = 0; i < b.len; i++) {
        if (is_control(b.at[i])) fprintf(out, "%%%02X", (unsigned)b.at[i]);
        else putc(b.at[i], out);
    }
    putc('"', out);
}

void print_exact(FILE *out, bytes b)
{
    putc('"', out);
    for (size_t i = 0; i < b.len; i++) {
        uint8_t byte = b.at[i];
        int is_odd_blank = byte == ' ' && (i == 0 || i + 1 == b.len || b.at[i - 1] == ' ');
        int is_sign = byte == '%' || byte == '<' || byte == '>';
        if (is_control(byte) || byte > 127 || is_sign || is_odd_blank) fprintf(out, "%%%02X", (unsigned)byte);
        else putc(byte, out);
    }
    putc('"', out);
}
