#define _XOPEN_SOURCE 700
#include "seal.h"
#include <stdlib.h>
#include <string.h>
#include <sys/stat.h>
#include "file.h"
#include "sha256.h"

enum { LONGEST_SEAL = 65536 };

static const char ending[] = ".sha256";

char *seal_path(const char *path)
{
    char *real = realpath(path, NULL);
    const char *file = real ? real : path;
    char *seal = take_memory(NULL, strlen(file) + sizeof ending);
    strcpy(seal, file);
    strcat(seal, ending);
    free(real);
    return seal;
}

/* The digest as a seal has it: hexadecimal digits, two to a byte. */
static void write_digits(bytes b, char digits[2 * DIGEST + 1])
{
    uint8_t digest[DIGEST];
    sha256(b, digest);
    for (int i = 0; i < DIGEST; i++) snprintf(digits + 2 * i, 3, "%02x", (unsigned)digest[i]);
}

int is_sealed(const char *path)
{
    struct stat there;
    char *seal = seal_path(path);
    int is_there = lstat(seal, &there) == 0;
    free(seal);
    return is_there;
}

/* Reads a seal's digits; sha256sum puts a backslash in front of them where a name has one. Gives 0 or -1. */
static int read_digits(const char *seal, char digits[2 * DIGEST + 1])
{
    struct stat file;
    uint8_t *content = NULL;
    size_t len = 0;
    if (stat(seal, &file) != 0 || !S_ISREG(file.st_mode) || read_file(seal, LONGEST_SEAL, &content, &len) != 0) return -1;
    size_t front = len > 0 && content[0] == '\\';
    int is_whole = len > front + 2 * DIGEST && content[front + 2 * DIGEST] == ' ';
    if (is_whole) *append((uint8_t *)digits, (bytes){ content + front, 2 * DIGEST }) = '\0';
    free(content);
    return is_whole ? 0 : -1;
}

int test_seal(const char *path, bytes b)
{
    char digits[2 * DIGEST + 1], sealed[2 * DIGEST + 1], *seal = seal_path(path);
    if (!is_sealed(path)) {
        free(seal);
        return NOT_SEALED;
    }
    write_digits(b, digits);
    int is_whole = read_digits(seal, sealed) == 0 && strcmp(digits, sealed) == 0;
    free(seal);
    return is_whole ? SEALED : SEAL_BROKEN;
}

/* Writes a name as sha256sum does: a line feed and a backslash behind a backslash. Gives the place behind it. */
static uint8_t *append_name(uint8_t *to, bytes name)
{
    for (size_t i = 0; i < name.len; i++) {
        if (name.at[i] == '\\' || name.at[i] == '\n') *to++ = '\\';
        *to++ = name.at[i] == '\n' ? 'n' : name.at[i];
    }
    return to;
}

int write_seal(const char *path, bytes b)
{
    char digits[2 * DIGEST + 1], *seal = seal_path(path), *slash = strrchr(seal, '/');
    bytes name = string_bytes(slash ? slash + 1 : seal);
    name.len -= strlen(ending);
    uint8_t *line = take_memory(NULL, 2 * DIGEST + 2 * name.len + 4), *end = line;
    write_digits(b, digits);
    if (memchr(name.at, '\\', name.len) || memchr(name.at, '\n', name.len)) *end++ = '\\';
    end = append(end, string_bytes(digits));
    end = append(end, string_bytes("  "));
    end = append_name(end, name);
    *end++ = '\n';
    int failed = replace_file(seal, line, (size_t)(end - line));
    free(line);
    free(seal);
    return failed;
}
