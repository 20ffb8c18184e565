/* seal.h - a dictionary's digest in a file beside it, FILE.sha256, as sha256sum writes and tests it. The format has no
 * checksum; a seal shows a byte that became another one. A sealed dictionary is not changed: who wants to change it takes
 * the seal's file away. */
#ifndef SEAL_H
#define SEAL_H

#include "bytes.h"

enum { NOT_SEALED, SEALED, SEAL_BROKEN };

/* The name of a file's seal, where symbolic links lead; the caller frees it. */
char *seal_path(const char *path);

/* What the seal of a file says of its bytes. One that cannot be read is broken. */
int test_seal(const char *path, bytes b);

/* Is there a seal? */
int is_sealed(const char *path);

/* Seals a file that has these bytes. Gives 0 or -1, as replace_file. */
int write_seal(const char *path, bytes b);

#endif
