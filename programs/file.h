/* file.h - whole files: read, held for a change, and replaced so that a crash leaves the old file or the new one, never a
 * part. */
#ifndef FILE_H
#define FILE_H

#include <stddef.h>
#include <stdint.h>

/* Memory of at least one byte, or old memory made longer; without memory the program ends with status 2. */
void *take_memory(void *old, size_t size);
/* The same, new and all zero. */
void *take_zeros(size_t size);

/* Reads a whole file of at most `most` bytes into memory that the caller frees; "-" is standard input. Gives 0 or -1;
 * nothing is read behind `most`, and a longer file is a fault. */
int read_file(const char *path, size_t most, uint8_t **bytes, size_t *len);

/* A path as messages show it: "-" is standard input. */
const char *shown_path(const char *path);

/* Writes a file whole: what a symbolic link leads to is replaced, with its owner, group and mode, by a new file that is
 * written beside it and renamed; a FIFO or a device is written to as it is. Gives 0, or -1; then a file that was there is
 * as it was. */
int replace_file(const char *path, const uint8_t *bytes, size_t len);

/* Do an input, "-" for standard input, and a path lead to one regular file? */
int is_same_file(const char *input, const char *path);

/* Opens those of standard input, output and error that are closed, so that no file that is opened later takes their place and
 * gets what is printed. */
void open_standard_files(void);

/* Writes to standard output, all of it. Gives 0 or -1. */
int write_out(const uint8_t *bytes, size_t len);

/* A file held for a change: no other program that holds files this way gets in between. The system lets it go when the
 * program ends, however that is. */
typedef struct {
    char *path; /* where symbolic links lead */
    int fd;     /* the file, locked; -1 where there is none yet */
} held_file;

enum { HELD = 0, NOT_HELD = -1, IN_USE = -2 };

/* Holds a file. While another program holds it, says so on standard error and waits as many seconds. Gives HELD, NOT_HELD,
 * or IN_USE where the time was not enough. */
int hold_file(held_file *h, const char *path, unsigned seconds);

/* Holds the place of a file that is not there yet. Gives HELD or NOT_HELD. */
int hold_new_file(held_file *h, const char *path);

/* Reads a held file, as read_file. */
int read_held(const held_file *h, size_t most, uint8_t **bytes, size_t *len);

/* Replaces a held file; one that was not there is made, and nothing is written where it has come to be there meanwhile.
 * Gives 0 or -1, as replace_file. */
int replace_held(const held_file *h, const uint8_t *bytes, size_t len);

void let_go(held_file *h);

/* Why the last call here that failed did so, in words. */
const char *file_fault(void);

#endif
