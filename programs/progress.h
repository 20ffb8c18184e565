/* progress.h - how far long work has come, shown on a terminal; nothing in a pipe or a file. */
#ifndef PROGRESS_H
#define PROGRESS_H

#include <stddef.h>
#include <stdint.h>

/* A clock that never goes back, in milliseconds. */
int64_t milliseconds(void);

/* Shows "WHAT: DONE of ALL" on standard error, if that is a terminal: from the third tenth of a second on, ten
 * times a second at most. */
void progress(const char *what, size_t done, size_t all);

/* Takes the line away, if there is one. */
void progress_end(void);

#endif
