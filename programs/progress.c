#define _POSIX_C_SOURCE 200809L
#include "progress.h"
#include <stdio.h>
#include <time.h>
#include <unistd.h>

static int shown;           /* there is a line */
static int64_t next_time;   /* of the next line, in milliseconds; 0 before the first call */

int64_t milliseconds(void)
{
    struct timespec t;
    clock_gettime(CLOCK_MONOTONIC, &t);
    return (int64_t)t.tv_sec * 1000 + t.tv_nsec / 1000000;
}

void progress(const char *what, size_t done, size_t all)
{
    if (!isatty(STDERR_FILENO)) return;
    int64_t time = milliseconds();
    if (next_time == 0) next_time = time + 300;
    if (time < next_time) return;
    fprintf(stderr, "\r%s: %zu of %zu", what, done, all);
    shown = 1;
    next_time = time + 100;
}

void progress_end(void)
{
    if (shown) fputs("\r\033[K", stderr);
    shown = 0;
    next_time = 0;
}
