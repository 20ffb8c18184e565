/* Buffers whose ends lie against inaccessible pages. */
#define _DEFAULT_SOURCE
#include <stdio.h>
#include <stdlib.h>
#include <string.h>
#include <sys/mman.h>

#include "fuzz.h"

enum { PAGE = 4096, GUARD = 1 << 20, AROUND = 64 };

/* Accessible pages for `capacity` bytes, with GUARD inaccessible bytes on both sides. */
void make_buffer(buffer *b, size_t capacity) {
    size_t pages = (capacity + PAGE - 1) / PAGE * PAGE;
    uint8_t *map = mmap(NULL, pages + 2 * GUARD, PROT_NONE, MAP_PRIVATE | MAP_ANONYMOUS, -1, 0);
    if (map == MAP_FAILED || mprotect(map + GUARD, pages, PROT_READ | PROT_WRITE) != 0) {
        perror("mmap");
        exit(2);
    }
    b->low = map + GUARD;
    b->high = b->low + pages;
}

/* The bytes next to the lent part on its open side, as many as there are, at most AROUND. */
static uint8_t *neighbours(const buffer *b, size_t *count) {
    if (b->at == b->low) {
        *count = less((size_t)(b->high - (b->at + b->size)), AROUND);
        return b->at + b->size;
    }
    *count = less((size_t)(b->at - b->low), AROUND);
    return b->at - *count;
}

/* Lends `size` bytes, all `fill`, against the guard in front of the buffer or the one behind it. */
uint8_t *lend(buffer *b, size_t size, int at_start, uint8_t fill) {
    size_t count;
    b->size = size;
    b->at = at_start ? b->low : b->high - size;
    b->around = (uint8_t)(fill ^ 0x5A);
    uint8_t *open_side = neighbours(b, &count);
    memset(open_side, b->around, count);
    memset(b->at, fill, size);
    return b->at;
}

int all_bytes(const uint8_t *p, size_t size, uint8_t value) {
    return size == 0 || (p[0] == value && memcmp(p, p + 1, size - 1) == 0);
}

int only_lent_part_changed(const buffer *b) {
    size_t count;
    const uint8_t *p = neighbours(b, &count);
    return all_bytes(p, count, b->around);
}
