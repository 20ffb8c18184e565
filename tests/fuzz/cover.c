/* Which edges of the engine a run of drive.c reached. The engine is the module compiled without optimisation and with
 * -fsanitize-coverage=inline-bool-flag,pc-table (guided.sh). The report goes to standard error when the program ends: a line of
 * two numbers for all edges, then one for each function with edges not reached, with its address. */
#include <stdio.h>

#include "fuzz.h"

void __sanitizer_cov_bool_flag_init(uint8_t *start, uint8_t *end);
void __sanitizer_cov_pcs_init(const uintptr_t *start, const uintptr_t *end);

typedef struct { uintptr_t place, starts_function; } edge;

static const uint8_t *reached;
static const edge *edges;
static size_t count;

void __sanitizer_cov_bool_flag_init(uint8_t *start, uint8_t *end) {
    reached = start;
    count = (size_t)(end - start);
}

void __sanitizer_cov_pcs_init(const uintptr_t *start, const uintptr_t *end) {
    (void)end;
    edges = (const edge *)start;
}

/* The edges of the function that starts at edge i. */
static size_t function_end(size_t i) {
    do i++;
    while (i < count && !(edges[i].starts_function & 1));
    return i;
}

static size_t reached_in(size_t from, size_t to) {
    size_t sum = 0;
    for (size_t i = from; i < to; i++) sum += reached[i] != 0;
    return sum;
}

__attribute__((destructor)) static void report_edges(void) {
    fprintf(stderr, "edges %zu/%zu\n", reached_in(0, count), count);
    for (size_t i = 0, end; i < count; i = end) {
        end = function_end(i);
        if (reached_in(i, end) < end - i)
            fprintf(stderr, "%016lx %zu/%zu\n", (unsigned long)edges[i].place, reached_in(i, end), end - i);
    }
}
