/* libFuzzer's mutator: half of the changes are those of mutate.c, the others libFuzzer's own, on the image, on the
 * control bytes or on the whole input. */
#include <string.h>

#include "fuzz.h"

size_t LLVMFuzzerMutate(uint8_t *data, size_t size, size_t most);
size_t LLVMFuzzerCustomMutator(uint8_t *data, size_t size, size_t most, unsigned seed_number);

size_t LLVMFuzzerCustomMutator(uint8_t *data, size_t size, size_t most, unsigned seed_number) {
    static uint8_t before[CONTROL + MOST_IMAGE];
    static size_t before_size;
    source r = {seed_number};
    size_t way = below(&r, 8);
    if (size <= CONTROL || most <= CONTROL || way == 0) return LLVMFuzzerMutate(data, size, most);
    if (way == 1) {
        LLVMFuzzerMutate(data, CONTROL, CONTROL);
    } else if (way < 4) {
        size = CONTROL + LLVMFuzzerMutate(data + CONTROL, size - CONTROL, most - CONTROL);
    } else {
        for (size_t n = 1 + below(&r, 3); n > 0; n--) size = mutate(&r, data, size, most, before, before_size);
    }
    if (below(&r, 16) == 0) {
        before_size = less(size, sizeof before);
        memcpy(before, data, before_size);
    }
    return size;
}
