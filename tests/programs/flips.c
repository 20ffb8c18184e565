/* flips.c - what a check without a checksum can see: flips each bit of a dictionary, or so many chosen at random, and counts
 * how many of these images are accepted.
 *
 *   flips FILE [NUMBER]
 */
#include <stdio.h>
#include <stdlib.h>
#include "pdic.h"

static uint8_t image[PDIC_MAX_IMAGE];

static int is_accepted(size_t len)
{
    uint64_t headwords, index_blocks, data_blocks, free_blocks;
    return pdic_check(image, len, len, &headwords, &index_blocks, &data_blocks, &free_blocks) == PDIC_DONE;
}

int main(int argc, char **argv)
{
    FILE *file = argc > 1 ? fopen(argv[1], "rb") : NULL;
    size_t len = file ? fread(image, 1, sizeof image, file) : 0;
    if (!file || !is_accepted(len)) {
        fprintf(stderr, "no dictionary\n");
        return 2;
    }
    fclose(file);
    uint64_t bits = 8 * (uint64_t)len, number = argc > 2 ? strtoull(argv[2], NULL, 10) : bits, accepted = 0, random = 1;
    for (uint64_t i = 0; i < number; i++) {
        random = random * 6364136223846793005u + 1442695040888963407u;
        uint64_t bit = argc > 2 ? (random >> 20) % bits : i;
        image[bit / 8] ^= (uint8_t)(1 << bit % 8);
        accepted += (uint64_t)is_accepted(len);
        image[bit / 8] ^= (uint8_t)(1 << bit % 8);
    }
    printf("%llu of %llu flipped bits accepted (%llu in 100)\n", (unsigned long long)accepted, (unsigned long long)number,
           (unsigned long long)((100 * accepted + number / 2) / number));
    return 0;
}
