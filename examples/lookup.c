/* lookup.c - prints a headword's text from a dictionary file.
 *
 *   cc lookup.c $(pkg-config --cflags --libs pdic) -o lookup && ./lookup FILE HEADWORD
 */
#include <pdic.h>
#include <stdio.h>
#include <stdlib.h>
#include <string.h>

int main(int argc, char **argv)
{
    if (argc != 3) {
        fprintf(stderr, "usage: lookup FILE HEADWORD\n");
        return 2;
    }
    /* room for the longest image and one byte more, so that a longer file is not taken for its beginning */
    uint8_t *image = malloc(PDIC_MAX_IMAGE + 1);
    FILE *file = fopen(argv[1], "rb");
    size_t len = image && file ? fread(image, 1, PDIC_MAX_IMAGE + 1, file) : 0;
    if (!image || !file || ferror(file)) {
        perror(argv[1]);
        return 2;
    }

    uint8_t text[PDIC_MAX_TEXT], attribute;
    size_t text_len;
    uint32_t number = pdic_look_up(image, len, len, (const uint8_t *)argv[2], strlen(argv[2]),
                                   text, sizeof text, &attribute, &text_len);
    if (number == PDIC_DONE)
        printf("%.*s\n", (int)text_len, (const char *)text);
    else
        fprintf(stderr, "%s: %s: %s\n", argv[1], argv[2], pdic_strerror(number));
    return number == PDIC_DONE ? 0 : number == PDIC_ABSENT ? 1 : 2;
}
