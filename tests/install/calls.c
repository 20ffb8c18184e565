/* calls.c - every call once, from C or C++: what it returns and what stands there afterwards. */
#include <pdic.h>
#include <stdio.h>
#include <string.h>

static uint8_t image[4096], work[4096], found[PDIC_MAX_HEADWORD], text[PDIC_MAX_TEXT];
static size_t len, found_len, text_len;
static uint8_t attribute;

static const uint8_t *bytes(const char *s)
{
    return (const uint8_t *)s;
}

static void say(const char *call, uint32_t number)
{
    printf("%s: %u, length %lu\n", call, (unsigned)number, (unsigned long)len);
}

static void say_entry(const char *call, uint32_t number)
{
    say(call, number);
    if (number == PDIC_DONE)
        printf("    %.*s, %d, %.*s\n", (int)found_len, (const char *)found, attribute, (int)text_len, (const char *)text);
}

static void say_kind(const char *call, uint32_t number)
{
    say(call, number);
    printf("    %02X %02X,", image[PDIC_AT_VERSION], image[PDIC_AT_VERSION + 1]);
    for (int i = 0; i < 8; i++) printf(" %02X", image[PDIC_AT_IDENT + i]);
    printf("\n");
}

static uint32_t insert(const char *headword, uint8_t with, const char *its_text)
{
    return pdic_insert(image, sizeof image, len, work, sizeof work, bytes(headword), strlen(headword), with,
                       bytes(its_text), strlen(its_text), &len);
}

int main(void)
{
    uint64_t headwords, index_blocks, data_blocks, free_blocks;
    uint32_t number;
    say_kind("create version 6 in 255 bytes", pdic_create(image, 255, 6, 0, &len));
    say_kind("create version 6", pdic_create(image, sizeof image, 6, 0, &len));
    say_kind("create version 4", pdic_create(image, sizeof image, PDIC_FORMAT_4, 0x0123456789ABCDEFu, &len));
    say("insert ABC", insert("ABC", PDIC_PLAIN, "one"));
    say("insert ABDEF", insert("ABDEF", PDIC_PLAIN | PDIC_LEARN | 3, "two"));
    say("insert without headword", insert("", PDIC_PLAIN, "two"));
    say("insert with parts", insert("a", PDIC_PLAIN | PDIC_PARTS, "two"));
    number = pdic_check(image, sizeof image, len, &headwords, &index_blocks, &data_blocks, &free_blocks);
    say("check", number);
    printf("    %d %d %d %d\n", (int)headwords, (int)index_blocks, (int)data_blocks, (int)free_blocks);
    memcpy(found, "ABC", found_len = 3);
    say_entry("look up ABC", pdic_look_up(image, sizeof image, len, found, found_len, text, sizeof text, &attribute, &text_len));
    say_entry("look up AB", pdic_look_up(image, sizeof image, len, found, 2, text, sizeof text, &attribute, &text_len));
    say_entry("walk above ABC", pdic_walk(image, sizeof image, len, bytes("ABC"), 3, 1, found, sizeof found, text, sizeof text,
                                          &attribute, &found_len, &text_len));
    say_entry("walk to a short output", pdic_walk(image, sizeof image, len, bytes("ABC"), 3, 0, found, 2, text, sizeof text,
                                                  &attribute, &found_len, &text_len));
    say("delete AB", pdic_delete(image, sizeof image, len, work, sizeof work, bytes("AB"), 2, &len));
    say("delete ABC", pdic_delete(image, sizeof image, len, work, sizeof work, bytes("ABC"), 3, &len));
    say("delete ABDEF", pdic_delete(image, sizeof image, len, work, sizeof work, bytes("ABDEF"), 5, &len));
    say("optimise with a short working slice", pdic_optimise(image, sizeof image, len, work, 100, &len));
    say("optimise", pdic_optimise(image, sizeof image, len, work, sizeof work, &len));
    say("optimise in 256 bytes", pdic_optimise(image, 256, len, work, 256, &len));
    say("insert into 256 bytes", pdic_insert(image, 256, len, work, 256, bytes("a"), 1, PDIC_PLAIN, bytes(""), 0, &len));
    image[140] = 16;
    say("insert into version 0x0410", insert("a", PDIC_PLAIN, ""));
    image[141] = 6;
    say("check version 6", pdic_check(image, sizeof image, len, &headwords, &index_blocks, &data_blocks, &free_blocks));
    say_kind("create version 5", pdic_create(image, sizeof image, PDIC_FORMAT_5, 0x0123456789ABCDEFu, &len));
    say_kind("insert into version 5", insert("ABC", PDIC_PLAIN, "one"));
    memcpy(found, "ABC", found_len = 3);
    say_entry("look up ABC", pdic_look_up(image, sizeof image, len, found, found_len, text, sizeof text, &attribute, &text_len));
    printf("strerror: %s\n", pdic_strerror(PDIC_DONE));
    return 0;
}
