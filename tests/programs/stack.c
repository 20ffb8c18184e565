/* stack.c - how much stack each call takes: run on a painted stack, on an image of each version whose index grows. Fails where a
 * call takes more than include/pdic.h says. */
#define _GNU_SOURCE
#include <pthread.h>
#include <stdio.h>
#include <stdlib.h>
#include <string.h>
#include "pdic.h"

enum { STACK = 1 << 20, PAINT = 0xA5, SIZE = 1 << 16, SMALL = 32 << 10, LARGE = 256 << 10 };

static uint8_t image[SIZE], work[SIZE], text[PDIC_MAX_TEXT], word[PDIC_MAX_HEADWORD], letters[PDIC_MAX_TEXT];
static size_t len, word_len, text_len;
static uint8_t attribute, version;

static uint32_t insert(const char *headword, size_t headword_len, size_t n)
{
    return pdic_insert(image, SIZE, len, work, SIZE, (const uint8_t *)headword, headword_len, 0x80, letters, n, &len);
}

static uint32_t create(void)
{
    return pdic_create(image, SIZE, version, UINT64_MAX, &len);
}

static uint32_t check(void)
{
    uint64_t n;
    uint64_t index, data, free_blocks;
    return pdic_check(image, SIZE, len, &n, &index, &data, &free_blocks);
}

static uint32_t look_up(void)
{
    return pdic_look_up(image, SIZE, len, (const uint8_t *)"b", 1, text, sizeof text, &attribute, &text_len);
}

static uint32_t walk(void)
{
    return pdic_walk(image, SIZE, len, (const uint8_t *)"a", 1, 1, word, sizeof word, text, sizeof text, &attribute, &word_len,
                     &text_len);
}

/* The first entries of a dictionary, as in P8 of the paper: the deletion then makes the index grow. */
static uint32_t insert_all(void)
{
    char long_word[PDIC_MAX_HEADWORD];
    memset(long_word, 'a', sizeof long_word);
    uint32_t number = insert("a", 1, 0);
    if (number == PDIC_DONE) number = insert(long_word, sizeof long_word, 0);
    return number == PDIC_DONE ? insert("b", 1, 762) : number;
}

static uint32_t delete(void)
{
    size_t before = image[148];
    uint32_t number = pdic_delete(image, SIZE, len, work, SIZE, (const uint8_t *)"a", 1, &len);
    return number == PDIC_DONE && image[148] <= before ? 999 : number;
}

static uint32_t optimise(void)
{
    return pdic_optimise(image, SIZE, len, work, SIZE, &len);
}

static void *run(void *call)
{
    uint32_t number = (*(uint32_t (**)(void))call)();
    return (void *)(uintptr_t)number;
}

/* Runs a call on a painted stack and gives the bytes of it that were written, or ends the program. */
static size_t used_by(const char *name, uint32_t (*call)(void))
{
    uint8_t *stack = aligned_alloc(4096, STACK);
    memset(stack, PAINT, STACK);
    pthread_attr_t attr;
    pthread_t thread;
    void *number;
    if (pthread_attr_init(&attr) || pthread_attr_setstack(&attr, stack, STACK) || pthread_create(&thread, &attr, run, &call)
        || pthread_join(thread, &number) || number) {
        printf("stack: %s was not done\n", name);
        exit(1);
    }
    size_t untouched = 0;
    while (untouched < STACK && stack[untouched] == PAINT) untouched++;
    free(stack);
    pthread_attr_destroy(&attr);
    return STACK - untouched;
}

/* Every call on an image of the version; whether one took too much. */
static int measure(void)
{
    static const struct {
        const char *name;
        uint32_t (*call)(void);
        size_t most;
    } calls[] = { { "create", create, SMALL },   { "insert", insert_all, LARGE }, { "check", check, SMALL },
                  { "look up", look_up, SMALL }, { "walk", walk, SMALL },         { "delete", delete, LARGE },
                  { "optimise", optimise, SMALL } };
    int failed = 0;
    printf("stack in bytes, version %u, the thread's own included:", version);
    for (size_t i = 0; i < sizeof calls / sizeof calls[0]; i++) {
        size_t used = used_by(calls[i].name, calls[i].call);
        printf("%s %s %zu", i > 0 ? "," : "", calls[i].name, used);
        failed |= used > calls[i].most;
    }
    puts(failed ? ": more than pdic.h says" : "");
    return failed;
}

int main(void)
{
    int failed = 0;
    memset(letters, 't', sizeof letters);
    for (version = 4; version <= 5; version++) failed |= measure();
    return failed;
}
