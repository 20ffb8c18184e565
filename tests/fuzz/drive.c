/* The fuzzer of the gate: seeded images of the engine, changed, run through the harness.
 *
 *   drive SEED EXECUTIONS           execution k depends on SEED and k alone
 *   drive SEED K only               execution K
 *   drive SEED EXECUTIONS FOLDER    writes their inputs to a folder
 *   drive --input FILE..            inputs from files
 *
 * A broken promise or a signal prints SEED and k, writes the input to `found.bin`, and ends the program. */
#define _DEFAULT_SOURCE
#include <fcntl.h>
#include <inttypes.h>
#include <signal.h>
#include <stdio.h>
#include <stdlib.h>
#include <string.h>
#include <sys/time.h>
#include <unistd.h>

#include "fuzz.h"

enum { MOST_INPUT = CONTROL + MOST_IMAGE, CPU_SECONDS = 5, ENOUGH_FOR_ALL_KINDS = 20000, LEAST_ACCEPTED = 500 };

static seed seeds[SEEDS];
static uint8_t input[MOST_INPUT], other[MOST_INPUT];
static size_t input_size;
static char where[80] = "none yet: the seeds are being made\n";
static uint64_t inputs, changed, accepted_changed[VERSIONS];

/* Only calls that a signal handler may make. */
static void on_signal(int number) {
    static const char text[] = "signal: the engine or a fact of the harness ended execution ";
    ssize_t written = write(2, text, sizeof text - 1);
    written += write(2, where, strlen(where));
    int file = open("found.bin", O_WRONLY | O_CREAT | O_TRUNC, 0644);
    if (file >= 0) written += write(file, input, input_size);
    _exit(written > 0 ? 128 + number : 1);
}

static void watch(void) {
    static const int fatal[] = {SIGSEGV, SIGBUS, SIGILL, SIGFPE, SIGTRAP, SIGABRT, SIGVTALRM};
    for (size_t i = 0; i < sizeof fatal / sizeof fatal[0]; i++) signal(fatal[i], on_signal);
}

/* A call that does not end is stopped: a new limit on the processor time from here on. */
static void limit_time(void) {
    const struct itimerval limit = {{0, 0}, {CPU_SECONDS, 0}};
    setitimer(ITIMER_VIRTUAL, &limit, NULL);
}

/* Small seeds are drawn more often than large ones. */
static const seed *draw_seed(source *r) {
    size_t i = below(r, SEEDS), j = below(r, SEEDS);
    return &seeds[seeds[i].size < seeds[j].size ? i : j];
}

static size_t seed_input(source *r, uint8_t *to) {
    const seed *s = draw_seed(r);
    draw_control(r, to);
    memcpy(to + CONTROL, s->bytes, s->size);
    return CONTROL + s->size;
}

/* Execution k's input: a seed with calls, changed some times. Returns how often. */
static size_t make_input(uint64_t seed_number, uint64_t k) {
    source r = {seed_number * 0x632BE59BD9B4E019u + k * 0x9E6C63D0876A9A47u};
    draw(&r);
    input_size = seed_input(&r, input);
    size_t other_size = seed_input(&r, other), changes = below(&r, 4) ? below(&r, 4) : below(&r, 12);
    for (size_t i = 0; i < changes; i++) input_size = mutate(&r, input, input_size, MOST_INPUT, other, other_size);
    return changes;
}

static const char *const version_names[VERSIONS] = {"not version 5", "version 5"};

static void run_input(void) {
    inputs++;
    LLVMFuzzerTestOneInput(input, input_size);
}

static void execute(uint64_t seed_number, uint64_t k) {
    size_t changes = make_input(seed_number, k);
    uint64_t before[VERSIONS] = {seen[OTHER_VERSION].accepted, seen[VERSION_5].accepted};
    snprintf(where, sizeof where, "%" PRIu64 " of seed %" PRIu64 "\n", k, seed_number);
    run_input();
    changed += changes > 0;
    for (int i = 0; i < VERSIONS; i++) accepted_changed[i] += changes > 0 && seen[i].accepted > before[i];
}

static uint64_t returned(const tally *t, uint32_t number) {
    uint64_t sum = 0;
    for (int kind = 0; kind < KINDS; kind++) sum += t->returned[kind][number];
    return sum;
}

/* Says that something did not occur. */
static int none(uint64_t count, int version, const char *what) {
    if (count == 0) printf("MISSING, %s: %s\n", version_names[version], what);
    return count == 0;
}

/* Whether a call did not return a number that it may return; with version 5 create never returns 3. */
static int missing_number(int version, int kind) {
    int some = 0;
    char what[40];
    for (uint32_t number = 0; number <= PDIC_ABSENT; number++) {
        if (!may_return(kind, number) || (version == VERSION_5 && kind == CREATE && number == 3)) continue;
        snprintf(what, sizeof what, "%s that returned %u", call_names[kind], number);
        some |= none(seen[version].returned[kind][number], version, what);
    }
    return some;
}

/* Whether something that must occur did not, in images of a version. */
static int missing(int version) {
    const tally *t = &seen[version];
    int some = 0;
    for (int kind = 0; kind < KINDS; kind++) some |= missing_number(version, kind);
    some |= none(t->index_grown, version, "an index that grew");
    some |= none(t->run_moved, version, "an index that grew beside other runs");
    some |= none(t->run_split, version, "a run more") | none(t->run_gone, version, "a run less");
    some |= none(t->full_packed, version, "an image that was optimised and filled its slice");
    some |= none(t->whole_fronts, version, "a written front shorter than the common one");
    return some | none(accepted_changed[version] >= LEAST_ACCEPTED, version, "enough changed images that were accepted");
}

static void report_version(int version) {
    const tally *t = &seen[version];
    printf("%s: accepted %" PRIu64 " (%" PRIu64 "); returned", version_names[version], t->accepted, accepted_changed[version]);
    for (uint32_t number = 0; number <= PDIC_ABSENT; number++)
        if (returned(t, number) > 0) printf(" %u:%" PRIu64, number, returned(t, number));
    printf("; done");
    for (int kind = 0; kind < KINDS; kind++) printf(" %s %" PRIu64 ",", call_names[kind], t->returned[kind][0]);
    printf(" index grown %" PRIu64 " (%" PRIu64 " with runs), more runs %" PRIu64 ", fewer runs %" PRIu64
           ", optimised in a full slice %" PRIu64 ", fronts shorter than the common one %" PRIu64 "\n",
           t->index_grown, t->run_moved, t->run_split, t->run_gone, t->full_packed, t->whole_fronts);
}

static void report(void) {
    printf("fuzz: %" PRIu64 " inputs (%" PRIu64 " changed)\n", inputs, changed);
    for (int version = 0; version < VERSIONS; version++) report_version(version);
}

static int run_file(const char *name) {
    FILE *file = fopen(name, "rb");
    if (file == NULL) return 2;
    input_size = fread(input, 1, MOST_INPUT, file);
    fclose(file);
    snprintf(where, sizeof where, "from a file\n");
    run_input();
    return 0;
}

static int run_files(char **names) {
    for (; *names != NULL; names++)
        if (run_file(*names) != 0) return 2;
    report();
    return 0;
}

/* The first inputs of a seed as files. */
static int write_corpus(const char *folder, uint64_t seed_number, uint64_t count) {
    for (uint64_t k = 0; k < count; k++) {
        char name[4096];
        make_input(seed_number, k);
        snprintf(name, sizeof name, "%s/seed-%06" PRIu64, folder, k);
        FILE *file = fopen(name, "wb");
        if (file == NULL || fwrite(input, 1, input_size, file) != input_size) return 2;
        fclose(file);
    }
    return 0;
}

int main(int argc, char **argv) {
    watch();
    make_seeds(seeds);
    if (argc > 2 && strcmp(argv[1], "--input") == 0) return run_files(argv + 2);
    uint64_t number = argc > 1 ? strtoull(argv[1], NULL, 10) : 1;
    uint64_t executions = argc > 2 ? strtoull(argv[2], NULL, 10) : 1000;
    if (argc == 4 && strcmp(argv[3], "only") == 0) {
        execute(number, executions);
        report();
        return 0;
    }
    if (argc == 4) return write_corpus(argv[3], number, executions);
    for (uint64_t k = 0; k < executions; k++) {
        if (k % 64 == 0) limit_time();
        execute(number, k);
    }
    report();
    return executions >= ENOUGH_FOR_ALL_KINDS ? missing(OTHER_VERSION) | missing(VERSION_5) : 0;
}
