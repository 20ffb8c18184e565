/* glossary.c - makes a dictionary file from a list, changes it and reads it. `glossary --help` says how.
 *
 * A change holds the file from its reading to its writing, so that no edit of two programs is lost, writes a new file
 * beside the old one and renames it, so that a crash leaves the old or the new file whole, and writes nothing at all where
 * any part of it is refused.
 */
#define _POSIX_C_SOURCE 200809L
#include <errno.h>
#include <inttypes.h>
#include <signal.h>
#include <stdio.h>
#include <stdlib.h>
#include <string.h>
#include <unistd.h>
#include "book.h"
#include "lists.h"
#include "near.h"
#include "progress.h"
#include "seal.h"

enum { WAIT = 30, LONGEST_WAIT = 86400, IDENT_DIGITS = 16 };

/* What the options say. */
typedef struct {
    int dry_run, attribute; /* attribute: -1 where none is told */
    const char *from;
    unsigned wait;
    kind made; /* what a new dictionary is to be */
} options;

/* A command at work: the dictionary, its file, the arguments behind that, and the list that they name or are. */
typedef struct {
    book b;
    const char *path;
    char **args;
    int count, is_new, is_saved;
    list l;
    options told;
} task;

/* What became of a list's entries. */
typedef struct {
    size_t added, replaced, same;
} tally;

static int refused(const char *path, bytes headword, uint32_t number)
{
    fprintf(stderr, "%s: ", path);
    print_refused(stderr, headword, number);
    return STATUS_REFUSED;
}

static int absent(const task *t, bytes headword)
{
    fprintf(stderr, "%s: ", t->path);
    print_absent(stderr, &t->b, headword);
    return STATUS_ABSENT;
}

static figures figures_of(const book *b)
{
    figures f = { 0 };
    book_check(b, &f);
    return f;
}

static int print_figures(task *t)
{
    figures f = figures_of(&t->b);
    printf("%s: headwords %" PRIu64 ", index blocks %" PRIu64 ", data blocks %" PRIu64 " (free %" PRIu64 "), bytes %zu\n",
           t->path, f.headwords, f.index_blocks, f.data_blocks, f.free_blocks, t->b.len);
    return STATUS_DONE;
}

/* Says what the dictionary holds, its version, and its identifier if it has one. */
static int check(task *t)
{
    unsigned version = book_version(&t->b);
    print_figures(t);
    printf("%s: version 0x%04X", t->path, version);
    if (version >> 8 == PDIC_FORMAT_5) printf(", identifier %0*" PRIX64, IDENT_DIGITS, book_ident(&t->b));
    putchar('\n');
    return STATUS_DONE;
}

/* Writes the changed dictionary and says what it holds. From then on a reader of standard output that is gone does not end
 * the program, which would tell of a failure. */
static int save(task *t)
{
    signal(SIGPIPE, SIG_IGN);
    int status = book_save(&t->b, t->path);
    t->is_saved = status == STATUS_DONE;
    return t->is_saved ? print_figures(t) : status;
}

/* Prints a text, and its attribute if that is to be seen. */
static void print_text(bytes text, int attribute, int is_shown)
{
    print_quoted(stdout, text);
    if (is_shown) printf(" (0x%02X)", (unsigned)attribute);
}

/* Says what a merging would do with an entry; attributes only where they differ. */
static void print_plan(const item *x, int attribute, const entry *stored)
{
    int is_shown = stored && stored->attribute != attribute;
    fputs(stored ? "would replace " : "would add ", stdout);
    print_quoted(stdout, x->headword);
    fputs(": ", stdout);
    if (stored) {
        print_text(text_of(stored), stored->attribute, is_shown);
        fputs(" by ", stdout);
    }
    print_text(x->text, attribute, is_shown);
    putchar('\n');
}

/* Adds an entry or replaces the stored one; its attribute is the one told, else the stored one's. What is stored already
 * is left alone. Gives the engine's number. */
static uint32_t put(task *t, const item *x, tally *n)
{
    entry stored;
    uint32_t number = t->is_new ? PDIC_ABSENT : book_look_up(&t->b, x->headword, &stored);
    if (number != PDIC_DONE && number != PDIC_ABSENT) return number;
    int is_stored = number == PDIC_DONE;
    int attribute = x->attribute >= 0 ? x->attribute : is_stored ? stored.attribute : PDIC_PLAIN;
    if (is_stored && stored.attribute == attribute && compare_bytes(text_of(&stored), x->text) == 0) {
        n->same++;
        return PDIC_DONE;
    }
    number = book_insert(&t->b, x->headword, (uint8_t)attribute, x->text);
    if (number != PDIC_DONE) return number;
    if (t->told.dry_run) print_plan(x, attribute, is_stored ? &stored : NULL);
    if (is_stored) n->replaced++;
    else n->added++;
    return PDIC_DONE;
}

/* Puts the list's entries into the dictionary. Gives STATUS_DONE, or says which is refused. */
static int put_all(task *t, tally *n)
{
    for (size_t i = 0; i < t->l.count; i++) {
        const item *x = &t->l.items[i];
        if (!t->told.dry_run) progress("entries added", i, t->l.count);
        uint32_t number = put(t, x, n);
        if (number == PDIC_DONE) continue;
        progress_end();
        fprintf(stderr, "%s:%zu: ", t->l.path, x->line);
        print_refused(stderr, x->headword, number);
        return STATUS_REFUSED;
    }
    progress_end();
    return STATUS_DONE;
}

/* Writes the dictionary if an entry of it is new. */
static int save_changes(task *t, const tally *n)
{
    return t->is_new || n->added + n->replaced > 0 ? save(t) : print_figures(t);
}

static int merge(task *t)
{
    tally n = { 0 };
    int status = put_all(t, &n);
    if (status == STATUS_DONE && t->told.dry_run)
        printf("%s: %zu would be added, %zu replaced, %zu are as stored; nothing is written\n", t->l.path, n.added, n.replaced, n.same);
    if (status != STATUS_DONE || t->told.dry_run) return status;
    status = save_changes(t, &n);
    if (status == STATUS_DONE) printf("%s: %zu added, %zu replaced, %zu as stored\n", t->l.path, n.added, n.replaced, n.same);
    return status;
}

static int add(task *t)
{
    tally n = { 0 };
    item x = { .headword = string_bytes(t->args[0]), .text = string_bytes(t->args[1]), .attribute = t->told.attribute };
    const char *unseen = unseen_in(x.headword, x.text);
    if (unseen) {
        fprintf(stderr, "%s: ", t->path);
        print_exact(stderr, x.headword);
        fprintf(stderr, " %s\n", unseen);
        return STATUS_REFUSED;
    }
    uint32_t number = put(t, &x, &n);
    return number == PDIC_DONE ? save_changes(t, &n) : refused(t->path, x.headword, number);
}

/* Does something with each headword of the list. Gives the gravest status. */
static int for_each(task *t, int (*act)(task *t, bytes headword))
{
    int status = STATUS_DONE;
    for (size_t i = 0; status != STATUS_REFUSED && i < t->l.count; i++) {
        int one = act(t, t->l.items[i].headword);
        if (one > status) status = one;
    }
    return status;
}

/* Says that a headword is absent because it stands among the arguments twice; gives 0 where it does not. */
static int is_named_twice(const task *t, bytes headword)
{
    int count = 0;
    for (size_t i = 0; i < t->l.count; i++) count += compare_bytes(t->l.items[i].headword, headword) == 0;
    if (count < 2) return 0;
    fprintf(stderr, "%s: ", t->path);
    print_quoted(stderr, headword);
    fputs(" is named twice\n", stderr);
    return 1;
}

static int delete_one(task *t, bytes headword)
{
    uint32_t number = book_delete(&t->b, headword);
    if (number == PDIC_ABSENT) return is_named_twice(t, headword) ? STATUS_REFUSED : absent(t, headword);
    return number == PDIC_DONE ? STATUS_DONE : refused(t->path, headword, number);
}

static int delete(task *t)
{
    int status = for_each(t, delete_one);
    return status == STATUS_DONE ? save(t) : status;
}

/* Prints bytes with control bytes as spaces. */
static void print_plain(bytes b)
{
    for (size_t i = 0; i < b.len; i++) putchar(is_control(b.at[i]) ? ' ' : b.at[i]);
}

static void print_line(const entry *e)
{
    print_plain(headword_of(e));
    putchar('\t');
    print_plain(text_of(e));
    putchar('\n');
}

static int look_one(task *t, bytes headword)
{
    entry e;
    uint32_t number = book_look_up(&t->b, headword, &e);
    if (number == PDIC_ABSENT) return absent(t, headword);
    if (number != PDIC_DONE) return refused(t->path, headword, number);
    if (t->count == 1 && !t->l.content) { /* one headword, named as an argument */
        fwrite(e.text, 1, e.text_len, stdout);
        putchar('\n');
    } else {
        print_line(&e);
    }
    return STATUS_DONE;
}

static int look(task *t)
{
    return for_each(t, look_one);
}

static int optimise(task *t)
{
    uint32_t number = book_optimise(&t->b);
    if (number == PDIC_DONE) return save(t);
    fprintf(stderr, "%s: refused %" PRIu32 ": %s\n", t->path, number, pdic_strerror(number));
    return STATUS_REFUSED;
}

/* Prints the entries from a headword on that begin with a prefix. */
static int print_entries(task *t, bytes from, bytes prefix, void (*print)(const entry *e))
{
    size_t all = figures_of(&t->b).headwords;
    entry e;
    if (compare_bytes(from, prefix) < 0) from = prefix;
    uint32_t number = book_walk(&t->b, from, 0, &e);
    for (size_t i = 0; number == PDIC_DONE && begins_with(&e, prefix); i++) {
        print(&e);
        if (!isatty(STDOUT_FILENO)) progress("entries listed", i, all);
        number = book_walk(&t->b, headword_of(&e), 1, &e);
    }
    progress_end();
    return number == PDIC_DONE || number == PDIC_ABSENT ? STATUS_DONE : refused(t->path, from, number);
}

static int print_list(task *t)
{
    bytes from = string_bytes(t->told.from ? t->told.from : "");
    return print_entries(t, from, string_bytes(t->count > 0 ? t->args[0] : ""), print_line);
}

static void print_dump_row(const entry *e)
{
    print_row(stdout, e);
}

static int dump(task *t)
{
    print_columns(stdout);
    return print_entries(t, string_bytes(""), string_bytes(""), print_dump_row);
}

static int seal(task *t)
{
    if (write_seal(t->path, (bytes){ t->b.image, t->b.len }) != 0) {
        fprintf(stderr, "%s: not sealed: %s\n", t->path, file_fault());
        return STATUS_REFUSED;
    }
    char *path = seal_path(t->path), *slash = strrchr(path, '/');
    t->is_saved = 1;
    printf("%s: sealed in %s\n", t->path, slash ? slash + 1 : path);
    free(path);
    return STATUS_DONE;
}

/* A command: its name and another word for it, what it takes, how many arguments behind FILE (most: -1 for any number) and
 * what they are, what it does with the file, and its options. */
enum { READS, CHANGES, MAKES };
enum { WORDS, A_LIST, HEADWORD_LIST };
enum { DRY_RUN = 1, ATTRIBUTE = 2, FROM = 4, KIND = 8 };
typedef struct {
    const char *name, *also, *takes, *purpose;
    int least, most, arguments, use, options;
    int (*run)(task *t);
} command;

static const command commands[] = {
    { "make", NULL, "FILE LIST", "a new dictionary from a list", 1, 1, A_LIST, MAKES, KIND, merge },
    { "merge", NULL, "FILE LIST", "add a list's entries, replace those that are there", 1, 1, A_LIST, CHANGES, DRY_RUN, merge },
    { "add", NULL, "FILE HEADWORD TEXT", "add an entry or replace it", 2, 2, WORDS, CHANGES, ATTRIBUTE, add },
    { "delete", NULL, "FILE HEADWORD..", "remove entries, all of them or none", 1, -1, HEADWORD_LIST, CHANGES, 0, delete },
    { "look", "find", "FILE HEADWORD..", "print an entry's text, or a list of several", 1, -1, HEADWORD_LIST, READS, 0, look },
    { "list", NULL, "FILE [PREFIX]", "print the entries, or those that begin so, to read", 0, 1, WORDS, READS, FROM, print_list },
    { "dump", NULL, "FILE", "print all entries as a table for make and merge", 0, 0, WORDS, READS, 0, dump },
    { "check", NULL, "FILE", "print what it holds, its version and its identifier", 0, 0, WORDS, READS, 0, check },
    { "optimise", NULL, "FILE", "give the free blocks up", 0, 0, WORDS, CHANGES, 0, optimise },
    { "seal", NULL, "FILE", "write its digest to FILE.sha256", 0, 0, WORDS, CHANGES, 0, seal },
};
enum { COMMANDS = sizeof commands / sizeof commands[0] };

static const struct {
    int bit;
    const char *name, *purpose;
} option_words[] = {
    { DRY_RUN, "--dry-run", "say what would be added and replaced, and write nothing" },
    { ATTRIBUTE, "--attribute=N", "the entry's attribute, as 0xA0; else the stored one, or 0x80" },
    { FROM, "--from=HEADWORD", "begin at this headword" },
    { KIND, "--format=N", "the file's version, 4 or 5 (4)" },
    { KIND, "--identifier=DIGITS", "for version 5, 16 hexadecimal digits; else drawn at random" },
};

static void print_command(FILE *out, const command *c)
{
    fprintf(out, "  %-8s %-20s %s\n", c->name, c->takes, c->purpose);
    for (size_t i = 0; i < sizeof option_words / sizeof option_words[0]; i++)
        if (c->options & option_words[i].bit) fprintf(out, "    %-27s %s\n", option_words[i].name, option_words[i].purpose);
    if (c->use == CHANGES) fprintf(out, "    %-27s %s (%d)\n", "--wait=SECONDS", "for another program that changes FILE", WAIT);
}

/* Prints how the program, or one command of it, is used. */
static void print_help(const command *only)
{
    puts("usage: glossary COMMAND [OPTION..] FILE [ARGUMENT..]\n"
         "       glossary [COMMAND] --help | --version\n");
    for (size_t i = 0; i < COMMANDS; i++)
        if (!only || only == &commands[i]) print_command(stdout, &commands[i]);
    puts("\n"
         "LIST has one entry on each line, headword and text with one tab between; or it\n"
         "is a table: a first line of column names, %headword, attribute, text, and %XX\n"
         "for a byte, such as %09 for a tab and %25 for a percent sign. dump prints such\n"
         "a table. - as LIST, or as the only HEADWORD, is standard input. -- ends the\n"
         "options, whose values may also stand behind a blank. find is another word for\n"
         "look. What list and look print of several entries is to be read: control\n"
         "bytes are spaces.\n\n"
         "A sealed dictionary, with FILE.sha256 beside it, is read only while its bytes\n"
         "are those that were sealed, and is not changed. Remove FILE.sha256 to change it.\n\n"
         "Exit status: 0 done, 1 a headword is absent, 2 the file, the list or an\n"
         "argument is refused, 3 another program is changing the file. The file stays as\n"
         "it was unless it is 0.");
}

static int usage(const char *words, const char *which)
{
    fprintf(stderr, "glossary: %s%s\nglossary --help says how it is used\n", words, which);
    return STATUS_REFUSED;
}

static const command *command_called(const char *name)
{
    for (size_t i = 0; i < COMMANDS; i++)
        if (strcmp(name, commands[i].name) == 0 || (commands[i].also && strcmp(name, commands[i].also) == 0)) return &commands[i];
    return NULL;
}

/* What stands behind an option's name and "=", or is the word behind it, or NULL where the word is another. Counts the words. */
static const char *value_of(char **words, const char *name, int *taken)
{
    size_t len = strlen(name);
    if (strncmp(words[0], name, len) != 0 || (words[0][len] != '=' && words[0][len] != '\0')) return NULL;
    if (words[0][len] == '=') return words[0] + len + 1;
    *taken = words[1] ? 2 : 1;
    return words[1];
}

/* Reads a number of seconds. Gives 0 or -1. */
static int read_seconds(const char *digits, unsigned *seconds)
{
    char *end;
    unsigned long number = strtoul(digits, &end, 10);
    if (digits[0] < '0' || digits[0] > '9' || *end != '\0' || number > LONGEST_WAIT) return -1;
    *seconds = (unsigned)number;
    return 0;
}

/* Reads a version that a dictionary can be made in. Gives 0 or -1. */
static int read_format(const char *digits, kind *k)
{
    if (strcmp(digits, "4") != 0 && strcmp(digits, "5") != 0) return -1;
    k->version = digits[0] == '4' ? PDIC_FORMAT_4 : PDIC_FORMAT_5;
    return 0;
}

/* Reads an identifier, a number of 64 bits with all its digits. Gives 0 or -1. */
static int read_ident(const char *digits, kind *k)
{
    if (strlen(digits) != IDENT_DIGITS || strspn(digits, "0123456789ABCDEFabcdef") != IDENT_DIGITS) return -1;
    k->ident = strtoull(digits, NULL, 16);
    k->has_ident = 1;
    return 0;
}

/* Reads an option of a command and counts the words that it takes. Gives NULL, or what is wrong with it. */
static const char *read_option(const command *c, char **words, options *o, int *taken)
{
    static const char none[] = "no such option, or no such value (-- ends the options): ";
    const char *value;
    *taken = 1;
    if (c->options & DRY_RUN && strcmp(words[0], "--dry-run") == 0) return o->dry_run = 1, NULL;
    if (c->options & FROM && (value = value_of(words, "--from", taken))) return o->from = value, NULL;
    if (c->options & ATTRIBUTE && (value = value_of(words, "--attribute", taken)))
        return (o->attribute = read_attribute(string_bytes(value))) < 0 ? none : NULL;
    if (c->options & KIND && (value = value_of(words, "--format", taken)))
        return read_format(value, &o->made) != 0 ? "a dictionary is made in version 4 or 5: " : NULL;
    if (c->options & KIND && (value = value_of(words, "--identifier", taken)))
        return read_ident(value, &o->made) != 0 ? "an identifier has 16 hexadecimal digits: " : NULL;
    if (c->use == CHANGES && (value = value_of(words, "--wait", taken))) return read_seconds(value, &o->wait) != 0 ? none : NULL;
    return none;
}

/* Splits a command's words into options and arguments, the file first. Gives NULL, or what is wrong with the word `*bad`. */
static const char *read_words(const command *c, char **words, task *t, const char **bad)
{
    const char *wrong = NULL;
    int is_open = 1, taken = 1;
    t->args = words;
    for (; !wrong && *words; words += taken, taken = 1) {
        if (is_open && strcmp(*words, "--") == 0) {
            is_open = 0;
        } else if (is_open && words[0][0] == '-' && words[0][1] != '\0') {
            wrong = read_option(c, words, &t->told, &taken);
            *bad = words[taken - 1];
        } else {
            t->args[t->count++] = *words;
        }
    }
    if (!wrong && t->told.made.has_ident && t->told.made.version != PDIC_FORMAT_5) {
        wrong = "--identifier is for version 5 alone, told by ";
        *bad = "--format=5";
    }
    return wrong;
}

/* Reads the list that the arguments name, or makes one of the headwords that they are. */
static int read_arguments(const command *c, task *t)
{
    if (c->arguments == WORDS) return STATUS_DONE;
    int is_input = t->count == 1 && strcmp(t->args[0], "-") == 0, failed = 0;
    if (c->arguments == A_LIST) failed = read_list(&t->l, t->args[0], ENTRIES);
    else if (is_input) failed = read_list(&t->l, "-", HEADWORDS);
    else t->l.items = take_memory(NULL, (size_t)t->count * sizeof *t->l.items);
    for (int i = 0; c->arguments == HEADWORD_LIST && !is_input && i < t->count; i++)
        t->l.items[t->l.count++] = (item){ .headword = string_bytes(t->args[i]) };
    return failed ? STATUS_REFUSED : STATUS_DONE;
}

/* Opens the dictionary that is there, for a change or for reading. */
static int open_book(const command *c, task *t)
{
    if (c->use == READS) return book_load(&t->b, t->path);
    return t->told.dry_run ? book_load_to_change(&t->b, t->path) : book_hold(&t->b, t->path, t->told.wait);
}

/* Runs a command. A new file's place is looked at first, and a dictionary is held only when its list has been read. */
static int run(const command *c, task *t)
{
    t->path = *t->args++;
    t->count--;
    t->is_new = c->use == MAKES;
    int status = t->is_new ? book_create(&t->b, t->path, t->told.made) : STATUS_DONE;
    if (status == STATUS_DONE) status = read_arguments(c, t);
    if (status == STATUS_DONE && !t->is_new) status = open_book(c, t);
    if (status == STATUS_DONE) status = c->run(t);
    book_free(&t->b);
    free_list(&t->l);
    return status;
}

/* Sees that standard output took all that was printed. A file that is written stays so, whatever could be said of it. */
static int finish(int status, int is_saved)
{
    if (fflush(stdout) == 0 && !ferror(stdout)) return status;
    fprintf(stderr, "standard output: %s%s\n", strerror(errno), is_saved ? "; the file is written" : "");
    return is_saved ? status : STATUS_REFUSED;
}

/* Does a word ask for help, or for the version? Then it is answered. */
static int is_question(const char *word, const command *c)
{
    if (strcmp(word, "--help") == 0) print_help(c);
    else if (strcmp(word, "--version") == 0) puts("glossary " PDIC_VERSION);
    else return 0;
    return 1;
}

int main(int argc, char **argv)
{
    const char *bad, *wrong;
    task t = { .b = { .file = { .fd = -1 } }, .told = { .attribute = -1, .wait = WAIT, .made = { .version = PDIC_FORMAT_4 } } };
    open_standard_files();
    if (argc < 2) return usage("a command is missing", "");
    if (is_question(argv[1], NULL)) return finish(STATUS_DONE, 0);
    const command *c = command_called(argv[1]);
    if (!c) return usage("no command is called ", argv[1]);
    for (int i = 2; i < argc && strcmp(argv[i], "--") != 0; i++)
        if (is_question(argv[i], c)) return finish(STATUS_DONE, 0);
    if ((wrong = read_words(c, argv + 2, &t, &bad))) return usage(wrong, bad);
    if (t.count < 1 + c->least || (c->most >= 0 && t.count > 1 + c->most)) return usage("the arguments are ", c->takes);
    int status = run(c, &t);
    return finish(status, t.is_saved);
}
