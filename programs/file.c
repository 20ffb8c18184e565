#define _GNU_SOURCE
#include "file.h"
#include <dirent.h>
#include <errno.h>
#include <fcntl.h>
#include <stdio.h>
#include <stdlib.h>
#include <string.h>
#include <sys/file.h>
#include <sys/stat.h>
#include <time.h>
#include <unistd.h>
#include "progress.h"

/* A file that is written beside another is called ".NAME.unfinished-", the writing program's number in ten digits, "-" and six
 * letters. Of a long name only the front is taken. */
static const char behind_name[] = ".unfinished-";
enum { LONGEST_STEM = 200, DIGITS = 10, LETTERS = 6 };

enum { PAUSE = 20 /* milliseconds between two attempts to hold a file */ };

static char fault_words[160];

const char *file_fault(void)
{
    return fault_words;
}

/* Notes why a call fails, and gives -1. */
static int fault(const char *words)
{
    snprintf(fault_words, sizeof fault_words, "%s", words);
    return -1;
}

static int system_fault(void)
{
    return fault(strerror(errno));
}

static int length_fault(size_t most)
{
    snprintf(fault_words, sizeof fault_words, "longer than %zu bytes, the most that is read", most);
    return -1;
}

static void *taken(void *memory)
{
    if (!memory) {
        fputs("out of memory\n", stderr);
        exit(2);
    }
    return memory;
}

void *take_memory(void *old, size_t size)
{
    return taken(realloc(old, size ? size : 1));
}

void *take_zeros(size_t size)
{
    return taken(calloc(size ? size : 1, 1));
}

static char *copy_of(const char *s, size_t len)
{
    char *copy = take_memory(NULL, len + 1);
    memcpy(copy, s, len);
    copy[len] = '\0';
    return copy;
}

/* Reads an open file; as read_file. */
static int read_all(int fd, size_t most, uint8_t **bytes, size_t *len)
{
    size_t size = 0;
    ssize_t got = 1;
    *bytes = NULL;
    *len = 0;
    while (got != 0 && *len <= most) {
        if (*len == size) *bytes = take_memory(*bytes, size = 2 * size + 65536);
        got = read(fd, *bytes + *len, size - *len);
        if (got > 0) *len += (size_t)got;
        else if (got < 0 && errno != EINTR) break;
    }
    if (got == 0 && *len <= most) return 0;
    int failed = got < 0 ? system_fault() : length_fault(most);
    free(*bytes);
    *bytes = NULL;
    return failed;
}

int read_file(const char *path, size_t most, uint8_t **bytes, size_t *len)
{
    if (strcmp(path, "-") == 0) return read_all(STDIN_FILENO, most, bytes, len);
    int fd = open(path, O_RDONLY | O_CLOEXEC);
    if (fd < 0) return system_fault();
    int failed = read_all(fd, most, bytes, len);
    close(fd);
    return failed;
}

const char *shown_path(const char *path)
{
    return strcmp(path, "-") == 0 ? "standard input" : path;
}

static int write_all(int fd, const uint8_t *bytes, size_t len)
{
    while (len > 0) {
        ssize_t put = write(fd, bytes, len);
        if (put < 0 && errno == EINTR) continue;
        if (put < 0) return system_fault();
        bytes += put;
        len -= (size_t)put;
    }
    return 0;
}

int write_out(const uint8_t *bytes, size_t len)
{
    return write_all(STDOUT_FILENO, bytes, len);
}

/* The folder of a path, with its slash, and the name behind it. The caller frees the folder. */
static char *folder_of(const char *path, const char **name)
{
    const char *slash = strrchr(path, '/');
    *name = slash ? slash + 1 : path;
    return slash ? copy_of(path, (size_t)(*name - path)) : copy_of("./", 2);
}

/* Removes a file of a program that ended before it was done: a living program holds the file that it writes. */
static void remove_if_stale(const char *path)
{
    struct stat file;
    int fd = open(path, O_RDWR | O_NOFOLLOW | O_CLOEXEC | O_NONBLOCK);
    if (fd < 0) return;
    if (fstat(fd, &file) == 0 && S_ISREG(file.st_mode) && flock(fd, LOCK_EX | LOCK_NB) == 0) unlink(path);
    close(fd);
}

/* How much of a name is taken into the name of a file beside it. */
static int stem_of(const char *name)
{
    size_t len = strlen(name);
    return (int)(len < LONGEST_STEM ? len : LONGEST_STEM);
}

/* Is this the name of a file written beside one called `name`? */
static int is_beside(const char *entry, const char *name)
{
    static const char digits[] = "0123456789", letters[] = "0123456789ABCDEFGHIJKLMNOPQRSTUVWXYZabcdefghijklmnopqrstuvwxyz";
    size_t stem = (size_t)stem_of(name), behind = strlen(behind_name);
    if (strlen(entry) != 1 + stem + behind + DIGITS + 1 + LETTERS) return 0;
    const char *number = entry + 1 + stem + behind, *rest = number + DIGITS;
    return entry[0] == '.' && memcmp(entry + 1, name, stem) == 0 && memcmp(number - behind, behind_name, behind) == 0 &&
           strspn(number, digits) == DIGITS && rest[0] == '-' && strspn(rest + 1, letters) == LETTERS;
}

static void remove_stale(const char *path)
{
    const char *name;
    char *folder = folder_of(path, &name);
    DIR *entries = opendir(folder);
    for (struct dirent *e; entries && (e = readdir(entries));) {
        if (!is_beside(e->d_name, name)) continue;
        char *stale = take_memory(NULL, strlen(folder) + strlen(e->d_name) + 1);
        strcpy(stale, folder);
        strcat(stale, e->d_name);
        remove_if_stale(stale);
        free(stale);
    }
    if (entries) closedir(entries);
    free(folder);
}

/* The name for a file written beside; the letters are mkstemp's. The caller frees it. */
static char *name_beside(const char *path)
{
    const char *name;
    char *folder = folder_of(path, &name);
    size_t size = strlen(folder) + LONGEST_STEM + sizeof behind_name + DIGITS + LETTERS + 3;
    char *beside = take_memory(NULL, size);
    snprintf(beside, size, "%s.%.*s%s%0*ld-XXXXXX", folder, stem_of(name), name, behind_name, DIGITS, (long)getpid());
    free(folder);
    return beside;
}

/* Opens a new file and holds it, so that no other program takes it for stale. Gives its descriptor or -1. */
static int open_beside(const char *path, char **beside)
{
    for (;;) {
        struct stat made;
        *beside = name_beside(path);
        int fd = mkostemp(*beside, O_CLOEXEC);
        if (fd < 0 || flock(fd, LOCK_EX) != 0 || fstat(fd, &made) != 0) {
            int failed = system_fault();
            if (fd >= 0) unlink(*beside), close(fd);
            free(*beside);
            return failed;
        }
        if (made.st_nlink > 0) return fd;
        close(fd); /* it was taken for stale before it was held */
        free(*beside);
    }
}

/* Gives a new file the old one's owner, group and mode, or the mode of any new file. */
static int keep_rights(int fd, const struct stat *old)
{
    struct stat new;
    mode_t mask = umask(0);
    umask(mask);
    if (fstat(fd, &new) != 0) return system_fault();
    if (old && (old->st_uid != new.st_uid || old->st_gid != new.st_gid) && fchown(fd, old->st_uid, old->st_gid) != 0)
        return fault("its owner and group could not be kept");
    return fchmod(fd, old ? old->st_mode & 07777 : 0666 & ~mask) == 0 ? 0 : system_fault();
}

/* Lets the folder's change reach the disk too; a file system that cannot do that is taken as it is. */
static void settle_folder(const char *path)
{
    const char *name;
    char *folder = folder_of(path, &name);
    int fd = open(folder, O_RDONLY | O_CLOEXEC);
    if (fd >= 0) {
        fsync(fd);
        close(fd);
    }
    free(folder);
}

/* Gives the new file its name, in the place of an old one or where there must be none. */
static int rename_beside(const char *beside, const char *path, int is_new)
{
    if (!is_new) return rename(beside, path);
    if (renameat2(AT_FDCWD, beside, AT_FDCWD, path, RENAME_NOREPLACE) == 0) return 0;
    if (errno != EINVAL && errno != ENOSYS) return -1;
    return link(beside, path) == 0 ? unlink(beside) : -1; /* a file system that knows no such renaming */
}

/* Writes a new file beside and renames it. `old` is the file that is there, or null where there is none. */
static int write_beside(const char *path, const struct stat *old, int is_new, const uint8_t *bytes, size_t len)
{
    char *beside;
    remove_stale(path);
    int fd = open_beside(path, &beside);
    if (fd < 0) return -1;
    int failed = write_all(fd, bytes, len) != 0 || keep_rights(fd, old) != 0;
    if (!failed && (fsync(fd) != 0 || rename_beside(beside, path, is_new) != 0)) failed = system_fault();
    if (failed) unlink(beside);
    else settle_folder(path);
    close(fd);
    free(beside);
    return failed ? -1 : 0;
}

static int write_straight(const char *path, const uint8_t *bytes, size_t len)
{
    int fd = open(path, O_WRONLY | O_CLOEXEC);
    if (fd < 0) return system_fault();
    int failed = write_all(fd, bytes, len);
    if (close(fd) != 0 && !failed) failed = system_fault();
    return failed;
}

/* May the file be written? A file that nobody may write is not, whoever asks. */
static int may_be_written(const char *path, const struct stat *file)
{
    if ((file->st_mode & 0222) == 0) return fault("it may only be read");
    return access(path, W_OK) == 0 ? 0 : system_fault();
}

/* May files be made in a path's folder? */
static int may_be_made(const char *path)
{
    const char *name;
    char *folder = folder_of(path, &name);
    int failed = 0;
    if (access(folder, F_OK) != 0) failed = fault("its folder is not there");
    else if (access(folder, W_OK | X_OK) != 0) failed = system_fault();
    free(folder);
    return failed;
}

int replace_file(const char *path, const uint8_t *bytes, size_t len)
{
    struct stat old, link;
    if (stat(path, &old) != 0) {
        if (lstat(path, &link) == 0) return fault("a symbolic link that leads nowhere");
        return may_be_made(path) != 0 ? -1 : write_beside(path, NULL, 0, bytes, len);
    }
    if (S_ISDIR(old.st_mode)) return fault(strerror(EISDIR));
    if (!S_ISREG(old.st_mode)) return write_straight(path, bytes, len);
    char *real = realpath(path, NULL);
    if (!real) return system_fault();
    int failed = may_be_written(real, &old) != 0 || write_beside(real, &old, 0, bytes, len) != 0;
    free(real);
    return failed ? -1 : 0;
}

int is_same_file(const char *input, const char *path)
{
    struct stat a, b;
    int is_there = strcmp(input, "-") == 0 ? fstat(STDIN_FILENO, &a) : stat(input, &a);
    return is_there == 0 && stat(path, &b) == 0 && a.st_dev == b.st_dev && a.st_ino == b.st_ino && S_ISREG(a.st_mode);
}

void open_standard_files(void)
{
    int fd;
    do fd = open("/dev/null", O_RDWR);
    while (fd >= 0 && fd <= STDERR_FILENO);
    if (fd >= 0) close(fd);
}

/* Locks an open file, waiting until a time. Gives HELD, NOT_HELD or IN_USE. */
static int lock(int fd, const char *path, unsigned seconds, int64_t until, int *is_told)
{
    while (flock(fd, LOCK_EX | LOCK_NB) != 0) {
        if (errno == EINTR) continue;
        if (errno != EWOULDBLOCK) return system_fault();
        if (milliseconds() >= until) {
            fault("another program is changing it");
            return IN_USE;
        }
        if (!*is_told) fprintf(stderr, "%s: another program is changing it; waiting up to %u s\n", path, seconds);
        *is_told = 1;
        nanosleep(&(struct timespec){ .tv_nsec = PAUSE * 1000000L }, NULL);
    }
    return HELD;
}

/* Opens what is to be held: a regular file that may be replaced. Gives its descriptor or -1. */
static int open_held(const char *path)
{
    struct stat file;
    if (stat(path, &file) != 0) return system_fault();
    if (S_ISDIR(file.st_mode)) return fault(strerror(EISDIR));
    if (!S_ISREG(file.st_mode)) return fault("only a regular file can be changed");
    if (may_be_written(path, &file) != 0 || may_be_made(path) != 0) return -1;
    if (file.st_nlink > 1) return fault("it has a second name, a hard link, which would keep the old dictionary");
    if (geteuid() != 0 && geteuid() != file.st_uid) return fault("it belongs to another user, and would not after a change");
    int fd = open(path, O_RDWR | O_CLOEXEC);
    return fd < 0 ? system_fault() : fd;
}

/* Does the path still lead to the open file? Whoever held it before may have replaced it. */
static int is_same(int fd, const char *path)
{
    struct stat opened, there;
    return fstat(fd, &opened) == 0 && stat(path, &there) == 0 && opened.st_dev == there.st_dev && opened.st_ino == there.st_ino;
}

int hold_file(held_file *h, const char *path, unsigned seconds)
{
    int64_t until = milliseconds() + 1000 * (int64_t)seconds;
    int is_told = 0;
    h->fd = -1;
    h->path = realpath(path, NULL);
    if (!h->path) return system_fault();
    for (;;) {
        h->fd = open_held(h->path);
        int held = h->fd < 0 ? NOT_HELD : lock(h->fd, path, seconds, until, &is_told);
        if (held == HELD && is_same(h->fd, h->path)) return HELD;
        if (h->fd >= 0) close(h->fd);
        if (held == HELD) continue;
        h->fd = -1;
        let_go(h);
        return held;
    }
}

int hold_new_file(held_file *h, const char *path)
{
    struct stat there;
    if (lstat(path, &there) == 0) return fault("it is there already");
    if (may_be_made(path) != 0) return NOT_HELD;
    *h = (held_file){ .path = copy_of(path, strlen(path)), .fd = -1 };
    return HELD;
}

int read_held(const held_file *h, size_t most, uint8_t **bytes, size_t *len)
{
    return read_all(h->fd, most, bytes, len);
}

int replace_held(const held_file *h, const uint8_t *bytes, size_t len)
{
    struct stat old;
    if (h->fd < 0) return write_beside(h->path, NULL, 1, bytes, len);
    if (!is_same(h->fd, h->path)) return fault("another file has come in its place");
    return fstat(h->fd, &old) == 0 ? write_beside(h->path, &old, 0, bytes, len) : system_fault();
}

void let_go(held_file *h)
{
    if (h->fd >= 0) close(h->fd);
    free(h->path);
    *h = (held_file){ .fd = -1 };
}
