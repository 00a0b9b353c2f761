/* A library that is loaded before the program (LD_PRELOAD). It reports the program's calls on the two files of a recording, on the
   files IN and OUT of a command (in.fit and out.fit), on a file that is made beside OUT, and on their folder. It lets some of them
   fail, fall short or be interrupted. On request it also reports requests for the status of a name and for memory, and writes to standard
   output:

     FAULTS_LOG      the file that gets a line for each call: its kind, what it is about, and its numbers
     FAULTS_CALL     the kind of call that goes wrong: open, lock, sync, size, read, write, stream, cut, mode, move, remove, close,
                     stat, memory or print; or peak, which reports at the end how many bytes of memory were held at most
     FAULTS_NUMBER   which one of that kind, from 1 on, or 0 for each
     FAULTS_AFTER   if it is 1, each call after that one too
     FAULTS_ERRNO    the call fails with this error, and nothing is done; or
     FAULTS_SILENT   if it is 1, the call reports success and does something else: a read has one bit changed, a size is one
                     more, a write writes the first half of its bytes, a cut cuts nothing, and a sync takes back what was done since
                     the last one; or
     FAULTS_MOST     the call moves at most so many bytes; if the kind is memory or peak, each read of IN does
     FAULTS_END      the bytes of the data file and of IN cannot be read from this place on; a read that begins before it falls short
     FAULTS_KILLS    if it is 1, the program is killed before the call, or in a write after FAULTS_MOST bytes */

#define _GNU_SOURCE
#include <errno.h>
#include <fcntl.h>
#include <malloc.h>
#include <signal.h>
#include <stdarg.h>
#include <stdio.h>
#include <stdlib.h>
#include <string.h>
#include <sys/stat.h>
#include <sys/syscall.h>
#include <unistd.h>

enum { DESCRIPTORS = 1024, ABOVE_ALL_OTHERS = 200 };

static const char *names[DESCRIPTORS];
static struct stat folder;
static const char *kind = "";
static unsigned long number, after, seen;
static int error, most = -1, kills, log_file = -1, silent, is_silent;
static long long ends = -1;

static const char *said(const char *word, const char *otherwise) {
    const char *found = getenv(word);
    return found ? found : otherwise;
}

__attribute__((constructor)) static void begin(void) {
    kind = said("FAULTS_CALL", "");
    number = strtoul(said("FAULTS_NUMBER", "0"), NULL, 10);
    after = strtoul(said("FAULTS_AFTER", "0"), NULL, 10);
    error = atoi(said("FAULTS_ERRNO", "0"));
    silent = atoi(said("FAULTS_SILENT", "0"));
    most = atoi(said("FAULTS_MOST", "-1"));
    kills = atoi(said("FAULTS_KILLS", "0"));
    ends = atoll(said("FAULTS_END", "-1"));
    int log = syscall(SYS_openat, AT_FDCWD, said("FAULTS_LOG", "/dev/null"), O_WRONLY | O_CREAT | O_APPEND, 0666);
    /* Low descriptors stay as free as the program finds them without this. */
    log_file = syscall(SYS_fcntl, log, F_DUPFD_CLOEXEC, ABOVE_ALL_OTHERS);
    syscall(SYS_close, log);
}

/* Remembers the folder of the file at this path. */
static void note_folder(const char *path) {
    char above[4096];
    const char *slash = strrchr(path, '/');
    snprintf(above, sizeof above, "%.*s", slash ? (int)(slash + 1 - path) : 1, slash ? path : ".");
    stat(above, &folder);
}

/* What the path is: one of the known files, one beside OUT, their folder, another folder, or nothing that is
   reported. */
static const char *named(const char *path) {
    static const char *const known[][2] = {
        {"activity.fit", "data"}, {"activity.frj", "journal"}, {"out.fit", "out"}, {"in.fit", "in"}};
    struct stat found;
    const char *slash = strrchr(path, '/'), *last = slash ? slash + 1 : path, *is = NULL;
    for (size_t at = 0; at < sizeof known / sizeof *known; at++)
        if (!strcmp(last, known[at][0]))
            is = known[at][1];
    if (!strncmp(last, ".fitrec-new-", 12))
        is = "beside";
    if (is) {
        if (strcmp(is, "in"))
            note_folder(path);
        return is;
    }
    if (stat(path, &found) || !S_ISDIR(found.st_mode))
        return NULL;
    return found.st_dev == folder.st_dev && found.st_ino == folder.st_ino ? "folder" : "another";
}

static const char *name_of(int file) {
    return file >= 0 && file < DESCRIPTORS ? names[file] : NULL;
}

static void name(int file, const char *as) {
    if (file >= 0 && file < DESCRIPTORS)
        names[file] = as;
}

/* Reports a call. Returns whether it has to go wrong. */
static int goes_wrong(const char *call, const char *about, const char *numbers) {
    char line[128];
    is_silent = 0;
    if (!about)
        return 0;
    int wrong = !strcmp(call, kind) && (++seen == number || !number || (after && seen > number));
    is_silent = wrong && silent;
    const char *how = wrong && error ? " failed" : is_silent ? " silently" : "";
    int length = snprintf(line, sizeof line, "%s %s%s%s\n", call, about, numbers, how);
    syscall(SYS_write, log_file, line, length);
    if (wrong && kills && most < 0)
        syscall(SYS_kill, getpid(), SIGKILL);
    return wrong;
}

static int fails(const char *call, const char *about, const char *numbers) {
    int wrong = goes_wrong(call, about, numbers) && error;
    if (wrong)
        errno = error;
    return wrong;
}

static int is_kind(const char *call) {
    return !strcmp(call, kind);
}

/* For a kind of call that is reported only if it is the kind that goes wrong. */
static int fails_if_asked(const char *call, const char *about) {
    return is_kind(call) && fails(call, about, "");
}

/* How many bytes a read or a write with these numbers moves; -1 if it fails. */
static ssize_t moved(const char *call, int file, size_t count, const char *numbers) {
    if (!goes_wrong(call, name_of(file), numbers))
        return count;
    if (error) {
        errno = error;
        return -1;
    }
    return most >= 0 && (size_t)most < count ? most : (ssize_t)count;
}

/* What each file held when it was opened or last synced. */
static struct { char *bytes; off_t length; } kept[DESCRIPTORS];

static void keep(int file) {
    const char *is = name_of(file);
    if (!silent || !is_kind("sync") || !is || (strcmp(is, "data") && strcmp(is, "journal")))
        return;
    off_t length = syscall(SYS_lseek, file, 0, SEEK_END);
    char *bytes = malloc(length > 0 ? length : 1);
    kept[file].length = syscall(SYS_pread64, file, bytes, length, 0) == length ? length : -1;
    free(kept[file].bytes);
    kept[file].bytes = bytes;
    syscall(SYS_lseek, file, 0, SEEK_SET);
}

static int take_back(int file) {
    if (kept[file].bytes && kept[file].length >= 0) {
        syscall(SYS_ftruncate, file, kept[file].length);
        syscall(SYS_pwrite64, file, kept[file].bytes, kept[file].length, 0);
    }
    return 0;
}

static int synced(int file, int answer) {
    keep(file);
    return answer;
}

int open(const char *path, int flags, ...) {
    va_list more;
    va_start(more, flags);
    int mode = flags & O_CREAT ? va_arg(more, int) : 0;
    va_end(more);
    const char *is = named(path);
    char numbers[32] = "";
    if (is && !strcmp(is, "beside"))
        snprintf(numbers, sizeof numbers, " %o", mode);
    if (fails("open", is, numbers))
        return -1;
    int file = syscall(SYS_openat, AT_FDCWD, path, flags, mode);
    name(file, is);
    keep(file);
    return file;
}

int fcntl(int file, int command, ...) {
    va_list more;
    va_start(more, command);
    long argument = va_arg(more, long);
    va_end(more);
    int answer = syscall(SYS_fcntl, file, command, argument);
    if (command == F_DUPFD || command == F_DUPFD_CLOEXEC)
        name(answer, name_of(file));
    return answer;
}

/* Only the closing of OUT is reported, which ends its lock. */
int close(int file) {
    const char *is = name_of(file);
    if (is && !strcmp(is, "out"))
        goes_wrong("close", is, "");
    name(file, NULL);
    return syscall(SYS_close, file);
}

int flock(int file, int operation) {
    return fails("lock", name_of(file), "") ? -1 : syscall(SYS_flock, file, operation);
}

int fsync(int file) {
    return fails("sync", name_of(file), "") ? -1 : is_silent ? take_back(file) : synced(file, syscall(SYS_fsync, file));
}

int fdatasync(int file) {
    return fails("sync", name_of(file), "") ? -1 : is_silent ? take_back(file) : synced(file, syscall(SYS_fdatasync, file));
}

int fchmod(int file, mode_t mode) {
    char numbers[32];
    snprintf(numbers, sizeof numbers, " %o", mode & 07777);
    return fails("mode", name_of(file), numbers) ? -1 : syscall(SYS_fchmod, file, mode);
}

int chmod(const char *path, mode_t mode) {
    char numbers[32];
    snprintf(numbers, sizeof numbers, " %o", mode & 07777);
    return fails("mode", named(path), numbers) ? -1 : syscall(SYS_fchmodat, AT_FDCWD, path, mode);
}

int statx(int file, const char *path, int flags, unsigned mask, struct statx *into) {
    is_silent = 0;
    int is_refused = *path ? fails_if_asked("stat", named(path)) : fails("size", name_of(file), "");
    int answer = is_refused ? -1 : syscall(SYS_statx, file, path, flags, mask, into);
    into->stx_size += is_silent;
    return answer;
}

int ftruncate(int file, off_t length) {
    char numbers[32];
    snprintf(numbers, sizeof numbers, " %lld", (long long)length);
    return fails("cut", name_of(file), numbers) ? -1 : is_silent ? 0 : syscall(SYS_ftruncate, file, length);
}

static ssize_t moved_at(const char *call, int file, size_t count, off_t at) {
    char numbers[64];
    snprintf(numbers, sizeof numbers, " %lld %zu", (long long)at, count);
    return moved(call, file, count, numbers);
}

/* The number of bytes that were read. If the call is silently wrong, one bit of the first is changed. */
static ssize_t read_as(void *into, ssize_t bytes) {
    if (is_silent && bytes > 0)
        *(char *)into ^= 1;
    return bytes;
}

/* How many of so many bytes at a place can be read; -1 if none can. */
static ssize_t readable(int file, size_t count, off_t at) {
    const char *is = name_of(file);
    if (ends < 0 || !is || (strcmp(is, "data") && strcmp(is, "in")))
        return count;
    if (at >= ends) {
        errno = EIO;
        return -1;
    }
    return (long long)count < ends - at ? (ssize_t)count : (ssize_t)(ends - at);
}

ssize_t pread(int file, void *into, size_t count, off_t at) {
    ssize_t bytes = readable(file, count, at);
    bytes = bytes < 0 ? -1 : moved_at("read", file, bytes, at);
    return bytes < 0 ? -1 : read_as(into, syscall(SYS_pread64, file, into, bytes, at));
}

ssize_t pwrite(int file, const void *from, size_t count, off_t at) {
    ssize_t bytes = moved_at("write", file, count, at);
    if (is_silent)
        return syscall(SYS_pwrite64, file, from, bytes / 2, at) < 0 ? -1 : bytes;
    ssize_t done = bytes < 0 ? -1 : syscall(SYS_pwrite64, file, from, bytes, at);
    if (kills && bytes >= 0 && (size_t)bytes < count)
        syscall(SYS_kill, getpid(), SIGKILL);
    return done;
}

ssize_t read(int file, void *into, size_t count) {
    if (is_kind("memory") || is_kind("peak"))
        return syscall(SYS_read, file, into, most >= 0 && (size_t)most < count ? (size_t)most : count);
    ssize_t bytes = ends < 0 ? (ssize_t)count : readable(file, count, syscall(SYS_lseek, file, 0, SEEK_CUR));
    bytes = bytes < 0 ? -1 : moved("read", file, bytes, "");
    return bytes < 0 ? -1 : read_as(into, syscall(SYS_read, file, into, bytes));
}

int rename(const char *from, const char *to) {
    return fails("move", named(from), "") ? -1 : syscall(SYS_renameat2, AT_FDCWD, from, AT_FDCWD, to, 0);
}

int unlink(const char *path) {
    return fails("remove", named(path), "") ? -1 : syscall(SYS_unlinkat, AT_FDCWD, path, 0);
}

/* The program writes the files of a recording at offsets, and other files as a stream. */
ssize_t write(int file, const void *from, size_t count) {
    if (file == STDOUT_FILENO)
        return fails_if_asked("print", "output") ? -1 : syscall(SYS_write, file, from, count);
    ssize_t bytes = moved("stream", file, count, "");
    return bytes < 0 ? -1 : syscall(SYS_write, file, from, bytes);
}

/* Requests for memory. The C library also has them under these names. */
void *__libc_malloc(size_t), *__libc_calloc(size_t, size_t), *__libc_realloc(void *, size_t), *__libc_memalign(size_t, size_t);
void __libc_free(void *);

static size_t held, peak;

static int is_refused(size_t size) {
    char numbers[32];
    if (!is_kind("memory"))
        return 0;
    snprintf(numbers, sizeof numbers, " %zu", size);
    return fails("memory", "request", numbers);
}

static void *taken(void *found) {
    held += malloc_usable_size(found);
    peak = held > peak ? held : peak;
    return found;
}

void *malloc(size_t size) {
    return is_refused(size) ? NULL : taken(__libc_malloc(size));
}

void *calloc(size_t count, size_t size) {
    return is_refused(count * size) ? NULL : taken(__libc_calloc(count, size));
}

void *realloc(void *from, size_t size) {
    size_t before = malloc_usable_size(from);
    void *found = is_refused(size) ? NULL : __libc_realloc(from, size);
    held -= found ? before : 0;
    return taken(found);
}

void *aligned_alloc(size_t align, size_t size) {
    return is_refused(size) ? NULL : taken(__libc_memalign(align, size));
}

int posix_memalign(void **into, size_t align, size_t size) {
    void *found = aligned_alloc(align, size);
    *into = found ? found : *into;
    return found ? 0 : ENOMEM;
}

void free(void *from) {
    held -= malloc_usable_size(from);
    __libc_free(from);
}

__attribute__((destructor)) static void end(void) {
    char line[64];
    if (is_kind("peak"))
        syscall(SYS_write, log_file, line, snprintf(line, sizeof line, "peak %zu\n", peak));
}

int open64(const char *path, int flags, ...) __attribute__((alias("open")));
int fcntl64(int file, int command, ...) __attribute__((alias("fcntl")));
int ftruncate64(int file, off_t length) __attribute__((alias("ftruncate")));
ssize_t pread64(int file, void *into, size_t count, off_t at) __attribute__((alias("pread")));
ssize_t pwrite64(int file, const void *from, size_t count, off_t at) __attribute__((alias("pwrite")));
