/* Gives changed files to the program: mutations of the named files, and headers and definitions that promise much. Each goes
   through show, check and salvage, in little memory and time. A salvaged file has to be shown, and to be its own salvage.

     fuzz PROGRAM LIBRARY FOLDER SEED SECONDS COUNT FILE ..

   It ends after so many seconds or files, and prints how the runs ended: a line with a count for each command and end. A file that
   leads to a signal, to too much time or memory, or to a wrong salvage is kept in the folder, and the status is 1. */

#define _GNU_SOURCE
#include "forking.h"
#include <fcntl.h>
#include <signal.h>
#include <stdint.h>
#include <stdio.h>
#include <stdlib.h>
#include <string.h>
#include <sys/resource.h>
#include <sys/stat.h>
#include <sys/time.h>
#include <sys/wait.h>
#include <time.h>
#include <unistd.h>

enum { LARGEST = 1 << 16, SOURCES = 64, ENDS = 256, MEMORY = 64 << 20, SECONDS = 10, KILOBYTES = 64 << 10 };

static struct { unsigned char *bytes; size_t size; } sources[SOURCES];
static int source_count;
static unsigned char bytes[2 * LARGEST];
static size_t size;
static uint64_t state;
static const char *program, *library;
static char in[4096], out[4096], again[4096];
static struct { char name[64]; unsigned long count; } ends[ENDS];
static long most_memory;
static double most_time;

static uint64_t next(void) {
    state ^= state << 13;
    state ^= state >> 7;
    state ^= state << 17;
    return state * 0x2545F4914F6CDD1DULL;
}

static size_t below(size_t count) { return count ? (next() >> 11) % count : 0; }

static void fail(const char *what) {
    perror(what);
    exit(2);
}

static void counted(const char *command, const char *how) {
    char name[64];
    snprintf(name, sizeof name, "%s: %s", command, how);
    for (int at = 0; at < ENDS; at++) {
        if (!ends[at].name[0])
            strcpy(ends[at].name, name);
        if (!strcmp(ends[at].name, name)) {
            ends[at].count++;
            return;
        }
    }
}

/* ---- the files */

static const unsigned char telling[] = {0, 1, 2, 6, 12, 14, 0x10, 0x20, 0x3F, 0x40, 0x4F, 0x60, 0x7F, 0x80, 0x9F, 0xC0, 0xE0, 0xFF};

static unsigned char a_byte(void) { return below(2) ? telling[below(sizeof telling)] : next() >> 24; }

static void put_number(size_t at, int count, uint64_t number) {
    for (; count && at < size; count--, number >>= 8)
        bytes[at++] = number;
}

/* Replaces some bytes by bytes of a source. */
static void put_bytes(size_t at, size_t gone, const unsigned char *from, size_t count) {
    if (gone > size - at)
        gone = size - at;
    if (size - gone + count > LARGEST)
        return;
    static unsigned char copy[LARGEST];
    memcpy(copy, from, count);
    memmove(bytes + at + count, bytes + at + gone, size - at - gone);
    memcpy(bytes + at, copy, count);
    size += count - gone;
}

static uint16_t checksum(const unsigned char *from, size_t count) {
    uint16_t sum = 0;
    for (; count--; from++) {
        sum ^= *from;
        for (int bit = 0; bit < 8; bit++)
            sum = sum >> 1 ^ (sum & 1 ? 0xA001 : 0);
    }
    return sum;
}

/* Makes the header and the checksums fit, and mostly the data size, so that the program reads beyond them. */
static void mend(void) {
    if (size < 16)
        return;
    size_t header = bytes[0] == 12 ? 12 : 14;
    bytes[0] = header;
    if (bytes[1] >> 4 != 1)
        bytes[1] = 0x20;
    if (below(5))
        put_number(4, 4, size - header - 2);
    memcpy(bytes + 8, ".FIT", 4);
    if (header == 14)
        put_number(12, 2, checksum(bytes, 12));
    put_number(size - 2, 2, checksum(bytes, size - 2));
}

/* Writes a number of long fields, and three bytes for each. Returns how many bytes these are. */
static size_t put_long_fields(unsigned char *to) {
    size_t count = to[0] = below(3) ? 255 : below(256);
    for (size_t at = 1; at < 1 + 3 * count; at += 3) {
        to[at] = next() >> 40;
        to[at + 1] = below(2) ? 255 : a_byte();
        to[at + 2] = a_byte();
    }
    return 1 + 3 * count;
}

static void mutate(void) {
    int own = below(source_count), other = below(source_count);
    size_t from, count;
    size = sources[own].size;
    memcpy(bytes, sources[own].bytes, size);
    for (int turn = 1 + below(6); turn && size; turn--) {
        size_t at = below(4) ? below(size) : below(size < 40 ? size : 40);
        switch (below(12)) {
        case 0: case 1: case 2:
            bytes[at] = a_byte();
            break;
        case 3:
            bytes[at] ^= 1 << below(8);
            break;
        case 4:
            size = at;
            break;
        case 5:
            count = 1 + below(200);
            put_bytes(at, 0, bytes + at, count < size - at ? count : size - at);
            break;
        case 6: case 7:
            from = below(sources[other].size);
            count = 1 + below(sources[other].size - from);
            put_bytes(at, below(2) * below(size - at), sources[other].bytes + from, count);
            break;
        case 8:
            put_bytes(at, 1 + below(60), bytes, 0);
            break;
        case 9:
            put_number(4, 4, below(3) ? next() >> 32 : below(2) ? size : 0xFFFFFFFF);
            break;
        case 10: {
            /* A definition of many long fields, mostly with many developer fields after them. */
            unsigned char large[7 + 6 * 255] = {(below(3) ? 0x60 : 0x40) | below(16), 0, below(2), below(40), 0};
            size_t whole = 5 + put_long_fields(large + 5);
            if (large[0] & 0x20)
                whole += put_long_fields(large + whole);
            put_bytes(at, 0, large, below(2) ? whole : below(whole));
            break;
        }
        default:
            for (count = 1 + below(300); count && at < size; count--)
                bytes[at++] = a_byte();
        }
    }
    if (below(5))
        mend();
}

/* ---- the program */

static void limit(int what, rlim_t most) {
    struct rlimit both = {most, most};
    setrlimit(what, &both);
}

/* Each row has a process of the program. Its `main` is called for each run (forking.c). */
static struct run { const char *command, *file, *to; int orders, ends, errors; } runs[] = {
    {"show", in, NULL}, {"check", in, NULL}, {"salvage", in, out}, {"show", out, NULL}, {"salvage", out, again},
};
enum { SHOW, CHECK, SALVAGE, SHOW_OUT, SALVAGE_AGAIN, RUNS };

static void begin(struct run *run) {
    const char *words[] = {program, run->command, run->file, run->to, NULL};
    int orders[2], errors[2], end[2];
    if (pipe2(orders, O_CLOEXEC) || pipe2(errors, O_CLOEXEC) || pipe2(end, O_CLOEXEC))
        fail("pipe");
    pid_t child = fork();
    if (child < 0)
        fail("fork");
    if (!child) {
        dup2(errors[1], 2);
        dup2(orders[0], ORDERS);
        dup2(end[1], REPORTED);
        limit(RLIMIT_AS, MEMORY);
        limit(RLIMIT_CPU, SECONDS);
        limit(RLIMIT_CORE, 0);
        setenv("LD_PRELOAD", library, 1);
        execv(program, (char **)words);
        _exit(127);
    }
    fcntl(errors[0], F_SETFL, O_NONBLOCK);
    run->orders = orders[1];
    run->ends = end[0];
    run->errors = errors[0];
    close(orders[0]);
    close(errors[1]);
    close(end[1]);
}

/* Runs a command over a file and counts its end. Returns the status, or -1 if it must not end like this. */
static int run(int which) {
    struct run *run = &runs[which];
    char line[256] = "", how[64] = "done";
    struct end end;
    if (write(run->orders, "", 1) != 1 || read(run->ends, &end, sizeof end) != sizeof end)
        fail(run->command);
    size_t length = 0;
    for (ssize_t more; length < sizeof line - 1 && (more = read(run->errors, line + length, sizeof line - 1 - length)) > 0;)
        length += more;
    line[length] = 0;
    int status = end.status;
    most_memory = end.memory > most_memory ? end.memory : most_memory;
    most_time = end.time > most_time ? end.time : most_time;
    if (WIFSIGNALED(status)) {
        snprintf(how, sizeof how, "SIGNAL %d", WTERMSIG(status));
    } else if (WEXITSTATUS(status) == 1 && sscanf(line, "fitrec: %32[A-Za-z]", how) == 1) {
    } else if (WEXITSTATUS(status)) {
        snprintf(how, sizeof how, "STATUS %d", WEXITSTATUS(status));
    }
    counted(run->command, how);
    /* A salvage that reads no more than the header says reports how much comes after that. */
    int is_quiet = !line[0] || (run == &runs[SALVAGE] && strstr(line, " bytes after the end that the header gives were not read;"));
    int is_good = WIFEXITED(status) && (!WEXITSTATUS(status) ? is_quiet : WEXITSTATUS(status) == 1)
        && strcmp(how, "cannot") && strcmp(how, "NoMemory") && strcmp(how, "Memory") && end.time < SECONDS && end.memory < KILOBYTES;
    return is_good ? WEXITSTATUS(status) : -1;
}

static size_t read_file(const char *path, unsigned char *into, size_t most) {
    int file = open(path, O_RDONLY | O_CLOEXEC);
    if (file < 0)
        return 0;
    ssize_t count = read(file, into, most);
    close(file);
    return count < 0 ? 0 : count;
}

/* Whether each command does what it must with the file. */
static int is_well(void) {
    static unsigned char first[2 * LARGEST], second[2 * LARGEST];
    int file = open(in, O_WRONLY | O_CREAT | O_TRUNC | O_CLOEXEC, 0666);
    if (file < 0 || write(file, bytes, size) != (ssize_t)size)
        fail(in);
    close(file);
    int shown = run(SHOW), checked = run(CHECK), kept = run(SALVAGE);
    if (shown < 0 || checked < 0 || kept < 0 || (!checked && shown))
        return 0;
    if (kept)
        return shown;
    if (run(SHOW_OUT) || run(SALVAGE_AGAIN))
        return 0;
    size_t long_ = read_file(out, first, sizeof first);
    return long_ >= 16 && read_file(again, second, sizeof second) == long_ && !memcmp(first, second, long_);
}

int main(int count, char **words) {
    if (count < 8)
        return 2;
    program = words[1];
    library = words[2];
    snprintf(in, sizeof in, "%s/in.fit", words[3]);
    snprintf(out, sizeof out, "%s/out.fit", words[3]);
    snprintf(again, sizeof again, "%s/again.fit", words[3]);
    unsigned long seed = strtoul(words[4], NULL, 10), most = strtoul(words[6], NULL, 10), done = 0, bad = 0;
    time_t end = time(NULL) + atol(words[5]);
    for (int at = 7; at < count && source_count < SOURCES; at++) {
        sources[source_count].bytes = malloc(LARGEST);
        sources[source_count].size = read_file(words[at], sources[source_count].bytes, LARGEST / 4);
        source_count += sources[source_count].size > 0;
    }
    int null = open("/dev/null", O_RDWR);
    int output = fcntl(1, F_DUPFD_CLOEXEC, 3);
    dup2(null, 0);
    dup2(null, 1);
    for (int which = 0; which < RUNS; which++)
        begin(&runs[which]);
    for (; done < most && time(NULL) < end; done++) {
        state = (seed << 40 ^ done) * 0x9E3779B97F4A7C15ULL + 1;
        next();
        mutate();
        if (!is_well()) {
            char name[4200];
            snprintf(name, sizeof name, "%s/bad-%lu-%lu.fit", words[3], seed, done);
            rename(in, name);
            bad++;
        }
    }
    for (int at = 0; at < ENDS && ends[at].name[0]; at++)
        dprintf(output, "%lu %s\n", ends[at].count, ends[at].name);
    dprintf(output, "files %lu bad %lu memory %ld time %.3f\n", done, bad, most_memory, most_time);
    return bad != 0;
}
