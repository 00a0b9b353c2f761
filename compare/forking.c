/* A library that is loaded before the program (LD_PRELOAD) and takes over its start: for each byte on descriptor 198 it calls the
   program's `main`, and reports on 199 how that ended. A process calls it CALLS times; then a new copy of the first process continues.
   So the program is loaded once for all runs, and a process that a signal ends is reported too. */

#define _GNU_SOURCE
#include "forking.h"
#include <dlfcn.h>
#include <stdlib.h>
#include <sys/mman.h>
#include <sys/resource.h>
#include <sys/wait.h>
#include <unistd.h>

enum { CALLS = 1000 };

typedef int start(int, char **, char **);

static start *program;
static volatile int *is_running;

static double seconds(struct timeval time) { return time.tv_sec + time.tv_usec / 1e6; }

static double busy(const struct rusage *used) { return seconds(used->ru_utime) + seconds(used->ru_stime); }

static void report_end(int status, long memory, double time) {
    struct end end = {status, memory, time};
    if (write(REPORTED, &end, sizeof end) != sizeof end)
        _exit(2);
}

/* Ends with 1 if no further call is requested. */
static void calls(int count, char **words, char **settings) {
    struct rusage before, after;
    char order;
    for (int call = 0; call < CALLS; call++) {
        if (read(ORDERS, &order, 1) != 1)
            _exit(1);
        getrusage(RUSAGE_SELF, &before);
        *is_running = 1;
        int status = program(count, words, settings);
        *is_running = 0;
        getrusage(RUSAGE_SELF, &after);
        report_end((status & 255) << 8, after.ru_maxrss, busy(&after) - busy(&before));
    }
    _exit(0);
}

static int stand(int count, char **words, char **settings) {
    is_running = mmap(NULL, sizeof *is_running, PROT_READ | PROT_WRITE, MAP_SHARED | MAP_ANONYMOUS, -1, 0);
    for (;;) {
        struct rusage used;
        int status;
        pid_t child = fork();
        if (!child)
            calls(count, words, settings);
        if (child < 0 || wait4(child, &status, 0, &used) != child)
            return 2;
        if (*is_running) {
            *is_running = 0;
            report_end(status, used.ru_maxrss, busy(&used));
        } else if (status) {
            return 0;
        }
    }
}

int __libc_start_main(start *main, int count, char **words, void *init, void *fini, void *last, void *stack) {
    int (*begin)(start *, int, char **, void *, void *, void *, void *) = dlsym(RTLD_NEXT, "__libc_start_main");
    program = main;
    return begin(stand, count, words, init, fini, last, stack);
}
