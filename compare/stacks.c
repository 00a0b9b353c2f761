/* Measures for compare/library.py how many bytes of the stack each call of the library for C takes: the linker puts these in the place of
   its calls (--wrap). When the program ends, a line for each call that it made is added to the file that FITREC_STACKS in the environment
   names. */

#include <stdint.h>
#include <stdio.h>
#include <stdlib.h>

/* No call takes more. What is nearer than NEAR is what these functions have of the stack themselves. */
enum { PAINT = 0xA5, DEEP = 1 << 18, NEAR = 256 };

struct measured {
    const char *name;
    size_t most;
    struct measured *next;
};

static struct measured *all;

static void report(void) {
    FILE *file = fopen(getenv("FITREC_STACKS"), "a");
    for (const struct measured *it = all; file && it; it = it->next)
        fprintf(file, "%s %zu\n", it->name, it->most);
    if (!file || fclose(file))
        abort();
}

static __attribute__((noinline)) void paint(void) {
    uint8_t *top = (uint8_t *)__builtin_frame_address(0) - NEAR;
    for (volatile uint8_t *at = top - DEEP; at < top; at++)
        *at = PAINT;
}

static __attribute__((noinline)) void note(struct measured *it) {
    const uint8_t *top = __builtin_frame_address(0), *at = top - NEAR - DEEP;
    while (*at == PAINT)
        at++;
    if (!it->most) {
        if (!all)
            atexit(report);
        it->next = all, all = it;
    }
    if ((size_t)(top - at) > it->most)
        it->most = (size_t)(top - at);
}

/* On x86-64 a call is handed numbers and pointers as words, and takes as many of them as it has. */
#define WORDS uint64_t a, uint64_t b, uint64_t c, uint64_t d, uint64_t e, uint64_t f, uint64_t g, uint64_t h, uint64_t i, uint64_t j, \
              uint64_t k, uint64_t l, uint64_t m
#define MEASURED(name) \
    uint64_t __real_fitrec_##name(WORDS); \
    uint64_t __wrap_fitrec_##name(WORDS) { \
        static struct measured call = {"fitrec_" #name, 0, NULL}; \
        paint(); \
        uint64_t answer = __real_fitrec_##name(a, b, c, d, e, f, g, h, i, j, k, l, m); \
        note(&call); \
        return answer; \
    }
MEASURED(repair) MEASURED(uncommitted) MEASURED(leave_changed) MEASURED(save) MEASURED(salvage) MEASURED(skip) MEASURED(first_file)
MEASURED(version) MEASURED(check) MEASURED(finish) MEASURED(plain) MEASURED(shift) MEASURED(shift_start) MEASURED(first_time) MEASURED(join)
MEASURED(show) MEASURED(json) MEASURED(columns) MEASURED(fields) MEASURED(values)
