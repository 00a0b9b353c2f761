/* What compare/device.c and compare/session.c need on an emulated processor with semihosting. They record with both files in memory, and this
   reports how much of the stack each call used, and how much of the module's own all of them. */

#include "../examples/device/files.h"
#include <stdio.h>
#include <stdlib.h>
#include <string.h>

/* As docs/EMBEDDING.md has it. */
FITREC_IS(session, sizeof(struct fitrec_session) == 5056);

/* Only the module in C has it. */
extern uint8_t fitrec_memory[] __attribute__((weak));

enum { PAINT = 0xA5 };

/* The program asks for no files of a system here. */
int open_files(struct fitrec_device *device, const char *folder) {
    (void)device, (void)folder;
    return -1;
}

void fitrec_trap(void) {
    printf("a trap of the module\n");
    exit(3);
}

/* How much of the stack each call has used at most. */
struct measured {
    const char *name;
    uint32_t most;
    struct measured *next;
};

static struct measured *all;

/* No call takes more. */
enum { DEEP = 16384 };

/* Paints the stack below the caller's frame, but for what this function has of it. */
static __attribute__((noinline)) void paint_below(uint8_t *frame) {
    for (volatile uint8_t *at = frame - DEEP; at < frame - 128; at++)
        *at = PAINT;
}

static __attribute__((noinline)) void note(struct measured *it, const uint8_t *frame) {
    const uint8_t *at = frame - DEEP;
    while (*at == PAINT)
        at++;
    if (!it->most)
        it->next = all, all = it;
    if ((uint32_t)(frame - at) > it->most)
        it->most = (uint32_t)(frame - at);
}

/* The linker puts these in the place of the library's calls. */
#define MEASURED(name, parameters, arguments) MEASURED_AS(uint8_t, name, parameters, arguments)
#define MEASURED_AS(kind, name, parameters, arguments) \
    kind __real_fitrec_##name parameters; \
    kind __wrap_fitrec_##name parameters { \
        static struct measured call = {#name, 0, NULL}; \
        paint_below(__builtin_frame_address(0)); \
        kind answer = __real_fitrec_##name arguments; \
        note(&call, __builtin_frame_address(0)); \
        return answer; \
    }

typedef struct fitrec_recorder *recorder_at;
typedef struct fitrec_recovery *recovery_at;
typedef struct fitrec_plan *plan_at;
typedef const uint8_t *bytes_at;

MEASURED(start, (recorder_at it, size_t data_size, uint32_t time, uint32_t serial, uint8_t sport, plan_at plan),
         (it, data_size, time, serial, sport, plan))
MEASURED(add_sample, (recorder_at it, const struct fitrec_sample *sample, plan_at plan), (it, sample, plan))
MEASURED(add_lap, (recorder_at it, uint32_t time, plan_at plan), (it, time, plan))
MEASURED(pause_timer, (recorder_at it, uint32_t time, plan_at plan), (it, time, plan))
MEASURED(resume_timer, (recorder_at it, uint32_t time, plan_at plan), (it, time, plan))
MEASURED(commit, (recorder_at it, plan_at plan), (it, plan))
MEASURED(stop, (recorder_at it, uint32_t time, plan_at plan), (it, time, plan))
MEASURED(state_of, (const struct fitrec_recorder *it, struct fitrec_state *state), (it, state))
MEASURED(recover, (bytes_at data, size_t size, bytes_at journal, size_t journal_size, plan_at plan), (data, size, journal, journal_size, plan))
MEASURED(reopen, (recorder_at it, bytes_at data, size_t size, bytes_at journal, size_t journal_size, plan_at plan),
         (it, data, size, journal, journal_size, plan))
MEASURED(erase, (bytes_at data, size_t size, bytes_at journal, size_t journal_size, plan_at plan), (data, size, journal, journal_size, plan))
MEASURED(recover_begin, (recovery_at it, plan_at plan), (it, plan))
MEASURED(recover_next, (recovery_at it, plan_at plan), (it, plan))
MEASURED(reopen_next, (recovery_at it, recorder_at recorder, plan_at plan), (it, recorder, plan))
MEASURED(erase_next, (recovery_at it, plan_at plan), (it, plan))

/* Those of a session are put in their places in a program of its own, where those below are not. */
typedef struct fitrec_session *session_at;
#define OF_A_SESSION(name, parameters, arguments) MEASURED_AS(enum fitrec_answer, name, parameters, arguments)

OF_A_SESSION(boot, (session_at it, const struct fitrec_device *device, uint32_t clock, struct fitrec_found *found), (it, device, clock, found))
OF_A_SESSION(begin, (session_at it, uint32_t clock, uint32_t serial, uint8_t sport), (it, clock, serial, sport))
OF_A_SESSION(add, (session_at it, const struct fitrec_sample *sample), (it, sample))
OF_A_SESSION(lap, (session_at it, uint32_t clock), (it, clock))
OF_A_SESSION(pause, (session_at it, uint32_t clock), (it, clock))
OF_A_SESSION(resume, (session_at it, uint32_t clock), (it, clock))
OF_A_SESSION(store, (session_at it), (it))
OF_A_SESSION(end, (session_at it, uint32_t clock), (it, clock))
OF_A_SESSION(clear, (session_at it), (it))
OF_A_SESSION(go_on, (session_at it, uint32_t clock, struct fitrec_found *found), (it, clock, found))
OF_A_SESSION(set_clock, (session_at it, uint32_t clock), (it, clock))

static void report(void) {
    const uint8_t *at = fitrec_memory;
    while (at && *at == PAINT)
        at++;
    if (at)
        fprintf(stderr, "stack of the module: %lu\n", (unsigned long)(fitrec_memory + FITREC_STACK - at));
    for (const struct measured *it = all; it; it = it->next)
        fprintf(stderr, "stack of fitrec_%s: %lu\n", it->name, (unsigned long)it->most);
}

__attribute__((constructor)) static void paint(void) {
    if (fitrec_memory)
        memset(fitrec_memory, PAINT, FITREC_STACK);
    atexit(report);
}
