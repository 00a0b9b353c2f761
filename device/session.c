/* A session: a ride over the five functions of a device (include/fitrec_device.h). It carries out the plans of the recorder, reads the windows
   of its recoveries, and refuses what is out of order. docs/DECISIONS.md says why it is as it is. */

#include "fitrec_device.h"
#include <stdbool.h>
#include <string.h>

/* What a session decides, which is proved (crates/fit_device/src/session.rt): whether a step may be made at what a boot has found, as FITREC_OK
   or FITREC_NOT_NOW; what is added to the clock after a boot; and what is added to distances, by the first of them after it. */
enum { BEGIN, ENTER, CLEAR, GO_ON, SET };
uint8_t fitrec_session_may(uint8_t finding, uint8_t step);
uint32_t fitrec_session_offset(uint32_t last, uint32_t clock);
uint32_t fitrec_session_base(uint32_t last, uint32_t distance);

/* What a call makes: one of these steps, a boot, or what an ENTER may be. The last ones, from ADD on, have a time of the ride. */
enum { BOOT = SET + 1, STORE, ADD, LAP, PAUSE, RESUME, END };

/* What is done by windows. */
enum { RECOVERS, REOPENS, ERASES };

/* The bytes of a journal: a head, and three slots, each with a gate that is open if it counts. */
#define JOURNAL 56
#define OPEN 0xA5

/* The earliest time that a ride may begin at. */
#define EARLIEST 0x10000000u

/* The session that was booted last. A reset clears it, and not always the memory of the session. */
static struct fitrec_session *volatile booted;
static volatile uint8_t is_inside;

/* Takes the session for this call, unless another one is inside, which an interrupt or another thread came into. */
static bool take(void) {
#if defined __GCC_ATOMIC_CHAR_LOCK_FREE && __GCC_ATOMIC_CHAR_LOCK_FREE == 2
    return !__atomic_exchange_n(&is_inside, 1, __ATOMIC_ACQUIRE);
#elif defined __ARM_ARCH_6M__
    uint32_t mask;
    __asm volatile("mrs %0, primask\n\tcpsid i" : "=r"(mask) : : "memory");
    bool is_free = !is_inside;
    is_inside = 1;
    __asm volatile("msr primask, %0" : : "r"(mask) : "memory");
    return is_free;
#else
    /* An interrupt that comes between the two is over before the second. */
    bool is_free = !is_inside;
    is_inside = 1;
    return is_free;
#endif
}

static void leave(void) {
#if defined __GCC_ATOMIC_CHAR_LOCK_FREE && __GCC_ATOMIC_CHAR_LOCK_FREE == 2
    __atomic_store_n(&is_inside, 0, __ATOMIC_RELEASE);
#else
    is_inside = 0;
#endif
}

/* Once a function of the device has failed, no other is called, and the call answers that (make). */
static bool fails(struct fitrec_session *it, uint8_t call, uint8_t file) {
    it->failed_call = call;
    it->failed_file = file;
    return false;
}

/* Reads exactly so many bytes of a file, which has them, into the window. */
static bool read_all(struct fitrec_session *it, uint8_t file, uint32_t at, uint32_t count) {
    return it->device.read(it->device.files[file], at, it->recovery.window, count) == (int32_t)count || fails(it, FITREC_READ, file);
}

/* Carries out what is left of the plan, or only compares the files with what it makes of them. Answers whether that is so. After each call the
   length is asked for that the file should have then: so a write that was lost is found before the next call. */
static bool carry_out(struct fitrec_session *it, bool compares) {
    const struct fitrec_device *device = &it->device;
    for (const struct fitrec_call *call = it->plan.calls; it->plan.count && !it->failed_call; it->plan.count--, call++) {
        void *file = device->files[call->file];
        const uint8_t *bytes = it->plan.bytes + call->start;
        uint32_t at = (uint32_t)call->at, end = at + call->count, *size = &it->size[call->file];
        if (compares) {
            if (end > *size || (call->kind == FITREC_CUT && end < *size) || !read_all(it, call->file, at, call->count))
                return false;
            for (uint32_t k = 0; k < call->count; k++)
                if (it->recovery.window[k] != bytes[k])
                    return false;
            continue;
        }
        bool is_done = at <= *size;
        if (call->kind == FITREC_CUT || end > *size)
            *size = end;
        if (is_done) {
            int32_t done = call->kind == FITREC_WRITE ? device->write(file, at, bytes, call->count)
                           : call->kind == FITREC_CUT ? device->cut(file, at)
                                                      : device->sync(file);
            is_done = done == call->count && device->size(file) == (int32_t)*size;
        }
        if (!is_done)
            fails(it, call->kind, call->file);
    }
    return !it->failed_call;
}

/* Hands the windows that are asked for to a recovery, a reopening or an erasing, until it ends. Its last plan is left to be carried out. */
static uint8_t by_windows(struct fitrec_session *it, int what) {
    struct fitrec_recovery *recovery = &it->recovery;
    recovery->data_size = it->size[FITREC_DATA_FILE];
    recovery->journal_size = it->size[FITREC_JOURNAL_FILE];
    uint8_t answer = fitrec_recover_begin(recovery, &it->plan);
    while (answer == FITREC_NEEDS_WINDOW && carry_out(it, false) && read_all(it, recovery->file, (uint32_t)recovery->at, recovery->count)) {
        recovery->filled = recovery->count;
        if (what == REOPENS)
            answer = fitrec_reopen_next(recovery, &it->recorder, &it->plan);
        else if (what == ERASES)
            answer = fitrec_erase_next(recovery, &it->plan);
        else
            answer = fitrec_recover_next(recovery, &it->plan);
    }
    return answer;
}

/* Whether the header of the data file states all of it, as that of a finished file does: 14 bytes, the records, and 2 of a checksum. */
static bool states_all(struct fitrec_session *it) {
    const uint8_t *front = it->recovery.window;
    uint32_t size = it->size[FITREC_DATA_FILE];
    return size >= 16 && read_all(it, FITREC_DATA_FILE, 4, 4) &&
           (front[0] | (uint32_t)front[1] << 8 | (uint32_t)front[2] << 16 | (uint32_t)front[3] << 24) == size - 16;
}

/* Reopens the ride. Its times are by the clock where that shows a gap after the last entry, and else go on from that. */
static uint8_t reopen(struct fitrec_session *it, uint32_t clock) {
    uint8_t answer = by_windows(it, REOPENS);
    if (answer == FITREC_OK)
        answer = fitrec_state_of(&it->recorder, &it->found.state);
    if (answer == FITREC_OK) {
        it->found.finding = FITREC_FOUND_RIDING;
        it->found.why = FITREC_OK;
        it->offset = fitrec_session_offset(it->found.state.time, clock);
        it->distance = 0;
        it->is_taken = it->device.keeps_distance;
    }
    return answer;
}

/* Whether files in which nothing is recorded are those of a ride all the same, of which one was opened in place of the other, or another file in
   place of the data: that is empty beside a journal with an open slot, or is a journal itself. */
static bool is_of_ride(struct fitrec_session *it) {
    const uint8_t *front = it->recovery.window;
    uint8_t file = it->size[FITREC_DATA_FILE] ? FITREC_DATA_FILE : FITREC_JOURNAL_FILE;
    return it->size[file] >= JOURNAL && read_all(it, file, 0, JOURNAL) && front[0] == 'F' && front[1] == 'R' &&
           (file == FITREC_DATA_FILE || front[8] == OPEN || front[24] == OPEN || front[40] == OPEN);
}

/* What the files hold. They are finished if a recovery leaves them as they are. A ride that has its stop gets its finished file. */
static uint8_t look(struct fitrec_session *it, uint32_t clock) {
    if (states_all(it) && by_windows(it, RECOVERS) == FITREC_OK && carry_out(it, true))
        return FITREC_FOUND_FINISHED;
    uint8_t answer = reopen(it, clock);
    if (answer == FITREC_OK)
        return FITREC_FOUND_RIDING;
    if (answer == FITREC_REFUSED_STOPPED && (answer = by_windows(it, RECOVERS)) == FITREC_OK)
        return FITREC_FOUND_FINISHED;
    if (answer == FITREC_ERASING)
        return FITREC_FOUND_ERASING;
    if (answer == FITREC_NOTHING_RECORDED && it->size[FITREC_DATA_FILE] <= FITREC_LONGEST_START && !is_of_ride(it))
        return FITREC_FOUND_EMPTY;
    it->found.why = answer;
    return FITREC_FOUND_KEEP;
}

/* Finds the length of a file. No byte may be after its last one, nor after none. That the last one cannot be read is let pass: a file system may
   have cut the file off in part. */
static bool find_size(struct fitrec_session *it, uint8_t file) {
    int32_t size = it->device.size(it->device.files[file]), last = size > 0;
    it->size[file] = (uint32_t)size;
    int32_t done = size < 0 ? 2 : it->device.read(it->device.files[file], (uint32_t)(size - last), it->recovery.window, 2);
    return done == last || (done < 0 && last) || fails(it, FITREC_SIZE, file);
}

/* Without a reset since the last boot the odometer goes on, and so does what is added to it. */
static uint8_t boot(struct fitrec_session *it, const struct fitrec_device *device, uint32_t clock) {
    uint32_t distance = booted == it ? it->distance : 0;
    booted = it;
    memset(it, 0, sizeof *it);
    it->device = *device;
    if (find_size(it, FITREC_DATA_FILE) && find_size(it, FITREC_JOURNAL_FILE))
        it->found.finding = look(it, clock);
    if (!device->keeps_distance)
        it->distance = distance;
    return FITREC_OK;
}

/* Erases what is there. */
static uint8_t erase(struct fitrec_session *it) {
    uint8_t answer = by_windows(it, ERASES);
    if (answer == FITREC_OK)
        it->found.finding = FITREC_FOUND_EMPTY;
    return answer;
}

/* Begins a ride over what may be erased. It is read back as after a power cut: so a function of the device that reads wrongly is found here,
   and not once a ride depends on it. */
static uint8_t begin(struct fitrec_session *it, uint32_t clock) {
    uint8_t answer = clock == UINT32_MAX ? FITREC_REFUSED_TIME : it->size[FITREC_DATA_FILE] ? erase(it) : FITREC_OK;
    if (answer || !carry_out(it, false))
        return answer;
    uint32_t time = clock < EARLIEST ? clock + EARLIEST : clock;
    answer = fitrec_start(&it->recorder, it->size[FITREC_DATA_FILE], time, it->serial, it->sport, &it->plan);
    if (answer == FITREC_OK && carry_out(it, false) && reopen(it, clock) && !it->failed_call)
        fails(it, FITREC_READ, FITREC_DATA_FILE);
    it->is_bare = !answer;
    return answer;
}

/* What a boot is handed, and what is filled. */
struct handed {
    const struct fitrec_device *device;
    struct fitrec_found *found;
};

/* What a ride is begun with. */
struct named {
    uint32_t serial;
    uint8_t sport;
};

/* Makes a call of the session, if it may be made now. */
static enum fitrec_answer make(struct fitrec_session *it, uint32_t clock, uint8_t what, void *with) {
    if (!take())
        return FITREC_NOT_NOW;
    uint8_t answer = what == BOOT   ? boot(it, ((struct handed *)with)->device, clock)
                     : booted == it ? fitrec_session_may(it->found.finding, what > SET ? ENTER : what)
                                    : FITREC_NOT_NOW;
    if (answer == FITREC_OK) {
        uint32_t time = clock + it->offset;
        struct fitrec_sample *sample = with;
        switch (what) {
        case BEGIN:
            it->serial = ((struct named *)with)->serial;
            it->sport = ((struct named *)with)->sport;
            answer = begin(it, clock);
            break;
        case CLEAR:
            answer = erase(it);
            break;
        case GO_ON:
            answer = reopen(it, clock);
            break;
        case SET:
            if (it->is_bare)
                answer = begin(it, clock);
            else
                it->offset = it->found.state.time - clock;
            break;
        case ADD:
            sample->time = time;
            if (it->device.plain_times)
                sample->has |= FITREC_PLAIN_TIME;
            if (sample->has & FITREC_HAS_DISTANCE && sample->distance != UINT32_MAX) {
                if (!it->is_taken && sample->distance + it->distance < it->found.state.distance)
                    it->distance = fitrec_session_base(it->found.state.distance, sample->distance);
                it->is_taken = 1;
                sample->distance += it->distance;
            }
            answer = fitrec_add_sample(&it->recorder, sample, &it->plan);
            break;
        case LAP:
            answer = fitrec_add_lap(&it->recorder, time, &it->plan);
            break;
        case PAUSE:
            answer = fitrec_pause_timer(&it->recorder, time, &it->plan);
            break;
        case RESUME:
            answer = fitrec_resume_timer(&it->recorder, time, &it->plan);
            break;
        case STORE:
            answer = fitrec_commit(&it->recorder, &it->plan);
            break;
        case END:
            if (clock == UINT32_MAX)
                time = it->found.state.time;
            while ((answer = fitrec_stop(&it->recorder, time, &it->plan)) != FITREC_OK && time != it->found.state.time)
                time = it->found.state.time;
        }
        if (answer == FITREC_OK && what >= ADD) {
            it->found.state.time = time;
            it->is_bare = 0;
            if (what == END)
                it->found.finding = FITREC_FOUND_FINISHED;
        }
        if (!carry_out(it, false)) {
            it->found.finding = 0;
            answer = FITREC_DEVICE;
        }
        if (what == BOOT || what == GO_ON)
            *((struct handed *)with)->found = it->found;
    }
    leave();
    return (enum fitrec_answer)answer;
}

enum fitrec_answer fitrec_boot(struct fitrec_session *it, const struct fitrec_device *device, uint32_t clock, struct fitrec_found *found) {
    struct handed handed = {device, found};
    return make(it, clock, BOOT, &handed);
}

enum fitrec_answer fitrec_begin(struct fitrec_session *it, uint32_t clock, uint32_t serial, uint8_t sport) {
    struct named named = {serial, sport};
    return make(it, clock, BEGIN, &named);
}

enum fitrec_answer fitrec_add(struct fitrec_session *it, const struct fitrec_sample *sample) {
    struct fitrec_sample of_ride = *sample;
    return make(it, of_ride.time, ADD, &of_ride);
}

enum fitrec_answer fitrec_lap(struct fitrec_session *it, uint32_t clock) {
    return make(it, clock, LAP, 0);
}

enum fitrec_answer fitrec_pause(struct fitrec_session *it, uint32_t clock) {
    return make(it, clock, PAUSE, 0);
}

enum fitrec_answer fitrec_resume(struct fitrec_session *it, uint32_t clock) {
    return make(it, clock, RESUME, 0);
}

enum fitrec_answer fitrec_store(struct fitrec_session *it) {
    return make(it, 0, STORE, 0);
}

enum fitrec_answer fitrec_end(struct fitrec_session *it, uint32_t clock) {
    return make(it, clock, END, 0);
}

enum fitrec_answer fitrec_clear(struct fitrec_session *it) {
    return make(it, 0, CLEAR, 0);
}

enum fitrec_answer fitrec_go_on(struct fitrec_session *it, uint32_t clock, struct fitrec_found *found) {
    struct handed handed = {0, found};
    return make(it, clock, GO_ON, &handed);
}

enum fitrec_answer fitrec_set_clock(struct fitrec_session *it, uint32_t clock) {
    return make(it, clock, SET, 0);
}
