/* Natural mistakes of a host, over plans and over a session (include/fitrec_device.h), for compare/device.py:

     mistakes NAME plans | session COUNT FOLDER

   A ride of samples, stored after every five, meets a reset or a power cut at a place that differs from run to run; the device goes on as far as
   it does by itself. Then the ride is recovered as it should be, and its file is put into the folder, as NUMBER.fit. A line for each run has
   its number, how many samples were said to be stored, what the recovery answered, and how many steps a session refused. The mistakes are the
   names below. */

#include "../examples/device/faulty.h"
#include <stdio.h>
#include <stdlib.h>
#include <string.h>
#include <sys/mman.h>
#include <sys/wait.h>
#include <unistd.h>

enum mistake { JOURNAL_NOT_SYNCED, ONE_SYNC, SIZE_NOT_SET, KEPT_OVER_RESET, FAILURE_IGNORED, ODOMETER_FROM_0, PLAN_LOST, LAP_IN_INTERRUPT,
               ONLY_AFTER_OK, READ_ERROR_AS_0, ZEROS, MISTAKES };
static const char *const names[] = {"journal-not-synced", "one-sync", "size-not-set", "kept-over-reset", "failure-ignored", "odometer-from-0",
                                    "plan-lost", "lap-in-interrupt", "only-after-ok", "read-error-as-0", "zeros"};

/* What a reset of the processor keeps in this trial, so that a process can end in its place. */
static struct {
    struct faulty_disk disk;
    struct fitrec_recorder recorder;
    struct fitrec_session session;
    unsigned stored, handed; /* samples */
    unsigned refused;        /* steps of the session while the power was there */
} *kept;

static enum mistake mistake;
static int is_session;
static struct fitrec_plan plan;
static struct fitrec_recovery recovery;
static int in_interrupt;
static long reads, fails_at; /* the read or write of this number fails */
static uint32_t now, odometer;

/* The five functions, of which some make the mistake. */

static struct fitrec_device right;

static int32_t size_of(void *file) {
    return mistake == SIZE_NOT_SET ? 0 : right.size(file);
}

static int32_t read_bytes(void *file, uint32_t at, void *to, uint32_t count) {
    return mistake == READ_ERROR_AS_0 && ++reads == fails_at ? 0 : right.read(file, at, to, count);
}

static int32_t write_bytes(void *file, uint32_t at, const void *from, uint32_t count) {
    return mistake == FAILURE_IGNORED && ++reads == fails_at ? -1 : right.write(file, at, from, count);
}

static uint32_t chance(uint32_t below) {
    return faulty_chance(&kept->disk, below);
}

static void lap_by_button(void) {
    if (in_interrupt || chance(4))
        return;
    in_interrupt = 1;
    if (is_session)
        kept->refused += fitrec_lap(&kept->session, now) == FITREC_NOT_NOW;
    else
        kept->refused += fitrec_add_lap(&kept->recorder, now, &plan) != FITREC_OK;
    in_interrupt = 0;
}

/* The host over plans. */

/* Carries out a plan, but for the mistake. Answers whether the host goes on. */
static int carry_out(uint8_t answer) {
    uint32_t last = 0;
    for (uint32_t k = 0; k < plan.count; k++)
        last = plan.calls[k].kind == FITREC_SYNC ? k : last;
    if (mistake == ONLY_AFTER_OK && answer != FITREC_OK)
        return 1;
    for (uint32_t k = 0; k < plan.count; k++) {
        const struct fitrec_call it = plan.calls[k];
        void *file = &kept->disk.files[it.file];
        int is_done;
        if (it.kind == FITREC_SYNC && ((mistake == JOURNAL_NOT_SYNCED && it.file == FITREC_JOURNAL_FILE) || (mistake == ONE_SYNC && k != last)))
            continue;
        if (it.kind == FITREC_WRITE)
            is_done = write_bytes(file, (uint32_t)it.at, plan.bytes + it.start, it.count) == it.count;
        else if (it.kind == FITREC_CUT)
            is_done = right.cut(file, (uint32_t)it.at) == 0;
        else
            is_done = right.sync(file) == 0;
        if (!is_done && (kept->disk.is_dark || mistake != FAILURE_IGNORED))
            return 0;
    }
    return 1;
}

static uint8_t by_windows(uint8_t (*on)(void)) {
    memset(&recovery, 0, sizeof recovery);
    recovery.data_size = kept->disk.files[0].len;
    recovery.journal_size = kept->disk.files[1].len;
    uint8_t answer = fitrec_recover_begin(&recovery, &plan);
    while (answer == FITREC_NEEDS_WINDOW && carry_out(answer)) {
        int32_t filled = read_bytes(&kept->disk.files[recovery.file], (uint32_t)recovery.at, recovery.window, recovery.count);
        if (filled < 0)
            return FITREC_DEVICE;
        recovery.filled = (uint16_t)filled;
        answer = on();
    }
    return carry_out(answer) ? answer : FITREC_DEVICE;
}

static uint8_t reopen_on(void) {
    return fitrec_reopen_next(&recovery, &kept->recorder, &plan);
}

static uint8_t recover_on(void) {
    return fitrec_recover_next(&recovery, &plan);
}

static int begin_by_plans(void) {
    struct fitrec_state state;
    uint8_t answer = mistake == SIZE_NOT_SET || kept->disk.files[0].len == 0 ? FITREC_NOT_EMPTY : by_windows(reopen_on);
    if (answer == FITREC_DEVICE && mistake == READ_ERROR_AS_0 && !kept->disk.is_dark)
        answer = by_windows(reopen_on); /* begin anew */
    if (answer == FITREC_OK)
        return fitrec_state_of(&kept->recorder, &state) == FITREC_OK && (kept->stored = state.distance / 100, 1);
    if (answer == FITREC_DEVICE)
        return 0;
    answer = fitrec_start(&kept->recorder, mistake == SIZE_NOT_SET ? 0 : kept->disk.files[0].len, now, 7, 2, &plan);
    return carry_out(answer) && answer == FITREC_OK;
}

static int add_by_plans(const struct fitrec_sample *sample) {
    uint8_t answer = fitrec_add_sample(&kept->recorder, sample, &plan);
    return carry_out(answer);
}

static int store_by_plans(void) {
    uint8_t answer = fitrec_commit(&kept->recorder, &plan);
    int is_lost = mistake == PLAN_LOST && kept->handed % 15 == 0;
    return (is_lost || carry_out(answer)) && answer == FITREC_OK;
}

/* The host over a session. */

static enum fitrec_answer noted(enum fitrec_answer answer) {
    kept->refused += !kept->disk.is_dark && (answer == FITREC_NOT_NOW || answer == FITREC_DEVICE);
    return answer;
}

static int begin_by_session(void) {
    struct fitrec_device device = {size_of, read_bytes, write_bytes, right.cut, right.sync, {&kept->disk.files[0], &kept->disk.files[1]}, 0, 0};
    struct fitrec_found found;
    enum fitrec_answer answer = noted(fitrec_boot(&kept->session, &device, now, &found));
    if (answer == FITREC_DEVICE && !kept->disk.is_dark)
        answer = fitrec_boot(&kept->session, &device, now, &found);
    if (answer != FITREC_OK)
        return 0;
    if (found.finding == FITREC_FOUND_RIDING) {
        kept->stored = found.state.distance / 100;
        return 1;
    }
    return noted(fitrec_begin(&kept->session, now, 7, 2)) == FITREC_OK;
}

/* Both hosts look at the answers to a store, and at no other. */
static int begin(void) {
    return is_session ? begin_by_session() : begin_by_plans();
}

static int add(const struct fitrec_sample *sample) {
    if (!is_session)
        return add_by_plans(sample);
    enum fitrec_answer answer = fitrec_add(&kept->session, sample);
    (void)answer;
    return !kept->disk.is_dark;
}

static int store(void) {
    return is_session ? noted(fitrec_store(&kept->session)) == FITREC_OK : store_by_plans();
}

/* So many samples, of which the distances are 1 m each. */
static void ride(unsigned samples) {
    for (unsigned k = 0; k < samples; k++) {
        struct fitrec_sample sample = {.time = ++now, .has = FITREC_HAS_HEART_RATE | FITREC_HAS_DISTANCE | FITREC_HAS_POWER, .heart_rate = 90};
        sample.distance = odometer += 100;
        sample.power = (uint16_t)chance(700);
        if (mistake == ZEROS)
            sample = (struct fitrec_sample){.time = now, .has = FITREC_HAS_HEART_RATE | FITREC_HAS_DISTANCE, .heart_rate = 90, .distance = odometer};
        kept->handed++;
        if (!add(&sample))
            return;
        if (k % 5 == 4) {
            if (store())
                kept->stored = kept->handed;
            else if (kept->disk.is_dark)
                return;
        }
    }
}

/* Restarts the device, which may lose what was not kept. */
static void restart(int loses) {
    kept->disk.is_dark = loses;
    faulty_restart(&kept->disk);
}

/* The first life, which ends in a reset. */
static void live(long place) {
    kept->disk.power = mistake == SIZE_NOT_SET || mistake == FAILURE_IGNORED ? 0 : place;
    if (mistake == SIZE_NOT_SET) {
        /* The ride that is there was recorded by a host without a mistake. */
        mistake = ZEROS;
        begin();
        ride(20);
        mistake = SIZE_NOT_SET;
    } else if (begin()) {
        ride(45);
    }
}

static void run(int number, const char *folder) {
    memset(kept, 0, sizeof *kept);
    faulty_begin(&kept->disk, &right);
    kept->disk.seed = (uint64_t)number * 1000003 + 5;
    kept->disk.interrupt = mistake == LAP_IN_INTERRUPT ? lap_by_button : NULL;
    now = 1000000000, odometer = 0, reads = 0, in_interrupt = 0;
    fails_at = 1 + number % 40;
    long place = 12 + number % 60;
    pid_t child = fork();
    if (child == 0) {
        live(place);
        _exit(0);
    }
    waitpid(child, NULL, 0);
    now += 60;
    /* A reset of the processor alone loses nothing that waits in the disk. */
    restart(mistake != ONLY_AFTER_OK);
    if (mistake == KEPT_OVER_RESET) {
        odometer = 100 * kept->handed;
        ride(12);
    } else if (mistake == SIZE_NOT_SET || mistake == ODOMETER_FROM_0 || mistake == ONLY_AFTER_OK || mistake == READ_ERROR_AS_0) {
        unsigned stored = kept->stored;
        kept->disk.power = mistake == ONLY_AFTER_OK ? 1 + number % 7 : 0;
        fails_at = 1 + number % 4;
        if (begin()) {
            unsigned more = mistake == ODOMETER_FROM_0 ? 12 : 0;
            kept->handed = kept->stored;
            odometer = 0;
            ride(more);
        }
        if (mistake == SIZE_NOT_SET && kept->stored < stored)
            kept->stored = stored;
    }
    restart(1);
    kept->disk.interrupt = NULL;
    /* As it should be. */
    enum mistake made = mistake;
    mistake = ZEROS;
    uint8_t answer = by_windows(recover_on);
    mistake = made;
    printf("%d %u %u %u\n", number, kept->stored, answer, kept->refused);
    if (answer == FITREC_OK) {
        char path[4096];
        snprintf(path, sizeof path, "%s/%d.fit", folder, number);
        FILE *file = fopen(path, "wb");
        if (!file || fwrite(kept->disk.files[0].now, 1, kept->disk.files[0].len, file) != kept->disk.files[0].len || fclose(file))
            exit(2);
    }
}

int main(int count, char **words) {
    if (count != 5)
        return 2;
    setvbuf(stdout, NULL, _IONBF, 0);
    while (mistake < MISTAKES && strcmp(words[1], names[mistake]))
        mistake++;
    if (mistake == MISTAKES)
        return 2;
    is_session = !strcmp(words[2], "session");
    kept = mmap(NULL, sizeof *kept, PROT_READ | PROT_WRITE, MAP_SHARED | MAP_ANONYMOUS, -1, 0);
    for (int number = 0; number < atoi(words[3]); number++)
        run(number, words[4]);
    return 0;
}
