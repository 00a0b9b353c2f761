/* The calls of these lives, and what is judged after each start (lives.h). Nothing here knows the disk: the program that this is linked
 * with defines the functions `disk_..`. */
#include "lives.h"

struct fitrec_session session;
struct fitrec_found found;
struct fitrec_device device;
struct life now;
static uint64_t chance_state;

void fail(const char *why, int number) {
    printf("%s (%d)\n", why, number);
    exit(2);
}

uint32_t chance(uint32_t below) {
    chance_state = chance_state * 6364136223846793005u + 1442695040888963407u;
    return (uint32_t)(chance_state >> 33) % below;
}

void begin_life(uint64_t seed) {
    chance_state = seed;
    memset(&now, 0, sizeof now);
    now.clock = 1000000000;
    disk_begin(seed);
    if (disk_open(&device))
        fail("a new disk cannot be opened", 0);
}

int is_well(enum fitrec_answer answer, const char *what) {
    if (answer != (disk_has_failed() ? FITREC_DEVICE : FITREC_OK))
        fail(what, (int)answer);
    return answer == FITREC_OK;
}

int hand_sample(void) {
    struct fitrec_sample sample = {.time = now.clock += chance(3), .has = FITREC_HAS_HEART_RATE | FITREC_HAS_DISTANCE};
    sample.heart_rate = (uint8_t)(60 + chance(99));
    sample.distance = now.distance += chance(900);
    if (chance(2))
        sample.power = (uint16_t)chance(700), sample.has |= FITREC_HAS_POWER;
    now.handed++;
    if (!is_well(fitrec_add(&session, &sample), "a sample"))
        return 0;
    now.sure++;
    return 1;
}

static int store(void) {
    if (!is_well(fitrec_store(&session), "a store"))
        return 0;
    now.stored = now.sure;
    return 1;
}

int begin_ride(void) {
    now.may_be_gone = 1;
    if (!is_well(fitrec_begin(&session, now.clock, 7, 2), "a begin"))
        return 0;
    now.may_be_gone = 0, now.is_begun = 1;
    return 1;
}

static int end_ride(void) {
    if (!is_well(fitrec_end(&session, chance(4) ? now.clock : UINT32_MAX), "an end"))
        return 0;
    now.stored = now.sure;
    now.is_ended = 1;
    return 1;
}

static int clear_ride(void) {
    now.may_be_gone = 1;
    if (!is_well(fitrec_clear(&session), "a clear"))
        return 0;
    now.stored = now.sure = now.handed = 0;
    now.is_begun = now.is_ended = 0;
    return 1;
}

static int set_clock(void) {
    int was_gone = now.may_be_gone;
    now.clock = chance(2) ? chance(1000) : 600000000 + chance(2000000000);
    now.may_be_gone |= now.handed == 0;
    if (!is_well(fitrec_set_clock(&session, now.clock), "a set clock"))
        return 0;
    now.may_be_gone = was_gone;
    return 1;
}

/* Calls of a ride, until a function of the device fails or the ride is over. */
static void ride(unsigned most, int is_running) {
    for (unsigned k = 0; k < most; k++) {
        unsigned picked = chance(60);
        int goes_on = 1;
        now.clock += chance(2);
        if (picked < 6)
            goes_on = store();
        else if (picked == 6)
            goes_on = is_well(fitrec_lap(&session, now.clock), "a lap");
        else if (picked == 7) {
            goes_on = is_well(is_running ? fitrec_pause(&session, now.clock) : fitrec_resume(&session, now.clock), "a pause");
            is_running = !is_running;
        } else if (picked == 8)
            goes_on = set_clock();
        else if (picked == 9 && chance(4) == 0) {
            if (!end_ride() || chance(2))
                return;
            goes_on = clear_ride() && begin_ride();
            is_running = 1;
        } else if (is_running)
            goes_on = hand_sample();
        if (!goes_on)
            return;
    }
}

/* The device is booted after a reset: its clock and its odometer may begin anew. */
int boot(void) {
    if (chance(2))
        now.clock = chance(2) ? chance(1000) : 600000000 + chance(2000000000);
    if (chance(2))
        now.distance = 0;
    return is_well(fitrec_boot(&session, &device, now.clock, &found), "a boot");
}

/* What is found has to be what was answered. Whether the life goes on. */
static int judge(void) {
    int is_gone = found.finding == FITREC_FOUND_EMPTY || found.finding == FITREC_FOUND_ERASING;
    if (found.finding == FITREC_FOUND_KEEP) {
        /* The byte that an erasing overwrites may be any after a power cut: then only a person may say that the files are to go. */
        if (!now.may_be_gone || found.why != FITREC_NOTHING_RECORDED)
            fail("files that are to be kept", found.why);
        if (!clear_ride())
            return 0;
        is_gone = 1;
        found.finding = FITREC_FOUND_EMPTY;
    }
    if (is_gone && now.is_begun && !now.may_be_gone)
        fail("a ride is gone", found.finding);
    if (now.is_ended && !now.may_be_gone && found.finding != FITREC_FOUND_FINISHED)
        fail("a finished ride is not", found.finding);
    if (is_gone)
        now.stored = now.handed = 0, now.is_begun = now.is_ended = 0;
    if (now.may_be_gone)
        now.stored = 0;
    now.is_begun |= !is_gone;
    now.is_ended |= found.finding == FITREC_FOUND_FINISHED;
    now.may_be_gone = 0;
    now.sure = now.stored;
    return 1;
}

void live(unsigned most, long power) {
    disk_restart();
    disk_cut(power);
    if (disk_open(&device)) {
        if (!disk_has_failed())
            fail("the files cannot be opened", 0);
        return;
    }
    if (!boot() || !judge())
        return;
    if (found.finding == FITREC_FOUND_FINISHED && (chance(2) || !clear_ride()))
        return;
    if (found.finding == FITREC_FOUND_RIDING)
        ride(most, found.state.running);
    else if (begin_ride())
        ride(most, 1);
}

void keep_file(const char *folder, const char *name, int file) {
    char path[4096];
    uint8_t bytes[512];
    snprintf(path, sizeof path, "%s/%s", folder, name);
    FILE *it = fopen(path, "wb");
    int32_t size = device.size(device.files[file]), count = 0;
    for (int32_t at = 0; it && at < size; at += count) {
        count = device.read(device.files[file], (uint32_t)at, bytes, sizeof bytes);
        if (count <= 0 || fwrite(bytes, 1, (size_t)count, it) != (size_t)count)
            fail("a file cannot be copied", count);
    }
    if (!it || size < 0 || fclose(it))
        fail("a file cannot be copied", size);
}

/* Boots the device, and judges what is found. */
static void start_well(void) {
    disk_restart();
    if (disk_open(&device))
        fail("the files cannot be opened", 0);
    boot();
    judge();
}

void finish(const char *folder, int number) {
    char name[32];
    start_well();
    if (found.finding == FITREC_FOUND_RIDING) {
        end_ride();
        start_well();
    }
    if (found.finding != FITREC_FOUND_FINISHED)
        return;
    snprintf(name, sizeof name, "%d.fit", number);
    keep_file(folder, name, 0);
    printf("%d %u %u\n", number, now.stored, now.handed);
}

void cut_power(uint64_t seed, int count, const char *folder, uint32_t first, uint32_t other) {
    for (int number = 0; number < count; number++) {
        begin_life(seed * 1000003 + (uint64_t)number * 7919);
        for (unsigned lives = 1 + chance(4), most = 20 + chance(200), within = first; lives > 0; lives--, most = chance(40), within = other)
            live(most, 1 + chance(within));
        finish(folder, number);
    }
}
