/* Records a script by the plans of fit_device, for compare/device.py:

     device play SCRIPT FOLDER SEED         over the files of a folder, by the host of examples/device
     device cut SCRIPT FOLDER CALL SEED RULE
                                            over files in memory, whose power goes inside the call of this number (0: after the last,
                                            -1: not at all)
     device random SEED                     steps with handles of random bytes, each of which is to be refused

   A script is one of `fitrec replay`. Each answer is printed as that prints it. A ride is recovered, reopened or erased over whole files or
   by windows, as SEED picks it, and by windows with the answer, the recorder and the calls that it has over whole files. After a power cut the
   folder gets what was left. RULE is 0, or the number of a rule of the header that the host breaks:

     1 a call of each plan is left out    2 the calls of each plan in reverse      3 the answer comes before the calls are carried out
     4 it goes on after the call of this number failed
     5 a sync returns before anything is kept */

#include "../examples/device/faulty.h"
#include "../examples/device/files.h"
#include <inttypes.h>
#include <stdio.h>
#include <stdlib.h>
#include <string.h>

enum { GUARD = 64 };

static struct faulty_disk disk;
static struct fitrec_device files;
static int in_memory, rule;
static long left = -1; /* calls before the power goes, or -1 */
static const char *folder;
/* What the memory of the recorder held before a start or a reopening. */
static struct fitrec_recorder found_in;

/* A recorder, a plan and a recovery between rows of known bytes, which no step may change. */
static struct {
    uint8_t before[GUARD];
    struct fitrec_recorder recorder;
    uint8_t between[GUARD];
    struct fitrec_plan plan;
    uint8_t after[GUARD];
    struct fitrec_recovery recovery;
    uint8_t end[GUARD];
} room;

static void fail(const char *why) {
    printf("%s\n", why);
    exit(2);
}

static uint32_t chance(uint32_t below) {
    return faulty_chance(&disk, below);
}

static void keep_file(const char *name, const uint8_t *bytes, size_t len) {
    char path[4096];
    snprintf(path, sizeof path, "%s/%s", folder, name);
    FILE *file = fopen(path, "wb");
    if (!file || fwrite(bytes, 1, len, file) != len || fclose(file))
        fail("cannot write a file");
}

/* The bytes of a file in the folder, none if it is not there. */
static size_t read_file(const char *name, uint8_t *to) {
    char path[4096];
    snprintf(path, sizeof path, "%s/%s", folder, name);
    FILE *file = fopen(path, "rb");
    size_t len = file ? fread(to, 1, FAULTY_MOST, file) : 0;
    if (file)
        fclose(file);
    return len;
}

static void fill_at_random(uint8_t *bytes, size_t count) {
    while (count > 0)
        bytes[--count] = (uint8_t)chance(256);
}

static void power_goes(void) {
    disk.is_dark = 1;
    faulty_restart(&disk);
    for (int k = 0; k < 2; k++)
        keep_file(k ? "activity.frj" : "activity.fit", disk.files[k].now, disk.files[k].len);
    exit(0);
}

static void carry_out(const struct fitrec_call *call) {
    void *file = files.files[call->file];
    if (rule == 4 && left > 0 && --left == 0)
        return;
    if (call->kind == FITREC_WRITE ? files.write(file, (uint32_t)call->at, room.plan.bytes + call->start, call->count) != call->count
        : call->kind == FITREC_CUT ? files.cut(file, (uint32_t)call->at) : rule != 5 && files.sync(file))
        fail("cannot carry out a call");
    if (disk.is_misused && !rule)
        fail("a call outside its file");
    /* The power goes once the call has begun, and has been done in part. */
    if (rule != 4 && left > 0 && --left == 0)
        power_goes();
}

/* Carries out the plan, by the rules or not. */
static void carry_out_plan(void) {
    struct fitrec_plan *plan = &room.plan;
    if (plan->count > FITREC_MOST_CALLS || plan->used > FITREC_MOST_BYTES)
        fail("a plan that is too long");
    for (uint32_t k = 0; k < plan->count; k++) {
        uint32_t at = rule == 2 ? plan->count - 1 - k : k;
        if (rule == 1 && plan->count > 1 && k == chance(plan->count))
            continue;
        carry_out(&plan->calls[at]);
    }
}

static void check_guards(void) {
    for (size_t at = 0; at < GUARD; at++)
        if (room.before[at] != 0xA5 || room.between[at] != 0xA5 || room.after[at] != 0xA5 || room.end[at] != 0xA5)
            fail("a byte outside was written");
}

static void set_value(struct fitrec_sample *sample, const char *key, long long value) {
    if (!strcmp(key, "lat")) sample->lat = (int32_t)value, sample->has |= FITREC_HAS_LAT;
    else if (!strcmp(key, "long")) sample->lon = (int32_t)value, sample->has |= FITREC_HAS_LON;
    else if (!strcmp(key, "alt")) sample->altitude = (uint16_t)value, sample->has |= FITREC_HAS_ALTITUDE;
    else if (!strcmp(key, "hr")) sample->heart_rate = (uint8_t)value, sample->has |= FITREC_HAS_HEART_RATE;
    else if (!strcmp(key, "cad")) sample->cadence = (uint8_t)value, sample->has |= FITREC_HAS_CADENCE;
    else if (!strcmp(key, "dist")) sample->distance = (uint32_t)value, sample->has |= FITREC_HAS_DISTANCE;
    else if (!strcmp(key, "speed")) sample->speed = (uint16_t)value, sample->has |= FITREC_HAS_SPEED;
    else if (!strcmp(key, "power")) sample->power = (uint16_t)value, sample->has |= FITREC_HAS_POWER;
    else if (!strcmp(key, "temp")) sample->temperature = (int8_t)value, sample->has |= FITREC_HAS_TEMPERATURE;
    else if (!strcmp(key, "espeed")) sample->enhanced_speed = (uint32_t)value, sample->has |= FITREC_HAS_ENHANCED_SPEED;
    else if (!strcmp(key, "ealt")) sample->enhanced_altitude = (uint32_t)value, sample->has |= FITREC_HAS_ENHANCED_ALTITUDE;
    else fail("an unknown key");
}

static uint8_t hand_sample(uint32_t time, char *rest) {
    struct fitrec_sample sample = {.time = time};
    for (char *word = strtok(rest, " \n"); word; word = strtok(NULL, " \n")) {
        char *value = strchr(word, '=');
        *value = 0;
        set_value(&sample, word, strtoll(value + 1, NULL, 10));
    }
    return fitrec_add_sample(&room.recorder, &sample, &room.plan);
}

/* A step that reads both files in place. */
static uint8_t step_over_files(const char *word) {
    static uint8_t read[2][FAULTY_MOST];
    const uint8_t *bytes[2] = {disk.files[0].now, disk.files[1].now};
    size_t len[2] = {disk.files[0].len, disk.files[1].len};
    for (int k = 0; !in_memory && k < 2; k++) {
        len[k] = read_file(k ? "activity.frj" : "activity.fit", read[k]);
        bytes[k] = read[k];
    }
    if (!strcmp(word, "recover")) return fitrec_recover(bytes[0], len[0], bytes[1], len[1], &room.plan);
    if (!strcmp(word, "erase")) return fitrec_erase(bytes[0], len[0], bytes[1], len[1], &room.plan);
    return fitrec_reopen(&room.recorder, bytes[0], len[0], bytes[1], len[1], &room.plan);
}

static uint64_t size_of(int file) {
    return (uint64_t)files.size(files.files[file]);
}

/* Fills the window that the recovery asks for. The rest of it gets any byte. */
static void fill_window(void) {
    struct fitrec_recovery *it = &room.recovery;
    if (it->file > FITREC_JOURNAL_FILE || it->count > sizeof it->window)
        fail("a window that is none");
    memset(it->window, (int)chance(256), sizeof it->window);
    int32_t filled = files.read(files.files[it->file], (uint32_t)it->at, it->window, it->count);
    if (filled < 0)
        fail("cannot read a window");
    it->filled = (uint16_t)filled;
}

/* Gives the window to the call of a line. */
static uint8_t go_on(const char *word) {
    if (!strcmp(word, "recover")) return fitrec_recover_next(&room.recovery, &room.plan);
    if (!strcmp(word, "reopen")) return fitrec_reopen_next(&room.recovery, &room.recorder, &room.plan);
    return fitrec_erase_next(&room.recovery, &room.plan);
}

/* A window that has too few bytes ends a recovery and a reopening. */
static void give_too_few(void) {
    static struct fitrec_recovery before;
    static struct fitrec_recorder recorder;
    struct fitrec_recovery *it = &room.recovery;
    before = *it, recorder = room.recorder;
    const char *word = chance(2) ? "recover" : "reopen";
    it->filled = (uint16_t)chance(it->filled);
    if (go_on(word) != FITREC_DEVICE || room.plan.count || memcmp(&recorder, &room.recorder, sizeof recorder))
        fail("a window with too few bytes was believed");
    if (go_on(word) != FITREC_NO_RECORDER)
        fail("a recovery went on after a window with too few bytes");
    *it = before;
}

/* An erasing is refused a window of the data file. */
static void erase_too_late(void) {
    static struct fitrec_recovery before;
    before = room.recovery;
    if (fitrec_erase_next(&room.recovery, &room.plan) != FITREC_NO_RECORDER || memcmp(&before, &room.recovery, sizeof before) || room.plan.count)
        fail("an erasing took a window of the data file");
}

/* A recovery and a reopening may take turns: gives the window to the other one, unless that ends with it. */
static int turn_over(const char *word, uint8_t *answer) {
    static struct fitrec_recovery before;
    static struct fitrec_recorder recorder;
    before = room.recovery, recorder = room.recorder;
    *answer = go_on(strcmp(word, "recover") ? "recover" : "reopen");
    int is_taken = *answer == FITREC_NEEDS_WINDOW;
    if (!is_taken)
        room.recovery = before, room.recorder = recorder;
    return is_taken;
}

/* Over whole files the answer, the recorder and the calls are the same. A recovery and a reopening begin with two syncs more, unless they
   refuse. */
static void check_whole_files(const char *word, uint8_t answer) {
    static struct fitrec_recorder recorder;
    static struct fitrec_plan plan;
    recorder = room.recorder, plan = room.plan;
    room.recorder = found_in;
    uint8_t whole = step_over_files(word);
    uint32_t more = strcmp(word, "erase") && !answer ? 2 : 0;
    int is_same = whole == answer && room.plan.count == plan.count + more && room.plan.used == plan.used;
    is_same = is_same && !memcmp(room.plan.bytes, plan.bytes, plan.used);
    for (uint32_t k = 0; is_same && k < plan.count; k++) {
        const struct fitrec_call *its = &room.plan.calls[k + more], *mine = &plan.calls[k];
        is_same = its->at == mine->at && its->start == mine->start && its->count == mine->count && its->kind == mine->kind && its->file == mine->file;
    }
    if (!is_same || (!answer && memcmp(&room.recorder, &recorder, sizeof recorder)))
        fail("another outcome by windows than over whole files");
    room.recorder = recorder, room.plan = plan;
}

/* The mark of a struct stands where the header ends it: the last 8 bytes are the mark, the check code, and two that are unused. */
static void check_mark(const void *whole, size_t size, const char *mark) {
    if (memcmp((const uint8_t *)whole + size - 8, mark, 4))
        fail("a struct of another size than in the header");
}

/* A recovery, a reopening or an erasing by windows. Its last plan is still to be carried out. */
static uint8_t step_by_windows(const char *word) {
    struct fitrec_recovery *it = &room.recovery;
    memset(it, 0, sizeof *it);
    it->data_size = size_of(FITREC_DATA_FILE);
    it->journal_size = size_of(FITREC_JOURNAL_FILE);
    uint8_t answer = fitrec_recover_begin(it, &room.plan);
    check_mark(it, sizeof *it, "fitw");
    for (uint32_t most = 2; answer == FITREC_NEEDS_WINDOW; most = 0) {
        for (uint32_t k = 0; k < room.plan.count; k++)
            if (k >= most || room.plan.calls[k].kind != FITREC_SYNC)
                fail("a call before the end of a recovery");
        carry_out_plan();
        fill_window();
        if (it->filled && chance(4) == 0)
            give_too_few();
        if (it->file == FITREC_DATA_FILE && chance(4) == 0)
            erase_too_late();
        if (!strcmp(word, "erase") || chance(3) || !turn_over(word, &answer))
            answer = go_on(word);
    }
    /* A row of slots that is longer than a window is for whole files, unless the ride is erased. */
    int is_too_long = it->journal_size > sizeof it->window && it->data_size > 0 && strcmp(word, "erase");
    if (is_too_long != (answer == FITREC_DEVICE))
        fail("another answer than a journal of this length has");
    if (is_too_long)
        return step_over_files(word);
    if (rule == 0)
        check_whole_files(word, answer);
    return answer;
}

/* A start with a sport that is none leaves the recorder, and plans nothing. */
static void start_without_a_sport(void) {
    struct fitrec_recorder before = room.recorder;
    if (fitrec_start(&room.recorder, (size_t)size_of(FITREC_DATA_FILE), 1000000000, 7, 3 + (uint8_t)chance(253), &room.plan) != FITREC_NO_SPORT || room.plan.count)
        fail("a start with a sport that is none");
    if (memcmp(&before, &room.recorder, sizeof before))
        fail("a start with a sport that is none changed the recorder");
}

/* Makes the step of a line. */
static uint8_t step(char *line, char word[16]) {
    struct fitrec_recorder *recorder = &room.recorder;
    unsigned long long time = 0, serial = 0;
    char sport[16] = "";
    /* Drawn for each line, so it differs with the place of a recovery in its script. */
    int used = 0, is_by_windows = (int)chance(2);
    sscanf(line, "%15s %llu %n", word, &time, &used);
    /* A recorder may begin where anything lies, a start also over another recorder. */
    if (strstr("recover erase", word))
        memset(recorder, 0, sizeof *recorder);
    else if (!strcmp(word, "reopen") || (!strcmp(word, "start") && chance(2)))
        fill_at_random((uint8_t *)recorder, sizeof *recorder);
    found_in = *recorder;
    if (strstr("recover reopen erase", word)) return is_by_windows ? step_by_windows(word) : step_over_files(word);
    if (!strcmp(word, "start")) {
        sscanf(line, "%*s %*u %llu %15s", &serial, sport);
        return fitrec_start(recorder, (size_t)size_of(FITREC_DATA_FILE), (uint32_t)time, (uint32_t)serial, sport[0] == 'g' ? 0 : sport[0] == 'r' ? 1 : 2, &room.plan);
    }
    if (!strcmp(word, "sample")) return hand_sample((uint32_t)time, line + used);
    if (!strcmp(word, "lap")) return fitrec_add_lap(recorder, (uint32_t)time, &room.plan);
    if (!strcmp(word, "pause")) return fitrec_pause_timer(recorder, (uint32_t)time, &room.plan);
    if (!strcmp(word, "resume")) return fitrec_resume_timer(recorder, (uint32_t)time, &room.plan);
    if (!strcmp(word, "commit")) return fitrec_commit(recorder, &room.plan);
    if (!strcmp(word, "stop")) return fitrec_stop(recorder, (uint32_t)time, &room.plan);
    fail("an unknown line");
    return 0;
}

/* What the ride stands at by the lines that were accepted, and what of it is committed. */
static struct fitrec_state stands, committed;
static int is_begun;

/* The state of the recorder after a line: that of all lines, or after a reopening that of the committed ones. */
static void check_state(const char *line, const char *word, uint8_t answer) {
    static const struct fitrec_state none = {1, 2, 3, 4, 5};
    struct fitrec_state found = none;
    unsigned time = 0;
    const char *distance = strstr(line, "dist=");
    sscanf(line, "%*s %u", &time);
    is_begun |= !strcmp(word, "start");
    if (answer || strstr("recover erase", word)) {
        if (fitrec_state_of(&room.recorder, &found) == FITREC_NO_RECORDER && memcmp(&found, &none, sizeof none))
            fail("a state of no recorder");
        return;
    }
    if (!strcmp(word, "start")) stands = (struct fitrec_state){.running = 1};
    if (!strcmp(word, "reopen")) stands = committed;
    else if (strcmp(word, "commit")) stands.time = time;
    if (distance) stands.distance = (uint32_t)strtoul(distance + 5, NULL, 10);
    stands.laps += !strcmp(word, "lap");
    if (!strcmp(word, "pause") || !strcmp(word, "resume")) stands.running = word[0] == 'r';
    stands.stopped = !strcmp(word, "stop");
    if (strstr("start commit", word)) committed = stands;
    if (fitrec_state_of(&room.recorder, &found) != FITREC_OK)
        fail("a recorder without a state");
    found.running = stands.stopped ? stands.running : found.running;
    if (is_begun && memcmp(&found, &stands, sizeof found))
        fail("another state than that of the lines");
}

static void report(int number, const char *word, uint8_t answer) {
    static const char *faults[] = {"ok", "NotEmpty", "", "Full", "JournalFull", "Device", "Failed", "NothingRecorded", "Damaged", "", "", "NoRecorder", "NoSport", "NeedsWindow", "Erasing"};
    static const char *refused[] = {"", "Time", "Distance", "Value", "TimerStopped", "TimerRunning", "TooLong", "TooManyLaps", "Stopped"};
    if (answer > 32)
        printf("%d %s: Refused(%s)\n", number, word, refused[answer - 32]);
    else
        printf("%d %s: %s\n", number, word, faults[answer]);
    fflush(stdout);
}

static void play(const char *script) {
    FILE *file = fopen(script, "r");
    char line[512], whole[512], word[16];
    if (!file)
        fail("cannot read the script");
    for (int number = 1; fgets(line, sizeof line, file); number++) {
        if (line[0] == '#' || line[0] == '\n')
            continue;
        strcpy(whole, line);
        uint8_t answer = step(line, word);
        check_state(whole, word, answer);
        if (rule == 3)
            report(number, word, answer);
        carry_out_plan();
        if (rule != 3)
            report(number, word, answer);
        if (!answer && strstr("start reopen commit", word)) {
            check_mark(&room.recorder, sizeof room.recorder, "fitr");
            start_without_a_sport();
        }
    }
    fclose(file);
}

/* A recovery of random bytes is refused, and stays as it is. */
static void refuse_random_recovery(int has_marks) {
    static uint8_t before[sizeof room.recovery];
    uint8_t *bytes = (uint8_t *)&room.recovery;
    fill_at_random(bytes, sizeof before);
    /* Where the mark stands is the library's own. */
    for (size_t at = 0; has_marks && at < sizeof before; at += 4)
        if (chance(2))
            memcpy(bytes + at, "fitw", 4);
    memcpy(before, bytes, sizeof before);
    struct fitrec_recorder recorder = room.recorder;
    for (const char *const *word = (const char *const[]){"recover", "reopen", "erase", NULL}; *word; word++) {
        if (go_on(*word) != FITREC_NO_RECORDER)
            fail("a recovery of random bytes was believed");
        if (memcmp(before, bytes, sizeof before) || memcmp(&recorder, &room.recorder, sizeof recorder) || room.plan.count)
            fail("a refused recovery was changed");
    }
}

/* Handles of random bytes are refused by every step, and stay as they are. */
static void refuse_random(void) {
    for (int times = 0; times < 20000; times++) {
        uint8_t *bytes = (uint8_t *)&room.recorder;
        fill_at_random(bytes, sizeof room.recorder);
        /* Some have the mark of a recorder, so that only the check code is wrong. */
        if (times % 100 == 0)
            memcpy(bytes + 1496, "fitr", 4);
        struct fitrec_recorder before = room.recorder;
        struct fitrec_sample sample = {.time = 1000000000};
        uint8_t answers[] = {fitrec_add_sample(&room.recorder, &sample, &room.plan), fitrec_add_lap(&room.recorder, 1, &room.plan),
                             fitrec_pause_timer(&room.recorder, 1, &room.plan), fitrec_resume_timer(&room.recorder, 1, &room.plan),
                             fitrec_commit(&room.recorder, &room.plan), fitrec_stop(&room.recorder, 1, &room.plan)};
        for (size_t at = 0; at < sizeof answers; at++)
            if (answers[at] != FITREC_NO_RECORDER)
                fail("a handle of random bytes was believed");
        if (memcmp(&before, &room.recorder, sizeof before) || room.plan.count)
            fail("a refused handle was changed");
        refuse_random_recovery(times % 100 == 0);
    }
    printf("ok\n");
}

int main(int count, char **words) {
    memset(&room, 0xA5, sizeof room);
    if (count > 2 && !strcmp(words[1], "random")) {
        disk.seed = strtoull(words[2], NULL, 10);
        refuse_random();
        check_guards();
        return 0;
    }
    if (count < 5)
        fail("words are missing");
    folder = words[3];
    in_memory = !strcmp(words[1], "cut");
    if (in_memory) {
        static uint8_t found[FAULTY_MOST];
        faulty_begin(&disk, &files);
        left = strtol(words[4], NULL, 10);
        disk.seed = strtoull(words[5], NULL, 10);
        rule = atoi(words[6]);
        for (int k = 0; k < 2; k++)
            faulty_hold(&disk.files[k], found, (uint32_t)read_file(k ? "activity.frj" : "activity.fit", found));
    } else {
        disk.seed = strtoull(words[4], NULL, 10);
        if (open_files(&files, folder))
            fail("cannot open the files");
    }
    play(words[2]);
    check_guards();
    if (in_memory) {
        for (int k = 0; left < 0 && k < 2; k++)
            if (files.sync(files.files[k]))
                fail("cannot carry out a call");
        power_goes();
    }
    return 0;
}
