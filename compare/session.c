/* Records by a session (include/fitrec_device.h) over files in memory, for compare/device.py:

     session play SCRIPT FOLDER      each line is a call; its answer is printed, and of a boot what was found
     session cuts SEED COUNT FOLDER  rides whose power goes inside a call of the device, in most more than once
     session lies SEED COUNT FOLDER  the same with syncs that keep nothing
     session faults SEED FOLDER      rides in which a function of the device goes wrong once, at each of its calls and in each way
     session order                   every row of three calls, at each thing that a boot may find
     session threads FOLDER          samples of two threads at once
     session inside                  calls from within each function of the device, and a session that was kept over a reset

   Of each ride of cuts, faults and threads the finished file is put into the folder, as NUMBER.fit, and a line says of how many samples it was
   answered that they are stored, and how many were handed. A script has

     boot CLOCK | begin CLOCK SERIAL SPORT | add CLOCK KEY=VALUE.. | lap CLOCK | pause CLOCK | resume CLOCK | store | end CLOCK | clear |
     go_on CLOCK | set CLOCK | keeps_distance 0 OR 1 | plain_times 0 OR 1 */

#include "../examples/device/faulty.h"
#include "lives.h"
#ifdef __linux__
#include <pthread.h>
#include <sys/mman.h>
#include <sys/wait.h>
#include <unistd.h>
#endif

static struct faulty_disk disk;
static int lies;
/* How a function goes wrong in the next life, and at which of its calls. */
static enum faulty_way way;
static long way_at;
/* How many reads there were before the last boot, and which of the files had bytes then. */
static long reads;
static int had_bytes[2];

void disk_begin(uint64_t seed) {
    faulty_begin(&disk, &device);
    disk.seed = seed;
    disk.keeps_nothing = lies;
}

void disk_restart(void) {
    if (disk.is_misused)
        fail("a call outside its file", 0);
    faulty_restart(&disk);
}

void disk_cut(long calls) {
    disk.power = calls;
    disk.way = way;
    disk.at = way_at;
}

int disk_open(struct fitrec_device *all) {
    (void)all;
    reads = disk.calls[FITREC_READ];
    for (int k = 0; k < 2; k++)
        had_bytes[k] = disk.files[k].len > 0;
    return 0;
}

/* A boot lets pass that the last byte of a file cannot be read, which it reads first of all. */
static int is_let_pass(void) {
    long number = disk.at - reads;
    return disk.way == FAULTY_READ_FAILS && (number == 1 || number == 2) && had_bytes[number - 1];
}

int disk_has_failed(void) { return disk.is_dark || (disk.is_wrong && !is_let_pass()); }

static void find_file(const char *folder, int file) {
    static uint8_t bytes[FAULTY_MOST];
    char path[4096];
    snprintf(path, sizeof path, "%s/%s", folder, file ? "activity.frj" : "activity.fit");
    FILE *it = fopen(path, "rb");
    faulty_hold(&disk.files[file], bytes, it ? (uint32_t)fread(bytes, 1, sizeof bytes, it) : 0);
    if (it)
        fclose(it);
}

/* The calls of a script. */

static void set_value(struct fitrec_sample *sample, const char *key, long long value) {
    if (!strcmp(key, "hr")) sample->heart_rate = (uint8_t)value, sample->has |= FITREC_HAS_HEART_RATE;
    else if (!strcmp(key, "dist")) sample->distance = (uint32_t)value, sample->has |= FITREC_HAS_DISTANCE;
    else if (!strcmp(key, "lat")) sample->lat = (int32_t)value, sample->has |= FITREC_HAS_LAT;
    else if (!strcmp(key, "long")) sample->lon = (int32_t)value, sample->has |= FITREC_HAS_LON;
    else if (!strcmp(key, "power")) sample->power = (uint16_t)value, sample->has |= FITREC_HAS_POWER;
    else fail("an unknown key", 0);
}

static enum fitrec_answer add(uint32_t clock, char *rest) {
    struct fitrec_sample sample = {.time = clock};
    for (char *word = strtok(rest, " \n"); word; word = strtok(NULL, " \n")) {
        char *value = strchr(word, '=');
        *value = 0;
        set_value(&sample, word, strtoll(value + 1, NULL, 10));
    }
    return fitrec_add(&session, &sample);
}

static enum fitrec_answer call(char *line, char word[16]) {
    unsigned long long clock = 0, serial = 0;
    unsigned sport = 0;
    int used = 0;
    sscanf(line, "%15s %llu %n", word, &clock, &used);
    sscanf(line, "%*s %*u %llu %u", &serial, &sport);
    if (!strcmp(word, "boot")) return fitrec_boot(&session, &device, (uint32_t)clock, &found);
    if (!strcmp(word, "begin")) return fitrec_begin(&session, (uint32_t)clock, (uint32_t)serial, (uint8_t)sport);
    if (!strcmp(word, "add")) return add((uint32_t)clock, line + used);
    if (!strcmp(word, "lap")) return fitrec_lap(&session, (uint32_t)clock);
    if (!strcmp(word, "pause")) return fitrec_pause(&session, (uint32_t)clock);
    if (!strcmp(word, "resume")) return fitrec_resume(&session, (uint32_t)clock);
    if (!strcmp(word, "store")) return fitrec_store(&session);
    if (!strcmp(word, "end")) return fitrec_end(&session, (uint32_t)clock);
    if (!strcmp(word, "clear")) return fitrec_clear(&session);
    if (!strcmp(word, "go_on")) return fitrec_go_on(&session, (uint32_t)clock, &found);
    if (!strcmp(word, "set")) return fitrec_set_clock(&session, (uint32_t)clock);
    if (!strcmp(word, "keeps_distance")) return device.keeps_distance = (uint8_t)clock, FITREC_OK;
    if (!strcmp(word, "plain_times")) return device.plain_times = (uint8_t)clock, FITREC_OK;
    fail("an unknown line", 0);
    return FITREC_OK;
}

static void play(const char *script, const char *folder) {
    FILE *file = fopen(script, "r");
    char line[512], word[16];
    if (!file)
        fail("cannot read the script", 0);
    begin_life(1);
    find_file(folder, 0);
    find_file(folder, 1);
    for (int number = 1; fgets(line, sizeof line, file); number++) {
        enum fitrec_answer answer = call(line, word);
        printf("%d %s: %d", number, word, (int)answer);
        if (!answer && (!strcmp(word, "boot") || !strcmp(word, "go_on")))
            printf(" found %u why %u time %u distance %u laps %u running %u", found.finding, found.why, found.state.time, found.state.distance,
                   found.state.laps, found.state.running);
        printf("\n");
    }
    fclose(file);
    keep_file(folder, "activity.fit", 0);
    keep_file(folder, "activity.frj", 1);
}

/* After a fault nothing is done before the next boot. */
static void refuse_all(void) {
    struct fitrec_sample sample = {0};
    if (fitrec_begin(&session, 1000000000, 7, 2) != FITREC_NOT_NOW || fitrec_add(&session, &sample) != FITREC_NOT_NOW ||
        fitrec_lap(&session, 0) != FITREC_NOT_NOW || fitrec_pause(&session, 0) != FITREC_NOT_NOW || fitrec_resume(&session, 0) != FITREC_NOT_NOW ||
        fitrec_store(&session) != FITREC_NOT_NOW || fitrec_end(&session, 0) != FITREC_NOT_NOW || fitrec_clear(&session) != FITREC_NOT_NOW ||
        fitrec_go_on(&session, 0, &found) != FITREC_NOT_NOW || fitrec_set_clock(&session, 0) != FITREC_NOT_NOW)
        fail("a step that may not be made was made", 0);
}

/* Each function goes wrong in each way at each of its calls: the step answers that, and the next boot finds what was stored. */
static void go_wrong(uint64_t seed, const char *folder) {
    int number = 0;
    for (way = FAULTY_SIZE_FAILS; way < FAULTY_WAYS; way++) {
        int is_over = 0;
        for (way_at = 1; !is_over; way_at++) {
            begin_life(seed);
            for (int lives = 0; lives < 3 && !disk.is_wrong; lives++)
                live(70, 0);
            is_over = !disk.is_wrong;
            if (disk_has_failed()) {
                unsigned before = session.failed_call;
                refuse_all();
                if (before == 0 || session.failed_file > 1)
                    fail("it does not say what failed", (int)before);
            }
            disk.is_dark = way_at % 2 == 1;
            finish(folder, ++number);
        }
        if (number == 1)
            fail("a function never went wrong", (int)way);
    }
    way = FAULTY_NOT;
}

/* Every row of three calls at each finding, by a table of what may follow what. */

enum { BEGIN, ADD, LAP, PAUSE, RESUME, STORE, END, CLEAR, GO_ON, SET, CALLS };
/* For each finding the calls that may be made, and what the session stands at after each of them. */
static const char *const MAY[] = {"..........", "2......1.1", ".222223..2", ".......123", "2......1.4", ".......1.5"};

static enum fitrec_answer make(int which) {
    struct fitrec_sample sample = {.time = now.clock += 2, .has = FITREC_HAS_HEART_RATE, .heart_rate = 90};
    switch (which) {
    case BEGIN: return fitrec_begin(&session, now.clock, 7, 2);
    case ADD: return fitrec_add(&session, &sample);
    case LAP: return fitrec_lap(&session, now.clock);
    case PAUSE: return fitrec_pause(&session, now.clock);
    case RESUME: return fitrec_resume(&session, now.clock);
    case STORE: return fitrec_store(&session);
    case END: return fitrec_end(&session, now.clock);
    case CLEAR: return fitrec_clear(&session);
    case GO_ON: return fitrec_go_on(&session, now.clock, &found);
    default: return fitrec_set_clock(&session, now.clock);
    }
}

/* Files at which a boot finds this. */
static void make_files(int finding) {
    begin_life(1);
    boot();
    if (finding != FITREC_FOUND_EMPTY) {
        struct fitrec_sample sample = {.time = now.clock, .has = FITREC_HAS_HEART_RATE, .heart_rate = 90};
        if (fitrec_begin(&session, now.clock, 7, 2) || fitrec_add(&session, &sample) || fitrec_store(&session))
            fail("no ride", finding);
    }
    if (finding == FITREC_FOUND_FINISHED && fitrec_end(&session, now.clock))
        fail("no end", finding);
    if (finding == FITREC_FOUND_ERASING)
        disk.files[1].now[0] = 0;
    if (finding == FITREC_FOUND_KEEP)
        disk.files[0].now[90] ^= 1;
    now.clock += 10;
    if (!is_well(fitrec_boot(&session, &device, now.clock, &found), "a boot") || found.finding != finding)
        fail("another finding", found.finding);
}

static void try_order(void) {
    refuse_all();
    for (int finding = FITREC_FOUND_EMPTY; finding <= FITREC_FOUND_KEEP; finding++)
        for (int row = 0; row < CALLS * CALLS * CALLS; row++) {
            int stands = finding, rest = row;
            make_files(finding);
            for (int k = 0; k < 3; k++, rest /= CALLS) {
                int which = rest % CALLS, may = MAY[stands][which] != '.';
                enum fitrec_answer answer = make(which);
                if ((answer == FITREC_NOT_NOW) == may)
                    fail("a call out of its order", row * 10 + finding);
                /* A ride that has its stop does not go on, and a rule may refuse an entry. */
                if (may && answer == FITREC_OK)
                    stands = MAY[stands][which] - '0';
                else if (may && answer != FITREC_REFUSED_STOPPED && answer != FITREC_REFUSED_TIMER_RUNNING && answer != FITREC_REFUSED_TIMER_STOPPED)
                    fail("another answer", (int)answer);
            }
        }
    make_files(FITREC_FOUND_ERASING);
    uint32_t len = disk.files[0].len;
    if (fitrec_begin(&session, UINT32_MAX, 7, 2) != FITREC_REFUSED_TIME || disk.files[0].len != len)
        fail("a refused begin changed the files", (int)len);
    printf("ok\n");
}

/* Calls from within a function of the device, and after a reset with what was kept. */

static unsigned interrupts;

static void make_all(void) {
    struct fitrec_found none;
    interrupts++;
    if (fitrec_boot(&session, &device, 0, &none) != FITREC_NOT_NOW)
        fail("a boot inside another call", 0);
    refuse_all();
}

static void try_inside(void) {
    begin_life(5);
    disk.interrupt = make_all;
    live(300, 0);
    disk.interrupt = NULL;
    if (interrupts < 100)
        fail("too few interrupts", (int)interrupts);
    /* Another session takes the place of this one. */
    static struct fitrec_session other;
    begin_life(5);
    if (!boot() || !begin_ride() || !hand_sample())
        fail("no ride", 0);
    other = session;
    if (fitrec_store(&other) != FITREC_NOT_NOW)
        fail("a copy of a session was believed", 0);
    /* A plan whose write begins past the end of its file, as where an earlier one was lost. */
    uint32_t len = disk.files[0].len;
    session.size[0] = 10;
    if (fitrec_store(&session) != FITREC_DEVICE || session.failed_call != FITREC_WRITE || disk.files[0].len != len)
        fail("a write past the end of its file", (int)len);
    refuse_all();
    printf("ok\n");
}

#ifdef __linux__
static pthread_barrier_t both;

/* Hands samples until so many were taken and one was refused. Counts those that were taken. */
static void *hand_many(void *taken) {
    int refused = 0;
    pthread_barrier_wait(&both);
    for (unsigned tries = 0; tries < 40000 && (*(unsigned *)taken < 3000 || !refused); tries++) {
        struct fitrec_sample sample = {.time = 1000000000, .has = FITREC_HAS_HEART_RATE, .heart_rate = 90};
        enum fitrec_answer answer = fitrec_add(&session, &sample);
        if (answer != FITREC_OK && answer != FITREC_NOT_NOW)
            fail("a sample of a thread", (int)answer);
        *(unsigned *)taken += answer == FITREC_OK;
        refused |= answer == FITREC_NOT_NOW;
    }
    return refused ? taken : NULL;
}

/* A slow disk, so that the other thread comes meanwhile. */
static void wait_a_little(void) { usleep(100); }

static void try_threads(const char *folder) {
    unsigned taken[2] = {0, 0};
    pthread_t other;
    void *other_refused;
    begin_life(5);
    disk.interrupt = wait_a_little;
    if (fitrec_boot(&session, &device, now.clock, &found) || fitrec_begin(&session, now.clock, 7, 2) ||
        pthread_barrier_init(&both, NULL, 2) || pthread_create(&other, NULL, hand_many, &taken[1]))
        fail("no threads", 0);
    void *refused = hand_many(&taken[0]);
    if (pthread_join(other, &other_refused) || (!refused && !other_refused))
        fail("no thread met the other", (int)taken[0]);
    if (fitrec_end(&session, now.clock))
        fail("an end", 0);
    disk.interrupt = NULL;
    keep_file(folder, "0.fit", 0);
    printf("0 %u %u\n", taken[0] + taken[1], taken[0] + taken[1]);
}

/* A reset clears the library's own memory, and not always that of the session. */
static void keep_over_a_reset(void) {
    struct fitrec_session *kept = mmap(NULL, sizeof *kept, PROT_READ | PROT_WRITE, MAP_SHARED | MAP_ANONYMOUS, -1, 0);
    int status;
    begin_life(1);
    if (fork() == 0) {
        if (fitrec_boot(kept, &device, 1000000000, &found) || fitrec_begin(kept, 1000000000, 7, 2) || fitrec_lap(kept, 1000000001))
            _exit(1);
        _exit(0);
    }
    wait(&status);
    if (status || kept->found.finding != FITREC_FOUND_RIDING || fitrec_lap(kept, 1000000002) != FITREC_NOT_NOW || fitrec_store(kept) != FITREC_NOT_NOW)
        fail("a session that was kept over a reset was believed", status);
}
#else
static void keep_over_a_reset(void) {}
static void try_threads(const char *folder) { (void)folder; }
#endif

int main(int count, char **words) {
    if (count == 4 && !strcmp(words[1], "play"))
        play(words[2], words[3]);
    else if (count == 5 && strstr("cuts lies", words[1])) {
        lies = !strcmp(words[1], "lies");
        cut_power(strtoull(words[2], NULL, 10), atoi(words[3]), words[4], 120, 24);
    } else if (count == 4 && !strcmp(words[1], "faults"))
        go_wrong(strtoull(words[2], NULL, 10), words[3]);
    else if (count == 3 && !strcmp(words[1], "threads"))
        try_threads(words[2]);
    else if (count == 2 && !strcmp(words[1], "order"))
        try_order();
    else if (count == 2 && !strcmp(words[1], "inside")) {
        keep_over_a_reset();
        try_inside();
    } else
        fail("words are missing", count);
    return 0;
}
