/* A ride of an hour, a sample of nine fields a second, over a small file system (compare/embedded), with a commit after so many seconds:

     costs FORM SECONDS

   FORM is `session` (as fitrec records), `pair` (the same data file, and a journal of two slots, whose commit waits four times), or `log`
   (the data file alone, which is synced). It prints what a commit takes on average: how often it waits, the bytes that are written to the
   files, the sectors of 512 bytes and the blocks of 4,096 that the disk writes, and the blocks that it erases. */
#include "../../examples/device/files.h"
#include "disk.h"

enum { SAMPLES = 3600, BLOCK = 4096, MOST_BLOCKS = 1 << 16 };

struct fitrec_session session;
static struct fitrec_recorder recorder;
static struct fitrec_plan plan;
static struct { uint64_t waits, bytes, sectors, blocks, erased; } sum;
static uint32_t written_in[MOST_BLOCKS], period = 1; /* in which period between two waits a block was last written */

void fail(const char *why, int number) {
    fprintf(stderr, "%s (%d)\n", why, number);
    exit(2);
}

uint32_t chance(uint32_t below) { return below - below; }

enum power power_in(enum disk_call kind, uint32_t at, uint32_t count) {
    if (kind == DISK_ERASE)
        sum.erased++;
    if (kind != DISK_WRITE)
        return POWER_STAYS;
    sum.sectors += (count + 511) / 512;
    for (uint32_t block = at / BLOCK; block <= (at + count - 1) / BLOCK; block++)
        if (block < MOST_BLOCKS && written_in[block] != period)
            written_in[block] = period, sum.blocks++;
    return POWER_STAYS;
}

/* The five functions, with those that write counted. */
struct fitrec_device device;
static struct fitrec_device disk;

static int32_t put_bytes(void *file, uint32_t at, const void *bytes, uint32_t count) {
    sum.bytes += count;
    return disk.write(file, at, bytes, count);
}

static int wait_for(void *file) {
    sum.waits++;
    int answer = disk.sync(file);
    period++;
    return answer;
}

static void put(int file, uint32_t at, const void *bytes, uint32_t count) {
    if (device.write(device.files[file], at, bytes, count) != (int32_t)count)
        fail("a write failed", file);
}

static void wait_well(int file) {
    if (device.sync(device.files[file]))
        fail("a sync failed", file);
}

/* Commits a length in the slot whose turn it is: its gate is closed, the length written, and the gate opened. */
static void commit_in_pair(uint32_t length) {
    static const uint8_t closed = 0, open = 0xA5;
    static uint32_t turn;
    uint32_t gate = 8 + 8 * (turn++ % 2);
    uint8_t bytes[6] = {(uint8_t)length, (uint8_t)(length >> 8), (uint8_t)(length >> 16), (uint8_t)(length >> 24), 0, 0};
    put(FITREC_JOURNAL_FILE, gate, &closed, 1);
    wait_well(FITREC_JOURNAL_FILE);
    put(FITREC_JOURNAL_FILE, gate + 1, bytes, sizeof bytes);
    wait_well(FITREC_JOURNAL_FILE);
    put(FITREC_JOURNAL_FILE, gate, &open, 1);
    wait_well(FITREC_JOURNAL_FILE);
}

/* Carries out what a plan asks of the data file, but for its syncs. */
static void step(uint8_t answer) {
    if (answer)
        fail("a step was refused", answer);
    for (const struct fitrec_call *it = plan.calls; it < plan.calls + plan.count; it++) {
        if (it->kind == FITREC_WRITE && it->file == FITREC_DATA_FILE)
            put(it->file, (uint32_t)it->at, plan.bytes + it->start, it->count);
        else if (it->kind == FITREC_CUT && device.cut(device.files[it->file], (uint32_t)it->at))
            fail("a cut failed", it->file);
    }
}

static void call(enum fitrec_answer answer) {
    if (answer)
        fail("a call was refused", (int)answer);
}

int main(int count, char **words) {
    if (count != 3)
        fail("words are missing", count);
    int is_session = !strcmp(words[1], "session"), pair = !strcmp(words[1], "pair"), commits = 0;
    uint32_t every = (uint32_t)atoi(words[2]);
    struct fitrec_found found;
    if (disk_format() || disk_mount() || open_files(&disk, ""))
        fail("no disk", 0);
    device = disk, device.write = put_bytes, device.sync = wait_for;
    if (is_session) {
        call(fitrec_boot(&session, &device, 1000000000, &found));
        call(fitrec_begin(&session, 1000000000, 7, 2));
    } else {
        step(fitrec_start(&recorder, 0, 1000000000, 7, 2, &plan));
    }
    for (uint32_t k = 1; k <= SAMPLES; k++) {
        struct fitrec_sample sample = {.time = 1000000000 + k};
        sample.has = FITREC_HAS_POSITION | FITREC_HAS_ALTITUDE | FITREC_HAS_HEART_RATE | FITREC_HAS_CADENCE;
        sample.has |= FITREC_HAS_DISTANCE | FITREC_HAS_SPEED | FITREC_HAS_POWER | FITREC_HAS_TEMPERATURE;
        sample.lat = (int32_t)(566012345 + 100 * k), sample.lon = (int32_t)(102345678 - 50 * k), sample.altitude = (uint16_t)(2655 + k % 500);
        sample.heart_rate = (uint8_t)(100 + k % 80), sample.cadence = (uint8_t)(80 + k % 9), sample.distance = 7 * k;
        sample.speed = (uint16_t)(6000 + k % 500), sample.power = (uint16_t)(200 + k % 100), sample.temperature = (int8_t)(k % 30);
        if (is_session)
            call(fitrec_add(&session, &sample));
        else
            step(fitrec_add_sample(&recorder, &sample, &plan));
        if (k % every)
            continue;
        if (is_session)
            call(fitrec_store(&session));
        else
            step(fitrec_commit(&recorder, &plan)), wait_well(FITREC_DATA_FILE);
        if (pair)
            commit_in_pair(k);
        if (++commits == 2)
            memset(&sum, 0, sizeof sum); /* both slots are open from here on */
    }
    double of = commits - 2;
    printf("%.2f %.0f %.1f %.1f %.2f\n", sum.waits / of, sum.bytes / of, sum.sectors / of, sum.blocks / of, sum.erased / of);
    return 0;
}
