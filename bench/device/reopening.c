/* How many instructions a boot takes that finds a ride of three hours without its end, on an emulated processor: a sample of nine fields a
   second, stored every minute. Both files are in memory. */

#include "fitrec_device.h"
#include <stdio.h>
#include <string.h>

enum { SAMPLES = 3 * 3600, MOST = 1 << 19 };

static struct file {
    uint8_t bytes[MOST];
    uint32_t len;
} files[2];

static int32_t size_of(void *file) { return (int32_t)((struct file *)file)->len; }

static int32_t read_bytes(void *file, uint32_t at, void *to, uint32_t count) {
    struct file *it = file;
    uint32_t left = at < it->len ? it->len - at : 0, done = left < count ? left : count;
    memcpy(to, it->bytes + at, done);
    return (int32_t)done;
}

static int32_t write_bytes(void *file, uint32_t at, const void *from, uint32_t count) {
    struct file *it = file;
    if (at > it->len || at + count > MOST)
        return -1;
    memcpy(it->bytes + at, from, count);
    it->len = at + count > it->len ? at + count : it->len;
    return (int32_t)count;
}

static int cut(void *file, uint32_t size) {
    ((struct file *)file)->len = size;
    return 0;
}

static int sync_file(void *file) {
    (void)file;
    return 0;
}

/* The instructions so far. Where they are not counted the clock of a timer is, of which a tick takes 40 of them (-icount shift=0). */
#ifdef __riscv
static void count_on(void) {}

static uint64_t instructions(void) {
    uint32_t low, high, again;
    do
        __asm volatile(".option push\n\t.option arch, +zicsr\n\tcsrr %0, minstreth\n\tcsrr %1, minstret\n\tcsrr %2, minstreth\n\t.option pop"
                       : "=r"(high), "=r"(low), "=r"(again));
    while (high != again);
    return (uint64_t)high << 32 | low;
}
#else
static volatile uint32_t *const timer = (volatile uint32_t *)0x40000000; /* of the boards mps2: control, value, reload */

static void count_on(void) {
    timer[1] = timer[2] = UINT32_MAX;
    timer[0] = 1;
}

static uint64_t instructions(void) { return (uint64_t)(UINT32_MAX - timer[1]) * 40; }
#endif

static struct fitrec_session session;
static struct fitrec_found found;
static const struct fitrec_device device = {size_of, read_bytes, write_bytes, cut, sync_file, {&files[0], &files[1]}, 0};

int main(void) {
    if (fitrec_boot(&session, &device, 1000000000, &found) || fitrec_begin(&session, 1000000000, 7, 2))
        return 1;
    for (uint32_t k = 1; k <= SAMPLES; k++) {
        struct fitrec_sample sample = {.time = 1000000000 + k};
        sample.has = FITREC_HAS_POSITION | FITREC_HAS_ALTITUDE | FITREC_HAS_HEART_RATE | FITREC_HAS_CADENCE;
        sample.has |= FITREC_HAS_DISTANCE | FITREC_HAS_SPEED | FITREC_HAS_POWER | FITREC_HAS_TEMPERATURE;
        sample.lat = (int32_t)(566012345 + 100 * k), sample.lon = (int32_t)(102345678 - 50 * k), sample.altitude = (uint16_t)(2655 + k % 500);
        sample.heart_rate = (uint8_t)(100 + k % 80), sample.cadence = (uint8_t)(80 + k % 9), sample.distance = 7 * k;
        sample.speed = (uint16_t)(6000 + k % 500), sample.power = (uint16_t)(200 + k % 100), sample.temperature = (int8_t)(k % 30);
        if (fitrec_add(&session, &sample) || (k % 60 == 0 && fitrec_store(&session)))
            return 1;
    }
    count_on();
    uint64_t before = instructions();
    if (fitrec_boot(&session, &device, 1000020000, &found) || found.finding != FITREC_FOUND_RIDING || found.state.time != 1000000000 + SAMPLES)
        return 1;
    printf("a boot over %u bytes: %u thousand instructions\n", (unsigned)files[0].len, (unsigned)((instructions() - before) / 1000));
    return 0;
}
