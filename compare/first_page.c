/* What the code at the beginning of docs/EMBEDDING.md (PAGE) is compiled with, for compare/device.py: a FatFs over memory, and what else a device
   knows. It records a ride in which a sync fails, and the rest of it after that. It prints the least and the most samples that the file has. */

#include <stdint.h>
#include <stdio.h>
#include <string.h>

typedef unsigned UINT;

static struct content {
    uint8_t bytes[1 << 16];
    uint32_t len;
} contents[2];

typedef struct {
    struct content *of;
    uint32_t at;
} FIL;

enum { FA_READ = 1, FA_WRITE = 2, FA_OPEN_ALWAYS = 4 };

static int syncs, fails_at;

static int f_open(FIL *file, const char *path, int how) {
    file->of = &contents[strcmp(path, "/activity.fit") != 0];
    file->at = 0;
    return how != (FA_READ | FA_WRITE | FA_OPEN_ALWAYS);
}

static int f_close(FIL *file) {
    (void)file;
    return 0;
}

static uint32_t f_size(const FIL *file) { return file->of->len; }

/* As FatFs does it, this lengthens a file that is open for writing. */
static int f_lseek(FIL *file, uint32_t at) {
    file->at = at;
    file->of->len = at > file->of->len ? at : file->of->len;
    return at > sizeof file->of->bytes;
}

static int f_read(FIL *file, void *to, UINT count, UINT *done) {
    *done = file->of->len - file->at < count ? file->of->len - file->at : count;
    memcpy(to, file->of->bytes + file->at, *done);
    file->at += *done;
    return 0;
}

static int f_write(FIL *file, const void *from, UINT count, UINT *done) {
    if (file->at + count > sizeof file->of->bytes)
        return 1;
    memcpy(file->of->bytes + file->at, from, count);
    *done = count;
    file->at += count;
    file->of->len = file->at > file->of->len ? file->at : file->of->len;
    return 0;
}

static int f_truncate(FIL *file) {
    file->of->len = file->at;
    return 0;
}

static int f_sync(FIL *file) {
    (void)file;
    return ++syncs == fails_at;
}

#include "../examples/device/fatfs.c"

static uint32_t clock_now = 1000000000;
static unsigned samples, most;

static uint32_t seconds(void) { return clock_now++; }
static int rides_on(void) { return samples < most; }

static uint8_t heart_rate(void) {
    samples++;
    return (uint8_t)(90 + samples % 80);
}

#include PAGE

int main(int count, char **words) {
    if (count != 2)
        return 2;
    fails_at = 50, most = 100;
    if (start() != FITREC_DEVICE)
        return 3;
    unsigned before = samples;
    clock_now = 0, most = samples + 20;
    if (start() != FITREC_OK || start() != FITREC_NOT_NOW)
        return 4;
    FILE *file = fopen(words[1], "wb");
    if (!file || fwrite(contents[0].bytes, 1, contents[0].len, file) != contents[0].len || fclose(file))
        return 2;
    printf("%u %u\n", before - 1 + 20, samples);
    return 0;
}
