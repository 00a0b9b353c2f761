/* Lives of a device over a file system on a disk in memory (disk.h), whose power goes in a call of that disk:

     host SEED COUNT FIRST OTHER FOLDER

   The power goes within so many calls in the first life of a device, and in others. The lines are those of `session cuts` (compare/session.c);
   the last one has the number of power cuts. */
#include "../../examples/device/files.h"
#include "disk.h"

#ifndef HAS_NO_SYNC
#define HAS_NO_SYNC 0 /* a device whose syncs do nothing */
#endif

static long left, cuts;
static int is_dark;

enum power power_in(enum disk_call kind, uint32_t at, uint32_t count) {
    (void)kind, (void)at, (void)count;
    if (is_dark)
        return POWER_GONE;
    is_dark = left > 0 && --left == 0;
    cuts += is_dark;
    return is_dark ? POWER_GOES : POWER_STAYS;
}

void disk_begin(uint64_t seed) {
    (void)seed;
    left = is_dark = 0;
    if (disk_format())
        fail("format", 0);
}

void disk_restart(void) {
    if (is_dark)
        disk_lose();
    left = is_dark = 0;
}

void disk_cut(long calls) { left = calls; }

static int keeps_nothing(void *file) {
    (void)file;
    return 0;
}

int disk_open(struct fitrec_device *all) {
    int status = disk_mount() || open_files(all, "");
    all->sync = HAS_NO_SYNC ? keeps_nothing : all->sync;
    return status;
}

int disk_has_failed(void) { return is_dark; }

int main(int count, char **words) {
    if (count != 6)
        fail("words are missing", count);
    cut_power(strtoull(words[1], NULL, 10), atoi(words[2]), words[5], (uint32_t)atoi(words[3]), (uint32_t)atoi(words[4]));
    printf("cuts: %ld\n", cuts);
    return 0;
}
