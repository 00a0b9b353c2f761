/* littlefs, over flash. What is programmed when the power goes has some of its bits, and a block that is erased then any of its own. */
#include "disk.h"
#include "lfs.h"

enum { BLOCK = 4096, BLOCKS = 64, UNIT = 16, CACHE = 256 };

lfs_t littlefs;
static uint8_t area[BLOCKS * BLOCK], for_reads[CACHE], for_programs[CACHE], ahead[16];

static int read_block(const struct lfs_config *it, lfs_block_t block, lfs_off_t at, void *to, lfs_size_t count) {
    (void)it;
    memcpy(to, area + block * BLOCK + at, count);
    return 0;
}

static int program(const struct lfs_config *it, lfs_block_t block, lfs_off_t at, const void *bytes, lfs_size_t count) {
    enum power power = power_in(DISK_WRITE, block * BLOCK + at, count);
    (void)it;
    for (lfs_size_t k = 0; power != POWER_GONE && k < count; k++)
        area[block * BLOCK + at + k] &= (uint8_t)(((const uint8_t *)bytes)[k] | (power == POWER_GOES ? chance(256) : 0));
    return power == POWER_STAYS ? 0 : LFS_ERR_IO;
}

static int erase(const struct lfs_config *it, lfs_block_t block) {
    enum power power = power_in(DISK_ERASE, block * BLOCK, BLOCK);
    (void)it;
    for (int k = 0; power != POWER_GONE && k < BLOCK; k++)
        area[block * BLOCK + k] |= (uint8_t)(power == POWER_GOES ? chance(256) : 0xFF);
    return power == POWER_STAYS ? 0 : LFS_ERR_IO;
}

static int keep(const struct lfs_config *it) {
    (void)it;
    return 0;
}

static const struct lfs_config config = {.read = read_block, .prog = program, .erase = erase, .sync = keep, .read_size = UNIT, .prog_size = UNIT,
                                         .block_size = BLOCK, .block_count = BLOCKS, .block_cycles = 100, .cache_size = CACHE,
                                         .lookahead_size = sizeof ahead, .read_buffer = for_reads, .prog_buffer = for_programs,
                                         .lookahead_buffer = ahead};

int disk_format(void) {
    memset(area, 0xFF, sizeof area);
    return lfs_format(&littlefs, &config) || disk_mount();
}

int disk_mount(void) {
    memset(&littlefs, 0, sizeof littlefs);
    return lfs_mount(&littlefs, &config);
}

void disk_lose(void) {}
