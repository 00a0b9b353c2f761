/* FatFs, over a card with sectors of 512 bytes. What is written when the power goes has some of its sectors. A write is kept when it returns;
   with CACHED it is kept by the next sync, and until then each of its sectors may be lost. */
#include "disk.h"
#include "volume.h"
#include "diskio.h"

#ifndef CACHED
#define CACHED 0
#endif
enum { SECTOR = 512, SECTORS = 80000, MOST = 1 << 16 };

static uint8_t area[SECTORS * SECTOR], kept[SECTORS * SECTOR];
static uint32_t unsure[MOST]; /* the sectors that were written and are not kept yet */
static uint32_t count_of_unsure;
FATFS volume;

static void keep_all(void) {
    while (count_of_unsure > 0) {
        uint32_t at = unsure[--count_of_unsure] * SECTOR;
        memcpy(kept + at, area + at, SECTOR);
    }
}

void disk_lose(void) {
    for (uint32_t k = 0; k < count_of_unsure; k++)
        if (chance(2))
            memcpy(area + unsure[k] * SECTOR, kept + unsure[k] * SECTOR, SECTOR);
    keep_all();
}

DRESULT disk_read(void *drive, BYTE *to, DWORD sector, UINT count) {
    (void)drive;
    memcpy(to, area + sector * SECTOR, count * SECTOR);
    return RES_OK;
}

DRESULT disk_write(void *drive, const BYTE *bytes, DWORD sector, UINT count) {
    enum power power = power_in(DISK_WRITE, sector * SECTOR, count * SECTOR);
    (void)drive;
    if (power == POWER_GONE)
        return RES_ERROR;
    memcpy(area + sector * SECTOR, bytes, count * SECTOR);
    if (count_of_unsure + count > MOST)
        fail("too many writes without a sync", 0);
    for (UINT k = 0; k < count; k++)
        unsure[count_of_unsure++] = sector + k;
    if (!CACHED && power == POWER_STAYS)
        keep_all();
    return power == POWER_STAYS ? RES_OK : RES_ERROR;
}

DRESULT disk_ioctl(void *drive, BYTE command, void *to) {
    (void)drive;
    switch (command) {
    case CTRL_SYNC:
        if (power_in(DISK_SYNC, 0, 0) != POWER_STAYS)
            return RES_ERROR;
        keep_all();
        return RES_OK;
    case GET_SECTOR_COUNT:
        *(DWORD *)to = SECTORS;
        return RES_OK;
    case GET_SECTOR_SIZE:
        *(WORD *)to = SECTOR;
        return RES_OK;
    case GET_BLOCK_SIZE:
        *(DWORD *)to = 1;
        return RES_OK;
    default:
        *(DSTATUS *)to = 0;
        return RES_OK;
    }
}

DWORD get_fattime(void) { return 0x58210000; }
void *ff_memalloc(UINT size) { return malloc(size); }
void ff_memfree(void *it) { free(it); }

int disk_format(void) {
    static uint8_t work[4096];
    FRESULT status = f_mkfs(&volume, FORMAT | FM_SFD, CLUSTER, work, sizeof work);
    keep_all();
    return -(int)status;
}

int disk_mount(void) {
    memset(&volume, 0, sizeof volume);
    return -(int)f_mount(&volume);
}
