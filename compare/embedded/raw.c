/* Raw flash, without a file system. What is programmed when the power goes has some of its bits, and a block that is erased then any of its
   own. */
#include "../../examples/device/flash.h"
#include "disk.h"

static uint8_t area[FLASH_BLOCKS * FLASH_BLOCK];
const uint8_t *const flash_area = area;

int flash_program(uint32_t at, const void *bytes, uint32_t count) {
    enum power power = power_in(DISK_WRITE, at, count);
    for (uint32_t k = 0; power != POWER_GONE && k < count; k++) {
        if (area[at + k] != 0xFF)
            fail("a byte of flash was programmed twice", (int)at);
        area[at + k] &= (uint8_t)(((const uint8_t *)bytes)[k] | (power == POWER_GOES ? chance(256) : 0));
    }
    return power == POWER_STAYS ? 0 : -1;
}

int flash_erase(uint32_t block) {
    enum power power = power_in(DISK_ERASE, block * FLASH_BLOCK, FLASH_BLOCK);
    for (uint32_t k = 0; power != POWER_GONE && k < FLASH_BLOCK; k++)
        area[block * FLASH_BLOCK + k] |= (uint8_t)(power == POWER_GOES ? chance(256) : 0xFF);
    return power == POWER_STAYS ? 0 : -1;
}

int disk_format(void) {
    memset(area, 0xFF, sizeof area);
    return 0;
}

int disk_mount(void) { return 0; }
void disk_lose(void) {}
