/* A raw area of flash, of which a byte can be programmed once after its block is erased, and the files of a recording over it. */

#ifndef FLASH_H
#define FLASH_H

#include <stdint.h>

enum { FLASH_BLOCK = 4096, FLASH_DATA = 64, FLASH_BLOCKS = FLASH_DATA + 3 };

/* Yours: where the processor reads the area, and how bytes are programmed and a block is erased. Both answer 0 once that is kept. */
extern const uint8_t *const flash_area;
int flash_program(uint32_t at, const void *bytes, uint32_t count);
int flash_erase(uint32_t block);

#endif
