/* A disk of a small device, in memory, whose power goes inside one of its calls. A file system is over it (card.c, nor.c, raw.c), and one of
   examples/device over that. */

#include "../lives.h"

/* The file system's side: makes the disk new and formats it, mounts it, and takes what a power cut does not leave. Each answers 0, or less. */
int disk_format(void);
int disk_mount(void);
void disk_lose(void);

/* The other side (host.c, costs.c): whether the power stays in a call at this place and of so many bytes, goes in it, or is gone. */
enum disk_call { DISK_WRITE, DISK_ERASE, DISK_SYNC };
enum power { POWER_STAYS, POWER_GOES, POWER_GONE };
enum power power_in(enum disk_call kind, uint32_t at, uint32_t count);
