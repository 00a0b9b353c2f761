/* The two files of a recording as the five functions of a device. One of these sources has them: files.c on a system with files, fatfs.c,
   littlefs.c, and flash.c over a raw area of flash. */

#ifndef FILES_H
#define FILES_H

#include "fitrec_device.h"

/* Opens both files of this folder, and makes those that are missing. Answers 0, or -1 where one cannot be opened, or on a system with files
   another program has it locked. Call it at each start, once the file system is mounted; flash.c needs no folder. */
int open_files(struct fitrec_device *device, const char *folder);

#endif
