/* Over FatFs, whose volume is mounted. */

#include "files.h"
#include "ff.h"
#include <stdio.h>

static struct open {
    FIL file;
    char path[256];
} files[2];

static int open_one(struct open *it) { return f_open(&it->file, it->path, FA_READ | FA_WRITE | FA_OPEN_ALWAYS); }

/* FatFs refuses a file after an error until it is opened again. */
static int fails(struct open *it) {
    f_close(&it->file);
    open_one(it);
    return -1;
}

static int32_t size_of(void *file) { return (int32_t)f_size(&((struct open *)file)->file); }

static int32_t read_bytes(void *file, uint32_t at, void *to, uint32_t count) {
    UINT done = 0;
    return f_lseek(file, at) || f_read(file, to, count, &done) ? fails(file) : (int32_t)done;
}

static int32_t write_bytes(void *file, uint32_t at, const void *from, uint32_t count) {
    UINT done = 0;
    return f_lseek(file, at) || f_write(file, from, count, &done) ? fails(file) : (int32_t)done;
}

/* A power cut inside an f_truncate may leave clusters free that the file still has. The next one fails on exFAT, and has the length all the
   same, once the file is closed. */
static int cut(void *file, uint32_t size) {
    if (f_lseek(file, size) || f_truncate(file))
        fails(file);
    return size_of(file) == (int32_t)size ? 0 : -1;
}

static int sync_file(void *file) { return f_sync(file) ? fails(file) : 0; }

int open_files(struct fitrec_device *device, const char *folder) {
    *device = (struct fitrec_device){size_of, read_bytes, write_bytes, cut, sync_file, {&files[0], &files[1]}, 0, 0};
    for (int k = 0; k < 2; k++) {
        struct open *it = &files[k];
        int len = snprintf(it->path, sizeof it->path, "%s/%s", folder, k ? "activity.frj" : "activity.fit");
        /* The sync keeps the name of a new file. */
        if (len >= (int)sizeof it->path || open_one(it) || f_sync(&it->file))
            return -1;
    }
    return 0;
}
