/* Over littlefs, which is mounted. It takes no memory from the heap. */

#include "files.h"
#include "lfs.h"
#include <stdio.h>

#ifndef LITTLEFS_CACHE
#define LITTLEFS_CACHE 256 /* the cache_size of the file system */
#endif

/* Yours. */
extern lfs_t littlefs;

static struct open {
    lfs_file_t file;
    char path[256];
    uint8_t cache[LITTLEFS_CACHE];
    struct lfs_file_config config;
} files[2];

static int open_one(struct open *it) {
    it->config.buffer = it->cache;
    return lfs_file_opencfg(&littlefs, &it->file, it->path, LFS_O_RDWR | LFS_O_CREAT, &it->config);
}

/* After an error littlefs answers a sync with 0, and keeps nothing, until the file is opened again. */
static int fails(struct open *it) {
    lfs_file_close(&littlefs, &it->file);
    open_one(it);
    return -1;
}

static int seeks(void *file, uint32_t at) { return lfs_file_seek(&littlefs, file, (lfs_soff_t)at, LFS_SEEK_SET) >= 0; }

static int32_t size_of(void *file) { return lfs_file_size(&littlefs, file); }

static int32_t read_bytes(void *file, uint32_t at, void *to, uint32_t count) {
    int32_t done = seeks(file, at) ? lfs_file_read(&littlefs, file, to, count) : -1;
    return done < 0 ? fails(file) : done;
}

static int32_t write_bytes(void *file, uint32_t at, const void *from, uint32_t count) {
    int32_t done = seeks(file, at) ? lfs_file_write(&littlefs, file, from, count) : -1;
    return done < 0 ? fails(file) : done;
}

static int cut(void *file, uint32_t size) { return lfs_file_truncate(&littlefs, file, size) ? fails(file) : 0; }

static int sync_file(void *file) { return lfs_file_sync(&littlefs, file) ? fails(file) : 0; }

int open_files(struct fitrec_device *device, const char *folder) {
    *device = (struct fitrec_device){size_of, read_bytes, write_bytes, cut, sync_file, {&files[0], &files[1]}, 0, 0};
    for (int k = 0; k < 2; k++) {
        struct open *it = &files[k];
        int len = snprintf(it->path, sizeof it->path, "%s/%s", folder, k ? "activity.frj" : "activity.fit");
        if (len >= (int)sizeof it->path || open_one(it))
            return -1;
    }
    return 0;
}
