#include "faulty.h"
#include <string.h>

uint32_t faulty_chance(struct faulty_disk *disk, uint32_t below) {
    disk->seed = disk->seed * 6364136223846793005u + 1442695040888963407u;
    return (uint32_t)(disk->seed >> 33) % below;
}

static void keep_all(struct faulty_file *it) {
    memcpy(it->kept, it->now, it->len);
    memset(it->written, 0, it->greatest);
    it->kept_len = it->least = it->greatest = it->len;
}

static void lose_power(struct faulty_file *it) {
    uint32_t len = it->least + faulty_chance(it->disk, it->greatest - it->least + 1);
    for (uint32_t at = 0; at < len; at++) {
        uint8_t old = at < it->kept_len ? it->kept[at] : 0, any[] = {old, it->now[at], (uint8_t)faulty_chance(it->disk, 256)};
        it->now[at] = it->written[at] || at >= it->kept_len ? any[faulty_chance(it->disk, 3)] : old;
    }
    it->len = len;
    keep_all(it);
}

/* Whether this call goes wrong in one of these ways, and in which. */
static enum faulty_way wrong(struct faulty_disk *disk, enum faulty_way first, enum faulty_way last, int kind) {
    if (disk->interrupt)
        disk->interrupt();
    int goes = disk->way >= first && disk->way <= last && ++disk->calls[kind] == disk->at;
    disk->is_wrong |= goes;
    return goes ? disk->way : FAULTY_NOT;
}

/* Whether the power goes in this call, which is done in part. */
static int goes_dark(struct faulty_disk *disk) {
    disk->is_dark |= disk->power > 0 && --disk->power == 0;
    return disk->is_dark;
}

static void put(struct faulty_file *it, uint32_t at, const void *from, uint32_t count) {
    memcpy(it->now + at, from, count);
    memset(it->written + at, 1, count);
    it->len = at + count > it->len ? at + count : it->len;
    it->greatest = it->len > it->greatest ? it->len : it->greatest;
}

static int32_t size_of(void *file) {
    struct faulty_file *it = file;
    switch (wrong(it->disk, FAULTY_SIZE_FAILS, FAULTY_SIZE_GREATER, FITREC_SIZE)) {
    case FAULTY_SIZE_FAILS: return -1;
    case FAULTY_SIZE_OF_NOTHING: return it->len ? 0 : 7;
    case FAULTY_SIZE_GREATER: return (int32_t)it->len + 1;
    default: return it->disk->is_dark ? -1 : (int32_t)it->len;
    }
}

static int32_t read_bytes(void *file, uint32_t at, void *to, uint32_t count) {
    struct faulty_file *it = file;
    uint32_t left = at < it->len ? it->len - at : 0, done = left < count ? left : count;
    enum faulty_way way = wrong(it->disk, FAULTY_READ_FAILS, FAULTY_READ_MORE, FITREC_READ);
    memcpy(to, it->now + (done ? at : 0), done);
    switch (way) {
    case FAULTY_READ_FAILS: return -5;
    case FAULTY_READ_NOTHING: return done ? 0 : 1;
    case FAULTY_READ_LESS: return (int32_t)done - 1;
    case FAULTY_READ_MORE: return (int32_t)done + 1;
    default: return it->disk->is_dark ? -1 : (int32_t)done;
    }
}

static int32_t write_bytes(void *file, uint32_t at, const void *from, uint32_t count) {
    struct faulty_file *it = file;
    enum faulty_way way = it->disk->is_dark ? FAULTY_NOT : wrong(it->disk, FAULTY_WRITE_FAILS, FAULTY_WRITE_APPENDED, FITREC_WRITE);
    it->disk->is_misused |= at > it->len;
    if (it->disk->is_dark || at > FAULTY_MOST || count > FAULTY_MOST - at || way == FAULTY_WRITE_FAILS)
        return -1;
    switch (way) {
    case FAULTY_WRITE_NOTHING: return 0;
    case FAULTY_WRITE_LESS: put(it, at, from, count - 1); return (int32_t)count - 1;
    case FAULTY_WRITE_LOST: return at + count > it->len ? (int32_t)count : -1;
    case FAULTY_WRITE_APPENDED:
        if (at == it->len || count > FAULTY_MOST - it->len)
            return -1;
        put(it, it->len, from, count);
        return (int32_t)count;
    default: put(it, at, from, count); return goes_dark(it->disk) ? -1 : (int32_t)count;
    }
}

static int cut(void *file, uint32_t size) {
    struct faulty_file *it = file;
    enum faulty_way way = it->disk->is_dark ? FAULTY_NOT : wrong(it->disk, FAULTY_CUT_FAILS, FAULTY_CUT_LOST, FITREC_CUT);
    it->disk->is_misused |= size > it->len;
    if (it->disk->is_dark || size > FAULTY_MOST || way == FAULTY_CUT_FAILS)
        return -1;
    if (way == FAULTY_CUT_LOST)
        return size < it->len ? 0 : -1;
    it->len = size;
    it->least = size < it->least ? size : it->least;
    it->greatest = size > it->greatest ? size : it->greatest;
    return goes_dark(it->disk) ? -1 : 0;
}

static int sync_file(void *file) {
    struct faulty_file *it = file;
    if (it->disk->is_dark || wrong(it->disk, FAULTY_SYNC_FAILS, FAULTY_SYNC_FAILS, FITREC_SYNC))
        return -1;
    int is_last = goes_dark(it->disk);
    if (!it->disk->keeps_nothing && (!is_last || faulty_chance(it->disk, 2)))
        keep_all(it);
    return is_last ? -1 : 0;
}

void faulty_hold(struct faulty_file *file, const void *bytes, uint32_t len) {
    memmove(file->now, bytes, len);
    file->greatest = FAULTY_MOST;
    file->len = len;
    keep_all(file);
}

void faulty_begin(struct faulty_disk *disk, struct fitrec_device *device) {
    *device = (struct fitrec_device){size_of, read_bytes, write_bytes, cut, sync_file, {&disk->files[0], &disk->files[1]}, 0, 0};
    memset(disk, 0, offsetof(struct faulty_disk, files));
    for (int k = 0; k < 2; k++) {
        disk->files[k].disk = disk;
        faulty_hold(&disk->files[k], "", 0);
    }
}

void faulty_restart(struct faulty_disk *disk) {
    for (int k = 0; disk->is_dark && k < 2; k++)
        lose_power(&disk->files[k]);
    disk->power = disk->is_dark = disk->is_wrong = 0;
    disk->way = FAULTY_NOT;
}
