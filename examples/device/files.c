#include "files.h"
#include <errno.h>
#include <fcntl.h>
#include <stdio.h>
#include <sys/file.h>
#include <sys/stat.h>
#include <unistd.h>

/* Makes a call again where a signal interrupted it. */
#define AGAIN(call)                                                                                                                        \
    while ((call) < 0 && errno == EINTR)                                                                                                   \
    continue

static int open_again(const char *path, int flags) {
    int file;
    AGAIN(file = open(path, flags | O_CLOEXEC, 0666));
    return file;
}

static int32_t size_of(void *file) {
    struct stat found;
    return fstat(*(int *)file, &found) || found.st_size > INT32_MAX ? -1 : (int32_t)found.st_size;
}

static int32_t read_bytes(void *file, uint32_t at, void *to, uint32_t count) {
    uint32_t done = 0;
    for (ssize_t more = 1; more > 0 && done < count; done += (uint32_t)more) {
        AGAIN(more = pread(*(int *)file, (char *)to + done, count - done, at + done));
        if (more < 0)
            return -1;
    }
    return (int32_t)done;
}

static int32_t write_bytes(void *file, uint32_t at, const void *from, uint32_t count) {
    uint32_t done = 0;
    for (ssize_t more = 1; more > 0 && done < count; done += (uint32_t)more) {
        AGAIN(more = pwrite(*(int *)file, (const char *)from + done, count - done, at + done));
        if (more < 0)
            return -1;
    }
    return (int32_t)done;
}

static int cut(void *file, uint32_t size) {
    int answer;
    AGAIN(answer = ftruncate(*(int *)file, size));
    return answer;
}

static int sync_file(void *file) {
    int answer;
    AGAIN(answer = fsync(*(int *)file));
    return answer;
}

/* Opens the folder's file, makes it if it is missing, and locks it: fitrec and other hosts then leave it alone. */
static int open_one(const char *folder, const char *name) {
    char path[4096];
    if (snprintf(path, sizeof path, "%s/%s", folder, name) >= (int)sizeof path)
        return -1;
    int answer, file = open_again(path, O_RDWR | O_CREAT);
    AGAIN(answer = flock(file, LOCK_EX | LOCK_NB));
    return answer ? -1 : file;
}

int open_files(struct fitrec_device *device, const char *folder) {
    static int files[2];
    files[0] = open_one(folder, "activity.fit");
    files[1] = open_one(folder, "activity.frj");
    *device = (struct fitrec_device){size_of, read_bytes, write_bytes, cut, sync_file, {&files[0], &files[1]}, 0, 0};
    int opened = open_again(folder, O_RDONLY);
    /* The names are kept too. */
    int kept = opened >= 0 && sync_file(&opened) == 0;
    if (opened >= 0)
        close(opened);
    return kept && files[0] >= 0 && files[1] >= 0 ? 0 : -1;
}
