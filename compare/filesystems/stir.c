/* What else happens on the disk meanwhile: other files come, grow and go, the system writes back early, and time passes. */
#include "guest.h"
#include <sys/stat.h>

static void change_another_file(void) {
    static uint8_t junk[8192];
    char one[64], other[64];
    snprintf(one, sizeof one, MOUNTED "/other/n%u", chance(20));
    snprintf(other, sizeof other, MOUNTED "/other/n%u", chance(20));
    uint32_t what = chance(6);
    if (what == 3) {
        unlink(one);
    } else if (what == 4) {
        if (rename(one, other)) {}
    } else if (what == 5) {
        if (!mkdir(other, 0755))
            rmdir(other);
    } else {
        int file = open(one, O_WRONLY | O_CREAT | (what ? O_APPEND : O_TRUNC) | O_CLOEXEC, 0644);
        for (size_t k = 0; k < sizeof junk; k++)
            junk[k] = (uint8_t)chance(256);
        if (file < 0 || write(file, junk, 1 + chance(sizeof junk)) < 0 || (!chance(4) && fsync(file))) {}
        if (file >= 0)
            close(file);
    }
}

static void write_back(void) {
    int file = open(chance(2) ? FOLDER "/activity.fit" : FOLDER "/activity.frj", O_RDONLY | O_CLOEXEC);
    if (file < 0)
        return;
    sync_file_range(file, 0, 0, SYNC_FILE_RANGE_WRITE);
    close(file);
}

void stir(void) {
    if (number_of("still", 0))
        return;
    if (!chance(7))
        change_another_file();
    if (!chance(9))
        write_back();
    if (!chance(70))
        usleep(chance(40000));
    if (!chance(160)) {
        int all = open(MOUNTED, O_RDONLY | O_CLOEXEC);
        syncfs(all);
        close(all);
    }
}
