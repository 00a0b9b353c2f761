/* Where the guest starts: it boots, records the story that the setting `mode` names, and judges the disks that power cuts may leave of it.
 * A new story is declared in guest.h and chosen in `main`. */
#include "guest.h"
#include <malloc.h>
#include <sys/mount.h>
#include <sys/reboot.h>
#include <sys/stat.h>
#include <sys/syscall.h>

int mount_disk(int is_read_only) {
    return mount("/dev/nbd0", MOUNTED, setting("fs", "ext4"), is_read_only ? MS_RDONLY : 0, setting("options", NULL));
}

void unmount_disk(void) {
    for (int times = 0; umount2(MOUNTED, 0); times++)
        if (errno != EBUSY || times > 200 || usleep(5000))
            die("umount");
}

static void record(const struct story *story, struct log *recording) {
    logging = recording;
    if (mount_disk(0) || mkdir(MOUNTED "/other", 0755) || mkdir(FOLDER, 0755))
        die("mount");
    /* The folder was there before the disk was mounted, or it was made just now. */
    if (strcmp(setting("folder", "old"), "fresh")) {
        unmount_disk();
        forget_disk();
        if (mount_disk(0))
            die("mount");
    }
    story->record();
    unmount_disk();
    logging = NULL;
}

static void put(const char *path, const char *words) {
    int file = open(path, O_WRONLY | O_CLOEXEC);
    if (file < 0 || write(file, words, strlen(words)) < 0)
        die("%s", path);
    close(file);
}

static void boot(void) {
    mount("dev", "/dev", "devtmpfs", 0, NULL);
    int console = open("/dev/console", O_RDWR);
    dup2(console, 0), dup2(console, 1), dup2(console, 2);
    setvbuf(stdout, NULL, _IOLBF, 0);
    if (mount("proc", "/proc", "proc", 0, NULL) || mount("run", "/run", "tmpfs", 0, NULL) || mkdir(MOUNTED, 0755) || mkdir(FOUND, 0755))
        die("boot");
    /* All else of this system can only be read. */
    if (mount("none", FOUND, "hostfs", 0, setting("found", "")))
        die("the folder for disks");
    struct bytes list = read_file("%s/modules", setting("share", ""));
    for (char *path = strtok((char *)list.at, "\n"); path; path = strtok(NULL, "\n")) {
        int file = open(path, O_RDONLY | O_CLOEXEC);
        if (syscall(SYS_finit_module, file, "", 0))
            die("%s", path);
        close(file);
    }
    /* The system writes back soon, if at all, and says only what this process says. */
    put("/proc/sys/vm/dirty_expire_centisecs", "10");
    put("/proc/sys/vm/dirty_writeback_centisecs", setting("writeback", "5"));
    put("/proc/sys/kernel/panic_on_oops", "1");
    put("/proc/sys/kernel/printk", "1");
}

int main(void) {
    /* Memory that was freed stays, since a new page takes long here. */
    mallopt(M_MMAP_THRESHOLD, 1 << 30), mallopt(M_TRIM_THRESHOLD, 1 << 30), mallopt(M_ARENA_MAX, 1);
    boot();
    dice ^= (uint64_t)number_of("seed", 1) * 0x9E3779B97F4A7C15u;
    const char *mode = setting("mode", "rules"), *promised = setting("promise", NULL);
    const struct story *story = !strcmp(mode, "rules") ? &rules : !strcmp(mode, "ride") ? &ride : &saves;
    read_image(setting("image", ""));
    open_disk();
    if (promised) {
        set_promise(promised);
        judge_one(story);
    } else {
        static struct log recording;
        record(story, &recording);
        reset_disk();
        try_all(story, &recording);
    }
    fflush(stdout);
    usleep(100000);
    reboot(RB_POWER_OFF);
}
