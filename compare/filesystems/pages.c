/* The bytes of the disk: those that are sure, and those that the kernel reads. */
#include "guest.h"
#include <sys/mman.h>
#include <sys/stat.h>

enum { PAGE = 4096 };

uint64_t disk_size;
static uint8_t *durable, *now;
static uint8_t *is_used;         /* for each page, whether it was ever written */
static uint8_t *may_differ;      /* for each page, whether they may differ there */
static uint32_t *differing;      /* the numbers of these pages */
static uint64_t count_of_differing;

static void put(uint8_t *disk, uint64_t at, const uint8_t *bytes, uint32_t len) {
    memcpy(disk + at, bytes, len);
    for (uint64_t page = at / PAGE; page * PAGE < at + len; page++)
        if (!may_differ[page])
            is_used[page] = may_differ[page] = 1, differing[count_of_differing++] = (uint32_t)page;
}

void put_durable(uint64_t at, const uint8_t *bytes, uint32_t len) { put(durable, at, bytes, len); }
void put_now(uint64_t at, const uint8_t *bytes, uint32_t len) { put(now, at, bytes, len); }

const uint8_t *now_at(uint64_t at) { return now + at; }

void reset_disk(void) {
    while (count_of_differing > 0) {
        uint64_t page = differing[--count_of_differing];
        memcpy(now + page * PAGE, durable + page * PAGE, PAGE);
        may_differ[page] = 0;
    }
}

/* Pages that were never written take no memory. */
void *pages(uint64_t size) {
    void *it = mmap(NULL, size, PROT_READ | PROT_WRITE, MAP_PRIVATE | MAP_ANONYMOUS | MAP_NORESERVE, -1, 0);
    if (it == MAP_FAILED)
        die("no memory");
    return it;
}

/* The disk as mkfs left it. */
void read_image(const char *image) {
    static uint8_t page[PAGE], zeros[PAGE];
    struct stat found;
    int file = open(image, O_RDONLY | O_CLOEXEC);
    if (file < 0 || fstat(file, &found))
        die("%s", image);
    disk_size = (uint64_t)found.st_size;
    durable = pages(disk_size), now = pages(disk_size);
    may_differ = pages(disk_size / PAGE), is_used = pages(disk_size / PAGE), differing = pages(disk_size / PAGE * 4);
    for (uint64_t at = 0; at < disk_size; at += PAGE) {
        if (read(file, page, PAGE) != PAGE)
            die("reading %s", image);
        if (memcmp(page, zeros, PAGE))
            put_durable(at, page, PAGE);
    }
    close(file);
    reset_disk();
}

/* Leaves what the kernel reads as an image. */
void keep_disk(const char *path) {
    int file = open(path, O_WRONLY | O_CREAT | O_TRUNC | O_CLOEXEC, 0644);
    if (file < 0 || ftruncate(file, (off_t)disk_size))
        die("%s", path);
    for (uint64_t at = 0; at < disk_size; at += PAGE)
        if (is_used[at / PAGE] && pwrite(file, now + at, PAGE, (off_t)at) != PAGE)
            die("writing %s", path);
    close(file);
}
