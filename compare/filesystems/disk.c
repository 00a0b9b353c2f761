/* The disk: /dev/nbd0, served from memory. It does what a disk may do: of requests that wait together it does the flushes first. */
#include "guest.h"
#include <arpa/inet.h>
#include <endian.h>
#include <linux/fs.h>
#include <linux/nbd.h>
#include <poll.h>
#include <pthread.h>
#include <sched.h>
#include <sys/ioctl.h>
#include <sys/mman.h>
#include <sys/socket.h>
#include <sys/uio.h>

enum { MOST = 64 };

struct log *logging;
static int device, served;
static uint8_t waiting[1 << 20]; /* what was read of requests, of which begin to end are not taken yet */
static size_t begin, end;
static pthread_mutex_t gate = PTHREAD_MUTEX_INITIALIZER;

struct request {
    struct nbd_request head;
    uint8_t *bytes;
    int is_done;
};

static void append(struct entry entry) {
    if (!logging)
        return;
    if (logging->count == logging->room) {
        logging->room = 2 * logging->room + 1024;
        logging->entry = realloc(logging->entry, logging->room * sizeof entry);
        if (!logging->entry)
            die("no memory");
    }
    logging->entry[logging->count++] = entry;
}

void mark(enum type type, int number) {
    pthread_mutex_lock(&gate);
    append((struct entry){.type = type, .number = number});
    pthread_mutex_unlock(&gate);
}

/* What waits is read at once, since each call of a guest takes long. */
static void receive(void *to, size_t count) {
    while (count > 0) {
        if (begin == end) {
            ssize_t more = read(served, waiting, sizeof waiting);
            if (more <= 0)
                die("the disk reads");
            begin = 0, end = (size_t)more;
        }
        size_t part = end - begin < count ? end - begin : count;
        memcpy(to, waiting + begin, part);
        to = (uint8_t *)to + part, count -= part, begin += part;
    }
}

static void answer(struct nbd_reply *reply, const uint8_t *bytes, size_t len) {
    struct iovec parts[] = {{reply, sizeof *reply}, {(void *)bytes, len}};
    if (writev(served, parts, 2) != (ssize_t)(sizeof *reply + len))
        die("the disk answers");
}

static uint32_t command(const struct request *it) { return ntohl(it->head.type) & 0xffff; }

static void serve(struct request *it) {
    struct nbd_reply reply = {.magic = htonl(NBD_REPLY_MAGIC)};
    uint64_t at = be64toh(it->head.from);
    uint32_t len = ntohl(it->head.len);
    memcpy(reply.handle, it->head.handle, sizeof reply.handle);
    pthread_mutex_lock(&gate);
    if (command(it) == NBD_CMD_FLUSH)
        append((struct entry){.type = FLUSH});
    if (command(it) == NBD_CMD_WRITE) {
        put_now(at, it->bytes, len);
        append((struct entry){WRITE, ntohl(it->head.type) >> 16 & 1, 0, len, at, it->bytes});
    }
    if (!logging)
        free(it->bytes);
    pthread_mutex_unlock(&gate);
    answer(&reply, now_at(at), command(it) == NBD_CMD_READ ? len : 0);
    it->is_done = 1;
}

static void take(struct request *it) {
    *it = (struct request){.is_done = 0};
    receive(&it->head, sizeof it->head);
    if (command(it) == NBD_CMD_WRITE) {
        it->bytes = malloc(ntohl(it->head.len));
        receive(it->bytes, ntohl(it->head.len));
    }
}

static int more_wait(void) {
    struct pollfd it = {.fd = served, .events = POLLIN};
    if (begin < end)
        return 1;
    sched_yield();
    return poll(&it, 1, 0) > 0;
}

static void *serve_all(void *unused) {
    static struct request requests[MOST];
    for (;;) {
        int count = 0;
        do
            take(&requests[count++]);
        while (count < MOST && more_wait());
        for (int k = 0; k < count; k++)
            if (command(&requests[k]) == NBD_CMD_FLUSH)
                serve(&requests[k]);
        for (int k = 0; k < count; k++)
            if (!requests[k].is_done)
                serve(&requests[k]);
    }
    return unused;
}

static void *attach(void *unused) {
    ioctl(device, NBD_DO_IT);
    return unused;
}

void open_disk(void) {
    int ends[2];
    device = open("/dev/nbd0", O_RDWR | O_CLOEXEC);
    if (device < 0 || socketpair(AF_UNIX, SOCK_STREAM | SOCK_CLOEXEC, 0, ends))
        die("the disk");
    served = ends[1];
    if (ioctl(device, NBD_SET_BLKSIZE, 512L) || ioctl(device, NBD_SET_SIZE_BLOCKS, disk_size / 512) || ioctl(device, NBD_SET_SOCK, ends[0]) ||
        ioctl(device, NBD_SET_FLAGS, (long)(NBD_FLAG_HAS_FLAGS | NBD_FLAG_SEND_FLUSH | NBD_FLAG_SEND_FUA)))
        die("/dev/nbd0");
    pthread_t thread;
    pthread_create(&thread, NULL, serve_all, NULL);
    pthread_create(&thread, NULL, attach, NULL);
    usleep(100000);
}

/* The number of pages of the disk that the kernel has in its memory. */
static uint64_t cached(void) {
    uint64_t count = 0;
    static unsigned char *is_there;
    if (!is_there)
        is_there = pages(disk_size / 4096);
    void *map = mmap(NULL, disk_size, PROT_READ, MAP_SHARED, device, 0);
    if (map == MAP_FAILED || mincore(map, disk_size, is_there))
        die("mincore");
    for (uint64_t k = 0; k < disk_size / 4096; k++)
        count += is_there[k] & 1;
    munmap(map, disk_size);
    return count;
}

void forget_disk(void) {
    for (int times = 0; times < 1000; times++) {
        if (ioctl(device, BLKFLSBUF))
            die("BLKFLSBUF");
        if (!cached())
            return;
        usleep(1000);
    }
    die("pages of the disk stay in memory");
}
