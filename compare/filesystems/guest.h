/* The guest: the one process of a small Linux (user-mode Linux), as its rooms see one another.
 *
 * It serves a block device from memory and logs what the kernel writes and flushes there (disk.c), while something is recorded on a real
 * file system: a ride by the program (ride.c), files that `fitrec save` replaces (saves.c), or writes and syncs of its own (rules.c), with
 * other work beside them (stir.c). Then it builds the disks that a power cut may leave at each place of the log (cut.c), mounts each by
 * the kernel's own driver, and lets the same room judge what is there (states.c).
 *
 * The log has one order: a step is asked, what the disk received for it follows, then the step is answered. */
#define _GNU_SOURCE
#include <errno.h>
#include <fcntl.h>
#include <stdint.h>
#include <stdio.h>
#include <stdlib.h>
#include <string.h>
#include <unistd.h>

#define MOUNTED "/run/disk"
#define FOUND "/run/found"
#define FOLDER MOUNTED "/ride"

enum type { WRITE, FLUSH, ASKED, ANSWERED };

struct entry {
    enum type type;
    int is_sure;      /* of a write: it was asked to be durable once it is answered (FUA) */
    int number;       /* of a step */
    uint32_t len;
    uint64_t at;
    uint8_t *bytes;
};

struct log {
    struct entry *entry;
    size_t count, room;
};

struct bytes {
    uint8_t *at;      /* null: there is none */
    size_t len;
};

/* What is recorded and judged. */
struct story {
    void (*record)(void);
    void (*follow)(const struct entry *step);             /* a step was asked or answered, before the power goes */
    void (*judge)(int again, int is_read_only);           /* what is mounted; `again`: 1 after a second cut, 2 if it came after the repair */
};
extern const struct story rules, ride, saves;

/* tools.c */
extern uint64_t dice;
uint32_t chance(uint32_t below);
void die(const char *format, ...);
const char *setting(const char *name, const char *otherwise);
long number_of(const char *name, long otherwise);
struct bytes read_file(const char *format, ...);
int is_same(struct bytes one, struct bytes other);
int start(int in, int out, const char *command, const char *one, const char *other);
int run(char line[512], const char *command, const char *one, const char *other);

/* pages.c */
extern uint64_t disk_size;
void *pages(uint64_t size);
void read_image(const char *path);
void put_durable(uint64_t at, const uint8_t *bytes, uint32_t len);   /* this is sure */
void put_now(uint64_t at, const uint8_t *bytes, uint32_t len);       /* the kernel reads this */
const uint8_t *now_at(uint64_t at);
void reset_disk(void);                   /* the kernel reads what is sure */
void keep_disk(const char *path);

/* disk.c */
extern struct log *logging;              /* what is logged to, or null */
void open_disk(void);
void forget_disk(void);                  /* the kernel keeps nothing of the disk in its memory */
void mark(enum type type, int number);

/* cut.c */
enum { NOTHING, ALL, SOME, SECTORS, BUT_ONE, ONLY_ONE, FIRST, KINDS, AIMED };
extern const char *const kinds[];
void settle(const struct log *log, size_t from, size_t to);
void cut(const struct log *log, size_t from, size_t to, int kind);
size_t pending(const struct log *log, size_t from, size_t to);

/* stir.c */
void stir(void);

/* states.c */
void wrong(const char *format, ...);     /* what a judge finds */
void try_all(const struct story *story, const struct log *recording);
void judge_one(const struct story *story);

/* main.c */
int mount_disk(int is_read_only);
void unmount_disk(void);

/* ride.c */
const char *promise(void);               /* the line that was answered last, the one that is asked, and whether the file is finished */
void set_promise(const char *words);
