/* A disk for the tests of a firmware: the two files of a recording in memory, whose power goes, or one of whose functions goes wrong.

   After a power cut a byte that was written since the last sync of its file is the old one, the new one or any other, and the length is one
   between the least and the greatest since. */

#ifndef FAULTY_H
#define FAULTY_H

#include "fitrec_device.h"

#ifndef FAULTY_MOST
#define FAULTY_MOST 65536 /* how many bytes a file may have */
#endif

/* How a function goes wrong. */
enum faulty_way {
    FAULTY_NOT,
    FAULTY_SIZE_FAILS, FAULTY_SIZE_OF_NOTHING, FAULTY_SIZE_GREATER,
    FAULTY_READ_FAILS, FAULTY_READ_NOTHING, FAULTY_READ_LESS, FAULTY_READ_MORE,
    FAULTY_WRITE_FAILS, FAULTY_WRITE_NOTHING, FAULTY_WRITE_LESS, FAULTY_WRITE_LOST, FAULTY_WRITE_APPENDED,
    FAULTY_CUT_FAILS, FAULTY_CUT_LOST, FAULTY_SYNC_FAILS, FAULTY_WAYS
};

/* The disk of a file, and what reads give, what the last sync kept, and which bytes were written since. */
struct faulty_file {
    struct faulty_disk *disk;
    uint8_t now[FAULTY_MOST], kept[FAULTY_MOST], written[FAULTY_MOST];
    uint32_t len, kept_len, least, greatest;
};

struct faulty_disk {
    uint64_t seed;           /* what comes by chance goes on from here */
    long power;              /* so many writes, cuts and syncs, and the power goes in the last of them; 0: it stays */
    enum faulty_way way;     /* how a function goes wrong, */
    long at, calls[6];       /* at which call of those that may go so wrong, and how many there were of each kind */
    int is_dark, is_wrong;   /* whether the power is gone, and a function has gone wrong */
    int keeps_nothing;       /* 1: its syncs lie */
    int is_misused;          /* whether a write or a cut was outside its file, as no session makes it */
    void (*interrupt)(void); /* called inside each function, unless it is NULL */
    struct faulty_file files[2];
};

/* Makes both files empty, and gives the device that has them. */
void faulty_begin(struct faulty_disk *disk, struct fitrec_device *device);

/* Gives a file this content, which is kept. */
void faulty_hold(struct faulty_file *file, const void *bytes, uint32_t len);

/* The device starts after a reset, if it was dark with what a power cut left. The power stays from now on, and nothing goes wrong. */
void faulty_restart(struct faulty_disk *disk);

/* A number below this one by chance. */
uint32_t faulty_chance(struct faulty_disk *disk, uint32_t below);

#endif
