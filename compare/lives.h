/* Lives of a device that records by a session (include/fitrec_device.h): random calls, until its power goes. What is found after that has to be
   what was answered. A program links this with one disk. */

#ifndef LIVES_H
#define LIVES_H

#include "fitrec_device.h"
#include <stdio.h>
#include <stdlib.h>
#include <string.h>

/* The disk: makes it new; lets the device start after a reset or a power cut, which takes what was not kept; says in which of the calls that
   change the disk the power goes, or 0; opens both files, and makes those that are missing; and says whether the power is gone, or something
   went wrong, since the start. */
void disk_begin(uint64_t seed);
void disk_restart(void);
void disk_cut(long calls);
int disk_open(struct fitrec_device *device);
int disk_has_failed(void);

extern struct fitrec_session session;
extern struct fitrec_found found;
extern struct fitrec_device device;

/* The life so far. */
extern struct life {
    unsigned stored, sure, handed; /* samples: that are answered as stored, that the recorder has at least, and that it may have */
    int is_begun, is_ended;        /* by answers */
    int may_be_gone;               /* a step that begins anew or clears is not answered yet */
    uint32_t clock, distance;      /* of the device */
} now;

_Noreturn void fail(const char *why, int number);
uint32_t chance(uint32_t below);

/* A disk and a life without a ride, by this seed. */
void begin_life(uint64_t seed);
/* Whether a step was answered well. It is not exactly if the disk failed in it. */
int is_well(enum fitrec_answer answer, const char *what);
int boot(void);
int begin_ride(void);
int hand_sample(void);
/* A life from a start of the device until the disk fails in the call of this number, or with 0 until it is over, or has had so many calls. */
void live(unsigned most, long power);
/* Without a further fault the ride gets its end, and its file is put into the folder, as NUMBER.fit. A line says of how many samples it was
   answered that they are stored, and how many were handed. */
void finish(const char *folder, int number);
void keep_file(const char *folder, const char *name, int file);
/* So many devices with one life or several, each of which ends in a power cut within so many calls of the disk: of the first life, and of others. */
void cut_power(uint64_t seed, int count, const char *folder, uint32_t first, uint32_t other);

#endif
