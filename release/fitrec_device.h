/* fitrec: a recorder of rides in a device.

   A ride is two files, activity.fit (the data file) and activity.frj (the journal). A session records it over five functions of the
   device; docs/EMBEDDING.md begins with one. The library is device/session.c over crates/fit_device of fitrec; docs/PROOFS.md has what is proved.
   It takes no memory from the heap, calls nothing but memcpy, memmove, memset and the five functions, and waits for nothing else.
   Times are seconds since 1989-12-31 00:00 UTC. Each pointer leads to what it says, and is not NULL where nothing else is said. */

#ifndef FITREC_DEVICE_H
#define FITREC_DEVICE_H

#include <stddef.h>
#include <stdint.h>

#ifdef __cplusplus
extern "C" {
#endif

/* The compiler warns where an answer is not looked at. */
#ifdef __GNUC__
#define FITREC_CHECKED __attribute__((warn_unused_result))
#else
#define FITREC_CHECKED
#endif

/* What a call answers. After all but FITREC_OK, FITREC_DEVICE and FITREC_NEEDS_WINDOW the recorder and the files are as they were. */
enum fitrec_answer {
    FITREC_OK = 0,
    FITREC_NOT_EMPTY = 1,        /* fitrec_start: the data file has bytes */
    FITREC_FULL = 3,             /* the ride has its longest size: store and end it */
    FITREC_JOURNAL_FULL = 4,     /* only in a ride of an older recorder: end it */
    FITREC_DEVICE = 5,           /* a function of the device failed, or what it gave cannot be; by windows, a window is short */
    FITREC_NOTHING_RECORDED = 7, /* nothing is committed */
    FITREC_DAMAGED = 8,          /* the two are not the files of one recording */
    FITREC_NO_RECORDER = 11,     /* the struct is none of a recorder, or of a recovery */
    FITREC_NO_SPORT = 12,        /* no sport has this number */
    FITREC_NEEDS_WINDOW = 13,    /* read count bytes of file from at on into window, say in filled how many there were, and call on */
    FITREC_ERASING = 14,         /* an erasing was cut off: erase again, and start */
    FITREC_NOT_NOW = 15,         /* a session: boot it first; or another call is inside; or not at what it stands at */
    /* Refused by a rule of the ride. */
    FITREC_REFUSED_TIME = 33,          /* below the last time, or 0xFFFFFFFF; a start may have 0x10000000 to 0xFFFFFFFE */
    FITREC_REFUSED_DISTANCE = 34,      /* below the last distance */
    FITREC_REFUSED_VALUE = 35,         /* a value is the invalid one of its field */
    FITREC_REFUSED_TIMER_STOPPED = 36, /* a sample or a pause while the timer is stopped */
    FITREC_REFUSED_TIMER_RUNNING = 37, /* a resume while the timer runs */
    FITREC_REFUSED_TOO_LONG = 38,      /* more than 4,000,000 seconds after the start */
    FITREC_REFUSED_TOO_MANY_LAPS = 39, /* after 999 others */
    FITREC_REFUSED_STOPPED = 40        /* the ride has its stop */
};

/* Which values a sample has: the sum of some of these. */
enum {
    FITREC_HAS_LAT = 1,
    FITREC_HAS_LON = 2,
    FITREC_HAS_POSITION = FITREC_HAS_LAT | FITREC_HAS_LON,
    FITREC_HAS_DISTANCE = 4,
    FITREC_HAS_ENHANCED_SPEED = 8,
    FITREC_HAS_ENHANCED_ALTITUDE = 16,
    FITREC_HAS_ALTITUDE = 32,
    FITREC_HAS_SPEED = 64,
    FITREC_HAS_POWER = 128,
    FITREC_HAS_HEART_RATE = 256,
    FITREC_HAS_CADENCE = 512,
    FITREC_HAS_TEMPERATURE = 1024,
    FITREC_PLAIN_TIME = 2048 /* no value: the time is written in full, for readers that misread compressed timestamps; four bytes more */
};

/* The values of the sensors at one time. What is not named in has is absent, so a sample of zeros has no values. The greatest number of a
   type, such as UINT16_MAX, is absent too. A device gives speed or enhanced_speed, altitude or enhanced_altitude, whichever it measures. */
struct fitrec_sample {
    uint32_t time;              /* of the device's clock in a session, of the ride in fitrec_add_sample */
    int32_t lat;                /* semicircles: 2^31 of them are 180 degrees */
    int32_t lon;                /* semicircles */
    uint32_t distance;          /* centimetres since the start */
    uint32_t enhanced_speed;    /* millimetres a second */
    uint32_t enhanced_altitude; /* fifths of a metre above -500 m */
    uint32_t has;               /* which of the values are there */
    uint16_t altitude;          /* fifths of a metre above -500 m */
    uint16_t speed;             /* millimetres a second */
    uint16_t power;             /* watts */
    uint8_t heart_rate;         /* beats a minute */
    uint8_t cadence;            /* turns or steps a minute */
    int8_t temperature;         /* degrees Celsius */
};

/* Where a ride stands: what the next entry has to follow. */
struct fitrec_state {
    uint32_t time;     /* of the last entry: no later entry is before it */
    uint32_t distance; /* the last distance in centimetres since the start, or 0: no later one is below it */
    uint16_t laps;     /* how many laps were handed */
    uint8_t running;   /* 1 while the timer runs, 0 after a pause */
    uint8_t stopped;   /* 1 after the stop */
};

/* What a step below the session asks of the two files: the first count calls are to be carried out, in order. */
enum { FITREC_DATA_FILE = 0, FITREC_JOURNAL_FILE = 1 };
enum { FITREC_WRITE = 1, FITREC_CUT = 2, FITREC_SYNC = 3, FITREC_READ = 4, FITREC_SIZE = 5 }; /* no plan has the last two */
#define FITREC_MOST_CALLS 12
#define FITREC_MOST_BYTES 896

struct fitrec_call {
    uint64_t at;    /* the place of a write in its file, or the length that a cut leaves */
    uint16_t start; /* the bytes of a write are count bytes of the plan from start on */
    uint16_t count;
    uint8_t kind, file;
};

struct fitrec_plan {
    uint32_t count;
    uint32_t used; /* how many of the bytes belong to the calls */
    struct fitrec_call calls[FITREC_MOST_CALLS];
    uint8_t bytes[FITREC_MOST_BYTES];
};

/* A recorder. Its numbers are the library's. */
struct fitrec_recorder {
    uint64_t numbers[191];
};

/* A recovery, a reopening or an erasing that reads the files by windows. */
struct fitrec_recovery {
    uint64_t data_size;    /* the lengths of the data file and the journal in bytes; set them before fitrec_recover_begin */
    uint64_t journal_size;
    uint64_t at;           /* what is asked for: count bytes of file from at on; fewer only where the file ends */
    uint8_t file;          /* 0: the data file, 1: the journal */
    uint8_t phase;         /* the library's own */
    uint16_t count;
    uint16_t filled;       /* how many bytes you read into the window */
    uint8_t window[512];
    uint64_t numbers[226]; /* the library's own */
};

/* What a device gives: five functions, and what each is handed of its file. Both files are open, and nobody else writes them. A number
   below 0 says that a function failed, and so does every other that is not named here.

   size gives the length in bytes, read and write how many bytes they read or wrote: a read fewer than count only where the file ends.
   write touches no other byte, cut shortens the file to size and gives 0. sync gives 0 once all bytes of the file and its length are kept. */
struct fitrec_device {
    int32_t (*size)(void *file);
    int32_t (*read)(void *file, uint32_t at, void *to, uint32_t count);
    int32_t (*write)(void *file, uint32_t at, const void *from, uint32_t count);
    int (*cut)(void *file, uint32_t size);
    int (*sync)(void *file);
    void *files[2];         /* of activity.fit and of activity.frj */
    uint8_t keeps_distance; /* 0: distances may begin at 0 again after a reset, and are then added to the last one; 1: they never do */
    uint8_t plain_times;    /* 1: each sample has FITREC_PLAIN_TIME */
};

/* What a boot finds. */
enum fitrec_finding {
    FITREC_FOUND_EMPTY = 1,    /* no ride: fitrec_begin */
    FITREC_FOUND_RIDING = 2,   /* a ride that goes on where it was stored last: the entries, or fitrec_end */
    FITREC_FOUND_FINISHED = 3, /* activity.fit is a finished FIT file: copy it away, fitrec_clear */
    FITREC_FOUND_ERASING = 4,  /* an erasing was cut off, the ride is gone: fitrec_clear or fitrec_begin */
    FITREC_FOUND_KEEP = 5      /* why says what is wrong: keep both files for a computer (fitrec salvage), then fitrec_clear */
};

struct fitrec_found {
    struct fitrec_state state; /* of a ride that goes on */
    uint8_t finding, why;      /* an enum fitrec_finding, and for FITREC_FOUND_KEEP an enum fitrec_answer */
};

/* A session. All of it is the library's; failed_call and failed_file say after FITREC_DEVICE what failed. It may lie anywhere. */
struct fitrec_session {
    struct fitrec_found found;
    uint8_t failed_call, failed_file, is_bare, is_taken, sport;
    uint32_t size[2], offset, distance, serial;
    struct fitrec_device device;
    struct fitrec_plan plan;
    struct fitrec_recorder recorder;
    struct fitrec_recovery recovery;
};

/* Boots the session, as the first call after every reset, and after every FITREC_DEVICE. It reads what the files hold, finishes a ride
   whose end was cut off, and copies device. clock is what the device's clock shows now. A program has one session: the last one booted. */
FITREC_CHECKED enum fitrec_answer fitrec_boot(struct fitrec_session *session, const struct fitrec_device *device, uint32_t clock,
                                              struct fitrec_found *found);

/* Begins a ride, which is kept once this answers FITREC_OK. serial of the device, or 0; sport 0 generic, 1 running, 2 cycling. */
FITREC_CHECKED enum fitrec_answer fitrec_begin(struct fitrec_session *session, uint32_t clock, uint32_t serial, uint8_t sport);

/* Adds an entry. A power cut may lose it until fitrec_store. */
FITREC_CHECKED enum fitrec_answer fitrec_add(struct fitrec_session *session, const struct fitrec_sample *sample);
FITREC_CHECKED enum fitrec_answer fitrec_lap(struct fitrec_session *session, uint32_t clock);
FITREC_CHECKED enum fitrec_answer fitrec_pause(struct fitrec_session *session, uint32_t clock);
FITREC_CHECKED enum fitrec_answer fitrec_resume(struct fitrec_session *session, uint32_t clock);

/* Stores all entries so far: once this answers FITREC_OK, no power cut loses them. */
FITREC_CHECKED enum fitrec_answer fitrec_store(struct fitrec_session *session);

/* Ends the ride: activity.fit is then a finished FIT file. The end has the time of the last entry where the clock gives none that it may
   have, such as for UINT32_MAX. */
FITREC_CHECKED enum fitrec_answer fitrec_end(struct fitrec_session *session, uint32_t clock);

/* Empties the data file for the next ride: what was there is gone. Not while a ride goes on. */
FITREC_CHECKED enum fitrec_answer fitrec_clear(struct fitrec_session *session);

/* Goes on with a ride whose file was finished without its end, such as by fitrec repair on a computer. */
FITREC_CHECKED enum fitrec_answer fitrec_go_on(struct fitrec_session *session, uint32_t clock, struct fitrec_found *found);

/* Says that the device's clock was set: what it shows now. The times of the ride go on from the last one. A ride without an entry that was
   begun since the boot is begun anew. */
FITREC_CHECKED enum fitrec_answer fitrec_set_clock(struct fitrec_session *session, uint32_t clock);

/* The calls below the session, for a host that carries out each plan by the rules of docs/EMBEDDING.md. They answer an enum fitrec_answer.
   A start: data_size is the length of activity.fit in bytes, also if that is to be 0. At most 11 calls; after them it is committed. */
FITREC_CHECKED uint8_t fitrec_start(struct fitrec_recorder *recorder, size_t data_size, uint32_t time, uint32_t serial, uint8_t sport,
                                    struct fitrec_plan *plan);
/* An entry: at most one call. A power cut loses it unless it is committed. */
FITREC_CHECKED uint8_t fitrec_add_sample(struct fitrec_recorder *recorder, const struct fitrec_sample *sample, struct fitrec_plan *plan);
FITREC_CHECKED uint8_t fitrec_add_lap(struct fitrec_recorder *recorder, uint32_t time, struct fitrec_plan *plan);
FITREC_CHECKED uint8_t fitrec_pause_timer(struct fitrec_recorder *recorder, uint32_t time, struct fitrec_plan *plan);
FITREC_CHECKED uint8_t fitrec_resume_timer(struct fitrec_recorder *recorder, uint32_t time, struct fitrec_plan *plan);
/* Commits all entries so far: at most 8 calls. Ends the ride: at most 12 calls; after them the data file is a finished FIT file. */
FITREC_CHECKED uint8_t fitrec_commit(struct fitrec_recorder *recorder, struct fitrec_plan *plan);
FITREC_CHECKED uint8_t fitrec_stop(struct fitrec_recorder *recorder, uint32_t time, struct fitrec_plan *plan);
/* Reports where the ride stands. It plans nothing. */
FITREC_CHECKED uint8_t fitrec_state_of(const struct fitrec_recorder *recorder, struct fitrec_state *state);

/* After a power cut, over both files where they lie. A recovery makes the finished file of what was committed, with at most 6 calls, and
   does not end the ride. A reopening makes a recorder that goes on, with at most 4. An erasing empties the data file, with at most 6. */
FITREC_CHECKED uint8_t fitrec_recover(const uint8_t *data, size_t data_size, const uint8_t *journal, size_t journal_size,
                                      struct fitrec_plan *plan);
FITREC_CHECKED uint8_t fitrec_reopen(struct fitrec_recorder *recorder, const uint8_t *data, size_t data_size, const uint8_t *journal,
                                     size_t journal_size, struct fitrec_plan *plan);
FITREC_CHECKED uint8_t fitrec_erase(const uint8_t *data, size_t data_size, const uint8_t *journal, size_t journal_size,
                                    struct fitrec_plan *plan);
/* The same by windows, as docs/EMBEDDING.md has it: begun with zeros and both sizes, and then by one of the others until it ends. */
FITREC_CHECKED uint8_t fitrec_recover_begin(struct fitrec_recovery *recovery, struct fitrec_plan *plan);
FITREC_CHECKED uint8_t fitrec_recover_next(struct fitrec_recovery *recovery, struct fitrec_plan *plan);
FITREC_CHECKED uint8_t fitrec_reopen_next(struct fitrec_recovery *recovery, struct fitrec_recorder *recorder, struct fitrec_plan *plan);
FITREC_CHECKED uint8_t fitrec_erase_next(struct fitrec_recovery *recovery, struct fitrec_plan *plan);

/* The most bytes of a data file in which only a start was begun: if it has no more, FITREC_NOTHING_RECORDED loses nothing. */
#define FITREC_LONGEST_START 86

/* The compiler lays out the structs as the library does. */
#define FITREC_IS(name, holds) typedef char fitrec_is_##name[(holds) ? 1 : -1]
FITREC_IS(call, sizeof(struct fitrec_call) == 16 && offsetof(struct fitrec_call, start) == 8 && offsetof(struct fitrec_call, file) == 13);
FITREC_IS(plan, sizeof(struct fitrec_plan) == 1096 && offsetof(struct fitrec_plan, bytes) == 200);
FITREC_IS(recorder, sizeof(struct fitrec_recorder) == 1528);
FITREC_IS(state, sizeof(struct fitrec_state) == 12 && offsetof(struct fitrec_state, stopped) == 11);
FITREC_IS(recovery, sizeof(struct fitrec_recovery) == 2352 && offsetof(struct fitrec_recovery, window) == 30);
FITREC_IS(sample, sizeof(struct fitrec_sample) == 40 && offsetof(struct fitrec_sample, temperature) == 36);

#ifdef __cplusplus
}
#endif

#endif
