/* fitrec: rides of a dead device, saved in memory; FIT files, checked and shown.

   A recording is two files, activity.fit (the data file) and activity.frj (the journal). These calls work on the bytes of files in
   buffers of the caller. The library is crates/fit_c of fitrec; docs/PROOFS.md ("From C") has what is proved of its exports, as long as the
   caller keeps these rules:

   - No pointer is NULL, and no two buffers or numbers of one call overlap.
   - A buffer has as many bytes as its size argument says, and all of them may be read.

   Threads. A call touches nothing but what it is given: the library has no variables, takes no memory, keeps none between calls, and calls
   nothing but memcpy, memmove and memset. So any calls may run at the same time in any threads, also over the same bytes, as long as no
   call writes what another one reads or writes.

   Stack. On x86-64 a thread with 96 KB has enough for every call. Of it they take at most these, beside some 3,000 where the system first
   links memcpy in a call:

       84,000 bytes   fitrec_show, fitrec_json
       58,000 bytes   fitrec_columns, fitrec_fields, fitrec_values
       29,000 bytes   fitrec_join
       17,000 bytes   fitrec_shift, fitrec_shift_start
       14,000 bytes   fitrec_save, fitrec_plain
       13,000 bytes   fitrec_finish
        7,000 bytes   fitrec_repair, fitrec_skip
        1,500 bytes   the others

   Limits. What a call makes goes into a buffer of the caller, and never past its size. So that size is the most that a caller allows,
   whatever the bytes of the file are: where more would be made, the answer is one of NO_ROOM, NO_CLOSING_ROOM and MORE_PIECES. The work
   grows with the size of the file, for which a caller sets a limit before the call. */

#ifndef FITREC_H
#define FITREC_H

#include "fitrec_device.h" /* a recorder in a device, and the answers 7 and 8 that both have */
#include <stdbool.h>
#include <stddef.h>
#include <stdint.h>

#ifdef __cplusplus
extern "C" {
#endif

/* The version of these calls. It grows when one of them changes. */
#define FITREC_VERSION 1

/* The version that the library was built with. The library for devices does not have this call. */
uint32_t fitrec_version(void);

/* A number of a summary that is not there. */
#define FITREC_ABSENT UINT32_MAX

/* How many bytes a repair may add to a data file. */
#define FITREC_CLOSING_ROOM 254

/* How many bytes fitrec_finish may add to a file. */
#define FITREC_FINISH_ROOM 300

/* How many bytes a salvage may add to a file. */
#define FITREC_FRAME_ROOM 16

/* What a finished ride adds up to. */
struct fitrec_summary {
    uint32_t records;     /* samples */
    uint32_t laps;
    uint32_t sessions;
    uint32_t start;       /* seconds since 1989-12-31 00:00 UTC */
    uint32_t elapsed_ms;  /* from the start to the end, milliseconds */
    uint32_t timer_ms;    /* without the pauses, milliseconds */
    uint32_t distance_cm; /* centimetres, or FITREC_ABSENT */
};

/* Turns a data file into the finished file of everything that was committed: a valid FIT activity.

   data          the data file, with room for FITREC_CLOSING_ROOM bytes more
   data_size     how many bytes the buffer has
   data_len      how many of them are the data file; after 0, how many are the finished file
   journal       the journal, which stays as it is
   journal_size, journal_len   as for the data file; no room is needed
   summary       is filled after 0

   Answers one of these. After every other answer than 0 both lengths and so many bytes are as they were. In this call and in those up to
   fitrec_show a number that is not named for an answer stays as it was. */
enum {
    FITREC_REPAIRED = 0,
    /* FITREC_NOTHING_RECORDED = 7: nothing was committed */
    /* FITREC_DAMAGED = 8: the two are not the files of one recording */
    FITREC_BAD_LENGTH = 9,       /* a length is greater than its buffer */
    FITREC_NO_CLOSING_ROOM = 10, /* the data file's buffer is too small */
    FITREC_CHANGED = 16          /* the bytes that the last commit counts have changed since; see fitrec_leave_changed */
};
uint8_t fitrec_repair(uint8_t *data, size_t data_size, uint64_t *data_len, uint8_t *journal, size_t journal_size,
                      uint64_t *journal_len, struct fitrec_summary *summary);

/* Repairs a recording as fitrec_repair does, and writes its finished file into out with every time written out, for programs that misread
   the short form which recorders use.

   data .. journal_len   as for a repair; both buffers are working space, and after 0, 20 and 21 they hold the repaired recording
   out, out_size the buffer of the new file
   out_len       how many bytes the new file has, after 0 and FITREC_SAVE_NO_ROOM
   summary       is filled after 0, 20 and 21

   Answers what a repair answers, or one of these. After FITREC_SAVE_NO_ROOM the bytes of out may have changed. */
enum {
    FITREC_SAVED = 0,
    FITREC_SAVE_NO_ROOM = 20, /* the new file has no room in out; give fitrec_plain the data file and out_len bytes of room */
    FITREC_SAVE_TOO_LONG = 21 /* the new file would be too large */
};
uint8_t fitrec_save(uint8_t *data, size_t data_size, uint64_t *data_len, uint8_t *journal, size_t journal_size,
                    uint64_t *journal_len, uint8_t *out, size_t out_size, uint64_t *out_len, struct fitrec_summary *summary);

/* How many bytes of whole messages follow the last commit of a recording, such as samples that came after it. A save leaves them out, and a
   salvage with all set keeps them. 0 if there are none, if nothing was committed, and if the data file is a finished one: so ask before a
   repair. After a repair that was cut off they may be its closing messages.

   data, data_size         the data file
   journal, journal_size   the journal */
uint64_t fitrec_uncommitted(const uint8_t *data, size_t data_size, const uint8_t *journal, size_t journal_size);

/* After FITREC_CHANGED: takes the last commit from a journal, so that a save takes the commit before it. What is left out may have been
   confirmed.

   data, data_size         the data file
   journal, journal_size   the journal; after 0 the gate of its last commit is closed
   left_out                after 0, how many bytes count no longer

   Answers 0, or FITREC_NOT_LEFT. A save may then still answer FITREC_CHANGED, if the change is in what the earlier commit counts. */
enum {
    FITREC_LEFT_OUT = 0,
    FITREC_NOT_LEFT = 17 /* nothing changed, or the journal has no earlier commit; it is as it was */
};
uint8_t fitrec_leave_changed(const uint8_t *data, size_t data_size, uint8_t *journal, size_t journal_size, uint64_t *left_out);

/* How much of a file a salvage kept, in bytes. */
struct fitrec_salvage_counts {
    uint64_t kept;          /* bytes of records in the new file */
    uint64_t looked_at;     /* bytes of records that the old one has by its header, or all of them */
    uint64_t not_looked_at; /* bytes after those and the two of a checksum */
};

/* Copies what is readable of a FIT file that has no journal into a valid file: its header, the longest prefix of whole messages, and a
   checksum. Nothing is made up, so the summary of a ride that was cut off is missing.

   bytes, size   the file; fewer than 4294967296 bytes
   all           look at all bytes after the header, whatever size it gives
   out, out_size the buffer of the new file; size + FITREC_FRAME_ROOM bytes are enough
   out_len       how many bytes the new file has, after 0 and FITREC_SALVAGE_NO_ROOM
   counts        is filled after 0 and FITREC_SALVAGE_NO_ROOM

   Answers one of these. After every other answer than 0 the bytes of out may have changed. */
enum {
    FITREC_SALVAGED = 0,
    FITREC_SALVAGE_TRUNCATED = 1,   /* the file ends in its header */
    FITREC_SALVAGE_HEADER_SIZE = 2, /* byte 0 is not 12 or 14 */
    FITREC_SALVAGE_MAGIC = 3,       /* bytes 8 to 11 are not ".FIT" */
    FITREC_SALVAGE_PROTOCOL = 4,    /* the major version of the protocol is not 1 or 2 */
    FITREC_SALVAGE_NO_ROOM = 20,    /* the new file has no room in out */
    FITREC_SALVAGE_TOO_LARGE = 22   /* size is 4294967296 or more */
};
uint8_t fitrec_salvage(const uint8_t *bytes, size_t size, bool all, uint8_t *out, size_t out_size, uint64_t *out_len,
                       struct fitrec_salvage_counts *counts);

/* Bytes of the old file, from start up to end, which a skip kept or left out. */
struct fitrec_piece {
    uint64_t start;
    uint64_t end;
    bool kept;
};

/* Copies what is readable of a damaged FIT file into a valid file, as a salvage does, and goes on after its faults: at the next place from
   which messages follow that fit. That is a judgement by their times, values and forms. Of a file whose checksum is right all is
   kept. Bytes that begin with no header are looked at as a whole, and get a new one.

   bytes .. out_size   as for a salvage; size + FITREC_FRAME_ROOM bytes of room are enough
   out_len       how many bytes the new file has, after 0 and FITREC_SKIP_NO_ROOM
   pieces        which bytes of the old file are kept, and which are left out, in order and without a gap, after 0 and FITREC_SKIP_NO_ROOM:
                 together all bytes that were looked at. The new file has the kept ones, one after another.
   piece_room    how many pieces (not bytes) the buffer has room for
   piece_count   how many pieces there are, after 0, FITREC_SKIP_NO_ROOM and FITREC_SKIP_MORE_PIECES
   counts        is filled after 0 and FITREC_SKIP_NO_ROOM

   Answers one of these, 1 to 4 only if nothing is kept. After every other answer than 0 the bytes of out and of pieces may have
   changed. */
enum {
    FITREC_SKIPPED = 0,
    FITREC_SKIP_TRUNCATED = 1,    /* the file ends in its header */
    FITREC_SKIP_HEADER_SIZE = 2,  /* byte 0 is not 12 or 14 */
    FITREC_SKIP_MAGIC = 3,        /* bytes 8 to 11 are not ".FIT" */
    FITREC_SKIP_PROTOCOL = 4,     /* the major version of the protocol is not 1 or 2 */
    FITREC_SKIP_NO_ROOM = 20,     /* the new file has no room in out */
    FITREC_SKIP_TOO_LARGE = 22,   /* size is 4294967296 or more */
    FITREC_SKIP_MORE_PIECES = 25  /* there are more pieces than piece_room; call again with room for piece_count */
};
uint8_t fitrec_skip(const uint8_t *bytes, size_t size, bool all, uint8_t *out, size_t out_size, uint64_t *out_len,
                    struct fitrec_piece *pieces, size_t piece_room, uint64_t *piece_count, struct fitrec_salvage_counts *counts);

/* How many bytes the first of several FIT files has that follow each other without a gap: up to the end of the records that its header
   gives and the two bytes of a checksum, or all bytes, if they end before that or begin with no header. 0 only for no bytes. So the
   others are found by calling again with what follows.

   bytes, size   the files */
uint64_t fitrec_first_file(const uint8_t *bytes, size_t size);

/* Why bytes are no FIT file, as fitrec_check, fitrec_finish, fitrec_plain, fitrec_shift, fitrec_show and others answer it. Each comes with
   the place of the fault, an offset in bytes: the first item or number that is wrong. If several faults hold, it is the one that the first
   bytes show. */
enum {
    FITREC_TRUNCATED = 1,       /* the bytes end before the closing checksum is whole */
    FITREC_HEADER_SIZE = 2,     /* byte 0 is not 12 or 14 */
    FITREC_MAGIC = 3,           /* bytes 8 to 11 are not ".FIT" */
    FITREC_PROTOCOL = 4,        /* the major version of the protocol is not 1 or 2 */
    FITREC_HEADER_CRC = 5,      /* the checksum of the header is wrong */
    FITREC_UNDEFINED_LOCAL = 6, /* a data message has no definition */
    FITREC_SPLIT_MESSAGE = 7,   /* an item extends past the end of the data that the header gives */
    FITREC_FILE_CRC = 8,        /* the closing checksum is wrong */
    FITREC_TRAILING_BYTES = 9   /* a byte follows the closing checksum */
};

/* Checks whether bytes are an activity file: a FIT file whose first message is a file_id of the type activity, and that has a lap, a
   session and an activity message.

   bytes, size   the file
   summary       is filled after 0, from the first session
   fault_place   the place of the fault, after 1 to 9

   Answers 0, one of 1 to 9 above, or one of these. */
enum {
    FITREC_ACTIVITY = 0,
    FITREC_NO_FILE_ID = 11,
    FITREC_NOT_ACTIVITY = 12, /* the file is of another type, such as a course */
    FITREC_NO_LAP = 13,
    FITREC_NO_SESSION = 14,
    FITREC_NO_ACTIVITY = 15
};
uint8_t fitrec_check(const uint8_t *bytes, size_t size, struct fitrec_summary *summary, uint64_t *fault_place);

/* The entries of an activity: samples, laps, and events of the timer after the first. */
struct fitrec_finish_counts {
    uint64_t heard;    /* those that were taken */
    uint64_t left_out; /* those that a rule refused */
};

/* Adds what an activity of any maker lacks: the stop of the timer, the last lap, the session and the activity message that a recorder would
   write after its samples, laps and events of the timer; and if its first message is no file_id, one before it. What the file has stays as
   it is. A file that is cut off or damaged has to be salvaged first.

   bytes, size   the file
   out, out_size the buffer of the new file; size + FITREC_FINISH_ROOM bytes are enough
   out_len       how many bytes the new file has, after 0 and FITREC_FINISH_NO_ROOM
   counts        is filled after 0 and FITREC_FINISH_NO_ROOM
   fault_place   the place of the fault, after 1 to 9

   Answers 0, one of 1 to 9 above, FITREC_NOT_ACTIVITY, or one of these. After FITREC_FINISH_NO_ROOM the bytes of out may have changed. */
enum {
    FITREC_FINISHED = 0,
    FITREC_FINISH_NO_ROOM = 20,  /* the new file has no room in out */
    FITREC_FINISH_TOO_LONG = 21, /* the new file could be too large */
    FITREC_FINISH_NO_SAMPLE = 26 /* no sample was taken */
};
uint8_t fitrec_finish(const uint8_t *bytes, size_t size, uint8_t *out, size_t out_size, uint64_t *out_len,
                      struct fitrec_finish_counts *counts, uint64_t *fault_place);

/* Writes the plain form of a FIT file: the same messages, with every time written out.

   bytes, size   the file
   out, out_size the buffer of the new file
   out_len       how many bytes the new file has, after 0 and FITREC_PLAIN_NO_ROOM
   fault_place   the place of the fault, after 1 to 9

   Answers 0, one of 1 to 9 above, or one of these. After FITREC_PLAIN_NO_ROOM the bytes of out may have changed. */
enum {
    FITREC_PLAIN = 0,
    FITREC_PLAIN_NO_ROOM = 20, /* the new file has no room in out */
    FITREC_PLAIN_TOO_LONG = 21 /* the new file would be too large, or a definition in it would have 256 fields */
};
uint8_t fitrec_plain(const uint8_t *bytes, size_t size, uint8_t *out, size_t out_size, uint64_t *out_len, uint64_t *fault_place);

/* Moves every time of a FIT file by the same number of seconds, such as those of a device whose clock was wrong: field 253 of each message,
   and the fields that hold a time by the Profile, in UTC or of the place. The new file is in its plain form, and as long as fitrec_plain
   makes it.

   bytes, size   the file
   seconds       by how much; later if positive, earlier if negative
   out, out_size the buffer of the new file
   out_len       how many bytes the new file has, after 0 and FITREC_SHIFT_NO_ROOM
   fault_place   the place of the fault, after 1 to 9; after FITREC_SHIFT_TOO_FAR that of the first message with such a time

   Answers 0, one of 1 to 9 above, or one of these. After FITREC_SHIFT_NO_ROOM the bytes of out may have changed. */
enum {
    FITREC_SHIFTED = 0,
    FITREC_SHIFT_NO_ROOM = 20,  /* the new file has no room in out */
    FITREC_SHIFT_TOO_LONG = 21, /* the new file would be too large, or a definition in it would have 256 fields */
    FITREC_SHIFT_NO_TIME = 27,  /* no message has a time, so the ride has no beginning; only of fitrec_shift_start */
    FITREC_SHIFT_TOO_FAR = 28   /* a time would be below 0, or 4294967295 or more */
};
uint8_t fitrec_shift(const uint8_t *bytes, size_t size, int64_t seconds, uint8_t *out, size_t out_size, uint64_t *out_len,
                     uint64_t *fault_place);

/* Moves every time of a FIT file as fitrec_shift does, so that the ride begins at a time. It begins with the first record that has a time,
   or else with the first message that has one.

   start         the time, in seconds since 1989-12-31 00:00 UTC

   The rest, and the answers, are those of fitrec_shift. */
uint8_t fitrec_shift_start(const uint8_t *bytes, size_t size, uint32_t start, uint8_t *out, size_t out_size, uint64_t *out_len,
                           uint64_t *fault_place);

/* The time of the first sample, event or lap of a FIT file that has one. It puts the parts of an activity in their order, for fitrec_join.

   bytes, size   the file
   time          is set after 0, in seconds since 1989-12-31 00:00 UTC
   fault_place   the place of the fault, after 1 to 9

   Answers 0, one of 1 to 9 above, or FITREC_FIRST_TIME_NONE. */
enum {
    FITREC_FIRST_TIME = 0,
    FITREC_FIRST_TIME_NONE = 27 /* none has a time */
};
uint8_t fitrec_first_time(const uint8_t *bytes, size_t size, uint32_t *time, uint64_t *fault_place);

/* How many parts fitrec_join joins at most. */
#define FITREC_MOST_PARTS 64

/* Writes one activity of several files, such as the halves of a ride whose device stopped and began a new file: their messages, one file
   after another, without the sessions, activity messages and laps that only sum up one of them. Distances go on from file to file, laps are
   numbered in turn, and between two files the timer stands. Where only sessions and laps state the sport, a sport message does at the end.
   What the whole activity then lacks, fitrec_finish adds.

   bytes, size   the parts, one after another: each is the plain form of a file, as fitrec_plain writes it, and they are in the order of
                 their first times
   as_given      take parts of different sports, and parts that begin before another one ends
   out, out_size the buffer of the new file
   out_len       how many bytes the new file has, after 0 and FITREC_JOIN_NO_ROOM
   fault_place   the place of the fault, after 1 to 9; the place where the part begins, after FITREC_JOIN_OTHER_SPORT,
                 FITREC_JOIN_OVERLAP and FITREC_JOIN_NOT_PLAIN

   Answers 0, one of 1 to 9 above for a part that is no FIT file, or one of these. After FITREC_JOIN_NO_ROOM the bytes of out may have
   changed. */
enum {
    FITREC_JOINED = 0,
    FITREC_JOIN_NO_ROOM = 20,     /* the new file has no room in out */
    FITREC_JOIN_TOO_LONG = 21,    /* the new file would be too large */
    FITREC_JOIN_OTHER_SPORT = 29, /* a part has another sport than those before it */
    FITREC_JOIN_OVERLAP = 30,     /* a part begins before one of those before it ends */
    FITREC_JOIN_NOT_PLAIN = 31,   /* a part has a compressed timestamp */
    FITREC_JOIN_MORE_PARTS = 32   /* there are more than FITREC_MOST_PARTS */
};
uint8_t fitrec_join(const uint8_t *bytes, size_t size, bool as_given, uint8_t *out, size_t out_size, uint64_t *out_len,
                    uint64_t *fault_place);

/* Writes the text of a FIT file: a line for its header, one for each message, and one that counts them, as docs/FORMAT.md describes it.
   It is ASCII, lines end with a line feed, and no zero byte follows.

   bytes, size   the file
   utc           write times as dates
   out, out_size the buffer of the text
   out_len       how many bytes the text has, after 0 and FITREC_SHOW_NO_ROOM; 2^64 - 1 also if there are more
   fault_place   the place of the fault, after 1 to 9

   Answers 0, one of 1 to 9 above, or FITREC_SHOW_NO_ROOM. After that the bytes of out may have changed. */
enum {
    FITREC_SHOWN = 0,
    FITREC_SHOW_NO_ROOM = 20 /* the text has no room in out */
};
uint8_t fitrec_show(const uint8_t *bytes, size_t size, bool utc, uint8_t *out, size_t out_size, uint64_t *out_len,
                    uint64_t *fault_place);

/* Writes a FIT file as JSON, an object on each line, as docs/PROGRAM.md ("show and check") describes it. The text is UTF-8, lines end with
   a line feed, and no zero byte follows. Arguments and answers are those of fitrec_show. */
enum {
    FITREC_JSON = 0,
    FITREC_JSON_NO_ROOM = 20 /* the text has no room in out */
};
uint8_t fitrec_json(const uint8_t *bytes, size_t size, bool utc, uint8_t *out, size_t out_size, uint64_t *out_len,
                    uint64_t *fault_place);

/* A value that is not there. No value is this number. */
#define FITREC_NO_VALUE INT64_MIN

/* The most columns of one call. */
#define FITREC_MOST_COLUMNS 128

/* Fills columns with the values of some fields: for each message with one global number, in the order of the file, the value of its
   first field of the column's number. It is the whole number that the file has, without scale or offset: of an enum, a byte, or a sint or
   uint of 8, 16 or 32 bits, also of the kinds with a z. It is FITREC_NO_VALUE if the message has no such field, or the field has another
   type or not just one value, or its value is the invalid one. The time of a compressed timestamp is the first field 253.

   bytes, size   the file
   message       the global number, such as 20 for records
   fields, field_count   the numbers of the fields
   room          how many values a column has room for
   out           column k begins at out[k * room] and has *rows values
   out_size      how many values (not bytes) the buffer has, at least field_count * room
   rows          how many messages have the number, after 0 and FITREC_COLUMNS_NO_ROOM
   fault_place   the place of the fault, after 1 to 9

   Answers 0, one of 1 to 9 above, or one of these. After FITREC_COLUMNS_NO_ROOM the values of out may have changed. */
enum {
    FITREC_COLUMNS = 0,
    FITREC_COLUMNS_NO_ROOM = 20,  /* there are more messages than room */
    FITREC_COLUMNS_TOO_MANY = 23, /* field_count exceeds FITREC_MOST_COLUMNS */
    FITREC_COLUMNS_SHORT = 24     /* out_size is below field_count * room */
};
uint8_t fitrec_columns(const uint8_t *bytes, size_t size, uint16_t message, const uint8_t *fields, size_t field_count, size_t room,
                       int64_t *out, size_t out_size, uint64_t *rows, uint64_t *fault_place);

/* The code of a field is its number, and that of a developer field this, of its developer data index and its number. */
#define FITREC_DEVELOPER(index, number) (256 * ((index) + 1) + (number))

/* How many codes there are. */
#define FITREC_CODES 65792

/* What the messages with one global number hold at a code. */
enum {
    FITREC_HELD_NOTHING = 0, /* none of them has such a field */
    FITREC_HELD_EMPTY = 1,   /* its size is always 0 */
    FITREC_HELD_WHOLE = 2,   /* one whole number of at most 4 bytes, or nothing: fitrec_columns has all of the values */
    FITREC_HELD_OTHER = 3    /* other values too, as floats, 8 bytes, strings, several values, developer fields: fitrec_values has them */
};

/* Fills columns as fitrec_columns does, and says beside this which fields the messages have. Without fields it only says that.

   held, held_size   what the messages hold at each code, by the definitions of the messages; FITREC_CODES bytes, or only the first ones

   The rest, and the answers, are those of fitrec_columns. held is filled after 0 and FITREC_COLUMNS_NO_ROOM. */
uint8_t fitrec_fields(const uint8_t *bytes, size_t size, uint16_t message, const uint8_t *fields, size_t field_count, size_t room,
                      int64_t *out, size_t out_size, uint8_t *held, size_t held_size, uint64_t *rows, uint64_t *fault_place);

/* What a message has of a field. */
struct fitrec_value {
    uint32_t message; /* the place of the message among all messages of the file, from 0 on */
    uint32_t at;      /* where the value begins in the content of the message */
    uint16_t size;    /* how many bytes the value has; 0 if the message has no such field */
    uint8_t base;     /* its base type byte; 255 of a developer field, whose type its field_description message gives */
    uint8_t order;    /* 0 if numbers begin with their low byte, 1 if with their high byte */
};

/* Finds the values of some fields, of every type: for each message with one global number, in the order of the file, the value of its
   first field of each code, as the bytes that the file has. The time of a compressed timestamp is no such field: fitrec_columns has it.

   bytes, size   the file
   message       the global number, such as 20 for records, or 206 for the field_description messages of developer fields
   fields, field_count   the codes of the fields
   room          how many messages there is room for
   heads         field k begins at heads[k * room] and has *rows of these
   heads_size    how many of these (not bytes) the buffer has, at least field_count * room
   values        the bytes of the values, one after another: those of the first message, by the order of fields, then those of the next
   values_size   how many bytes it has; as many as the file are always enough if no code is there twice
   rows          how many messages have the number, after 0 and FITREC_VALUES_NO_ROOM
   values_len    how many bytes their values have, after 0 and FITREC_VALUES_NO_ROOM
   fault_place   the place of the fault, after 1 to 9

   Answers 0, one of 1 to 9 above, or one of these. After FITREC_VALUES_NO_ROOM heads and values may have changed. */
enum {
    FITREC_VALUES = 0,
    FITREC_VALUES_NO_ROOM = 20,  /* there are more messages than room, or more bytes than values_size */
    FITREC_VALUES_TOO_MANY = 23, /* field_count exceeds FITREC_MOST_COLUMNS */
    FITREC_VALUES_SHORT = 24     /* heads_size is below field_count * room */
};
uint8_t fitrec_values(const uint8_t *bytes, size_t size, uint16_t message, const uint32_t *fields, size_t field_count, size_t room,
                      struct fitrec_value *heads, size_t heads_size, uint8_t *values, size_t values_size, uint64_t *rows,
                      uint64_t *values_len, uint64_t *fault_place);

#ifdef __cplusplus
}
#endif

#endif
