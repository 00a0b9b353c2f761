/* Calls the library fit_c for compare/library.py:

     library repair SPARE DATA JOURNAL OUT   the data file goes to OUT; its buffer has SPARE bytes more than it
     library salvage SPARE IN OUT ALL        the new file goes to OUT; its buffer has SPARE bytes more than IN
     library skip IN OUT ALL                 the new file goes to OUT, and its pieces are printed; both buffers have just as much room, and too
                                             little at first
     library split IN                        the sizes of the files that are chained
     library save DATA JOURNAL OUT           the plain form goes to OUT; its buffer has just as many bytes, and too few at first
     library uncommitted DATA JOURNAL        the number of bytes
     library earlier DATA JOURNAL OUT        saves without the last commit, if what it counts has changed
     library plain IN OUT
     library finish IN OUT                   the finished file goes to OUT; its buffer has just as many bytes, and too few at first
     library shift SECONDS IN OUT            the moved file goes to OUT; its buffer has just as many bytes, and too few at first
     library start TIME IN OUT               the same, moved so that the ride begins at this time
     library first IN                        the first time
     library join AS_GIVEN IN OUT            the parts of IN are joined, as a shift is made
     library check IN
     library show IN UTC OUT                 the text goes to OUT; its buffer has just as many bytes, and too few at first
     library json IN UTC OUT                 the same as JSON
     library columns IN MESSAGE FIELDS       the values, a line for each message; its buffer has just as many, and too few at first
     library held IN MESSAGE                 the codes of the fields, each with what the messages hold there, a line for each
     library values IN MESSAGE CODES         what each message has of each field, a line for each; its buffers have just as much room, and too
                                             little at first
     library lengths DATA JOURNAL            lengths that are greater than their buffers, and buffers of no bytes

   It prints the answer and, if that is 0, a line on what was found. Each buffer is between two rows of known bytes, which no call
   may change. Numbers that an answer does not name have to stay as they were. */

#include "fitrec.h"
#include <stdio.h>
#include <stdlib.h>
#include <string.h>

enum { GUARD = 4096, FILLED = 0xA5 };

struct buffer {
    uint8_t *all, *bytes;
    size_t size;
    uint64_t len;
};

static void fail(const char *why) {
    printf("%s\n", why);
    exit(2);
}

static struct buffer room(size_t size) {
    struct buffer made = {malloc(size + 2 * GUARD), NULL, size, 0};
    if (!made.all)
        fail("no memory");
    memset(made.all, FILLED, size + 2 * GUARD);
    made.bytes = made.all + GUARD;
    return made;
}

static struct buffer file_at(const char *path, size_t spare) {
    FILE *file = fopen(path, "rb");
    if (!file || fseek(file, 0, SEEK_END))
        fail("cannot read a file");
    struct buffer found = room((size_t)ftell(file) + spare);
    rewind(file);
    found.len = fread(found.bytes, 1, found.size, file);
    fclose(file);
    return found;
}

/* Checks that nothing was written outside the buffer. */
static void check_guards(struct buffer it) {
    for (size_t at = 0; at < GUARD; at++)
        if (it.all[at] != FILLED || it.bytes[it.size + at] != FILLED)
            fail("a byte outside a buffer was written");
    free(it.all);
}

static void keep(struct buffer it, const char *path) {
    FILE *file = fopen(path, "wb");
    if (!file || fwrite(it.bytes, 1, it.len, file) != it.len || fclose(file))
        fail("cannot write a file");
}

/* Lets these numbers hold known bytes. */
static void fill(void *numbers, size_t size) {
    memset(numbers, FILLED, size);
}

/* Checks that they still hold them, or not. */
static void check_numbers(const void *numbers, size_t size, bool stays) {
    const uint8_t *bytes = numbers;
    bool same = true;
    for (size_t at = 0; at < size; at++)
        same = same && bytes[at] == FILLED;
    if (same != stays)
        fail(stays ? "a number that the answer does not name was changed" : "a number was not reported");
}

/* Checks that both files lie in their buffers, that the journal is the file at this path, and that a refusal kept the length of the
   data file. */
static void check_recording(unsigned answer, struct buffer data, uint64_t data_len, struct buffer journal, const char *path) {
    struct buffer was = file_at(path, 0);
    if (data.len > data.size || (answer >= FITREC_NOTHING_RECORDED && answer <= FITREC_NO_CLOSING_ROOM && data.len != data_len))
        fail("another length of the data file");
    if (journal.len != was.len || memcmp(journal.bytes, was.bytes, was.size))
        fail("the journal is not as it was");
    check_guards(was);
}

static void or_dash(const char *name, uint32_t number) {
    if (number == FITREC_ABSENT)
        printf(" %s=-", name);
    else
        printf(" %s=%u", name, number);
}

static void print_summary(struct fitrec_summary sum) {
    printf("ok records=%u laps=%u sessions=%u", sum.records, sum.laps, sum.sessions);
    or_dash("start", sum.start);
    or_dash("elapsed_ms", sum.elapsed_ms);
    or_dash("timer_ms", sum.timer_ms);
    or_dash("distance_cm", sum.distance_cm);
    printf("\n");
}

static void repair(char **words) {
    struct buffer data = file_at(words[1], (size_t)atoi(words[0])), journal = file_at(words[2], 0);
    struct fitrec_summary sum;
    uint64_t data_len = data.len;
    fill(&sum, sizeof sum);
    unsigned answer = fitrec_repair(data.bytes, data.size, &data.len, journal.bytes, journal.size, &journal.len, &sum);
    check_numbers(&sum, sizeof sum, answer != FITREC_REPAIRED);
    check_recording(answer, data, data_len, journal, words[2]);
    printf("%u\n", answer);
    if (answer == FITREC_REPAIRED)
        print_summary(sum);
    keep(data, words[3]);
    check_guards(data);
    check_guards(journal);
}

/* Saves the recording of these files into a buffer of so many bytes. */
static unsigned save_in(char **words, size_t size, struct buffer *data, struct buffer *out, struct fitrec_summary *sum) {
    struct buffer journal = file_at(words[1], 0);
    *data = file_at(words[0], FITREC_CLOSING_ROOM);
    *out = room(size);
    uint64_t data_len = data->len;
    fill(sum, sizeof *sum);
    fill(&out->len, sizeof out->len);
    unsigned answer = fitrec_save(data->bytes, data->size, &data->len, journal.bytes, journal.size, &journal.len, out->bytes, out->size, &out->len,
                                  sum);
    bool is_refused = answer != FITREC_SAVED && answer != FITREC_SAVE_NO_ROOM;
    check_numbers(sum, sizeof *sum, is_refused);
    check_numbers(&out->len, sizeof out->len, is_refused);
    if (is_refused)
        check_numbers(out->bytes, out->size, true);
    check_recording(answer, *data, data_len, journal, words[1]);
    check_guards(journal);
    return answer;
}

static void save(char **words) {
    struct buffer data, out, plain;
    struct fitrec_summary sum;
    unsigned answer = save_in(words, 0, &data, &out, &sum);
    check_guards(out);
    if (answer == FITREC_SAVE_NO_ROOM) {
        uint64_t needed = out.len, place;
        plain = room(needed);
        if (fitrec_plain(data.bytes, data.len, plain.bytes, plain.size, &plain.len, &place) != FITREC_PLAIN || plain.len != needed)
            fail("another plain form of the repaired file");
        check_guards(data);
        if (save_in(words, needed - 1, &data, &out, &sum) != FITREC_SAVE_NO_ROOM || out.len != needed)
            fail("another answer to a buffer that lacks one byte");
        check_guards(data);
        check_guards(out);
        answer = save_in(words, needed, &data, &out, &sum);
        if (answer != FITREC_SAVED || memcmp(plain.bytes, out.bytes, needed))
            fail("another file in a larger buffer");
        keep(out, words[2]);
        check_guards(out);
        check_guards(plain);
    }
    printf("%u\n", answer);
    if (answer == FITREC_SAVED)
        print_summary(sum);
    check_guards(data);
}

static void uncommitted(char **words) {
    struct buffer data = file_at(words[0], 0), journal = file_at(words[1], 0);
    printf("%llu\n", (unsigned long long)fitrec_uncommitted(data.bytes, data.size, journal.bytes, journal.size));
    check_guards(data);
    check_guards(journal);
}

static void earlier(char **words) {
    struct buffer data = file_at(words[0], FITREC_CLOSING_ROOM), journal = file_at(words[1], 0), was = file_at(words[1], 0);
    struct buffer out = room(2 * data.size + 1024);
    struct fitrec_summary sum;
    uint64_t left_out;
    fill(&left_out, sizeof left_out);
    unsigned answer = fitrec_leave_changed(data.bytes, data.len, journal.bytes, journal.size, &left_out);
    check_numbers(&left_out, sizeof left_out, answer != FITREC_LEFT_OUT);
    if (answer == FITREC_NOT_LEFT && memcmp(was.bytes, journal.bytes, was.size))
        fail("the journal is not as it was");
    printf("%u\n", answer);
    if (answer == FITREC_LEFT_OUT)
        printf("left out %llu\n", (unsigned long long)left_out);
    answer = fitrec_save(data.bytes, data.size, &data.len, journal.bytes, journal.size, &journal.len, out.bytes, out.size, &out.len, &sum);
    printf("%u\n", answer);
    if (answer == FITREC_SAVED) {
        print_summary(sum);
        keep(out, words[2]);
    }
    check_guards(data);
    check_guards(journal);
    check_guards(was);
    check_guards(out);
}

static void plain(char **words) {
    struct buffer in = file_at(words[0], 0), out = room(0);
    uint64_t place;
    fill(&place, sizeof place);
    fill(&out.len, sizeof out.len);
    unsigned answer = fitrec_plain(in.bytes, in.size, out.bytes, 0, &out.len, &place);
    bool is_refused = answer && answer <= FITREC_TRAILING_BYTES;
    check_numbers(&place, sizeof place, !is_refused);
    check_numbers(&out.len, sizeof out.len, is_refused || answer == FITREC_PLAIN_TOO_LONG);
    check_guards(out);
    if (answer == FITREC_PLAIN_NO_ROOM) {
        out = room(out.len);
        answer = fitrec_plain(in.bytes, in.size, out.bytes, out.size, &out.len, &place);
        keep(out, words[1]);
        check_guards(out);
    }
    printf("%u\n", answer);
    if (is_refused)
        printf("at %llu\n", (unsigned long long)place);
    check_guards(in);
}

/* Finishes into a buffer of so many bytes. */
static unsigned finish_in(struct buffer in, size_t size, struct buffer *out, struct fitrec_finish_counts *counts, uint64_t *place) {
    *out = room(size);
    fill(counts, sizeof *counts);
    fill(place, sizeof *place);
    fill(&out->len, sizeof out->len);
    unsigned answer = fitrec_finish(in.bytes, in.size, out->bytes, out->size, &out->len, counts, place);
    bool is_refused = answer != FITREC_FINISHED && answer != FITREC_FINISH_NO_ROOM;
    check_numbers(place, sizeof *place, !answer || answer > FITREC_TRAILING_BYTES);
    check_numbers(counts, sizeof *counts, is_refused);
    check_numbers(&out->len, sizeof out->len, is_refused);
    if (is_refused)
        check_numbers(out->bytes, out->size, true);
    return answer;
}

static void finish(char **words) {
    struct buffer in = file_at(words[0], 0), out;
    struct fitrec_finish_counts counts;
    uint64_t place;
    unsigned answer = finish_in(in, 0, &out, &counts, &place);
    check_guards(out);
    if (answer == FITREC_FINISH_NO_ROOM) {
        uint64_t needed = out.len;
        if (needed > in.size + FITREC_FINISH_ROOM)
            fail("a file that is longer than documented");
        if (finish_in(in, needed - 1, &out, &counts, &place) != FITREC_FINISH_NO_ROOM || out.len != needed)
            fail("another answer to a buffer that lacks one byte");
        check_guards(out);
        answer = finish_in(in, needed, &out, &counts, &place);
        keep(out, words[1]);
        check_guards(out);
    }
    printf("%u\n", answer);
    if (answer == FITREC_FINISHED)
        printf("heard %llu entries, %llu left out\n", (unsigned long long)counts.heard, (unsigned long long)counts.left_out);
    else if (answer <= FITREC_TRAILING_BYTES)
        printf("at %llu\n", (unsigned long long)place);
    check_guards(in);
}

/* Moves times into a buffer of so many bytes: by seconds, or to the start of the ride. */
static unsigned shift_in(bool to_start, const char *number, struct buffer in, size_t size, struct buffer *out, uint64_t *place) {
    *out = room(size);
    fill(place, sizeof *place);
    fill(&out->len, sizeof out->len);
    unsigned answer = to_start ? fitrec_shift_start(in.bytes, in.size, (uint32_t)strtoul(number, NULL, 10), out->bytes, out->size, &out->len, place)
                               : fitrec_shift(in.bytes, in.size, strtoll(number, NULL, 10), out->bytes, out->size, &out->len, place);
    bool is_refused = answer != FITREC_SHIFTED && answer != FITREC_SHIFT_NO_ROOM;
    check_numbers(place, sizeof *place, !answer || (answer > FITREC_TRAILING_BYTES && answer != FITREC_SHIFT_TOO_FAR));
    check_numbers(&out->len, sizeof out->len, is_refused);
    if (is_refused)
        check_numbers(out->bytes, out->size, true);
    return answer;
}

static void shift(bool to_start, char **words) {
    struct buffer in = file_at(words[1], 0), out;
    uint64_t place;
    unsigned answer = shift_in(to_start, words[0], in, 0, &out, &place);
    check_guards(out);
    if (answer == FITREC_SHIFT_NO_ROOM) {
        uint64_t needed = out.len;
        if (shift_in(to_start, words[0], in, needed - 1, &out, &place) != FITREC_SHIFT_NO_ROOM || out.len != needed)
            fail("another answer to a buffer that lacks one byte");
        check_guards(out);
        answer = shift_in(to_start, words[0], in, needed, &out, &place);
        keep(out, words[2]);
    } else {
        shift_in(to_start, words[0], in, 2 * in.size + 1024, &out, &place);
    }
    check_guards(out);
    printf("%u\n", answer);
    if (answer && (answer <= FITREC_TRAILING_BYTES || answer == FITREC_SHIFT_TOO_FAR))
        printf("at %llu\n", (unsigned long long)place);
    check_guards(in);
}

static void first(char **words) {
    struct buffer in = file_at(words[0], 0);
    uint32_t time;
    uint64_t place;
    fill(&time, sizeof time);
    fill(&place, sizeof place);
    unsigned answer = fitrec_first_time(in.bytes, in.size, &time, &place);
    check_numbers(&time, sizeof time, answer != FITREC_FIRST_TIME);
    check_numbers(&place, sizeof place, !answer || answer > FITREC_TRAILING_BYTES);
    printf("%u\n", answer);
    if (answer == FITREC_FIRST_TIME)
        printf("%u\n", time);
    else if (answer <= FITREC_TRAILING_BYTES)
        printf("at %llu\n", (unsigned long long)place);
    check_guards(in);
}

/* Whether an answer to a join names a place. */
static bool is_placed(unsigned answer) {
    return answer && (answer <= FITREC_TRAILING_BYTES || (answer >= FITREC_JOIN_OTHER_SPORT && answer <= FITREC_JOIN_NOT_PLAIN));
}

/* Joins into a buffer of so many bytes. */
static unsigned join_in(bool as_given, struct buffer in, size_t size, struct buffer *out, uint64_t *place) {
    *out = room(size);
    fill(place, sizeof *place);
    fill(&out->len, sizeof out->len);
    unsigned answer = fitrec_join(in.bytes, in.size, as_given, out->bytes, out->size, &out->len, place);
    bool is_refused = answer != FITREC_JOINED && answer != FITREC_JOIN_NO_ROOM;
    check_numbers(place, sizeof *place, !is_placed(answer));
    check_numbers(&out->len, sizeof out->len, is_refused);
    if (is_refused)
        check_numbers(out->bytes, out->size, true);
    return answer;
}

static void join(char **words) {
    struct buffer in = file_at(words[1], 0), out;
    bool as_given = words[0][0] == '1';
    uint64_t place;
    unsigned answer = join_in(as_given, in, 0, &out, &place);
    check_guards(out);
    if (answer == FITREC_JOIN_NO_ROOM) {
        uint64_t needed = out.len;
        if (join_in(as_given, in, needed - 1, &out, &place) != FITREC_JOIN_NO_ROOM || out.len != needed)
            fail("another answer to a buffer that lacks one byte");
        check_guards(out);
        answer = join_in(as_given, in, needed, &out, &place);
        keep(out, words[2]);
    } else {
        join_in(as_given, in, 2 * in.size + 1024, &out, &place);
    }
    check_guards(out);
    printf("%u\n", answer);
    if (is_placed(answer))
        printf("at %llu\n", (unsigned long long)place);
    check_guards(in);
}

static void check(char **words) {
    struct buffer in = file_at(words[0], 0);
    struct fitrec_summary sum;
    uint64_t place;
    fill(&sum, sizeof sum);
    fill(&place, sizeof place);
    unsigned answer = fitrec_check(in.bytes, in.size, &sum, &place);
    check_numbers(&sum, sizeof sum, answer != FITREC_ACTIVITY);
    check_numbers(&place, sizeof place, !answer || answer > FITREC_TRAILING_BYTES);
    printf("%u\n", answer);
    if (answer == FITREC_ACTIVITY)
        print_summary(sum);
    else if (answer <= FITREC_TRAILING_BYTES)
        printf("at %llu\n", (unsigned long long)place);
    check_guards(in);
}

typedef uint8_t shower(const uint8_t *, size_t, bool, uint8_t *, size_t, uint64_t *, uint64_t *);

/* Shows into a buffer of so many bytes, and says whether that had room. */
static unsigned show_in(shower *call, struct buffer in, bool utc, size_t size, struct buffer *out, uint64_t *place) {
    *out = room(size);
    fill(place, sizeof *place);
    fill(&out->len, sizeof out->len);
    unsigned answer = call(in.bytes, in.size, utc, out->bytes, out->size, &out->len, place);
    bool is_refused = answer && answer <= FITREC_TRAILING_BYTES;
    check_numbers(place, sizeof *place, !is_refused);
    check_numbers(&out->len, sizeof out->len, is_refused);
    return answer;
}

static void show_by(shower *call, char **words) {
    struct buffer in = file_at(words[0], 0), out;
    bool utc = words[1][0] == '1';
    uint64_t place;
    unsigned answer = show_in(call, in, utc, 0, &out, &place);
    check_guards(out);
    if (answer == FITREC_SHOW_NO_ROOM) {
        uint64_t needed = out.len;
        if (show_in(call, in, utc, needed - 1, &out, &place) != FITREC_SHOW_NO_ROOM || out.len != needed)
            fail("another answer to a buffer that lacks one byte");
        check_guards(out);
        answer = show_in(call, in, utc, needed, &out, &place);
        keep(out, words[2]);
        check_guards(out);
    }
    printf("%u\n", answer);
    if (answer)
        printf("at %llu\n", (unsigned long long)place);
    check_guards(in);
}

static void show(char **words) {
    show_by(fitrec_show, words);
}

static void json(char **words) {
    show_by(fitrec_json, words);
}

/* Fills columns with this room, in a buffer of so many values. */
static unsigned columns_in(struct buffer in, char **words, size_t room_for, size_t values, struct buffer *out, uint64_t *rows,
                           uint64_t *place) {
    uint8_t fields[FITREC_MOST_COLUMNS];
    size_t count = 0;
    for (char *at = words[2]; *at; at += *at == ',')
        fields[count++] = (uint8_t)strtol(at, &at, 10);
    *out = room(values * sizeof(int64_t));
    fill(rows, sizeof *rows);
    fill(place, sizeof *place);
    unsigned answer = fitrec_columns(in.bytes, in.size, (uint16_t)atoi(words[1]), fields, count, room_for, (int64_t *)out->bytes, values,
                                     rows, place);
    bool is_refused = answer && answer <= FITREC_TRAILING_BYTES;
    check_numbers(place, sizeof *place, !is_refused);
    check_numbers(rows, sizeof *rows, answer != FITREC_COLUMNS && answer != FITREC_COLUMNS_NO_ROOM);
    if (is_refused || answer == FITREC_COLUMNS_SHORT)
        check_numbers(out->bytes, out->size, true);
    out->len = count;
    return answer;
}

static void columns(char **words) {
    struct buffer in = file_at(words[0], 0), out;
    uint64_t rows, place;
    unsigned answer = columns_in(in, words, 0, 0, &out, &rows, &place);
    check_guards(out);
    if (answer == FITREC_COLUMNS_NO_ROOM) {
        uint64_t needed = rows;
        if (columns_in(in, words, needed - 1, out.len * (needed - 1), &out, &rows, &place) != FITREC_COLUMNS_NO_ROOM || rows != needed)
            fail("another answer to a buffer that lacks one row");
        check_guards(out);
        if (columns_in(in, words, needed, out.len * needed - 1, &out, &rows, &place) != FITREC_COLUMNS_SHORT)
            fail("another answer to a buffer that lacks one value");
        check_guards(out);
        answer = columns_in(in, words, needed, out.len * needed, &out, &rows, &place);
        printf("%u\n", answer);
        for (uint64_t row = 0; row < rows; row++)
            for (size_t k = 0; k < out.len; k++) {
                int64_t value = ((int64_t *)out.bytes)[k * needed + row];
                if (value != FITREC_NO_VALUE)
                    printf("%lld", (long long)value);
                printf(k + 1 < out.len ? "," : "\n");
            }
        check_guards(out);
    } else
        printf("%u\n", answer);
    if (answer)
        printf("at %llu\n", (unsigned long long)place);
    check_guards(in);
}

static void salvage(char **words) {
    struct buffer in = file_at(words[1], 0), out = room(in.size + (size_t)atoi(words[0]));
    struct fitrec_salvage_counts counts;
    fill(&counts, sizeof counts);
    fill(&out.len, sizeof out.len);
    unsigned answer = fitrec_salvage(in.bytes, in.size, words[3][0] == '1', out.bytes, out.size, &out.len, &counts);
    bool is_refused = answer != FITREC_SALVAGED && answer != FITREC_SALVAGE_NO_ROOM;
    check_numbers(&counts, sizeof counts, is_refused);
    check_numbers(&out.len, sizeof out.len, is_refused);
    if (is_refused)
        check_numbers(out.bytes, out.size, true);
    printf("%u\n", answer);
    if (answer == FITREC_SALVAGED) {
        printf("kept %llu of %llu, %llu not looked at\n", (unsigned long long)counts.kept, (unsigned long long)counts.looked_at,
               (unsigned long long)counts.not_looked_at);
        keep(out, words[2]);
    }
    check_guards(in);
    check_guards(out);
}

/* Skips into buffers of so many bytes and pieces. */
static unsigned skip_in(struct buffer in, bool all, size_t size, size_t piece_room, struct buffer *out, struct buffer *pieces,
                        struct fitrec_salvage_counts *counts) {
    *out = room(size);
    *pieces = room(piece_room * sizeof(struct fitrec_piece));
    fill(counts, sizeof *counts);
    fill(&out->len, sizeof out->len);
    fill(&pieces->len, sizeof pieces->len);
    unsigned answer = fitrec_skip(in.bytes, in.size, all, out->bytes, out->size, &out->len, (struct fitrec_piece *)pieces->bytes, piece_room,
                                  &pieces->len, counts);
    bool is_found = answer == FITREC_SKIPPED || answer == FITREC_SKIP_NO_ROOM;
    check_numbers(counts, sizeof *counts, !is_found);
    check_numbers(&out->len, sizeof out->len, !is_found);
    check_numbers(&pieces->len, sizeof pieces->len, !is_found && answer != FITREC_SKIP_MORE_PIECES);
    if (answer != FITREC_SKIPPED)
        check_numbers(out->bytes, out->size, true);
    return answer;
}

static void print_pieces(struct buffer pieces) {
    const struct fitrec_piece *found = (const struct fitrec_piece *)pieces.bytes;
    for (uint64_t at = 0; at < pieces.len; at++) {
        if (pieces.bytes[at * sizeof *found + offsetof(struct fitrec_piece, kept)] > 1)
            fail("neither kept nor left out");
        printf("%s %llu to %llu\n", found[at].kept ? "kept" : "left out", (unsigned long long)found[at].start,
               (unsigned long long)found[at].end);
    }
}

static void skip(char **words) {
    struct buffer in = file_at(words[0], 0), out, pieces;
    struct fitrec_salvage_counts counts;
    bool all = words[2][0] == '1';
    uint64_t count = 0, needed = 0;
    unsigned answer = skip_in(in, all, 0, 0, &out, &pieces, &counts);
    if (answer == FITREC_SKIP_MORE_PIECES) {
        count = pieces.len;
        check_guards(out);
        check_guards(pieces);
        if (skip_in(in, all, in.size + FITREC_FRAME_ROOM, count - 1, &out, &pieces, &counts) != FITREC_SKIP_MORE_PIECES || pieces.len != count)
            fail("another answer to a buffer that lacks one piece");
        check_guards(out);
        check_guards(pieces);
        answer = skip_in(in, all, 0, count, &out, &pieces, &counts);
    }
    if (answer == FITREC_SKIP_NO_ROOM) {
        needed = out.len;
        check_guards(out);
        check_guards(pieces);
        if (skip_in(in, all, needed - 1, count, &out, &pieces, &counts) != FITREC_SKIP_NO_ROOM || out.len != needed || pieces.len != count)
            fail("another answer to a buffer that lacks one byte");
        check_guards(out);
        check_guards(pieces);
        answer = skip_in(in, all, needed, count, &out, &pieces, &counts);
    }
    printf("%u\n", answer);
    if (answer == FITREC_SKIPPED) {
        printf("kept %llu of %llu, %llu not looked at\n", (unsigned long long)counts.kept, (unsigned long long)counts.looked_at,
               (unsigned long long)counts.not_looked_at);
        print_pieces(pieces);
        keep(out, words[1]);
    }
    check_guards(in);
    check_guards(out);
    check_guards(pieces);
}

static void split(char **words) {
    struct buffer in = file_at(words[0], 0);
    for (uint64_t at = 0, size; at < in.size; at += size) {
        size = fitrec_first_file(in.bytes + at, in.size - at);
        if (!size || size > in.size - at)
            fail("a file that does not lie in the buffer");
        printf("%llu\n", (unsigned long long)size);
    }
    if (fitrec_first_file(in.bytes, 0))
        fail("a file of no bytes");
    check_guards(in);
}

/* Asks what the messages hold, in a buffer of so many codes, with room for so many values of one field. */
static unsigned held_in(struct buffer in, char **words, size_t room_for, size_t codes, struct buffer *held, uint64_t *rows, uint64_t *place) {
    static const uint8_t field = 253;
    struct buffer out = room(room_for * sizeof(int64_t));
    *held = room(codes);
    fill(rows, sizeof *rows);
    fill(place, sizeof *place);
    unsigned answer = fitrec_fields(in.bytes, in.size, (uint16_t)atoi(words[1]), &field, 1, room_for, (int64_t *)out.bytes, room_for,
                                    held->bytes, codes, rows, place);
    bool is_refused = answer && answer <= FITREC_TRAILING_BYTES;
    check_numbers(place, sizeof *place, !is_refused);
    check_numbers(rows, sizeof *rows, is_refused);
    if (is_refused) {
        check_numbers(held->bytes, held->size, true);
        check_numbers(out.bytes, out.size, true);
    }
    check_guards(out);
    return answer;
}

static void held(char **words) {
    struct buffer in = file_at(words[0], 0), first, all;
    uint64_t rows, place;
    unsigned answer = held_in(in, words, 0, 300, &first, &rows, &place);
    if (answer == 0 || answer == FITREC_COLUMNS_NO_ROOM) {
        uint64_t needed = rows;
        if ((answer == 0) != (needed == 0))
            fail("another answer to a buffer without rows");
        answer = held_in(in, words, needed, FITREC_CODES, &all, &rows, &place);
        if (rows != needed || memcmp(all.bytes, first.bytes, first.size))
            fail("other fields in a shorter buffer");
    }
    printf("%u\n", answer);
    for (size_t code = 0; answer == 0 && code < all.size; code++)
        if (all.bytes[code])
            printf("%zu %u\n", code, all.bytes[code]);
    if (answer == 0)
        check_guards(all);
    else
        printf("at %llu\n", (unsigned long long)place);
    check_guards(first);
    check_guards(in);
}

/* Finds values with this room, in buffers of so many heads and bytes. */
static unsigned values_in(struct buffer in, char **words, size_t room_for, size_t many, size_t size, struct buffer *heads,
                          struct buffer *values, uint64_t *rows, uint64_t *place) {
    uint32_t codes[FITREC_MOST_COLUMNS];
    size_t count = 0;
    for (char *at = words[2]; *at; at += *at == ',')
        codes[count++] = (uint32_t)strtol(at, &at, 10);
    *heads = room(many * sizeof(struct fitrec_value));
    *values = room(size);
    fill(rows, sizeof *rows);
    fill(&values->len, sizeof values->len);
    fill(place, sizeof *place);
    unsigned answer = fitrec_values(in.bytes, in.size, (uint16_t)atoi(words[1]), codes, count, room_for, (struct fitrec_value *)heads->bytes,
                                    many, values->bytes, size, rows, &values->len, place);
    bool is_refused = answer && answer <= FITREC_TRAILING_BYTES;
    check_numbers(place, sizeof *place, !is_refused);
    check_numbers(rows, sizeof *rows, answer != FITREC_VALUES && answer != FITREC_VALUES_NO_ROOM);
    check_numbers(&values->len, sizeof values->len, answer != FITREC_VALUES && answer != FITREC_VALUES_NO_ROOM);
    if (is_refused || answer == FITREC_VALUES_SHORT) {
        check_numbers(heads->bytes, heads->size, true);
        check_numbers(values->bytes, values->size, true);
    }
    heads->len = count;
    return answer;
}

static void print_values(const struct fitrec_value *heads, const uint8_t *at, size_t count, uint64_t room_for, uint64_t rows) {
    for (uint64_t row = 0; row < rows; row++)
        for (size_t k = 0; k < count; k++) {
            struct fitrec_value it = heads[k * room_for + row];
            printf("%u %u %u %u %u ", it.message, it.at, it.size, it.base, it.size ? it.order : 0);
            for (size_t left = it.size; left; left--)
                printf("%02x", *at++);
            printf("\n");
        }
}

static void values(char **words) {
    struct buffer in = file_at(words[0], 0), heads, values;
    uint64_t rows, place;
    unsigned answer = values_in(in, words, 0, 0, 0, &heads, &values, &rows, &place);
    if (answer == FITREC_VALUES_NO_ROOM) {
        uint64_t needed = rows, size = values.len, count = heads.len;
        for (int lacks = 0; lacks < 3; lacks++) {
            check_guards(heads);
            check_guards(values);
            unsigned wanted = lacks == 2 ? FITREC_VALUES_SHORT : FITREC_VALUES_NO_ROOM;
            if (lacks == 1 && !size)
                wanted = FITREC_VALUES;
            answer = values_in(in, words, needed - (lacks == 0), count * (needed - (lacks == 0)) - (lacks == 2), size - (lacks == 1 && size),
                               &heads, &values, &rows, &place);
            if (answer != wanted || (lacks < 2 && (rows != needed || values.len != size)))
                fail("another answer to a buffer that lacks a row, a byte or a head");
        }
        check_guards(heads);
        check_guards(values);
        answer = values_in(in, words, needed, count * needed, size, &heads, &values, &rows, &place);
    }
    printf("%u\n", answer);
    if (answer)
        printf("at %llu\n", (unsigned long long)place);
    else
        print_values((struct fitrec_value *)heads.bytes, values.bytes, heads.len, rows, rows);
    check_guards(heads);
    check_guards(values);
    check_guards(in);
}

static void lengths(char **words) {
    struct buffer data = file_at(words[0], FITREC_CLOSING_ROOM), journal = file_at(words[1], 0), nothing = room(0);
    struct fitrec_summary sum;
    fill(&sum, sizeof sum);
    uint64_t long_data = data.size + 1, long_journal = journal.size + 1, most = UINT64_MAX, none[2] = {0, 0};
    printf("%u", fitrec_repair(data.bytes, data.size, &long_data, journal.bytes, journal.size, &journal.len, &sum));
    printf(" %u", fitrec_repair(data.bytes, data.size, &data.len, journal.bytes, journal.size, &long_journal, &sum));
    printf(" %u", fitrec_repair(data.bytes, data.size, &most, journal.bytes, journal.size, &journal.len, &sum));
    printf(" %u", fitrec_repair(data.bytes, data.size, &none[0], nothing.bytes, nothing.size, &none[1], &sum));
    printf(" %u", fitrec_save(data.bytes, data.size, &long_data, journal.bytes, journal.size, &journal.len, nothing.bytes, 0, &none[0], &sum));
    printf(" %u", fitrec_save(data.bytes, data.size, &data.len, journal.bytes, journal.size, &most, nothing.bytes, 0, &none[0], &sum));
    check_numbers(&sum, sizeof sum, true);
    if (long_data != data.size + 1 || long_journal != journal.size + 1 || most != UINT64_MAX || none[0] || none[1])
        fail("a length was changed");
    check_guards(nothing);
    check_guards(data);
    check_guards(journal);
    printf("\n");
}

int main(int count, char **words) {
    if (count == 6 && !strcmp(words[1], "repair"))
        repair(words + 2);
    else if (count == 6 && !strcmp(words[1], "salvage"))
        salvage(words + 2);
    else if (count == 5 && !strcmp(words[1], "skip"))
        skip(words + 2);
    else if (count == 3 && !strcmp(words[1], "split"))
        split(words + 2);
    else if (count == 5 && !strcmp(words[1], "save"))
        save(words + 2);
    else if (count == 4 && !strcmp(words[1], "uncommitted"))
        uncommitted(words + 2);
    else if (count == 5 && !strcmp(words[1], "earlier"))
        earlier(words + 2);
    else if (count == 4 && !strcmp(words[1], "plain"))
        plain(words + 2);
    else if (count == 4 && !strcmp(words[1], "finish"))
        finish(words + 2);
    else if (count == 5 && (!strcmp(words[1], "shift") || !strcmp(words[1], "start")))
        shift(!strcmp(words[1], "start"), words + 2);
    else if (count == 3 && !strcmp(words[1], "first"))
        first(words + 2);
    else if (count == 5 && !strcmp(words[1], "join"))
        join(words + 2);
    else if (count == 3 && !strcmp(words[1], "check"))
        check(words + 2);
    else if (count == 5 && !strcmp(words[1], "show"))
        show(words + 2);
    else if (count == 5 && !strcmp(words[1], "json"))
        json(words + 2);
    else if (count == 5 && !strcmp(words[1], "columns"))
        columns(words + 2);
    else if (count == 4 && !strcmp(words[1], "held"))
        held(words + 2);
    else if (count == 5 && !strcmp(words[1], "values"))
        values(words + 2);
    else if (count == 2 && !strcmp(words[1], "version"))
        printf("%u\n", fitrec_version() == FITREC_VERSION);
    else if (count == 4 && !strcmp(words[1], "lengths"))
        lengths(words + 2);
    else
        fail("no such words");
    return 0;
}
