/* Rides on a card that changes, mixes up or forgets bytes, for compare/cards.py:

     cards KIND SEED COUNT [unchecked]

   KIND is what the card does:

     flips      each bit of both files of a ride is flipped, one at a time, in COUNT rides
     mixes      the data file of one ride lies beside the journal of another, or of an earlier state of the same; COUNT pairs
     forgets    a sync is only pretended, or all from one on, and then the power goes; COUNT power cuts
     rots       pages of both files, or eight bytes, come back as zeros, FF, noise or their older content; COUNT states

   Each state is recovered over whole files, by windows and by fitrec_repair, which have to agree. A recovery that answers ok has to make
   the finished file of one of the commits of the ride whose data file it reads, byte for byte; after another answer nothing changed. With
   `unchecked` each open slot is made to state the checksum of the bytes that it counts, whatever they are. The line that is printed counts the
   states and their outcomes. */

#include "fitrec.h"
#include <inttypes.h>
#include <stdbool.h>
#include <stdio.h>
#include <stdlib.h>
#include <string.h>

enum { MOST = 24 * 1024, SLOT = 16, SLOTS = 3, MOST_COMMITS = 24, MOST_CALLS = 600, PAGE = 512, HEADER = 14 };

struct file {
    size_t len;
    uint8_t bytes[MOST];
};

struct pair {
    struct file of[2];
};

struct logged {
    struct fitrec_call call;
    uint8_t bytes[FITREC_MOST_BYTES];
};

/* A ride as it was recorded: all calls of the files, and for each commit the files after it and the finished file of a recovery. */
struct ride {
    int calls, commits;
    struct logged log[MOST_CALLS];
    struct pair after[MOST_COMMITS];
    struct file finished[MOST_COMMITS];
};

static struct { unsigned long states, refused, last, earlier, wrong; } seen;
static bool is_unchecked;
static uint64_t chance_state;

static uint32_t chance(uint32_t below) {
    chance_state = chance_state * 6364136223846793005u + 1442695040888963407u;
    return (uint32_t)(chance_state >> 33) % below;
}

static void fail(const char *why) {
    printf("%s\n", why);
    exit(2);
}

static void carry_out(struct pair *files, const struct fitrec_call *call, const uint8_t *bytes) {
    struct file *it = &files->of[call->file];
    if (call->at > it->len || call->at + call->count > MOST)
        fail("a call outside its file");
    if (call->kind == FITREC_WRITE) {
        memcpy(it->bytes + call->at, bytes, call->count);
        it->len = call->at + call->count > it->len ? call->at + call->count : it->len;
    } else if (call->kind == FITREC_CUT) {
        it->len = call->at;
    }
}

static void carry_out_plan(struct pair *files, const struct fitrec_plan *plan) {
    for (uint32_t k = 0; k < plan->count; k++)
        carry_out(files, &plan->calls[k], plan->bytes + plan->calls[k].start);
}

/* Recovers the files in place. */
static uint8_t recover(struct pair *files) {
    static struct fitrec_plan plan;
    const struct file *data = &files->of[0], *journal = &files->of[1];
    uint8_t answer = fitrec_recover(data->bytes, data->len, journal->bytes, journal->len, &plan);
    carry_out_plan(files, &plan);
    return answer;
}

static uint8_t recover_by_windows(struct pair *files) {
    static struct fitrec_plan plan;
    static struct fitrec_recovery it;
    memset(&it, 0, sizeof it);
    it.data_size = files->of[0].len;
    it.journal_size = files->of[1].len;
    uint8_t answer = fitrec_recover_begin(&it, &plan);
    while (answer == FITREC_NEEDS_WINDOW) {
        carry_out_plan(files, &plan);
        const struct file *from = &files->of[it.file];
        size_t left = it.at < from->len ? from->len - it.at : 0;
        it.filled = left < it.count ? (uint16_t)left : it.count;
        memcpy(it.window, from->bytes + it.at, it.filled);
        answer = fitrec_recover_next(&it, &plan);
    }
    carry_out_plan(files, &plan);
    return answer;
}

static uint8_t repair(struct pair *files) {
    struct fitrec_summary summary;
    struct file *data = &files->of[0], *journal = &files->of[1];
    uint64_t data_len = data->len, journal_len = journal->len;
    uint8_t answer = fitrec_repair(data->bytes, MOST, &data_len, journal->bytes, MOST, &journal_len, &summary);
    data->len = data_len, journal->len = journal_len;
    /* The other two do not tell a change from other damage. */
    return answer == FITREC_CHANGED ? FITREC_DAMAGED : answer;
}

/* A repair does not tell an erasing that was cut off from other files in which nothing is recorded. */
static uint8_t as_of_a_repair(uint8_t answer) {
    return answer == FITREC_ERASING ? FITREC_NOTHING_RECORDED : answer;
}

static bool is_same(const struct file *a, const struct file *b) {
    return a->len == b->len && !memcmp(a->bytes, b->bytes, a->len);
}

/* CRC-32, bit by bit. */
static uint32_t checksum(const uint8_t *bytes, size_t len) {
    uint32_t sum = 0xFFFFFFFF;
    for (size_t bit = 0; bit < 8 * len; bit++)
        sum = sum >> 1 ^ ((sum ^ bytes[bit / 8] >> bit % 8) & 1 ? 0xEDB88320 : 0);
    return ~sum;
}

/* Each open slot states the checksum of the bytes that it counts, so that no change of them is noticed. */
static void make_agree(const struct file *data, struct file *journal) {
    for (size_t slot = 8; slot < 8 + SLOT * SLOTS && slot + SLOT <= journal->len; slot += SLOT) {
        uint8_t *it = journal->bytes + slot;
        size_t counted = it[1] | (size_t)it[2] << 8 | (size_t)it[3] << 16 | (size_t)it[4] << 24;
        if (it[0] != 0xA5 || HEADER + counted > data->len)
            continue;
        uint32_t sum = checksum(data->bytes + HEADER, counted);
        for (int k = 0; k < 4; k++)
            it[5 + k] = (uint8_t)(sum >> 8 * k);
    }
}

/* Recovers a state in each of three ways, and compares what it finds with the ride. The counting commits are the first `most`. */
static void judge(const struct ride *ride, const struct pair *files, int most) {
    static struct pair mine, its;
    static uint8_t (*const ways[])(struct pair *) = {recover, recover_by_windows, repair};
    uint8_t answer = 0;
    for (int way = 0; way < 3; way++) {
        its = *files;
        if (is_unchecked)
            make_agree(&its.of[0], &its.of[1]);
        uint8_t its_answer = ways[way](&its);
        if (way > 0 && (its_answer != (ways[way] == repair ? as_of_a_repair(answer) : answer) || !is_same(&its.of[0], &mine.of[0])))
            fail("another recovery of the same files");
        answer = its_answer, mine = its;
        if (answer && (!is_same(&mine.of[0], &files->of[0]) || (!is_unchecked && !is_same(&mine.of[1], &files->of[1]))))
            fail("a refused recovery changed a file");
    }
    int at = most;
    while (at > 0 && !is_same(&mine.of[0], &ride->finished[at - 1]))
        at--;
    seen.states++;
    if (answer)
        seen.refused++;
    else if (at == 0)
        seen.wrong++;
    else if (at == most)
        seen.last++;
    else
        seen.earlier++;
}

/* The plan of a step is carried out and logged. */
static void take_plan(struct ride *ride, struct pair *files, struct fitrec_plan *plan) {
    for (uint32_t k = 0; k < plan->count; k++) {
        struct logged *to = &ride->log[ride->calls++];
        if (ride->calls == MOST_CALLS)
            fail("a ride that is too long");
        to->call = plan->calls[k];
        memcpy(to->bytes, plan->bytes + to->call.start, to->call.count);
        carry_out(files, &to->call, to->bytes);
    }
}

static struct fitrec_sample any_sample(uint32_t time, uint32_t fields, uint32_t *distance) {
    struct fitrec_sample made = {.time = time};
    *distance += chance(900);
    if (fields & 1) made.has |= FITREC_HAS_HEART_RATE, made.heart_rate = (uint8_t)chance(200);
    if (fields & 2) made.has |= FITREC_HAS_DISTANCE, made.distance = *distance;
    if (fields & 4) made.has |= FITREC_HAS_POSITION, made.lat = (int32_t)chance(1u << 30), made.lon = (int32_t)chance(1u << 30);
    if (fields & 8) made.has |= FITREC_HAS_POWER, made.power = (uint16_t)chance(900);
    if (fields & 16) made.has |= FITREC_HAS_SPEED, made.speed = (uint16_t)chance(9000);
    if (fields & 32) made.has |= FITREC_HAS_TEMPERATURE, made.temperature = (int8_t)chance(30);
    return made;
}

/* The files after a commit, and what a recovery makes of them. */
static void note_commit(struct ride *ride, const struct pair *files) {
    struct pair after = ride->after[ride->commits] = *files;
    if (recover(&after))
        fail("an honest card was refused");
    ride->finished[ride->commits++] = after.of[0];
}

/* Records a ride with these fields, of so many commits after the start, which is one too, with so many samples before each. */
static void record(struct ride *ride, uint32_t fields, int commits, int samples) {
    static struct fitrec_recorder recorder;
    static struct fitrec_plan plan;
    static struct pair files;
    uint32_t time = 1000000000 + chance(1000000), distance = 0;
    memset(&recorder, 0, sizeof recorder);
    memset(&files, 0, sizeof files);
    ride->calls = ride->commits = 0;
    if (fitrec_start(&recorder, 0, time, chance(1000), (uint8_t)chance(3), &plan))
        fail("a start was refused");
    take_plan(ride, &files, &plan);
    note_commit(ride, &files);
    for (int commit = 0; commit < commits; commit++) {
        for (int k = 0; k < samples; k++) {
            struct fitrec_sample sample = any_sample(time += 1 + chance(2), fields, &distance);
            if (fitrec_add_sample(&recorder, &sample, &plan))
                fail("a sample was refused");
            take_plan(ride, &files, &plan);
        }
        if (chance(4) == 0 && !fitrec_add_lap(&recorder, time, &plan))
            take_plan(ride, &files, &plan);
        if (fitrec_commit(&recorder, &plan))
            fail("a commit was refused");
        take_plan(ride, &files, &plan);
        note_commit(ride, &files);
    }
}

static void flips(struct ride *ride, int count) {
    static struct pair files;
    for (int times = 0; times < count; times++) {
        record(ride, 1 + chance(63), 3, 3 + (int)chance(4));
        files = ride->after[ride->commits - 1];
        for (int file = 0; file < 2; file++)
            for (size_t bit = 8 * (file ? 0 : HEADER); bit < 8 * files.of[file].len; bit++) {
                files.of[file].bytes[bit / 8] ^= (uint8_t)(1 << bit % 8);
                judge(ride, &files, ride->commits);
                files.of[file].bytes[bit / 8] ^= (uint8_t)(1 << bit % 8);
            }
    }
}

/* Any two rides, two with the same fields, or two with the same fields and lengths. */
static void mixes(struct ride *one, int count) {
    static struct ride other;
    static struct pair files;
    for (int times = 0; times < count; times++) {
        uint32_t fields = 1 + chance(63), kind = chance(4);
        int commits = 2 + (int)chance(4), samples = 4 + (int)chance(20);
        record(one, fields, commits, samples);
        int at = (int)chance((uint32_t)one->commits);
        files = one->after[one->commits - 1];
        if (kind == 3) {
            /* One of the two files is a copy of an earlier state. */
            int file = (int)chance(2);
            files.of[file] = one->after[at].of[file];
        } else {
            record(&other, kind ? fields : 1 + chance(63), kind == 2 ? commits : 2 + (int)chance(4), kind == 2 ? samples : 4 + (int)chance(20));
            files.of[1] = other.after[other.commits - 1].of[1];
        }
        judge(one, &files, one->commits);
    }
}

/* What a power cut leaves of a file whose synced content and content are these: of each page the old or the new one, zeros or noise. */
static void leave(struct file *is, const struct file *synced) {
    size_t least = is->len < synced->len ? is->len : synced->len, most = is->len > synced->len ? is->len : synced->len;
    struct file old = *synced;
    memset(old.bytes + old.len, 0, MOST - old.len);
    size_t unit = chance(2) ? PAGE : 1;
    uint32_t how = 0;
    for (size_t at = 0; at < most; at++) {
        if (at % unit == 0)
            how = chance(8);
        if (at >= is->len || how < 4)
            is->bytes[at] = old.bytes[at];
        else if (how == 4 && at >= synced->len)
            is->bytes[at] = (uint8_t)chance(256);
    }
    is->len = chance(2) ? most : least + chance((uint32_t)(most - least + 1));
}

static void forgets(struct ride *ride, int count) {
    static struct pair files, synced;
    for (int times = 0; times < count; times++) {
        if (times % 200 == 0)
            record(ride, 1 + chance(63), 8, 2 + (int)chance(30));
        int pretended = (int)chance((uint32_t)ride->calls), end = pretended + (int)chance((uint32_t)(ride->calls - pretended)) + 1;
        bool all = chance(2);
        memset(&files, 0, sizeof files);
        memset(&synced, 0, sizeof synced);
        for (int k = 0; k < end; k++) {
            const struct logged *it = &ride->log[k];
            carry_out(&files, &it->call, it->bytes);
            if (it->call.kind == FITREC_SYNC && !(all ? k >= pretended : k == pretended))
                synced.of[it->call.file] = files.of[it->call.file];
        }
        leave(&files.of[0], &synced.of[0]);
        leave(&files.of[1], &synced.of[1]);
        judge(ride, &files, ride->commits);
    }
}

static void rots(struct ride *ride, int count) {
    static struct pair files;
    for (int times = 0; times < count; times++) {
        if (times % 200 == 0)
            record(ride, 1 + chance(63), 8, 10 + (int)chance(60));
        int commits = ride->commits, before = (int)chance((uint32_t)commits);
        files = ride->after[commits - 1];
        struct file *data = &files.of[0];
        const struct file *old = &ride->after[before].of[0];
        size_t unit = chance(2) ? PAGE : 8;
        for (int pages = 1 + (int)chance(3); pages > 0; pages--) {
            size_t at = chance((uint32_t)(data->len / unit + 1)) * unit, end = at + unit < data->len ? at + unit : data->len;
            uint32_t how = chance(4);
            for (; at < end; at++)
                data->bytes[at] = how == 0 ? 0 : how == 1 ? 0xFF : how == 2 ? (uint8_t)chance(256) : at < old->len ? old->bytes[at] : 0;
        }
        if (chance(4) == 0)
            files.of[1] = ride->after[before].of[1];
        judge(ride, &files, commits);
    }
}

int main(int count, char **words) {
    static struct ride ride;
    if (count < 4)
        fail("words are missing");
    chance_state = strtoull(words[2], NULL, 10);
    is_unchecked = count > 4;
    int many = atoi(words[3]);
    if (!strcmp(words[1], "flips")) flips(&ride, many);
    else if (!strcmp(words[1], "mixes")) mixes(&ride, many);
    else if (!strcmp(words[1], "forgets")) forgets(&ride, many);
    else if (!strcmp(words[1], "rots")) rots(&ride, many);
    else fail("an unknown kind");
    printf("%lu states: %lu refused, %lu last, %lu earlier, %lu wrong\n", seen.states, seen.refused, seen.last, seen.earlier, seen.wrong);
    return 0;
}
