/* The disks that power cuts may leave at each place of a recording; in some of those that are right the power goes once more, while they are
 * mounted and recovered. */
#include "guest.h"
#include <stdarg.h>

/* A disk that is judged: where the power goes in the recording, and again in what follows. */
struct state {
    size_t at, again;
    int kind, again_kind, goes_again;
    uint64_t dice;
};

static const struct story *story;
static const struct log *recording;
static struct log following;     /* what is written while a disk is judged */
static size_t settled;           /* so many entries of the recording are sure */
static long states, seconds, reports;
static char text[1000];

void wrong(const char *format, ...) {
    va_list words;
    size_t used = strlen(text);
    va_start(words, format);
    used += (size_t)snprintf(text + used, sizeof text - used, "%s", used ? "; " : "");
    if (used < sizeof text)
        vsnprintf(text + used, sizeof text - used, format, words);
}

/* What was written and flushed until the power went, and what the cut left of the rest. */
static void build(const struct state *it) {
    dice = it->dice;
    reset_disk();
    cut(recording, settled, it->at, it->kind);
    if (it->goes_again) {
        size_t sure = it->again;
        while (sure > 0 && following.entry[sure - 1].type != FLUSH)
            sure--;
        cut(&following, 0, sure, ALL);
        cut(&following, sure, it->again, it->again_kind);
    }
    forget_disk();
}

/* Mounts and judges, in a quarter of the disks without writing. What is written meanwhile is logged. */
static int is_wrong(int again) {
    int is_read_only = !again && !chance(4);
    *text = 0;
    while (following.count && !again)
        free(following.entry[--following.count].bytes);
    logging = again ? NULL : &following;
    if (mount_disk(is_read_only)) {
        wrong("mount%s: %s", is_read_only ? " read only" : "", strerror(errno));
    } else {
        story->judge(again, is_read_only);
        unmount_disk();
    }
    logging = NULL;
    return *text != 0;
}

static void report(const struct state *it) {
    char path[64];
    uint64_t before = dice;
    snprintf(path, sizeof path, FOUND "/%ld.img", ++reports);
    if (reports <= number_of("keep", 0)) {
        build(it);
        keep_disk(path);
    }
    dice = before;
    printf("WRONG %ld: %s [cut at %zu of %zu, %s", reports, text, it->at, recording->count, kinds[it->kind]);
    if (it->goes_again)
        printf(", again at %zu of %zu, %s", it->again, following.count, kinds[it->again_kind]);
    printf("%s%s]\n", story == &ride ? ", promise " : "", story == &ride ? promise() : "");
}

static int is_answered(size_t to) {
    while (to > 0 && following.entry[to - 1].type != ANSWERED)
        to--;
    return to > 0;
}

static void try_state(size_t at) {
    int is_sure = pending(recording, settled, at) == 0, aimed = *setting("torn", "") != 0;
    struct state it = {.at = at, .kind = is_sure ? NOTHING : aimed ? AIMED : (int)chance(KINDS)};
    it.dice = dice;
    build(&it);
    states++;
    if (is_wrong(0)) {
        report(&it);
    } else if (!chance(5)) {
        uint64_t before = dice;
        it.goes_again = 1, it.again = chance((uint32_t)following.count + 1), it.again_kind = (int)chance(KINDS);
        build(&it);
        seconds++;
        if (is_wrong(1 + is_answered(it.again)))
            report(&it);
        dice = before;
    }
}

/* How many entries are sure once the disk has received so many. A disk that does not do its flushes writes at any time: here, so many
 * entries later. */
static size_t sure_of(size_t at) {
    size_t unsure = (size_t)number_of("unsure", 0);
    if (unsure)
        return at > unsure ? at - unsure : 0;
    while (at > 0 && recording->entry[at - 1].type != FLUSH)
        at--;
    return at;
}

/* Whether the power may go here: at each place, or with an aimed cut wherever it has something to tear. */
static int is_place(size_t at) {
    return !*setting("torn", "") || pending(recording, sure_of(at), at) > 0;
}

/* The states are spread over these places: so many at each, or one where all is sure. */
void try_all(const struct story *judged, const struct log *log) {
    size_t begin = 0, places = 1;
    story = judged, recording = log;
    while (recording->entry[begin].type != ASKED)
        begin++;
    for (size_t at = begin + 1; at <= recording->count; at++)
        places += is_place(at);
    double each = (double)number_of("states", 100) / (double)places, owed = 0;
    for (size_t at = 1; at <= recording->count; at++) {
        const struct entry *it = &recording->entry[at - 1];
        size_t sure = sure_of(at);
        if (it->type == ASKED || it->type == ANSWERED)
            story->follow(it);
        settle(recording, settled, sure);
        settled = sure;
        owed += at > begin && is_place(at) ? each : 0;
        for (int most = pending(recording, settled, at) ? 1000 : 1; owed >= 1; owed -= 1)
            if (most-- > 0)
                try_state(at);
    }
    printf("DONE states %ld, second cuts %ld, wrong %ld\n", states, seconds, reports);
}

void judge_one(const struct story *judged) {
    story = judged;
    printf("JUDGED: %s\n", is_wrong(0) ? text : "well");
}
