/* The files that `fitrec save` makes: rides that were cut off, saved again and again to one of two names. After a power cut a name has the
 * ride of the last run that was answered, or of the one that was asked. */
#include "guest.h"

enum { RUNS = 60, MOST_RIDES = 16 };

static const char *const names[] = {FOLDER "/a.fit", FOLDER "/b.fit"};
static struct bytes rides[MOST_RIDES];
static struct { int ride, name; } runs[RUNS];
static int last[2] = {-1, -1}, asked[2] = {-1, -1};

static void record(void) {
    const char *share = setting("share", "");
    char from[256], said[512];
    uint32_t count = 0;
    while (count < MOST_RIDES && (rides[count] = read_file("%s/rides/%u.fit", share, count)).at)
        count++;
    for (int k = 0; k < RUNS; k++) {
        runs[k].ride = (int)chance(count), runs[k].name = (int)chance(2);
        snprintf(from, sizeof from, "%s/rides/%d", share, runs[k].ride);
        for (uint32_t times = chance(4); times; times--)
            stir();
        mark(ASKED, k);
        if (run(said, "save", from, names[runs[k].name]))
            die("save prints %s", said);
        mark(ANSWERED, k);
    }
}

static void follow(const struct entry *step) {
    int name = runs[step->number].name, ride = runs[step->number].ride;
    if (step->type == ANSWERED)
        last[name] = ride;
    asked[name] = step->type == ASKED ? ride : -1;
}

/* Which ride this is, or -1. */
static int ride_of(struct bytes it) {
    int k = MOST_RIDES;
    while (k-- > 0 && !is_same(it, rides[k])) {}
    return k;
}

static void judge(int again, int is_read_only) {
    (void)again, (void)is_read_only;
    struct bytes beside = read_file(FOLDER "/.fitrec-new-0");
    for (int k = 0; k < 2; k++) {
        struct bytes it = read_file(names[k]);
        int which = ride_of(it), is_beside = ride_of(beside) >= 0 && (ride_of(beside) == last[k] || ride_of(beside) == asked[k]);
        if (which >= 0 ? which != last[k] && which != asked[k] : it.at || last[k] >= 0)
            wrong("OUT %s%s", !it.at ? "is not there or cannot be read" : !it.len ? "is empty" : which < 0 ? "is not whole" : "is an older ride",
                  is_beside ? ", and .fitrec-new-0 has it" : "");
        free(it.at);
    }
    free(beside.at);
}

const struct story saves = {record, follow, judge};
