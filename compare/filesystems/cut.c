/* What a power cut may leave. A write is sure once the disk has answered a later flush, or at once if it was asked to be (FUA) and the
 * power did not go while it was written. Of the others each sector may be new or old, in any combination; a sector is never torn.
 *
 *     kind        of the writes that are not sure
 *     nothing     none is kept
 *     all         each is kept
 *     some        each is kept or not
 *     sectors     each sector is kept or not
 *     but-one     one is lost
 *     only-one    one is kept
 *     first       those before one are kept, and sectors of that one
 *     aimed       those that begin in the setting `torn` are kept by sectors, and all others whole */
#include "guest.h"

const char *const kinds[] = {"nothing", "all", "some", "sectors", "but-one", "only-one", "first", "-", "aimed"};
enum way { LOST, WHOLE, TORN };

/* Whether the setting `torn` is for this write, or there is no such setting. */
static int is_aimed_at(const struct entry *it) {
    unsigned long long from, to;
    if (sscanf(setting("torn", ""), "%llu-%llu", &from, &to) != 2)
        return 1;
    return from <= it->at && it->at < to;
}

/* How many writes are not sure, of those that are aimed at. */
size_t pending(const struct log *log, size_t from, size_t to) {
    size_t count = 0;
    for (; from < to; from++)
        count += log->entry[from].type == WRITE && is_aimed_at(&log->entry[from]);
    return count;
}

/* From now on these writes are sure. */
void settle(const struct log *log, size_t from, size_t to) {
    for (; from < to; from++)
        if (log->entry[from].type == WRITE)
            put_durable(log->entry[from].at, log->entry[from].bytes, log->entry[from].len);
}

static enum way way_of(const struct entry *it, int kind, size_t number, size_t chosen) {
    switch (kind) {
    case ALL: return WHOLE;
    case SOME: return chance(2) ? WHOLE : LOST;
    case SECTORS: return TORN;
    case BUT_ONE: return number == chosen ? LOST : WHOLE;
    case ONLY_ONE: return number == chosen ? WHOLE : LOST;
    case FIRST: return number < chosen ? WHOLE : number == chosen ? TORN : LOST;
    case AIMED: return is_aimed_at(it) ? TORN : WHOLE;
    default: return LOST;
    }
}

/* The power goes when the disk has received these entries. */
void cut(const struct log *log, size_t from, size_t to, int kind) {
    uint32_t sector = (uint32_t)number_of("sector", 4096), flushes_late = number_of("unsure", 0) > 0;
    size_t chosen = chance((uint32_t)pending(log, from, to)), number = 0;
    for (size_t k = from; k < to; k++) {
        const struct entry *it = &log->entry[k];
        if (it->type != WRITE)
            continue;
        enum way way = way_of(it, kind, number++, chosen);
        if (it->is_sure && !flushes_late && (k + 1 < to || chance(2)))
            way = WHOLE;
        for (uint32_t at = 0; at < it->len; at += sector)
            if (way == WHOLE || (way == TORN && chance(2)))
                put_now(it->at + at, it->bytes + at, it->len - at < sector ? it->len - at : sector);
    }
}
