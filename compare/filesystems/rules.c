/* The rules of docs/RECORDING.md: two files, with random writes, cuts and syncs of this process itself.
 *
 * After a power cut a file has a length between the least and the greatest since its last sync (rule 4), each place below the least that
 * was not written since holds what was synced (rules 2 and 3), and a second cut leaves what was read after the first. */
#include "guest.h"
#include <sys/stat.h>

enum kind { PUT, SHORTEN, SYNC };
enum { STEPS = 900, MOST = 1 << 19 };

struct step {
    enum kind kind;
    int file;
    uint32_t at, len;
    uint8_t *bytes;
};

/* A file by the steps that were asked and answered. */
struct model {
    uint8_t synced[MOST], is_written[MOST], last[MOST];
    uint32_t len, least, greatest;
    int is_there;
};

/* A file as it is read. */
struct content {
    uint8_t bytes[2 * MOST];
    int64_t len;           /* -1: it is not there */
    int64_t unreadable;    /* the first place that cannot be read */
};

static const char *const names[] = {FOLDER "/activity.fit", FOLDER "/activity.frj"};
static struct step steps[STEPS];
static struct model models[2];
static struct content first[2];

static struct step any_step(const uint32_t len[2]) {
    uint32_t what = chance(100), place = len[1] < 24 ? len[1] : 8 + chance(16), back = chance(len[0] < 900 ? len[0] + 1 : 900);
    if (what < 40)
        return (struct step){PUT, 0, len[0], 1 + chance(chance(10) ? 600 : 9000), NULL};
    if (what < 52)
        return (struct step){PUT, 0, chance(len[0] + 1), 1 + chance(100), NULL};
    if (what < 60)
        return (struct step){PUT, 0, 0, 14, NULL};
    if (what < 70)
        return (struct step){PUT, 1, place, 1 + chance(24 - place), NULL};
    if (what < 77)
        return (struct step){SHORTEN, 0, chance(30) ? len[0] - back : 0, 0, NULL};
    return (struct step){SYNC, what >= 90, 0, 0, NULL};
}

static int do_step(const struct step *it, int file) {
    if (it->kind == SYNC) {
        if (number_of("delay", 0) && !chance(3))
            usleep(chance(1000 * (uint32_t)number_of("delay", 0)));
        return number_of("unsynced", 0) ? 0 : fdatasync(file);
    }
    if (it->kind == SHORTEN)
        return ftruncate(file, it->at);
    return pwrite(file, it->bytes, it->len, it->at) != (ssize_t)it->len;
}

static void record(void) {
    uint32_t len[2] = {0, 0};
    int file[2], folder = open(FOLDER, O_RDONLY | O_CLOEXEC);
    for (int k = 0; k < 2; k++)
        if ((file[k] = open(names[k], O_RDWR | O_CREAT | O_CLOEXEC, 0644)) < 0)
            die("%s", names[k]);
    if (!number_of("unsynced", 0) && (fsync(folder) || fdatasync(file[0]) || fdatasync(file[1])))
        die("sync");
    for (int k = 0; k < STEPS; k++) {
        struct step it = any_step(len);
        if (it.at + it.len > MOST)
            it = (struct step){SHORTEN, 0, 0, 0, NULL};
        it.bytes = malloc(it.len + 1);
        for (uint32_t at = 0; at < it.len; at++)
            it.bytes[at] = (uint8_t)(1 + chance(255));
        len[it.file] = it.kind == SHORTEN ? it.at : it.at + it.len > len[it.file] ? it.at + it.len : len[it.file];
        steps[k] = it;
        stir();
        mark(ASKED, k);
        if (do_step(&it, file[it.file]))
            die("step %d", k);
        mark(ANSWERED, k);
    }
    close(folder), close(file[0]), close(file[1]);
}

static void follow(const struct entry *entry) {
    const struct step *it = &steps[entry->number];
    struct model *model = &models[it->file];
    if (entry->type == ASKED && it->kind == PUT) {
        uint32_t end = it->at + it->len;
        memcpy(model->last + it->at, it->bytes, it->len);
        memset(model->is_written + it->at, 1, it->len);
        model->len = end > model->len ? end : model->len;
        model->greatest = model->len > model->greatest ? model->len : model->greatest;
    } else if (entry->type == ASKED && it->kind == SHORTEN) {
        model->len = it->at;
        model->least = it->at < model->least ? it->at : model->least;
    } else if (entry->type == ANSWERED && it->kind == SYNC) {
        memcpy(model->synced, model->last, model->len);
        memset(model->is_written, 0, MOST);
        model->least = model->greatest = model->len;
        model->is_there |= model->len > 0;
    }
}

static void read_content(int which, struct content *to) {
    struct stat found;
    int file = open(names[which], O_RDONLY | O_CLOEXEC);
    to->len = file < 0 || fstat(file, &found) ? -1 : found.st_size > 2 * MOST ? 2 * MOST : found.st_size;
    to->unreadable = INT64_MAX;
    for (int64_t at = 0, more; at < to->len; at += more) {
        more = pread(file, to->bytes + at, (size_t)(to->len - at < 512 ? to->len - at : 512), at);
        if (more > 0)
            continue;
        to->unreadable = at < to->unreadable ? at : to->unreadable;
        memset(to->bytes + at, 0, more = 512);
    }
    if (file >= 0)
        close(file);
}

static void judge_file(int which, const struct content *it) {
    const struct model *model = &models[which];
    uint32_t lost = 0, from = 0;
    if (!model->is_there)
        return;
    if (it->len < 0) {
        wrong("rule 2: file %d is missing", which);
        return;
    }
    if (it->len < model->least || it->len > model->greatest)
        wrong("rule 4: file %d has %lld bytes, not %u to %u", which, (long long)it->len, model->least, model->greatest);
    if (it->unreadable < model->least)
        wrong("rule 2: file %d cannot be read from %lld, and %u bytes are sure", which, (long long)it->unreadable, model->least);
    for (uint32_t at = 0; at < model->least && at < it->len; at++)
        if (!model->is_written[at] && it->bytes[at] != model->synced[at] && at < it->unreadable)
            from = lost++ ? from : at;
    if (lost)
        wrong("rule 2: file %d has %u other bytes, from %u, and %u bytes are sure", which, lost, from, model->least);
}

static int is_same_content(const struct content *it, const struct content *other) {
    return it->len == other->len && it->unreadable == other->unreadable && (it->len < 0 || !memcmp(it->bytes, other->bytes, (size_t)it->len));
}

static void judge(int again, int is_read_only) {
    static struct content second;
    for (int k = 0; k < 2; k++) {
        struct content *it = again ? &second : &first[k];
        read_content(k, it);
        if (!again)
            judge_file(k, it);
        else if (!is_same_content(it, &first[k]))
            wrong("file %d had %lld bytes, and after the second cut %lld or others", k, (long long)first[k].len, (long long)it->len);
    }
    /* Half of the second cuts come after a sync, as those of a recovery do. */
    int file = is_read_only || chance(2) ? -1 : open(names[0], O_RDWR | O_CLOEXEC);
    if (file >= 0 && fdatasync(file))
        wrong("a sync after the cut failed");
    if (file >= 0)
        close(file);
}

const struct story rules = {record, follow, judge};
