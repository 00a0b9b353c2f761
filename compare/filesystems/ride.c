/* A ride that `fitrec record` writes. After a power cut `save` and `repair` make what they make of a ride that ends with the last line
 * that was answered and promises something, or with such a line that was asked and not answered yet. After a stop or a recovery was
 * answered the data file is the finished one before any repair. */
#include "guest.h"
#include <signal.h>
#include <sys/wait.h>

#define SAVED "/run/saved.fit"

struct line {
    const char *text;
    int promises, finishes;
    struct bytes repaired, saved;
};

struct promise {
    int last, asked;     /* numbers of lines, from 1; 0: none */
    int is_finished;
};

static struct line lines[8192];
static struct promise promised, found;

static void read_lines(void) {
    const char *share = setting("share", "");
    struct bytes script = read_file("%s/script", share);
    int number = 0;
    for (char *text = strtok((char *)script.at, "\n"); text; text = strtok(NULL, "\n")) {
        struct line *it = &lines[++number];
        *it = (struct line){text, 0, !strncmp(text, "stop", 4) || !strcmp(text, "recover"), read_file("%s/expected/%d.fit", share, number),
                            read_file("%s/expected/%d.plain", share, number)};
        it->promises = it->repaired.at != NULL;
    }
}

static void record(void) {
    int in[2], out[2];
    char said[512];
    read_lines();
    if (pipe2(in, O_CLOEXEC) || pipe2(out, O_CLOEXEC))
        die("pipe");
    /* It commits only where a line says so. */
    int child = start(in[0], out[1], "record", "--commit=4000000", FOLDER);
    FILE *answers = fdopen(out[0], "r");
    for (int k = 1; lines[k].text; k++) {
        stir();
        mark(ASKED, k);
        dprintf(in[1], "%s\n", lines[k].text);
        if (!fgets(said, sizeof said, answers) || !strstr(said, ": ok"))
            die("line %d is answered by %s", k, said);
        mark(ANSWERED, k);
    }
    kill(child, SIGKILL);
    waitpid(child, NULL, 0);
    fclose(answers), close(in[0]), close(in[1]);
}

static void follow(const struct entry *step) {
    const struct line *it = &lines[step->number];
    if (step->type == ASKED && !strcmp(it->text, "reopen"))
        promised.is_finished = 0;
    if (!it->promises)
        return;
    if (step->type == ASKED)
        promised.asked = step->number;
    else
        promised = (struct promise){step->number, 0, it->finishes};
}

static void judge_command(const struct promise *it, int is_save) {
    char said[512];
    unlink(SAVED);
    int status = is_save ? run(said, "save", FOLDER, SAVED) : run(said, "repair", FOLDER, NULL);
    struct bytes made = read_file(is_save ? SAVED : FOLDER "/activity.fit");
    const struct line *last = &lines[it->last], *asked = &lines[it->asked];
    if (!status && is_same(made, is_save ? last->saved : last->repaired))
        found.last = it->last;
    else if (!status && is_same(made, is_save ? asked->saved : asked->repaired))
        found.last = it->asked;
    else if (it->last || (strcmp(said, "fitrec: NothingRecorded") && !access(FOLDER, F_OK)))
        wrong("%s prints \"%s\" and leaves %zu bytes, not the %zu of line %d", is_save ? "save" : "repair", said, made.len,
              is_save ? last->saved.len : last->repaired.len, it->last);
    free(made.at);
}

static void judge(int again, int is_read_only) {
    struct promise it = again ? found : promised;
    found = (struct promise){0, it.asked, 0};
    if (again ? again == 2 && it.last : it.is_finished && !it.asked) {
        struct bytes file = read_file(FOLDER "/activity.fit");
        if (!is_same(file, lines[it.last].repaired))
            wrong("before a repair the file has %zu bytes, not the %zu of line %d", file.len, lines[it.last].repaired.len, it.last);
        free(file.at);
    }
    if (is_read_only || chance(2))
        judge_command(&it, 1);
    if (!is_read_only) {
        judge_command(&it, 0);
        mark(ANSWERED, 0);
    }
}

/* What is promised, as a report has it; and for a disk that was kept by one. */
const char *promise(void) {
    static char words[64];
    snprintf(words, sizeof words, "%d,%d,%d", promised.last, promised.asked, promised.is_finished);
    return words;
}

void set_promise(const char *words) {
    read_lines();
    if (sscanf(words, "%d,%d,%d", &promised.last, &promised.asked, &promised.is_finished) != 3)
        die("a promise");
}

const struct story ride = {record, follow, judge};
