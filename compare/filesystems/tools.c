/* Settings, chance, files, and runs of the program. */
#include "guest.h"
#include <spawn.h>
#include <stdarg.h>
#include <sys/reboot.h>
#include <sys/wait.h>

extern char **environ;
uint64_t dice = 88172645463325252u;

uint32_t chance(uint32_t below) {
    dice ^= dice << 13, dice ^= dice >> 7, dice ^= dice << 17;
    return below ? (uint32_t)(dice >> 24) % below : 0;
}

void die(const char *format, ...) {
    va_list words;
    int number = errno;
    va_start(words, format);
    printf("GUEST FAILED: ");
    vprintf(format, words);
    printf(" (%s)\n", strerror(number));
    fflush(stdout);
    reboot(RB_POWER_OFF);
}

/* The words of the kernel's command line are the environment of its first process. */
const char *setting(const char *name, const char *otherwise) {
    const char *it = getenv(name);
    return it && *it ? it : otherwise;
}

long number_of(const char *name, long otherwise) {
    const char *it = setting(name, NULL);
    return it ? atol(it) : otherwise;
}

struct bytes read_file(const char *format, ...) {
    char path[256];
    va_list words;
    va_start(words, format);
    vsnprintf(path, sizeof path, format, words);
    int file = open(path, O_RDONLY | O_CLOEXEC);
    struct bytes it = {file < 0 ? NULL : malloc(1 << 20), 0};
    ssize_t more = 0;
    while (it.at && (more = read(file, it.at + it.len, (1 << 20) - it.len)) > 0)
        it.len += (size_t)more;
    int number = errno;
    if (more < 0)
        free(it.at), it.at = NULL;
    if (file >= 0)
        close(file);
    errno = number;
    return it;
}

int is_same(struct bytes one, struct bytes other) {
    return one.at && other.at && one.len == other.len && !memcmp(one.at, other.at, one.len);
}

/* Starts `fitrec COMMAND ONE OTHER` between two files. */
int start(int in, int out, const char *command, const char *one, const char *other) {
    const char *words[] = {setting("program", ""), command, one, other, NULL};
    posix_spawn_file_actions_t acts;
    pid_t child;
    posix_spawn_file_actions_init(&acts);
    if (in >= 0)
        posix_spawn_file_actions_adddup2(&acts, in, 0);
    posix_spawn_file_actions_adddup2(&acts, out, 1);
    posix_spawn_file_actions_adddup2(&acts, out, 2);
    if (posix_spawn(&child, words[0], &acts, NULL, (char *const *)words, environ))
        die("spawn");
    posix_spawn_file_actions_destroy(&acts);
    close(out);
    return child;
}

/* Runs it: the status, and the first line that it prints. */
int run(char line[512], const char *command, const char *one, const char *other) {
    int ends[2], status;
    if (pipe2(ends, O_CLOEXEC))
        die("pipe");
    pid_t child = start(-1, ends[1], command, one, other);
    FILE *said = fdopen(ends[0], "r");
    *line = 0;
    if (fgets(line, 512, said))
        line[strcspn(line, "\n")] = 0;
    while (fgetc(said) != EOF) {}
    fclose(said);
    if (waitpid(child, &status, 0) < 0)
        die("wait");
    return WIFEXITED(status) ? WEXITSTATUS(status) : 128 + WTERMSIG(status);
}
