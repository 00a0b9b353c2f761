/* Runs a program, and prints on standard error what it took: milliseconds on the clock and of the processor, and its peak of memory in
   kilobytes. It is small itself, since the peak of a program counts from the process that it was started in. */

#include <stdio.h>
#include <sys/resource.h>
#include <sys/wait.h>
#include <time.h>
#include <unistd.h>

static double milliseconds(struct timeval time) { return time.tv_sec * 1e3 + time.tv_usec / 1e3; }

int main(int count, char **words) {
    struct timespec begun, ended;
    struct rusage used;
    int status = 1;
    clock_gettime(CLOCK_MONOTONIC, &begun);
    pid_t child = fork();
    if (child == 0) {
        execv(words[1], words + 1);
        _exit(127);
    }
    wait4(child, &status, 0, &used);
    clock_gettime(CLOCK_MONOTONIC, &ended);
    double clock = (ended.tv_sec - begun.tv_sec) * 1e3 + (ended.tv_nsec - begun.tv_nsec) / 1e6;
    fprintf(stderr, "%f %f %ld\n", clock, milliseconds(used.ru_utime) + milliseconds(used.ru_stime), used.ru_maxrss);
    return count < 2 || !WIFEXITED(status) ? 1 : WEXITSTATUS(status);
}
