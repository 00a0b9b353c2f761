/* A session over two files of a folder. It records a sample for each line of standard input, which has a time in seconds, a heart rate and a
   distance in centimetres, and stores them after every ten. The end of the input ends the ride.

     ride FOLDER
     ride --erase FOLDER

   A folder that holds a ride without its end, as after a power cut, continues it. If no line comes, the ride is finished as it was stored; with
   --erase it is gone. */

#include "files.h"
#include <stdio.h>
#include <stdlib.h>
#include <string.h>

enum { EVERY = 10 };

static struct fitrec_device device;
static struct fitrec_session session;
static struct fitrec_found found;

static void give_up(const char *why, unsigned answer) {
    fprintf(stderr, "ride: %s (%u)\n", why, answer);
    exit(1);
}

/* The answer of a call. Where a function of the device failed this ends, and the ride goes on by the next run. */
static enum fitrec_answer done(enum fitrec_answer answer) {
    if (answer == FITREC_DEVICE)
        give_up("a call of a file failed", session.failed_call);
    return answer;
}

static int erase(void) {
    if (found.finding == FITREC_FOUND_RIDING && done(fitrec_end(&session, UINT32_MAX)))
        return 1;
    return done(fitrec_clear(&session)) ? 1 : 0;
}

static void begin(uint32_t time) {
    if (found.finding == FITREC_FOUND_KEEP)
        give_up("no ride can begin here", found.why);
    enum fitrec_answer answer = found.finding == FITREC_FOUND_RIDING ? FITREC_OK : done(fitrec_begin(&session, time, 7, 2));
    if (answer)
        give_up("no ride can begin here", answer);
}

int main(int count, char **words) {
    unsigned time = 0, heart_rate = 0, distance = 0, samples = 0;
    int erases = count == 3 && !strcmp(words[1], "--erase");
    if (count != 2 + erases || open_files(&device, words[count - 1]))
        give_up("give a folder that can be written", 0);
    int is_line = !erases && scanf("%u %u %u", &time, &heart_rate, &distance) == 3;
    enum fitrec_answer answer = done(fitrec_boot(&session, &device, time, &found));
    if (erases)
        return erase();
    if (is_line)
        begin(time);
    for (; is_line; is_line = scanf("%u %u %u", &time, &heart_rate, &distance) == 3) {
        struct fitrec_sample sample = {.time = time, .has = FITREC_HAS_HEART_RATE | FITREC_HAS_DISTANCE};
        sample.heart_rate = (uint8_t)heart_rate;
        sample.distance = distance;
        if ((answer = done(fitrec_add(&session, &sample))))
            fprintf(stderr, "ride: a sample was not taken (%u)\n", (unsigned)answer);
        if (++samples % EVERY == 0 && done(fitrec_store(&session)) == FITREC_OK)
            printf("committed %u\n", samples);
        fflush(stdout);
    }
    if (samples || found.finding == FITREC_FOUND_RIDING)
        answer = done(fitrec_end(&session, samples ? time : UINT32_MAX));
    else if (found.finding != FITREC_FOUND_FINISHED)
        answer = found.finding == FITREC_FOUND_KEEP ? (enum fitrec_answer)found.why : FITREC_NOTHING_RECORDED;
    printf("%s: %u\n", samples ? "stopped" : "recovered", (unsigned)answer);
    return answer ? 1 : 0;
}
