/* Times the steps of a recorder in a device, whose plans nobody carries out. */

#define _POSIX_C_SOURCE 199309L
#include "fitrec_device.h"
#include <stdio.h>
#include <time.h>

static double now(void) {
    struct timespec at;
    clock_gettime(CLOCK_MONOTONIC, &at);
    return (double)at.tv_sec * 1e9 + (double)at.tv_nsec;
}

int main(void) {
    enum { SAMPLES = 200000 };
    static struct fitrec_recorder recorder;
    static struct fitrec_plan plan;
    double least = 1e18, commit = 1e18;
    for (int run = 0; run < 5; run++) {
        if (fitrec_start(&recorder, 0, 1000000000, 7, 2, &plan))
            return 1;
        double begun = now();
        for (uint32_t k = 0; k < SAMPLES; k++) {
            struct fitrec_sample sample = {.time = 1000000000 + k, .has = FITREC_HAS_HEART_RATE, .heart_rate = (uint8_t)(90 + k % 80)};
            if (fitrec_add_sample(&recorder, &sample, &plan))
                return 1;
        }
        double took = (now() - begun) / SAMPLES;
        least = took < least ? took : least;
        begun = now();
        for (uint32_t k = 0; k < SAMPLES; k++)
            if (fitrec_commit(&recorder, &plan))
                return 1;
        took = (now() - begun) / SAMPLES;
        commit = took < commit ? took : commit;
    }
    printf("a sample with a heart rate: %.0f ns; a commit: %.0f ns\n", least, commit);
    return 0;
}
