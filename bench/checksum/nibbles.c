/* The checksum of 64 MiB, half a byte at a time. Prints it and the nanoseconds of the fastest of five rounds. */

#include <stdint.h>
#include <stdio.h>
#include <stdlib.h>
#include <time.h>

static const uint16_t table[16] = {
    0x0000, 0xCC01, 0xD801, 0x1400, 0xF001, 0x3C00, 0x2800, 0xE401,
    0xA001, 0x6C00, 0x7800, 0xB401, 0x5000, 0x9C01, 0x8801, 0x4400};

static uint16_t checksum(const uint8_t *bytes, size_t len) {
    uint16_t reg = 0;
    for (size_t i = 0; i < len; i++) {
        reg = (reg >> 4) ^ table[(reg ^ bytes[i]) & 15];
        reg = (reg >> 4) ^ table[(reg ^ (bytes[i] >> 4)) & 15];
    }
    return reg;
}

int main(void) {
    size_t size = 67108864;
    uint8_t *bytes = malloc(size);
    if (!bytes) return 1;
    for (size_t i = 0; i < size; i++) bytes[i] = (i * 31 + (i >> 8)) & 0xff;
    long long least = -1;
    unsigned sum = 0;
    for (int round = 0; round < 5; round++) {
        struct timespec a, b;
        clock_gettime(CLOCK_MONOTONIC, &a);
        sum = checksum(bytes, size);
        clock_gettime(CLOCK_MONOTONIC, &b);
        long long spent = (b.tv_sec - a.tv_sec) * 1000000000LL + (b.tv_nsec - a.tv_nsec);
        if (least < 0 || spent < least) least = spent;
    }
    printf("%u %lld\n", sum, least);
    return 0;
}
