/* Packed cells on standard input, taken by aes3_lock_take_octets: how many reports, on standard output. */
#include "aes3.h"
#include <stdio.h>

enum { OCTETS = 131072 };

static aes3_lock lock;
static aes3_report report;
static unsigned long reports;
static uint8_t octets[OCTETS];

static void take(size_t count) {
    size_t at = 0;
    do {
        at += aes3_lock_take_octets(&lock, octets, count, at, &report);
        reports += report.kind != AES3_NONE;
    } while (report.kind != AES3_NONE);
}

int main(void) {
    size_t count;
    aes3_lock_init(&lock);
    while ((count = fread(octets, 1, OCTETS, stdin)) > 0)
        take(count - (count < OCTETS)); /* the last octet counts the unused cells, here none */
    aes3_lock_finish(&lock, &report);
    printf("%lu\n", reports + (report.kind != AES3_NONE));
    return 0;
}
