/* Packed cells on standard input, made words and taken by aes3_lock_take_cells: how many reports, on standard output. */
#include "aes3.h"
#include <stdio.h>

enum { WORDS = 16384 };

static aes3_lock lock;
static aes3_report report;
static unsigned long reports;
static uint8_t octets[8 * WORDS];
static uint64_t words[WORDS];

static void take(size_t count) {
    size_t at = 0;
    do {
        at += aes3_lock_take_cells(&lock, words, count, at, &report);
        reports += report.kind != AES3_NONE;
    } while (report.kind != AES3_NONE);
}

int main(void) {
    size_t count;
    aes3_lock_init(&lock);
    while ((count = fread(octets, 8, WORDS, stdin)) > 0)
        take(aes3_words_of_octets(octets, 8 * count, words, WORDS));
    aes3_lock_finish(&lock, &report);
    printf("%lu\n", reports + (report.kind != AES3_NONE));
    return 0;
}
