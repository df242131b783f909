/* Packed cells on standard input, read by aes3.h as `aes3 check --packed-in` reads them: how many reports, on standard output. */
#include "aes3.h"
#include <stdio.h>

enum { WORDS = 16384 };

static aes3_lock lock;
static aes3_report report;
static unsigned long reports;
static uint8_t octets[8 * WORDS];
static uint64_t words[WORDS];

static void push(uint64_t word, uint32_t count) {
    uint32_t taken;
    for (; count > 0 && (taken = aes3_lock_push(&lock, word, count, &report)) > 0; count -= taken) {
        reports += report.kind != AES3_NONE;
        word = taken < 64 ? word >> taken : 0;
    }
}

static void take(size_t count) {
    size_t taken = 0;
    while (taken < count) {
        taken += aes3_lock_take_words(&lock, words + taken, count - taken);
        if (taken < count)
            push(words[taken++], 64);
    }
}

int main(void) {
    size_t count;
    aes3_lock_init(&lock);
    while ((count = fread(octets, 8, WORDS, stdin)) > 0) {
        for (size_t i = 0; i < count; i++)
            words[i] = aes3_word_of_octets(octets + 8 * i);
        take(count);
    }
    aes3_lock_finish(&lock, &report);
    printf("%lu\n", reports + (report.kind != AES3_NONE));
    return 0;
}
