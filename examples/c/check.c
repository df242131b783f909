/* Cells as text on standard input, the lines of `aes3 check` on standard output, status 1 where there are faults. */
#include "aes3.h"
#include <stdio.h>

static aes3_lock lock;
static aes3_report report;
static int faults;

static void tell(void) {
    unsigned long long at = report.at, cell = report.cell;
    switch (report.kind) {
    case AES3_WHOLE:
        printf("whole at %llu before %u\n", at, report.before);
        break;
    case AES3_MARKED:
        printf("marked at %llu before %u wrong %u\n", at, report.before, report.wrong);
        faults = 1;
        break;
    case AES3_FAULT:
        printf("fault at %llu cell %llu %s\n", at, cell, aes3_why_text(report.why));
        faults = 1;
        break;
    case AES3_UNFINISHED:
        printf("unfinished at %llu cells %llu\n", at, cell);
        break;
    }
}

/* The first cells of a word, 64 at most. A word that decides no report is taken at once. */
static void take(uint64_t word, uint32_t count) {
    uint32_t taken;
    if (count == 64 && aes3_lock_take_words(&lock, &word, 1) == 1)
        return;
    for (; count > 0 && (taken = aes3_lock_push(&lock, word, count, &report)) > 0; count -= taken) {
        tell();
        word = taken < 64 ? word >> taken : 0;
    }
}

int main(void) {
    uint64_t word = 0;
    uint32_t len = 0;
    int byte;
    aes3_lock_init(&lock);
    while ((byte = getchar()) != EOF) {
        if (byte == '\n' || byte == '\r' || byte == ' ')
            continue;
        if (byte != '0' && byte != '1') {
            fprintf(stderr, "check: a byte that is no cell\n");
            return 3;
        }
        word |= (uint64_t)(byte == '1') << len;
        if (++len == 64) {
            take(word, len);
            word = 0;
            len = 0;
        }
    }
    take(word, len);
    aes3_lock_finish(&lock, &report);
    tell();
    return faults;
}
