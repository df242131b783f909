/*
 * Cells as text on standard input, the lines of `aes3 check --gaps` on standard output: the reports, and the gaps of cells
 * that lie in no whole block. A gap of a line that is dead is told while it is dead. Status 1 where there are faults or a
 * gap counts.
 */
#include "aes3.h"
#include <stdio.h>

static aes3_lock lock;
static aes3_account account;
static aes3_report report;
static aes3_gap gap;
static int faults;

static void tell_gap(void) {
    printf("gap at %llu cells %llu\n", (unsigned long long)gap.at, (unsigned long long)gap.cells);
    faults |= gap.counts;
}

/* Tells the lock's report, if there is one, behind the gaps before it. */
static void tell_report(void) {
    unsigned long long at = report.at, cell = report.cell;
    while (aes3_account_before(&account, &report, &gap))
        tell_gap();
    switch (report.kind) {
    case AES3_WHOLE:
        printf("whole at %llu before %u\n", at, report.before);
        break;
    case AES3_MARKED:
        printf("marked at %llu before %u wrong %u\n", at, report.before, report.wrong);
        faults = 1;
        break;
    case AES3_FAULT:
        printf("fault at %llu cell %llu %s\n", at, cell, aes3_why_text(report.why));
        faults = 1;
        break;
    case AES3_UNFINISHED:
        printf("unfinished at %llu cells %llu\n", at, cell);
        break;
    }
}

/* The first cells of a word, 64 at most, and what they decide. */
static void take(uint64_t word, uint32_t count) {
    uint32_t taken;
    for (; count > 0 && (taken = aes3_lock_push(&lock, word, count, &report)) > 0; count -= taken) {
        tell_report();
        while (aes3_account_passed(&account, aes3_lock_seen(&lock), &gap))
            tell_gap();
        word = taken < 64 ? word >> taken : 0;
    }
}

int main(void) {
    uint64_t word = 0;
    uint32_t len = 0;
    int byte;
    aes3_lock_init(&lock);
    aes3_account_init(&account);
    while ((byte = getchar()) != EOF) {
        if (byte == '\n' || byte == '\r' || byte == ' ')
            continue;
        if (byte != '0' && byte != '1') {
            fprintf(stderr, "gaps: a byte that is no cell\n");
            return 3;
        }
        word |= (uint64_t)(byte == '1') << len;
        if (++len == 64) {
            take(word, len);
            word = 0;
            len = 0;
        }
    }
    take(word, len);
    aes3_lock_finish(&lock, &report);
    tell_report();
    while (aes3_account_end(&account, aes3_lock_seen(&lock), &gap))
        tell_gap();
    return faults;
}
