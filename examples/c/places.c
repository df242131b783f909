/*
 * places [BIT [UNIT]]: the samples of a logic analyser on standard input. Prints the lines of `aes3 check` for the line in bit BIT of them,
 * each with the sample at which its cell begins, as `aes3-cells --places` adds it. UNIT is 2 where a sample has two octets.
 */
#include "aes3.h"
#include <stdio.h>
#include <stdlib.h>
#include <string.h>

enum { PIECE = 64, APART = 64, KEPT = 1024 }; /* 1,024 marks, 64 cells apart or more: more than two blocks */

static aes3_lock lock;
static aes3_report report;
static aes3_recovery recovery;
static aes3_mark marks[KEPT]; /* the latest, the oldest of them at marks[next]; before the first cell there is {0, 0} */
static size_t next;
static uint8_t cells[65536]; /* octets of cells that the lock has not taken */
static size_t held;

/* Keeps the mark after all cells so far, if it is far enough from the latest. */
static bool keep_mark(void) {
    const aes3_mark *const latest = &marks[(next + KEPT - 1) % KEPT];
    aes3_mark mark;
    if (!aes3_recovery_mark(&recovery, &mark) || mark.cells < latest->cells + APART)
        return false;
    marks[next] = mark;
    next = (next + 1) % KEPT;
    return true;
}

/* Prints the sample of a cell, if there are marks before and after it. */
static void print_sample(uint64_t cell) {
    for (size_t i = 1; i < KEPT; i++) {
        const aes3_mark *const before = &marks[(next + KEPT - 1 - i) % KEPT], *const after = &marks[(next + KEPT - i) % KEPT];
        if (before->cells <= cell && cell < after->cells) {
            printf(" sample %llu", (unsigned long long)aes3_sample_between(before, after, cell));
            break;
        }
    }
    putchar('\n');
}

static void print_report(void) {
    const unsigned long long at = report.at, cell = report.cell;
    if (report.kind == AES3_WHOLE)
        printf("whole at %llu before %u", at, report.before);
    else if (report.kind == AES3_MARKED)
        printf("marked at %llu before %u wrong %u", at, report.before, report.wrong);
    else if (report.kind == AES3_FAULT)
        printf("fault at %llu cell %llu %s", at, cell, aes3_why_text(report.why));
    else if (report.kind == AES3_UNFINISHED)
        printf("unfinished at %llu cells %llu", at, cell);
    if (report.kind != AES3_NONE)
        print_sample(report.kind == AES3_FAULT ? cell : at);
}

static void take_octets(const uint8_t *octets, size_t count) {
    size_t at = 0;
    do {
        at += aes3_lock_take_octets(&lock, octets, count, at, &report);
        print_report();
    } while (report.kind != AES3_NONE);
}

/* The last cells: the last octet says how many of the one before are unused. Their word has the first cell in the lowest bit. */
static void take_last(uint8_t *last, size_t count) {
    uint64_t word;
    uint32_t left, taken;
    if (count < 2)
        return;
    take_octets(last, count - 2);
    left = 8u - last[count - 1];
    aes3_reverse_octets(&last[count - 2], 1);
    for (word = last[count - 2]; left > 0 && (taken = aes3_lock_push(&lock, word, left, &report)) > 0; left -= taken) {
        print_report();
        word >>= taken;
    }
}

/* Takes samples. The lock takes their cells as soon as there is a mark after them. */
static void take_samples(uint8_t *samples, size_t *len, uint8_t unit, uint8_t bit) {
    size_t taken, put;
    do {
        aes3_recovery_take(&recovery, samples, *len, unit, bit, &taken, cells + held, sizeof cells - held, &put);
        *len -= taken, held += put;
        memmove(samples, samples + taken, *len); /* what was not taken is given again */
        if (keep_mark()) {
            take_octets(cells, held);
            held = 0;
        }
    } while (*len >= unit);
}

int main(int count, char **words) {
    static uint8_t samples[PIECE];
    const uint8_t bit = (uint8_t)(count > 1 ? atoi(words[1]) : 0), unit = (uint8_t)(count > 2 ? atoi(words[2]) : 1);
    size_t len = 0, read, put;
    aes3_capture found;
    aes3_lock_init(&lock);
    aes3_recovery_init(&recovery, 0);
    while ((read = fread(samples + len, 1, PIECE - len, stdin)) > 0) {
        len += read;
        if (len == PIECE)
            take_samples(samples, &len, unit, bit);
    }
    take_samples(samples, &len, unit, bit);
    if (!aes3_recovery_finish(&recovery, cells + held, sizeof cells - held, &put)) {
        fputs("places: the last cells are more than there is room for\n", stderr);
        return 3;
    }
    take_last(cells, held + put);
    aes3_lock_finish(&lock, &report);
    print_report();
    aes3_recovery_figures(&recovery, &found);
    if (found.measured == 0) {
        fputs("places: no line was found in this bit\n", stderr);
        return 1;
    }
    return 0;
}
