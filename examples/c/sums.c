/*
 * sums EVERY [SEED]: cells as text on standard input, and the lines `sum` of `aes3 watch --every EVERY` on standard output. A sum is
 * printed as soon as no later cell changes it. With SEED the cells come in pieces of random lengths.
 */
#include "aes3.h"
#include <stdio.h>
#include <stdlib.h>

static aes3_lock lock;
static aes3_sums sums;
static aes3_report report;
static aes3_sum sum;
static uint8_t octets[4096];
static uint32_t seed;

static uint32_t below(uint32_t limit) {
    seed = seed * 1664525 + 1013904223;
    return (seed >> 8) % limit;
}

static void print_sum(void) {
    static const char *const names[] = {"from",     "to",   "whole",    "marked",   "fault",  "preamble", "biphase",
                                        "unclosed", "lost", "invalid1", "invalid2", "changes"};
    const uint64_t numbers[] = {sum.from,    sum.to,       sum.whole, sum.marked,        sum.fault,          sum.preamble,
                                sum.biphase, sum.unclosed, sum.lost,  sum.invalid_first, sum.invalid_second, sum.changes};
    printf("sum");
    for (size_t i = 0; i < sizeof numbers / sizeof *numbers; i++)
        printf(" %s %llu", names[i], (unsigned long long)numbers[i]);
    putchar('\n');
}

/* The sums before the lock's report, if there is one, and those that no later cell changes. The report has its words. */
static void print_sums(void) {
    while (aes3_sums_before(&sums, &report, &sum))
        print_sum();
    while (aes3_sums_passed(&sums, aes3_lock_seen(&lock), &sum))
        print_sum();
}

/* The cells of the octets, and what they decide. */
static void take(size_t count) {
    size_t at = 0;
    do {
        at += aes3_lock_take_octets(&lock, octets, count, at, &report);
        if (report.kind == AES3_WHOLE)
            aes3_lock_block(&lock, report.words);
        print_sums();
    } while (report.kind != AES3_NONE);
}

/* The last cells, fewer than eight, in the highest bits of an octet. */
static void take_rest(uint32_t octet, uint32_t count) {
    uint32_t word = 0;
    for (uint32_t i = 0; i < count; i++)
        word |= (octet >> (7 - i) & 1) << i;
    while (count > 0) {
        const uint32_t taken = aes3_lock_push(&lock, word, count, &report);
        if (taken == 0)
            break;
        print_sums();
        word >>= taken;
        count -= taken;
    }
}

int main(int argc, char **argv) {
    size_t count = 0, limit = sizeof octets;
    uint32_t octet = 0, len = 0;
    int byte;
    if (argc < 2 || !aes3_sums_init(&sums, strtoull(argv[1], NULL, 10))) {
        fprintf(stderr, "sums: EVERY is a number of cells, 1 to 2^40\n");
        return 2;
    }
    if (argc > 2) {
        seed = (uint32_t)strtoul(argv[2], NULL, 10);
        limit = 1 + below(sizeof octets);
    }
    aes3_lock_init(&lock);
    while ((byte = getchar()) != EOF) {
        if (byte == '\n' || byte == '\r' || byte == ' ')
            continue;
        if (byte != '0' && byte != '1') {
            fprintf(stderr, "sums: a byte that is no cell\n");
            return 3;
        }
        octet |= (uint32_t)(byte == '1') << (7 - len);
        if (++len < 8)
            continue;
        octets[count++] = (uint8_t)octet;
        octet = len = 0;
        if (count == limit) {
            take(count);
            count = 0;
            if (argc > 2)
                limit = 1 + below(sizeof octets);
        }
    }
    take(count);
    take_rest(octet, len);
    aes3_lock_finish(&lock, &report);
    while (aes3_sums_before(&sums, &report, &sum))
        print_sum();
    while (aes3_sums_end(&sums, aes3_lock_seen(&lock), &sum))
        print_sum();
    return 0;
}
