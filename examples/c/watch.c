/*
 * watch [SEED]: cells as text on standard input, the lines of `aes3 watch` on standard output. A loss is printed while the line is
 * lost. Status 1 if there are marked blocks, faults, losses or slips. With SEED the cells come in pieces of random lengths.
 */
#include "aes3.h"
#include <stdio.h>
#include <stdlib.h>

static aes3_lock lock;
static aes3_watch watch;
static aes3_report report;
static aes3_event events[AES3_EVENTS];
static uint8_t octets[4096];
static uint32_t seed;
static int faults;

static uint32_t below(uint32_t limit) {
    seed = seed * 1664525 + 1013904223;
    return (seed >> 8) % limit;
}

static void print_events(uint32_t count) {
    for (uint32_t i = 0; i < count; i++) {
        const aes3_event *it = &events[i];
        printf("%s at %llu", aes3_event_text(it->kind), (unsigned long long)it->at);
        switch (it->kind) {
        case AES3_EVENT_LOCKED:
            printf(" before %u", it->before);
            break;
        case AES3_EVENT_LOST:
            faults = 1;
            break;
        case AES3_EVENT_BACK:
            printf(" lost %llu", (unsigned long long)it->cells);
            break;
        case AES3_EVENT_SLIPPED:
            printf(" cells %llu", (unsigned long long)it->cells);
            faults = 1;
            break;
        case AES3_EVENT_STATUS:
            printf(" channel %u ", it->channel);
            for (int j = 0; j < AES3_STATUS_BYTES; j++)
                printf("%02x", it->status[j]);
            break;
        case AES3_EVENT_VALIDITY:
            printf(" channel %u %s", it->channel, aes3_validity_text(it->validity));
            break;
        case AES3_EVENT_END:
            printf(" %s", it->locked ? "locked" : "lost");
            break;
        }
        putchar('\n');
    }
}

/* The events of the lock's report, if there is one. It has its words. */
static void print_report(void) {
    faults |= report.kind == AES3_MARKED || report.kind == AES3_FAULT;
    print_events(aes3_watch_report(&watch, &report, events));
}

/* The cells of the octets, and what they decide. */
static void take(size_t count) {
    size_t at = 0;
    do {
        at += aes3_lock_take_octets(&lock, octets, count, at, &report);
        if (report.kind == AES3_WHOLE)
            aes3_lock_block(&lock, report.words);
        print_report();
        print_events(aes3_watch_passed(&watch, aes3_lock_seen(&lock), events));
    } while (report.kind != AES3_NONE);
}

/* The last cells, fewer than eight, in the highest bits of an octet. */
static void take_rest(uint32_t octet, uint32_t count) {
    uint32_t word = 0;
    for (uint32_t i = 0; i < count; i++)
        word |= (octet >> (7 - i) & 1) << i;
    while (count > 0) {
        const uint32_t taken = aes3_lock_push(&lock, word, count, &report);
        if (taken == 0)
            break;
        print_report();
        print_events(aes3_watch_passed(&watch, aes3_lock_seen(&lock), events));
        word >>= taken;
        count -= taken;
    }
}

int main(int argc, char **argv) {
    size_t count = 0, limit = sizeof octets;
    uint32_t octet = 0, len = 0;
    int byte;
    if (argc > 1) {
        seed = (uint32_t)strtoul(argv[1], NULL, 10);
        limit = 1 + below(sizeof octets);
    }
    aes3_lock_init(&lock);
    aes3_watch_init(&watch);
    while ((byte = getchar()) != EOF) {
        if (byte == '\n' || byte == '\r' || byte == ' ')
            continue;
        if (byte != '0' && byte != '1') {
            fprintf(stderr, "watch: a byte that is no cell\n");
            return 3;
        }
        octet |= (uint32_t)(byte == '1') << (7 - len);
        if (++len < 8)
            continue;
        octets[count++] = (uint8_t)octet;
        octet = len = 0;
        if (count == limit) {
            take(count);
            count = 0;
            if (argc > 1)
                limit = 1 + below(sizeof octets);
        }
    }
    take(count);
    take_rest(octet, len);
    aes3_lock_finish(&lock, &report);
    print_report();
    print_events(aes3_watch_end(&watch, aes3_lock_seen(&lock), events));
    return faults;
}
