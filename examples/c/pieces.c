/*
 * pieces [BIT [UNIT]]: whether the samples on standard input give the same cells in pieces, of samples and of memory, as all at once. Each
 * piece ends at a page that can't be read or written. Status 1 where they differ. Linux.
 */
#ifndef _GNU_SOURCE
#define _GNU_SOURCE
#endif
#include "aes3.h"
#include <stdio.h>
#include <stdlib.h>
#include <string.h>
#include <sys/mman.h>

enum { PAGE = 4096, MOST = 65536 };

static int failed;

static void want(int line, int holds) {
    if (!holds) {
        fprintf(stderr, "pieces.c:%d is not so\n", line);
        failed = 1;
    }
}
#define WANT(holds) want(__LINE__, (holds))

/* Memory of so many octets: the octet after them is on a page that can't be touched, and so is the page before them. */
static uint8_t *guarded(size_t len) {
    size_t pages = (len + PAGE - 1) / PAGE;
    uint8_t *memory = (uint8_t *)mmap(NULL, (pages + 2) * PAGE, PROT_READ | PROT_WRITE, MAP_PRIVATE | MAP_ANONYMOUS, -1, 0);
    if (memory == MAP_FAILED || mprotect(memory, PAGE, PROT_NONE) || mprotect(memory + (pages + 1) * PAGE, PAGE, PROT_NONE))
        exit(3);
    return memory + (pages + 1) * PAGE - len;
}

static uint8_t *samples, *due, *got, bit, unit;
static size_t len, due_len;
static aes3_capture due_found;
static aes3_recovery *recovery;

static void leave(uint8_t *cells, const uint8_t *put, size_t room, size_t count) {
    for (size_t i = count; i < room; i++)
        if (put[i] != 0x5A) {
            WANT(0);
            break;
        }
    memcpy(cells, put, count);
}

/* In pieces of `piece` octets, with room for so many octets of cells. */
static void recover(size_t piece, size_t room) {
    uint8_t *from = guarded(piece), *to = guarded(room);
    size_t at = 0, all = 0, taken = 0, put = 0;
    aes3_capture found;
    bool ended;
    aes3_recovery_init(recovery, 0);
    while (len - at >= unit) {
        size_t left = len - at < piece ? len - at : piece;
        bool took;
        memcpy(from + piece - left, samples + at, left);
        memset(to, 0x5A, room);
        took = aes3_recovery_take(recovery, from + piece - left, left, unit, bit, &taken, to, room, &put);
        WANT(taken <= left && taken % unit == 0 && put <= room && all + put <= due_len);
        WANT(took == (left - taken < unit) && (took || put == room || taken == 4032));
        if (failed || (taken == 0 && put == 0 && left >= unit))
            break;
        leave(got + all, to, room, put);
        at += taken, all += put;
    }
    do {
        memset(to, 0x5A, room);
        ended = aes3_recovery_finish(recovery, to, room, &put);
        WANT(put <= room && all + put <= due_len && ended == (put < room));
        if (failed)
            return;
        leave(got + all, to, room, put);
        all += put;
    } while (!ended);
    WANT(aes3_recovery_take(recovery, samples, 0, unit, bit, &taken, to, room, &put) && taken == 0 && put == 0);
    WANT(!aes3_recovery_take(recovery, samples, unit, unit, bit, &taken, to, room, &put) && taken == 0 && put == 0);
    aes3_recovery_figures(recovery, &found);
    WANT(memcmp(&found, &due_found, sizeof found) == 0);
    WANT(all == due_len && memcmp(got, due, due_len) == 0);
    if (failed)
        fprintf(stderr, "pieces: %lu octets, room for %lu\n", (unsigned long)piece, (unsigned long)room);
    munmap(from - (PAGE - piece % PAGE) % PAGE - PAGE, ((piece + PAGE - 1) / PAGE + 2) * PAGE);
    munmap(to - (PAGE - room % PAGE) % PAGE - PAGE, ((room + PAGE - 1) / PAGE + 2) * PAGE);
}

/* A recovery of any numbers harms nothing. */
static void any_numbers(void) {
    uint8_t *to = guarded(64);
    uint32_t x = 1;
    for (int round = 0; round < 2000; round++) {
        size_t taken, put;
        aes3_capture found;
        aes3_mark mark;
        uint8_t *octets = (uint8_t *)recovery;
        for (size_t i = 0; i < sizeof *recovery; i++) {
            x = x * 1664525 + 1013904223;
            octets[i] = round % 3 == 0 ? 0xFF : round % 3 == 1 ? (uint8_t)(x >> 24) : (uint8_t)(x >> 24) & (uint8_t)(x >> 16) & 1;
        }
        for (int i = 0; i < 4; i++)
            aes3_recovery_take(recovery, samples, len < 300 ? len : 300, unit, bit, &taken, to, 64, &put);
        aes3_recovery_mark(recovery, &mark);
        aes3_recovery_finish(recovery, to, 64, &put);
        aes3_recovery_figures(recovery, &found);
    }
}

int main(int count, char **words) {
    static const size_t sizes[] = {1, 7, 64, 4096, 65536};
    size_t room = 1 << 22;
    bit = (uint8_t)(count > 1 ? atoi(words[1]) : 0), unit = (uint8_t)(count > 2 ? atoi(words[2]) : 1);
    samples = (uint8_t *)malloc(room), due = (uint8_t *)malloc(room), got = (uint8_t *)malloc(room);
    recovery = (aes3_recovery *)guarded(sizeof *recovery);
    if (!samples || !due || !got)
        return 3;
    len = fread(samples, 1, room, stdin);
    WANT(aes3_capture_cells(samples, len, unit, bit, 0, due, room, &due_found));
    due_len = due_found.octets;
    for (int i = 0; i < 5; i++)
        for (int j = 0; j < 5; j++)
            recover(sizes[i] < unit ? unit : sizes[i], sizes[j]);
    any_numbers();
    return failed;
}
