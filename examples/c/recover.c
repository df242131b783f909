/*
 * recover [--packed-in] WAV: a damaged line on standard input, as text or as packed cells. Writes the samples of its whole blocks to
 * the file WAV, as `aes3 to-wav -o WAV` does. Prints every fault and gap with its place, and a fault with its cause: the lines of
 * `aes3 check --gaps` except those of whole blocks.
 *
 * Status 0: no fault. 1: faults, or gaps that count. 2: usage error. 3: the input is rejected, or the input or output failed.
 * The header is written last. So after status 3 WAV has no header, and no program reads it as a WAV file.
 */
#define _POSIX_C_SOURCE 200112L
#include "aes3.h"
#include <errno.h>
#include <fcntl.h>
#include <stdio.h>
#include <string.h>

enum { PIECE = 65536, BITS = 24 };

static aes3_lock lock;
static aes3_account account;
static aes3_report report;
static aes3_gap gap;
static int faults;

static FILE *wav;
static uint64_t frames;
static uint32_t rate; /* of the first whole block; 0 if it names none */

/* ---- The WAV file ---- */

/* The sampling frequency that a channel status names, or 0. */
static uint32_t rate_of(const uint8_t status[AES3_STATUS_BYTES]) {
    static const uint32_t consumer[16] = {44100, 0, 48000, 32000, 22050, 0, 24000, 0, 88200, 768000, 96000, 0, 176400, 0, 192000, 0};
    static const uint32_t byte_0[4] = {0, 44100, 48000, 32000};
    static const uint32_t byte_4[16] = {0, 24000, 96000, 192000, 0, 0, 0, 0, 0, 22050, 88200, 176400, 0, 0, 0, 0};
    if (!(status[0] & 1))
        return consumer[status[3] & 15];
    return status[0] >> 6 ? byte_0[status[0] >> 6] : byte_4[status[4] >> 3 & 15];
}

/* Writes the samples of a whole block: the highest bits of each, the lowest octet first. */
static void put_block(void) {
    static int32_t samples[AES3_BLOCK_WORDS];
    uint8_t octets[AES3_BLOCK_WORDS * BITS / 8], status[AES3_STATUS_BYTES];
    size_t count = 0;
    aes3_block_samples(report.words, samples);
    for (int i = 0; i < AES3_BLOCK_WORDS; i++)
        for (int up = 32 - BITS; up < 32; up += 8)
            octets[count++] = (uint8_t)((uint32_t)samples[i] >> up);
    fwrite(octets, 1, count, wav);
    if (frames == 0) {
        aes3_block_status(report.words, 1, status);
        rate = rate_of(status);
    }
    frames += AES3_BLOCK_WORDS / 2;
}

/* Writes the header over the place that was left for it, once all samples are written. A pipe has no such place. */
static bool put_header(void) {
    uint8_t octets[AES3_WAV_OCTETS];
    const uint32_t count = aes3_wav_write(BITS, rate ? rate : 48000, frames, octets);
    return !ferror(wav) && fflush(wav) == 0 && fseek(wav, 0, SEEK_SET) == 0 && fwrite(octets, 1, count, wav) == count;
}

/* ---- The reports ---- */

static void print_gap(void) {
    printf("gap at %llu cells %llu\n", (unsigned long long)gap.at, (unsigned long long)gap.cells);
    faults |= gap.counts;
}

static void print_passed(void) {
    while (aes3_account_passed(&account, aes3_lock_seen(&lock), &gap))
        print_gap();
}

/* Prints the report, if there is one, after the gaps before it; writes a whole block. */
static void take_report(void) {
    unsigned long long at = report.at, cell = report.cell;
    while (aes3_account_before(&account, &report, &gap))
        print_gap();
    switch (report.kind) {
    case AES3_WHOLE:
        put_block();
        break;
    case AES3_MARKED:
        printf("marked at %llu before %u wrong %u\n", at, report.before, report.wrong);
        faults = 1;
        break;
    case AES3_FAULT:
        printf("fault at %llu cell %llu %s\n", at, cell, aes3_why_text(report.why));
        faults = 1;
        break;
    case AES3_UNFINISHED:
        printf("unfinished at %llu cells %llu\n", at, cell);
        break;
    }
    print_passed();
}

/* ---- The cells ---- */

/* The octets of cells that were read, and the fewer than eight cells after them, the first in bit 0. */
static uint8_t octets[PIECE + 2];
static size_t held;
static uint8_t rest;
static uint32_t rest_len;

static int fail(const char *what) {
    fprintf(stderr, "recover: %s\n", what);
    return 3;
}

static int fail_full(void) { return fail("the lock has taken 2^43 cells"); }

/* Gives the lock the first `count` octets, and keeps those after them. */
static int take_octets(size_t count) {
    size_t at = 0;
    do {
        at += aes3_lock_take_octets(&lock, octets, count, at, &report);
        if (report.kind == AES3_WHOLE)
            aes3_lock_block(&lock, report.words);
        take_report();
    } while (report.kind != AES3_NONE);
    if (at / 8 < count)
        return fail_full();
    held -= count;
    memmove(octets, octets + count, held);
    return 0;
}

static int take_rest(void) {
    while (rest_len > 0) {
        const uint32_t taken = aes3_lock_push(&lock, rest, rest_len, &report);
        if (taken == 0)
            return fail_full();
        take_report();
        rest = (uint8_t)(rest >> taken);
        rest_len -= taken;
    }
    return 0;
}

/* Makes octets of text. A byte that is not a cell ends it; its number is `*wrong` then. */
static int add_text(const uint8_t *text, size_t count, size_t *wrong) {
    for (*wrong = 0; *wrong < count; ++*wrong) {
        const uint8_t byte = text[*wrong];
        if (byte == '\n' || byte == '\r' || byte == ' ')
            continue;
        if (byte != '0' && byte != '1')
            return 1;
        rest = (uint8_t)(rest | (byte & 1) << rest_len);
        if (++rest_len == 8) {
            uint8_t eight = 0;
            for (int i = 0; i < 8; i++)
                eight = (uint8_t)(eight << 1 | (rest >> i & 1));
            octets[held++] = eight;
            rest = 0;
            rest_len = 0;
        }
    }
    return 0;
}

static int read_text(void) {
    static uint8_t text[PIECE];
    unsigned long long done = 0;
    size_t count, wrong;
    int failed;
    while ((count = fread(text, 1, sizeof text, stdin)) > 0) {
        const int is_wrong = add_text(text, count, &wrong);
        if ((failed = take_octets(held)) != 0)
            return failed;
        if (is_wrong) {
            if ((failed = take_rest()) != 0)
                return failed;
            fprintf(stderr, "recover: byte %llu is not a cell: cell text has 0 and 1\n", done + wrong);
            return 3;
        }
        done += count;
    }
    return take_rest();
}

/* Only the end shows which octet of packed cells is the last: that one is the number of unused cells in the one before it. */
static int read_packed(void) {
    size_t count;
    int failed;
    while ((count = fread(octets + held, 1, PIECE, stdin)) > 0) {
        held += count;
        if (held > 2 && (failed = take_octets(held - 2)) != 0)
            return failed;
    }
    if (ferror(stdin))
        return 0;
    const unsigned unused = held > 0 ? octets[held - 1] : 8;
    if (unused > 7 || (held == 1 && unused > 0) || (held == 2 && octets[0] & ((1u << unused) - 1)))
        return fail("the octets do not end as packed cells do, with the number of unused cells");
    if (held == 2) {
        for (int i = 0; i < 8; i++)
            rest = (uint8_t)(rest | (octets[0] >> (7 - i) & 1) << i);
        rest_len = 8 - unused;
    }
    return take_rest();
}

static int recover(int is_packed) {
    const int failed = is_packed ? read_packed() : read_text();
    if (failed || ferror(stdin)) {
        print_passed();
        return failed ? failed : fail("the input failed");
    }
    aes3_lock_finish(&lock, &report);
    take_report();
    while (aes3_account_end(&account, aes3_lock_seen(&lock), &gap))
        print_gap();
    if (fflush(stdout) != 0 || ferror(stdout))
        return fail("the output failed");
    if (frames > 0 && rate == 0)
        fputs("recover: the line names no sampling frequency: the file says 48000 Hz\n", stderr);
    return put_header() ? faults : fail("the file can't be written");
}

int main(int count, char **arguments) {
    const int is_packed = count == 3 && strcmp(arguments[1], "--packed-in") == 0;
    if (count != 2 + is_packed || arguments[count - 1][0] == '-') {
        fputs("usage: recover [--packed-in] WAV <LINE\n", stderr);
        return 2;
    }
    /* Otherwise the file would take the place of standard output. */
    if (fcntl(1, F_GETFD) < 0)
        return fail("there is no standard output");
    wav = fopen(arguments[count - 1], "wb");
    if (!wav) {
        fprintf(stderr, "recover: %s: %s\n", arguments[count - 1], strerror(errno));
        return 3;
    }
    aes3_lock_init(&lock);
    aes3_account_init(&account);
    /* Zeros in the header's place, until all samples are written. */
    static const uint8_t none[AES3_WAV_OCTETS] = {0};
    fwrite(none, 1, sizeof none, wav);
    int status = recover(is_packed);
    const int is_wrong = ferror(wav) | (fclose(wav) != 0);
    if (status < 2 && is_wrong)
        status = fail("the file can't be written");
    return status;
}
