/*
 * levels: cells as text on standard input, and the lines `peak`, `peak_dbfs` and `rms_dbfs` of `aes3 info` on standard output, of each
 * channel.
 */
#include "aes3.h"
#include <stdio.h>

static aes3_lock lock;
static aes3_levels levels;
static aes3_report report;

/* So many cells of a word, and the levels of the whole blocks that they end. */
static void take(uint64_t word, uint32_t count) {
    while (count > 0) {
        const uint32_t taken = aes3_lock_push(&lock, word, count, &report);
        if (taken == 0)
            break;
        if (report.kind == AES3_WHOLE)
            aes3_levels_add(&levels, report.words);
        word = taken < 64 ? word >> taken : 0;
        count -= taken;
    }
}

static void print_level(const char *name, int channel, uint32_t tenths) {
    if (tenths == AES3_NO_LEVEL)
        printf("%s%d -inf\n", name, channel);
    else
        printf("%s%d %s%u.%u\n", name, channel, tenths == 0 ? "" : "-", (unsigned)(tenths / 10), (unsigned)(tenths % 10));
}

static void print_channel(uint8_t channel, const aes3_channel_levels *counts) {
    printf("peak%d %u\n", channel, (unsigned)counts->peak);
    print_level("peak_dbfs", channel, aes3_levels_peak(&levels, channel));
    print_level("rms_dbfs", channel, aes3_levels_rms(&levels, channel));
}

int main(void) {
    uint64_t word = 0;
    uint32_t count = 0;
    int byte;
    aes3_lock_init(&lock);
    aes3_levels_init(&levels);
    while ((byte = getchar()) != EOF) {
        if (byte == '\n' || byte == '\r' || byte == ' ')
            continue;
        if (byte != '0' && byte != '1') {
            fprintf(stderr, "levels: a byte that is no cell\n");
            return 3;
        }
        word |= (uint64_t)(byte == '1') << count;
        if (++count < 64)
            continue;
        take(word, count);
        word = 0;
        count = 0;
    }
    take(word, count);
    aes3_lock_finish(&lock, &report);
    if (report.kind == AES3_WHOLE)
        aes3_levels_add(&levels, report.words);
    print_channel(1, &levels.first);
    print_channel(2, &levels.second);
    return 0;
}
