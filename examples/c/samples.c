/*
 * samples ORIGIN: samples on standard input, 32 bits each with the lowest octet first, channel 1 and then channel 2 of each frame; the
 * block file of them on standard output, in which both channels say that they are for professional use, at 48 kHz, and come from
 * ORIGIN, four characters. Zero samples fill up the last block. Without ORIGIN: the samples of a block file.
 */
#include "aes3.h"
#include <stdio.h>
#include <string.h>

static uint8_t bytes[4 * AES3_BLOCK_WORDS];
static uint32_t words[AES3_BLOCK_WORDS];
static int32_t samples[AES3_BLOCK_WORDS];

static uint32_t word_of_bytes(const uint8_t *b) {
    return b[0] | (uint32_t)b[1] << 8 | (uint32_t)b[2] << 16 | (uint32_t)b[3] << 24;
}

static void put(uint32_t word) {
    const uint8_t octets[4] = {(uint8_t)word, (uint8_t)(word >> 8), (uint8_t)(word >> 16), (uint8_t)(word >> 24)};
    fwrite(octets, sizeof octets, 1, stdout);
}

/* The block of the samples in bytes[], with this status in both channels. */
static void make_block(const uint8_t status[AES3_STATUS_BYTES]) {
    for (int i = 0; i < AES3_BLOCK_WORDS; i++)
        samples[i] = (int32_t)word_of_bytes(bytes + 4 * i);
    aes3_block_of_samples(samples, words);
    aes3_block_set_status(words, 1, status);
    aes3_block_set_status(words, 2, status);
    for (int i = 0; i < AES3_BLOCK_WORDS; i++)
        put(words[i]);
}

static int make_blocks(const char *origin) {
    uint8_t status[AES3_STATUS_BYTES];
    size_t count;
    aes3_professional fields;
    memset(&fields, 0, sizeof fields);
    fields.emphasis = 1; /* none */
    fields.rate = 2;     /* 48 kHz */
    fields.mode = 2;     /* stereophonic */
    fields.aux = 4;      /* samples of up to 24 bits */
    fields.word = 5;     /* all of them */
    memcpy(fields.origin, origin, sizeof fields.origin);
    if (!aes3_status_of_professional(&fields, status)) {
        fprintf(stderr, "samples: a code is too great for its field\n");
        return 2;
    }
    while ((count = fread(bytes, 1, sizeof bytes, stdin)) > 0) {
        memset(bytes + count, 0, sizeof bytes - count);
        make_block(status);
    }
    return 0;
}

static int tell_samples(void) {
    while (fread(bytes, sizeof bytes, 1, stdin) == 1) {
        for (int i = 0; i < AES3_BLOCK_WORDS; i++)
            words[i] = word_of_bytes(bytes + 4 * i);
        uint32_t word = aes3_block_samples(words, samples);
        if (word != AES3_BLOCK_WORDS) {
            fprintf(stderr, "samples: word %lu of a block is not valid\n", (unsigned long)word);
            return 3;
        }
        for (int i = 0; i < AES3_BLOCK_WORDS; i++)
            put((uint32_t)samples[i]);
    }
    return 0;
}

int main(int count, char **arguments) {
    if (count == 1)
        return tell_samples();
    if (count > 2 || strlen(arguments[1]) != 4) {
        fprintf(stderr, "usage: samples [ORIGIN], which has four characters\n");
        return 2;
    }
    return make_blocks(arguments[1]);
}
