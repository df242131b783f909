/*
 * user FILE: the block file on standard input, with the octets of FILE as the U bits of channel 1, 24 octets a block, and zeros
 * behind their end. Without FILE: the U bits of channel 1 of a block file, as octets.
 */
#include "aes3.h"
#include <stdio.h>
#include <string.h>

static uint8_t bytes[4 * AES3_BLOCK_WORDS];
static uint32_t words[AES3_BLOCK_WORDS];

static void words_of_bytes(void) {
    for (int i = 0; i < AES3_BLOCK_WORDS; i++) {
        const uint8_t *b = bytes + 4 * i;
        words[i] = b[0] | (uint32_t)b[1] << 8 | (uint32_t)b[2] << 16 | (uint32_t)b[3] << 24;
    }
}

static void bytes_of_words(void) {
    for (int i = 0; i < 4 * AES3_BLOCK_WORDS; i++)
        bytes[i] = (uint8_t)(words[i / 4] >> 8 * (i % 4));
}

int main(int count, char **arguments) {
    uint8_t bits[AES3_STATUS_BYTES];
    FILE *user = count > 1 ? fopen(arguments[1], "rb") : NULL;
    if (count > 1 && !user) {
        perror(arguments[1]);
        return 2;
    }
    while (fread(bytes, sizeof bytes, 1, stdin) == 1) {
        uint32_t word;
        words_of_bytes();
        if (user) {
            size_t there = fread(bits, 1, sizeof bits, user);
            memset(bits + there, 0, sizeof bits - there);
            word = aes3_block_set_user(words, 1, bits);
            bytes_of_words();
        } else {
            word = aes3_block_user(words, 1, bits);
        }
        if (word != AES3_BLOCK_WORDS) {
            fprintf(stderr, "user: word %lu of a block is not valid\n", (unsigned long)word);
            return 3;
        }
        if (user)
            fwrite(bytes, sizeof bytes, 1, stdout);
        else
            fwrite(bits, sizeof bits, 1, stdout);
    }
    return 0;
}
