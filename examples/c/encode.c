/* A block file on standard input, the cells of its blocks as text on standard output. */
#include "aes3.h"
#include <stdio.h>

int main(void) {
    static uint8_t bytes[4 * AES3_BLOCK_WORDS], line[65];
    static uint32_t words[AES3_BLOCK_WORDS];
    static uint64_t cells[AES3_BLOCK_WORDS];
    while (fread(bytes, sizeof bytes, 1, stdin) == 1) {
        for (int i = 0; i < AES3_BLOCK_WORDS; i++) {
            const uint8_t *b = bytes + 4 * i;
            words[i] = b[0] | (uint32_t)b[1] << 8 | (uint32_t)b[2] << 16 | (uint32_t)b[3] << 24;
        }
        uint32_t word = aes3_encode_block(words, 0, cells);
        if (word != AES3_BLOCK_WORDS) {
            fprintf(stderr, "encode: word %lu of a block is not valid\n", (unsigned long)word);
            return 3;
        }
        for (int i = 0; i < AES3_BLOCK_WORDS; i++) {
            aes3_line_of_word(cells[i], line);
            fwrite(line, sizeof line, 1, stdout);
        }
    }
    return 0;
}
