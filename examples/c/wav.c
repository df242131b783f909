/*
 * wav: a WAV file on standard input, the cells of its first two channels as text on standard output, as `aes3 from-wav | aes3 encode`
 * writes them. The only channel of a file is sent in both.
 *
 * wav FILE BITS RATE: cells as text on standard input, the samples of their whole blocks in FILE, as `aes3 to-wav -o FILE --bits BITS
 * --rate RATE` writes them. BITS is 16, 24 or 32.
 */
#include "aes3.h"
#include <stdio.h>
#include <stdlib.h>
#include <string.h>

static uint32_t words[AES3_BLOCK_WORDS];
static int32_t samples[AES3_BLOCK_WORDS];

/* ---- A WAV file to a line ---- */

/* Reads the header, and no octet behind it. */
static int read_header(aes3_wav *wav) {
    static uint8_t octets[65536];
    uint64_t at = 0;
    size_t count = 0;
    uint8_t answer;
    while ((answer = aes3_wav_read(octets, count, wav, &at)) == AES3_WAV_MORE) {
        const size_t wanted = (size_t)at;
        if (at > sizeof octets) {
            fputs("wav: the header has more than 65,536 octets\n", stderr);
            return 3;
        }
        count += fread(octets + count, 1, wanted - count, stdin);
        if (count < wanted) {
            answer = AES3_WAV_ENDED;
            at = count;
            break;
        }
    }
    if (answer == AES3_WAV_HEADER)
        return 0;
    fprintf(stderr, "wav: octet %llu: %s\n", (unsigned long long)at, aes3_wav_answer_text(answer));
    return 3;
}

/* The status that says what the header does (IEC 60958-3): linear PCM, no copyright asserted, sampling frequency and word length. */
static void make_status(const aes3_wav *wav, uint8_t status[AES3_STATUS_BYTES]) {
    static const uint32_t rates[] = {44100, 0, 48000, 32000, 22050, 0, 24000, 0, 88200, 768000, 96000, 0, 176400, 0, 192000, 0};
    aes3_consumer fields;
    memset(&fields, 0, sizeof fields);
    fields.copyright = 1;
    fields.rate = 1; /* not indicated */
    for (uint8_t code = 0; code < 16; code++)
        if (rates[code] != 0 && rates[code] == wav->rate)
            fields.rate = code;
    fields.greatest = wav->bits > 20;
    fields.word = wav->bits == 8 ? 0 : wav->bits == 16 ? 1 : 5;
    aes3_status_of_consumer(&fields, status);
}

/* The cells of the block of samples[], and zeros in it from the next block's first on. */
static void put_block(const uint8_t status[AES3_STATUS_BYTES]) {
    static uint64_t cells[AES3_BLOCK_WORDS];
    uint8_t line[65];
    aes3_block_of_samples(samples, words);
    aes3_block_set_status(words, 1, status);
    aes3_block_set_status(words, 2, status);
    aes3_encode_block(words, 0, cells);
    for (int i = 0; i < AES3_BLOCK_WORDS; i++) {
        aes3_line_of_word(cells[i], line);
        fwrite(line, sizeof line, 1, stdout);
    }
    memset(samples, 0, sizeof samples);
}

static int make_line(void) {
    static uint8_t octets[65535 * 4];
    uint8_t status[AES3_STATUS_BYTES];
    aes3_wav wav;
    int failed = read_header(&wav), at = 0;
    if (failed)
        return failed;
    const uint16_t second = wav.channels > 1 ? 2 : 1;
    const size_t frame = (size_t)wav.channels * wav.octets;
    uint64_t left = wav.len;
    size_t count;
    make_status(&wav, status);
    while ((count = fread(octets, 1, left < frame ? (size_t)left : frame, stdin)) == frame) {
        left -= frame;
        aes3_wav_samples(&wav, 1, second, octets, count, samples + at, 2);
        at += 2;
        if (at == AES3_BLOCK_WORDS) {
            put_block(status);
            at = 0;
        }
    }
    if (at > 0)
        put_block(status);
    if (count == 0)
        return 0;
    fputs("wav: the samples end inside a frame\n", stderr);
    return 3;
}

/* ---- A line to a WAV file ---- */

static aes3_lock lock;
static aes3_report report;
static uint64_t frames;

static void put_header(FILE *file, uint8_t bits, uint32_t rate, uint64_t count) {
    uint8_t octets[AES3_WAV_OCTETS];
    fwrite(octets, 1, aes3_wav_write(bits, rate, count, octets), file);
}

/* The samples of a whole block: the highest bits of each, the lowest octet first. */
static void put_samples(FILE *file, uint8_t bits) {
    if (report.kind != AES3_WHOLE)
        return;
    aes3_block_samples(report.words, samples);
    for (int i = 0; i < AES3_BLOCK_WORDS; i++)
        for (int up = 32 - bits; up < 32; up += 8)
            putc((int)((uint32_t)samples[i] >> up & 255), file);
    frames += AES3_BLOCK_WORDS / 2;
}

static void take(uint64_t word, uint32_t count, FILE *file, uint8_t bits) {
    uint32_t taken;
    for (; count > 0 && (taken = aes3_lock_push(&lock, word, count, &report)) > 0; count -= taken) {
        put_samples(file, bits);
        word = taken < 64 ? word >> taken : 0;
    }
}

static int make_file(FILE *file, uint8_t bits, uint32_t rate) {
    uint64_t word = 0;
    uint32_t len = 0;
    int byte;
    aes3_lock_init(&lock);
    put_header(file, bits, rate, AES3_WAV_UNKNOWN);
    while ((byte = getchar()) != EOF) {
        if (byte == '\n' || byte == '\r' || byte == ' ')
            continue;
        if (byte != '0' && byte != '1') {
            fputs("wav: a byte that is no cell\n", stderr);
            return 3;
        }
        word |= (uint64_t)(byte == '1') << len;
        if (++len == 64) {
            take(word, len, file, bits);
            word = 0;
            len = 0;
        }
    }
    take(word, len, file, bits);
    aes3_lock_finish(&lock, &report);
    put_samples(file, bits);
    rewind(file);
    put_header(file, bits, rate, frames);
    return 0;
}

int main(int count, char **arguments) {
    if (count == 1)
        return make_line();
    const int bits = count == 4 ? atoi(arguments[2]) : 0;
    if (bits != 16 && bits != 24 && bits != 32) {
        fputs("usage: wav [FILE 16|24|32 RATE]\n", stderr);
        return 2;
    }
    FILE *file = fopen(arguments[1], "wb");
    if (!file) {
        perror(arguments[1]);
        return 2;
    }
    const int failed = make_file(file, (uint8_t)bits, (uint32_t)strtoul(arguments[3], NULL, 10));
    return fclose(file) == 0 ? failed : 3;
}
