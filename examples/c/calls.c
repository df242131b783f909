/* Each call of aes3.h once, with answers that are known. Status 1 where one is another. */
#ifndef _GNU_SOURCE
#define _GNU_SOURCE
#endif
#include "aes3.h"
#include <stdio.h>
#include <string.h>
#include <sys/mman.h>
#include <unistd.h>

static int failed;

static void want(int line, int holds) {
    if (!holds) {
        fprintf(stderr, "calls.c:%d is not so\n", line);
        failed = 1;
    }
}
#define WANT(holds) want(__LINE__, (holds))

static uint32_t words[AES3_BLOCK_WORDS];
static uint64_t cells[AES3_BLOCK_WORDS];

/* 48 kHz, two channels, from JATH (AES3-2). */
static const uint8_t sent[AES3_STATUS_BYTES] = {0x85, 0x02, 0x2C, 0, 0, 0, 'J', 'A', 'T', 'H'};

/* A status of fields, and the greatest code of each; a code that is one too great is refused, and changes nothing. */
static void built(void) {
    uint8_t status[AES3_STATUS_BYTES], wanted[AES3_STATUS_BYTES];
    aes3_professional professional;
    aes3_consumer consumer;
    memset(&professional, 0, sizeof professional);
    professional.rate = 2, professional.emphasis = 1, professional.mode = 2, professional.aux = 4, professional.word = 5;
    memcpy(professional.origin, "JATH", 4);
    memcpy(wanted, sent, sizeof wanted);
    wanted[23] = aes3_status_check_byte(sent);
    WANT(aes3_status_of_professional(&professional, status) && memcmp(status, wanted, sizeof status) == 0);
    memset(&professional, 0xFF, sizeof professional);
    WANT(!aes3_status_of_professional(&professional, status) && memcmp(status, wanted, sizeof status) == 0);
    professional.payload = professional.unlocked = 1, professional.emphasis = professional.aux = professional.word = 7;
    professional.rate = professional.b2high = 3, professional.mode = professional.user = professional.b22low = 15;
    professional.unreliable = 16;
    WANT(!aes3_status_of_professional(&professional, status) && memcmp(status, wanted, sizeof status) == 0);
    professional.unreliable = 15;
    memset(wanted, 0xFF, sizeof wanted);
    wanted[23] = aes3_status_check_byte(wanted);
    WANT(aes3_status_of_professional(&professional, status) && memcmp(status, wanted, sizeof status) == 0);
    memset(&consumer, 0xFF, sizeof consumer);
    WANT(!aes3_status_of_consumer(&consumer, status) && memcmp(status, wanted, sizeof status) == 0);
    consumer.payload = consumer.copyright = consumer.generation = consumer.greatest = 1, consumer.category = 127;
    consumer.emphasis = consumer.word = 7, consumer.mode = consumer.accuracy = consumer.b3high = 3;
    consumer.source = consumer.number = consumer.rate = 15, consumer.original = 16;
    WANT(!aes3_status_of_consumer(&consumer, status) && memcmp(status, wanted, sizeof status) == 0);
    consumer.original = 15;
    memset(wanted, 0xFF, sizeof wanted);
    wanted[0] = 0xFE;
    WANT(aes3_status_of_consumer(&consumer, status) && memcmp(status, wanted, sizeof status) == 0);
}

/* A status as `aes3 show` writes it. */
static void written_status(void) {
    static const char wanted[] = " professional payload=pcm emphasis=none unlocked=no rate=48000 mode=stereophonic user=not-indicated"
        " aux=audio word=24 b2high=0 b3=0 b4=0 b5=0 origin=JATH destination=.... local=0 time=0 unreliable=0000 b22low=0 check=absent";
    static char text[AES3_STATUS_TEXT];
    const uint8_t other[AES3_STATUS_BYTES] = {4, 0, 0, 2, 0x0B};
    memset(text, '#', sizeof text);
    WANT(aes3_status_text(sent, text) == sizeof wanted - 1 && memcmp(text, wanted, sizeof wanted - 1) == 0);
    WANT(text[sizeof wanted - 1] == '#' && text[sizeof text - 1] == '#');
    WANT(aes3_status_text(other, text) > 0 && memcmp(text, " consumer payload=pcm copyright=not-asserted ", 45) == 0);
}

/* Fields by their names. Each text ends at a page that can't be read. */
static void settings(void) {
    static const struct {
        const char *text;
        uint8_t answer;
    } rows[] = {
        {"emphasis=50/15", AES3_SET_DONE}, {"rate=44100", AES3_SET_DONE}, {"copyright=asserted", AES3_SET_DONE},
        {"emphasis=50/16", AES3_SET_UNKNOWN}, {"emphasis", AES3_SET_UNKNOWN}, {"", AES3_SET_UNKNOWN}, {"\xFF=1", AES3_SET_UNKNOWN},
        {"unlocked=yes", AES3_SET_REFUSED}, {"origin=BBC", AES3_SET_REFUSED}, {"use=professional", AES3_SET_DONE}, {"rate=44100", AES3_SET_DONE},
        {"origin=BBC", AES3_SET_DONE}, {"word=24", AES3_SET_REFUSED}, {"aux=audio", AES3_SET_DONE}, {"word=24", AES3_SET_DONE},
        {"time=4294967295", AES3_SET_DONE}, {"time=4294967296", AES3_SET_UNKNOWN}, {"copyright=asserted", AES3_SET_REFUSED},
    };
    static const uint8_t wanted[AES3_STATUS_BYTES] = {0x49, 0, 0x2C, 0, 0x0B, 0, 'B', 'B', 'C', ' ', 0, 0, 0, 0, 0, 0, 0, 0, 0xFF, 0xFF, 0xFF, 0xFF};
    const size_t page = (size_t)sysconf(_SC_PAGESIZE);
    char *const memory = (char *)mmap(NULL, 2 * page, PROT_READ | PROT_WRITE, MAP_PRIVATE | MAP_ANONYMOUS, -1, 0);
    uint8_t status[AES3_STATUS_BYTES] = {0x04, 0, 0, 0x02, 0x0B}, before[AES3_STATUS_BYTES];
    WANT(memory != (char *)MAP_FAILED && mprotect(memory + page, page, PROT_NONE) == 0);
    for (size_t i = 0; i < sizeof rows / sizeof rows[0]; i++) {
        const size_t len = strlen(rows[i].text);
        char *const text = memory + page - len;
        memcpy(text, rows[i].text, len);
        memcpy(before, status, sizeof status);
        WANT(aes3_status_set(status, text, len) == rows[i].answer);
        WANT((memcmp(status, before, sizeof status) == 0) == (rows[i].answer != AES3_SET_DONE));
        if (i == 2)
            WANT(status[0] == 0x08 && status[3] == 0);
    }
    WANT(memcmp(status, wanted, sizeof status) == 0);
    WANT(strcmp(aes3_set_text(AES3_SET_DONE), "the field is set") == 0 && strcmp(aes3_set_text(3), "unknown answer") == 0);
    munmap(memory, 2 * page);
}

static void statuses(void) {
    uint8_t status[AES3_STATUS_BYTES];
    aes3_professional professional;
    aes3_consumer consumer;
    memcpy(status, sent, sizeof status);
    WANT(aes3_status_check_state(status) == AES3_ABSENT);
    status[23] = aes3_status_check_byte(status);
    WANT(aes3_status_check_state(status) == AES3_GOOD);
    status[23] ^= 0x10;
    WANT(aes3_status_check_state(status) == AES3_BAD);
    WANT(!aes3_status_consumer(sent, &consumer));
    WANT(aes3_status_professional(sent, &professional));
    WANT(professional.rate == 2 && professional.emphasis == 1 && professional.mode == 2);
    WANT(professional.aux == 4 && professional.word == 5);
    WANT(memcmp(professional.origin, "JATH", 4) == 0 && professional.time == 0);
    status[0] = 0x04;
    status[3] = 0x02;
    WANT(!aes3_status_professional(status, &professional));
    WANT(aes3_status_consumer(status, &consumer));
    WANT(consumer.copyright == 1 && consumer.rate == 2 && consumer.rest[1] == 'J');
    built();
    written_status();
    WANT(aes3_block_set_status(words, 2, sent) == AES3_BLOCK_WORDS);
    WANT(aes3_block_status(words, 2, status) == AES3_BLOCK_WORDS && memcmp(status, sent, sizeof status) == 0);
    WANT(aes3_block_status(words, 1, status) == AES3_BLOCK_WORDS && status[0] == 0 && status[6] == 0);
}

/* V and U bits: bit 9 of 24 octets is that of frame 9, which is word 18 or, of channel 2, word 19. */
static void carried(void) {
    uint8_t user[AES3_STATUS_BYTES] = {0, 2, 0, 0xFF}, bits[AES3_STATUS_BYTES];
    static uint32_t block[AES3_BLOCK_WORDS];
    memcpy(block, words, sizeof block);
    WANT(aes3_block_set_user(block, 2, user) == AES3_BLOCK_WORDS);
    WANT(block[19] == (words[19] ^ 0x20000000 ^ 0x80000000) && block[18] == words[18] && block[17] == words[17]);
    WANT(aes3_block_user(block, 2, bits) == AES3_BLOCK_WORDS && memcmp(bits, user, sizeof bits) == 0);
    WANT(aes3_block_user(block, 1, bits) == AES3_BLOCK_WORDS && bits[1] == 0 && bits[3] == 0);
    WANT(aes3_block_set_validity(block, 1, user) == AES3_BLOCK_WORDS);
    WANT(block[18] == (words[18] ^ 0x10000000 ^ 0x80000000));
    WANT(aes3_block_validity(block, 1, bits) == AES3_BLOCK_WORDS && memcmp(bits, user, sizeof bits) == 0);
    WANT(aes3_block_validity(block, 2, bits) == AES3_BLOCK_WORDS && bits[1] == 0);
    WANT(aes3_block_status(block, 2, bits) == AES3_BLOCK_WORDS && memcmp(bits, sent, sizeof bits) == 0);
    memset(user, 0, sizeof user);
    WANT(aes3_block_set_user(block, 2, user) == AES3_BLOCK_WORDS);
    WANT(aes3_block_set_validity(block, 1, user) == AES3_BLOCK_WORDS && memcmp(block, words, sizeof block) == 0);
    block[7] ^= 1;
    WANT(aes3_block_set_user(block, 1, sent) == 7 && aes3_block_set_validity(block, 1, sent) == 7);
    WANT(aes3_block_set_status(block, 1, sent) == 7 && aes3_block_user(block, 1, bits) == 7);
    WANT(aes3_block_status(block, 1, bits) == 7);
    block[7] ^= 1;
    WANT(memcmp(block, words, sizeof block) == 0);
}

/* No number but 1 and 2 is a channel's: each call says so, and puts nothing. */
static void channels(void) {
    static const uint8_t none[] = {0, 3, 255};
    static uint32_t block[AES3_BLOCK_WORDS];
    uint8_t bits[AES3_STATUS_BYTES], before[AES3_STATUS_BYTES];
    memcpy(block, words, sizeof block);
    memset(bits, '#', sizeof bits);
    memcpy(before, bits, sizeof before);
    for (size_t i = 0; i < sizeof none; i++) {
        WANT(aes3_block_status(block, none[i], bits) == AES3_NO_CHANNEL);
        WANT(aes3_block_validity(block, none[i], bits) == AES3_NO_CHANNEL);
        WANT(aes3_block_user(block, none[i], bits) == AES3_NO_CHANNEL);
        WANT(aes3_block_set_status(block, none[i], sent) == AES3_NO_CHANNEL);
        WANT(aes3_block_set_validity(block, none[i], sent) == AES3_NO_CHANNEL);
        WANT(aes3_block_set_user(block, none[i], sent) == AES3_NO_CHANNEL);
    }
    WANT(memcmp(bits, before, sizeof bits) == 0 && memcmp(block, words, sizeof block) == 0);
}

/* Samples of 24 bits come back; the lowest 8 bits of one don't count. */
static void sampled(void) {
    static int32_t samples[AES3_BLOCK_WORDS], back[AES3_BLOCK_WORDS];
    static uint32_t block[AES3_BLOCK_WORDS];
    uint8_t bits[AES3_STATUS_BYTES];
    for (int i = 0; i < AES3_BLOCK_WORDS; i++)
        samples[i] = (i - 192) * 256 * 32767;
    samples[0] = INT32_MIN;
    samples[2] = 0x123456FF;
    samples[383] = INT32_MAX - 255;
    memset(block, 0xFF, sizeof block);
    aes3_block_of_samples(samples, block);
    /* Bit 23 of the audio is bit 27 of a word, and bit 31 makes the ones even in number. */
    WANT(block[0] == 0x88000000 && block[2] == (0x01234560 | 0x80000000) && block[192] == 0);
    WANT(aes3_block_samples(block, back) == AES3_BLOCK_WORDS && back[2] == 0x12345600);
    back[2] = samples[2];
    WANT(memcmp(back, samples, sizeof back) == 0);
    WANT(aes3_block_set_user(block, 1, sent) == AES3_BLOCK_WORDS);
    WANT(aes3_block_samples(block, back) == AES3_BLOCK_WORDS && back[383] == samples[383]);
    WANT(aes3_block_status(block, 1, bits) == AES3_BLOCK_WORDS && bits[0] == 0);
    block[9] ^= 0x10;
    memset(back, 0x5A, sizeof back);
    WANT(aes3_block_samples(block, back) == 9 && back[0] == 0x5A5A5A5A && back[383] == 0x5A5A5A5A);
}

static void written(void) {
    uint8_t line[65], octets[8];
    uint64_t word = 0;
    aes3_line_of_word(cells[0], line);
    /* The preamble of a block behind a low cell. */
    WANT(memcmp(line, "11101000", 8) == 0 && line[64] == '\n');
    WANT(aes3_word_of_text(line, &word) && word == cells[0]);
    line[63] = 'x';
    WANT(!aes3_word_of_text(line, &word) && word == cells[0]);
    aes3_octets_of_word(cells[0], octets);
    WANT(octets[0] == 0xE8 && aes3_word_of_octets(octets) == cells[0]);
}

/* A block, one with a wrong parity bit, one with a wrong cell, and one that the end cuts. */
static void locks(void) {
    static aes3_lock lock, copy;
    static aes3_report report;
    static uint32_t block[AES3_BLOCK_WORDS];
    const uint8_t first = 0xE8; /* the preamble of a block */
    memset(&lock, 9, sizeof lock);
    memset(&report, 9, sizeof report);
    aes3_lock_init(&lock);
    WANT(aes3_lock_push(&lock, cells[0], 64, &report) == 64 && report.kind == AES3_NONE);
    WANT(aes3_lock_take_words(&lock, cells + 1, AES3_BLOCK_WORDS - 1) == AES3_BLOCK_WORDS - 1);
    WANT(aes3_lock_seen(&lock) == AES3_BLOCK_CELLS);
    aes3_lock_finish(&lock, &report);
    WANT(report.kind == AES3_WHOLE && report.at == 0 && report.before == 0);
    WANT(memcmp(report.words, words, sizeof words) == 0);
    WANT(aes3_lock_take_words(&lock, cells, 1) == 0);
    /* The next block decides it with its first cell, and the others of its first octet decide nothing. */
    WANT(aes3_lock_push(&lock, cells[0], 64, &report) == 1);
    WANT(report.kind == AES3_WHOLE && report.at == 0 && report.before == 0);
    WANT(memcmp(report.words, words, sizeof words) == 0);
    aes3_lock_block(&lock, block);
    WANT(memcmp(block, words, sizeof words) == 0);
    copy = lock;
    WANT(aes3_lock_take_octets(&copy, &first, 1, 1, &report) == 7 && report.kind == AES3_NONE);
    WANT(aes3_lock_push(&lock, cells[0] >> 1, 63, &report) == 63 && report.kind == AES3_NONE);
    copy = lock;
    WANT(aes3_lock_push(&copy, cells[1], 10, &report) == 10 && report.kind == AES3_NONE);
    aes3_lock_finish(&copy, &report);
    WANT(report.kind == AES3_UNFINISHED && report.at == AES3_BLOCK_CELLS && report.cell == 74);
    WANT(aes3_lock_push(&lock, cells[1] ^ 2, 64, &report) == 2);
    WANT(report.kind == AES3_FAULT && report.at == AES3_BLOCK_CELLS);
    WANT(report.cell == AES3_BLOCK_CELLS + 65 && report.why == AES3_PREAMBLE);
    aes3_lock_init(&lock);
    for (int i = 0; i < AES3_BLOCK_WORDS - 1; i++)
        WANT(aes3_lock_push(&lock, cells[i], 64, &report) == 64);
    /* The parity bit of the last subframe is wrong, and nothing else. */
    WANT(aes3_lock_push(&lock, cells[AES3_BLOCK_WORDS - 1] ^ (uint64_t)1 << 63, 64, &report) == 64);
    aes3_lock_finish(&lock, &report);
    WANT(report.kind == AES3_MARKED && report.wrong == 1);
}

/* Three blocks in octets, the second with a wrong cell, taken in pieces of any length. */
static void octets(void) {
    enum { BLOCK = 8 * AES3_BLOCK_WORDS, ALL = 3 * BLOCK };
    static aes3_lock lock;
    static aes3_report report;
    static uint8_t line[ALL];
    static uint32_t block[AES3_BLOCK_WORDS];
    size_t at, told;
    for (int i = 0; i < 3 * AES3_BLOCK_WORDS; i++)
        aes3_octets_of_word(cells[i % AES3_BLOCK_WORDS], line + 8 * i);
    line[BLOCK + 100] ^= 0x20; /* cell 802 of the block, the first of a time slot */
    for (size_t piece = 1; piece <= ALL; piece = 5 * piece + 2) {
        aes3_lock_init(&lock);
        told = 0;
        for (size_t from = 0; from < ALL; from += piece) {
            size_t count = piece < ALL - from ? piece : ALL - from;
            at = 0;
            do {
                memset(&report, 0xFF, sizeof report);
                at += aes3_lock_take_octets(&lock, line + from, count, at, &report);
                WANT(report.words[0] == 0xFFFFFFFF && report.words[383] == 0xFFFFFFFF);
                if (report.kind == AES3_NONE)
                    continue;
                if (told++ == 0) {
                    WANT(report.kind == AES3_WHOLE && report.at == 0 && report.before == 0);
                    WANT(8 * from + at == AES3_BLOCK_CELLS + 1);
                    aes3_lock_block(&lock, block);
                    WANT(memcmp(block, words, sizeof words) == 0);
                } else {
                    WANT(report.kind == AES3_FAULT && report.at == AES3_BLOCK_CELLS);
                    WANT(report.cell == AES3_BLOCK_CELLS + 802 && report.why == AES3_BIPHASE);
                    WANT(8 * from + at == AES3_BLOCK_CELLS + 803);
                }
            } while (report.kind != AES3_NONE);
            WANT(at == 8 * count);
        }
        WANT(told == 2 && aes3_lock_seen(&lock) == 8 * ALL);
        aes3_lock_finish(&lock, &report);
        WANT(report.kind == AES3_WHOLE && report.at == 2 * AES3_BLOCK_CELLS);
        memset(block, 0, sizeof block);
        aes3_lock_block(&lock, block);
        WANT(memcmp(block, report.words, sizeof block) == 0 && memcmp(block, words, sizeof block) == 0);
    }
    /* From a cell on, to its octet's end; from none. */
    aes3_lock_init(&lock);
    WANT(aes3_lock_take_octets(&lock, line, 2, 13, &report) == 3 && report.kind == AES3_NONE);
    WANT(aes3_lock_take_octets(&lock, line, 2, 16, &report) == 0 && report.kind == AES3_NONE);
    WANT(aes3_lock_seen(&lock) == 3);
}

/* The same in words. */
static void many_words(void) {
    enum { ALL = 3 * AES3_BLOCK_WORDS };
    static aes3_lock lock;
    static aes3_report report;
    static uint8_t octets[8 * ALL + 7];
    static uint64_t line[ALL], got[ALL + 1];
    static uint32_t block[AES3_BLOCK_WORDS];
    for (int i = 0; i < ALL; i++) {
        line[i] = cells[i % AES3_BLOCK_WORDS];
        aes3_octets_of_word(line[i], octets + 8 * i);
    }
    got[ALL] = 5;
    WANT(aes3_words_of_octets(octets, sizeof octets, got, ALL + 1) == ALL && got[ALL] == 5);
    WANT(memcmp(got, line, sizeof line) == 0);
    got[1] = 5;
    WANT(aes3_words_of_octets(octets, sizeof octets, got, 1) == 1 && got[0] == line[0] && got[1] == 5);
    WANT(aes3_words_of_octets(octets, 7, got, 1) == 0);
    line[AES3_BLOCK_WORDS + 12] ^= (uint64_t)1 << 34; /* cell 802 of the block, the first of a time slot */
    for (size_t piece = 1; piece <= ALL; piece = 5 * piece + 2) {
        int told = 0;
        aes3_lock_init(&lock);
        for (size_t from = 0; from < ALL; from += piece) {
            size_t count = piece < ALL - from ? piece : ALL - from, at = 0;
            do {
                memset(&report, 0xFF, sizeof report);
                at += aes3_lock_take_cells(&lock, line + from, count, at, &report);
                WANT(report.words[0] == 0xFFFFFFFF && report.words[383] == 0xFFFFFFFF);
                if (report.kind == AES3_NONE)
                    continue;
                if (told++ == 0) {
                    WANT(report.kind == AES3_WHOLE && report.at == 0 && report.before == 0);
                    WANT(64 * from + at == AES3_BLOCK_CELLS + 1);
                    aes3_lock_block(&lock, block);
                    WANT(memcmp(block, words, sizeof words) == 0);
                } else {
                    WANT(report.kind == AES3_FAULT && report.at == AES3_BLOCK_CELLS);
                    WANT(report.cell == AES3_BLOCK_CELLS + 802 && report.why == AES3_BIPHASE);
                    WANT(64 * from + at == AES3_BLOCK_CELLS + 803);
                }
            } while (report.kind != AES3_NONE);
            WANT(at == 64 * count);
        }
        WANT(told == 2 && aes3_lock_seen(&lock) == 64 * ALL);
        aes3_lock_finish(&lock, &report);
        WANT(report.kind == AES3_WHOLE && report.at == 2 * AES3_BLOCK_CELLS);
    }
    /* From a cell on, to its word's end; from none. */
    aes3_lock_init(&lock);
    WANT(aes3_lock_take_cells(&lock, line, 2, 125, &report) == 3 && report.kind == AES3_NONE);
    WANT(aes3_lock_take_cells(&lock, line, 2, 128, &report) == 0 && report.kind == AES3_NONE);
    WANT(aes3_lock_seen(&lock) == 3);
}

/* Two blocks, four samples a cell: in bit 3 of an octet, and in bit 9 of two; then with too little room, and no line. */
static void captures(void) {
    enum { CELLS = 2 * AES3_BLOCK_CELLS, PACKED = CELLS / 8 + 1, SAMPLES = 4 * CELLS };
    static uint8_t octets[2 * SAMPLES], wanted[PACKED], packed[SAMPLES];
    static aes3_lock lock;
    static aes3_report report;
    aes3_capture found;
    for (int unit = 1; unit <= 2; unit++) {
        memset(octets, 0xA0, sizeof octets);
        for (int i = 0; i < SAMPLES; i++) {
            int level = (int)(cells[i / 256 % AES3_BLOCK_WORDS] >> (i / 4 % 64) & 1);
            octets[unit * i + unit - 1] = (uint8_t)(0xA5 & ~(unit == 1 ? 8 : 2)) | (uint8_t)(level << (unit == 1 ? 3 : 1));
        }
        memset(packed, 0x5A, sizeof packed);
        WANT(aes3_capture_cells(octets, (size_t)(unit * SAMPLES), (uint8_t)unit, unit == 1 ? 3 : 9, 0, packed, sizeof packed, &found));
        /* No edge tells where the first run began, so its cells are counted by the period of those behind it. */
        WANT(found.samples == SAMPLES && found.cells == CELLS && found.octets == PACKED && packed[PACKED - 1] == 0);
        WANT(found.period >> 7 == 4 << 9 && found.measured == 1 && found.dead == 0 && found.greatest < 32 && found.edges > 0);
        aes3_lock_init(&lock);
        size_t at = 0;
        do {
            at += aes3_lock_take_octets(&lock, packed, CELLS / 8, at, &report);
            WANT(report.kind == AES3_NONE || (report.kind == AES3_WHOLE && report.at == 0));
        } while (report.kind != AES3_NONE);
        aes3_lock_finish(&lock, &report);
        WANT(report.kind == AES3_WHOLE && report.at == AES3_BLOCK_CELLS && memcmp(report.words, words, sizeof words) == 0);
        WANT(packed[PACKED] == 0x5A);
        memcpy(wanted, packed, PACKED);
    }
    memset(packed, 0x5A, sizeof packed);
    WANT(!aes3_capture_cells(octets, 2 * SAMPLES, 2, 9, 0, packed, 100, &found));
    WANT(found.octets == 100 && memcmp(packed, wanted, 100) == 0 && packed[100] == 0x5A);
    WANT(found.samples == SAMPLES && found.cells == CELLS && found.measured == 1);
    WANT(aes3_capture_cells(octets, 2 * SAMPLES, 2, 0, 0, packed, sizeof packed, &found));
    WANT(found.measured == 0 && found.period == 0);
    WANT(aes3_capture_cells(octets, 0, 1, 0, 0, packed, 1, &found) && found.samples == 0 && found.cells == 0);
}

/* The same in pieces of samples and of memory: nothing is lost where the memory is full, and behind the end nothing is taken. */
static void pieces(void) {
    enum { CELLS = 2 * AES3_BLOCK_CELLS, PACKED = CELLS / 8 + 1, SAMPLES = 4 * CELLS, STILL = 8000 };
    static const size_t sizes[] = {7, 64, 65536}, rooms[] = {1, 7, 65536};
    static uint8_t octets[STILL + SAMPLES], wanted[SAMPLES], packed[SAMPLES + 65536];
    static aes3_recovery recovery;
    aes3_capture due, found;
    size_t taken, put;
    for (int i = 0; i < SAMPLES; i++) /* behind a still line, whose cells come at once when the line is found */
        octets[STILL + i] = (uint8_t)(cells[i / 256 % AES3_BLOCK_WORDS] >> (i / 4 % 64) & 1);
    WANT(aes3_capture_cells(octets, sizeof octets, 1, 0, 0, wanted, sizeof wanted, &due) && due.octets > PACKED && due.measured == 1);
    for (int i = 0; i < 9; i++) {
        const size_t size = sizes[i / 3], room = rooms[i % 3];
        size_t at = 0, all = 0;
        int full = 0;
        memset(packed, 0x5A, sizeof packed);
        aes3_recovery_init(&recovery, 0);
        while (at < sizeof octets) {
            const size_t left = sizeof octets - at < size ? sizeof octets - at : size;
            const bool took = aes3_recovery_take(&recovery, octets + at, left, 1, 0, &taken, packed + all, room, &put);
            WANT(put <= room && taken <= left && took == (taken == left) && (took || put == room || taken == 4032));
            full += put == room;
            at += taken, all += put;
        }
        while (!aes3_recovery_finish(&recovery, packed + all, room, &put)) {
            WANT(put == room);
            all += put;
        }
        WANT(put < room);
        all += put;
        WANT(full > 0 || room > 1000);
        WANT(all == due.octets && memcmp(packed, wanted, all) == 0 && packed[all] == 0x5A);
        aes3_recovery_figures(&recovery, &found);
        WANT(memcmp(&found, &due, sizeof due) == 0);
        WANT(!aes3_recovery_take(&recovery, octets, 64, 1, 0, &taken, packed, room, &put) && taken == 0 && put == 0);
        WANT(aes3_recovery_finish(&recovery, packed, room, &put) && put == 0);
    }
    /* Half of a sample waits for its other half. */
    aes3_recovery_init(&recovery, 0);
    WANT(aes3_recovery_take(&recovery, octets, 5, 2, 0, &taken, packed, 64, &put) && taken == 4 && put == 0);
    WANT(aes3_recovery_take(&recovery, octets, 1, 2, 0, &taken, packed, 64, &put) && taken == 0 && put == 0);
}

/* The gap that was put. */
static int is_gap(const aes3_gap *gap, uint64_t at, uint64_t cells, uint8_t counts) {
    return gap->at == at && gap->cells == cells && gap->counts == counts;
}

static void accounts(void) {
    const uint64_t block = AES3_BLOCK_CELLS;
    static aes3_report report;
    aes3_account account, copy;
    aes3_gap gap = {1, 2, 3};
    aes3_account_init(&account);
    report.kind = AES3_NONE;
    WANT(!aes3_account_before(&account, &report, &gap));
    WANT(!aes3_account_passed(&account, 2 * block - 1, &gap) && is_gap(&gap, 1, 2, 3));
    WANT(aes3_account_passed(&account, 2 * block, &gap) && is_gap(&gap, 0, block, 1));
    WANT(!aes3_account_passed(&account, 2 * block, &gap));
    copy = account;
    /* A fault has only gaps of a block's length before it, a whole block all. */
    report.kind = AES3_FAULT;
    report.at = 2 * block + 9;
    WANT(aes3_account_before(&account, &report, &gap) && is_gap(&gap, block, block, 1));
    WANT(!aes3_account_before(&account, &report, &gap));
    report.kind = AES3_WHOLE;
    report.at = 2 * block + 20;
    WANT(aes3_account_before(&account, &report, &gap) && is_gap(&gap, 2 * block, 20, 0));
    WANT(!aes3_account_before(&account, &report, &gap));
    report.at = 3 * block + 27;
    WANT(aes3_account_before(&account, &report, &gap) && is_gap(&gap, 3 * block + 20, 7, 1));
    WANT(!aes3_account_before(&account, &report, &gap) && is_gap(&gap, 3 * block + 20, 7, 1));
    WANT(!aes3_account_end(&account, 4 * block + 27, &gap));
    /* The copy goes on by itself. */
    WANT(aes3_account_end(&copy, 2 * block + 5, &gap) && is_gap(&gap, block, block, 1));
    WANT(aes3_account_end(&copy, 2 * block + 5, &gap) && is_gap(&gap, 2 * block, 5, 0));
    WANT(!aes3_account_end(&copy, 2 * block + 5, &gap));
}

/* The event that was put. */
static int is_event(const aes3_event *event, uint8_t kind, uint64_t at, uint64_t cells) {
    return event->kind == kind && event->at == at && event->cells == cells;
}

static void watches(void) {
    const uint64_t block = AES3_BLOCK_CELLS;
    static aes3_report report;
    static uint8_t status[AES3_STATUS_BYTES], bits[AES3_STATUS_BYTES];
    aes3_watch watch, copy;
    aes3_event put[AES3_EVENTS];
    memset(put, 0x55, sizeof put);
    aes3_watch_init(&watch);
    report.kind = AES3_NONE;
    WANT(aes3_watch_report(&watch, &report, put) == 0 && put[0].kind == 0x55);
    report.kind = 9;
    WANT(aes3_watch_report(&watch, &report, put) == 0 && put[0].kind == 0x55);
    WANT(aes3_watch_passed(&watch, 2 * block - 1, put) == 0 && put[0].kind == 0x55);
    copy = watch;
    WANT(aes3_watch_passed(&watch, 2 * block, put) == 1 && is_event(put, AES3_EVENT_LOST, 0, 0) && put[1].kind == 0x55);
    WANT(aes3_watch_passed(&watch, 9 * block, put) == 0 && is_event(put, AES3_EVENT_LOST, 0, 0));
    /* A line that is lost from its first cell on comes, and locks. */
    report.kind = AES3_FAULT;
    report.at = 2 * block + 9;
    WANT(aes3_watch_report(&watch, &report, put) == 0);
    report.kind = AES3_WHOLE;
    report.before = 1;
    report.at = 2 * block + 20;
    WANT(aes3_watch_report(&watch, &report, put) == 1 && is_event(put, AES3_EVENT_LOCKED, 2 * block + 20, 0) && put[0].before == 1);
    report.at += block;
    WANT(aes3_watch_report(&watch, &report, put) == 0);
    report.at += block + 7;
    WANT(aes3_watch_report(&watch, &report, put) == 1 && is_event(put, AES3_EVENT_SLIPPED, report.at, 7));
    /* All six events: of cells that are lost, of the block, and of what both channels say. */
    status[0] = 4;
    memset(bits, 0xFF, sizeof bits);
    for (uint8_t channel = 1; channel <= 2; channel++) {
        WANT(aes3_block_set_status(report.words, channel, status) == AES3_BLOCK_WORDS);
        WANT(aes3_block_set_validity(report.words, channel, bits) == AES3_BLOCK_WORDS);
    }
    report.at += 3 * block;
    WANT(aes3_watch_report(&watch, &report, put) == 6);
    WANT(is_event(&put[0], AES3_EVENT_LOST, report.at - 2 * block, 0) && is_event(&put[1], AES3_EVENT_BACK, report.at, 2 * block));
    for (int i = 2; i < 6; i++) {
        WANT(is_event(&put[i], i < 4 ? AES3_EVENT_STATUS : AES3_EVENT_VALIDITY, report.at, 0) && put[i].channel == 1 + i % 2);
        WANT(i < 4 ? memcmp(put[i].status, status, sizeof status) == 0 : put[i].validity == AES3_VALIDITY_SET);
    }
    /* The words of a block are taken as they are, without a right parity bit too. */
    report.at += block;
    report.words[1] ^= UINT32_C(1) << 28;
    WANT(aes3_watch_report(&watch, &report, put) == 1 && is_event(put, AES3_EVENT_VALIDITY, report.at, 0));
    WANT(put[0].channel == 2 && put[0].validity == AES3_VALIDITY_MIXED);
    /* The end changes nothing, and may be asked for again. */
    WANT(aes3_watch_end(&watch, report.at + 2 * block - 1, put) == 1 && put[0].locked == 1);
    WANT(aes3_watch_end(&watch, report.at + 2 * block, put) == 2 && is_event(&put[0], AES3_EVENT_LOST, report.at + block, 0));
    WANT(is_event(&put[1], AES3_EVENT_END, report.at + 2 * block, 0) && put[1].locked == 0);
    WANT(aes3_watch_end(&watch, report.at + 2 * block - 1, put) == 1 && put[0].locked == 1);
    /* The copy goes on by itself. */
    WANT(aes3_watch_end(&copy, 5, put) == 1 && is_event(put, AES3_EVENT_END, 5, 0) && put[0].locked == 0);
    /* Places that no lock has do no harm. */
    report.at = UINT64_MAX;
    WANT(aes3_watch_report(&watch, &report, put) <= AES3_EVENTS);
    WANT(aes3_watch_end(&watch, UINT64_MAX, put) <= 2);
}

/* The sum that was put: of which cells, and what is counted in it. */
static int is_sum(const aes3_sum *sum, uint64_t from, uint64_t to, uint64_t whole, uint64_t fault, uint64_t lost) {
    return sum->from == from && sum->to == to && sum->whole == whole && sum->fault == fault && sum->lost == lost;
}

// The levels of samples, and of counts that no block has.
static void sample_levels(void) {
    static uint32_t block[AES3_BLOCK_WORDS];
    aes3_levels levels;
    aes3_levels_init(&levels);
    WANT(levels.blocks == 0 && aes3_levels_peak(&levels, 1) == AES3_NO_LEVEL && aes3_levels_rms(&levels, 2) == AES3_NO_LEVEL);
    for (int i = 0; i < AES3_BLOCK_WORDS; i++)
        block[i] = i % 2 == 0 ? UINT32_C(0xC00000) << 4 : 0xF000000F; // half of full scale below zero; no sample
    aes3_levels_add(&levels, block);
    WANT(levels.blocks == 1 && levels.first.peak == 0x400000 && levels.second.peak == 0);
    WANT(aes3_levels_peak(&levels, 1) == 60 && aes3_levels_rms(&levels, 1) == 60);
    WANT(aes3_levels_peak(&levels, 2) == AES3_NO_LEVEL && aes3_levels_rms(&levels, 2) == AES3_NO_LEVEL);
    WANT(aes3_levels_peak(&levels, 0) == AES3_NO_LEVEL && aes3_levels_rms(&levels, 3) == AES3_NO_LEVEL);
    memset(block, 0, sizeof block);
    block[AES3_BLOCK_WORDS - 1] = UINT32_C(0x800000) << 4; // full scale, once
    aes3_levels_add(&levels, block);
    WANT(aes3_levels_rms(&levels, 1) == 90 && aes3_levels_peak(&levels, 2) == 0 && aes3_levels_rms(&levels, 2) == 258);
    memset(&levels, 0xFF, sizeof levels);
    aes3_levels_add(&levels, block);
    WANT(levels.blocks == UINT64_MAX && levels.second.energy_low == UINT64_MAX && levels.second.energy_high == UINT64_MAX);
    WANT(aes3_levels_peak(&levels, 1) == 0 && aes3_levels_rms(&levels, 2) == 0);
    levels.blocks = 0;
    WANT(aes3_levels_rms(&levels, 2) == 0);
}

static void sums_by_periods(void) {
    const uint64_t block = AES3_BLOCK_CELLS, most = (uint64_t)1 << 40;
    static aes3_report report;
    static uint8_t status[AES3_STATUS_BYTES], bits[AES3_STATUS_BYTES];
    aes3_sums sums, copy;
    aes3_sum sum;
    /* How many cells a period can have. Without periods nothing is put. */
    WANT(aes3_sums_init(&sums, 1) && aes3_sums_init(&sums, most));
    memset(&sum, 0x55, sizeof sum);
    report.kind = AES3_WHOLE;
    report.at = 9 * block;
    WANT(!aes3_sums_init(&sums, most + 1) && !aes3_sums_init(&sums, UINT64_MAX) && !aes3_sums_init(&sums, 0));
    WANT(!aes3_sums_before(&sums, &report, &sum) && !aes3_sums_passed(&sums, 20 * block, &sum) && !aes3_sums_end(&sums, 20 * block, &sum));
    WANT(aes3_sums_init(&sums, block));
    report.kind = AES3_NONE;
    WANT(!aes3_sums_before(&sums, &report, &sum));
    report.kind = 9;
    WANT(!aes3_sums_before(&sums, &report, &sum));
    WANT(!aes3_sums_passed(&sums, 2 * block - 1, &sum) && sum.to == UINT64_C(0x5555555555555555));
    copy = sums;
    WANT(aes3_sums_passed(&sums, 2 * block, &sum) && is_sum(&sum, 0, block, 0, 0, block));
    WANT(!aes3_sums_passed(&sums, 2 * block, &sum) && is_sum(&sum, 0, block, 0, 0, block));
    /* Two periods end before a report, the second one directly before it. The report is taken by the third call. */
    report.kind = AES3_FAULT;
    report.why = AES3_UNCLOSED;
    report.at = 3 * block;
    WANT(aes3_sums_before(&sums, &report, &sum) && is_sum(&sum, block, 2 * block, 0, 0, block));
    WANT(aes3_sums_before(&sums, &report, &sum) && is_sum(&sum, 2 * block, 3 * block, 0, 0, block));
    WANT(!aes3_sums_before(&sums, &report, &sum));
    report.kind = AES3_MARKED;
    WANT(!aes3_sums_before(&sums, &report, &sum));
    report.kind = AES3_WHOLE;
    report.at = 3 * block + 20;
    WANT(!aes3_sums_before(&sums, &report, &sum));
    /* What is counted: a gap before a whole block, the validity bits and the events of a change. */
    status[0] = 4;
    memset(bits, 0xFF, sizeof bits);
    WANT(aes3_block_set_status(report.words, 1, status) == AES3_BLOCK_WORDS);
    WANT(aes3_block_set_validity(report.words, 2, bits) == AES3_BLOCK_WORDS);
    report.at += block + 7;
    WANT(aes3_sums_before(&sums, &report, &sum) && is_sum(&sum, 3 * block, 4 * block, 1, 1, 0));
    WANT(sum.marked == 1 && sum.preamble == 0 && sum.biphase == 0 && sum.unclosed == 1 && sum.changes == 0);
    WANT(!aes3_sums_before(&sums, &report, &sum));
    WANT(aes3_sums_end(&sums, 5 * block + 9, &sum) && is_sum(&sum, 4 * block, 5 * block, 1, 0, 7));
    WANT(sum.invalid_first == 0 && sum.invalid_second == 192 && sum.changes == 2);
    WANT(aes3_sums_end(&sums, 5 * block + 9, &sum) && is_sum(&sum, 5 * block, 5 * block + 9, 0, 0, 0));
    WANT(!aes3_sums_end(&sums, 5 * block + 9, &sum) && sum.to == 5 * block + 9);
    /* The copy goes on by itself. A period that ends with the cells is the last. */
    WANT(aes3_sums_end(&copy, 2 * block, &sum) && is_sum(&sum, 0, block, 0, 0, block));
    WANT(aes3_sums_end(&copy, 2 * block, &sum) && is_sum(&sum, block, 2 * block, 0, 0, block));
    WANT(!aes3_sums_end(&copy, 2 * block, &sum));
    WANT(!aes3_sums_end(&copy, 0, &sum));
    /* Places that no lock has do no harm. */
    WANT(aes3_sums_init(&sums, most));
    report.at = UINT64_MAX;
    for (int i = 0; i < 3; i++)
        WANT(aes3_sums_before(&sums, &report, &sum) && sum.to == (uint64_t)(i + 1) << 40);
    WANT(aes3_sums_end(&sums, UINT64_MAX, &sum) && sum.from == 3 * most);
    memset(&sums, 0xFF, sizeof sums);
    WANT(!aes3_sums_before(&sums, &report, &sum) && !aes3_sums_end(&sums, UINT64_MAX, &sum));
}

/* Where cells are in a capture, with marks after each piece and with much that is owed; and between marks of any numbers. */
static void marks(void) {
    enum { CELLS = 2 * AES3_BLOCK_CELLS, SAMPLES = 4 * CELLS };
    static const size_t rooms[] = {3, 64, 65536};
    static uint8_t octets[SAMPLES], packed[65536];
    static aes3_recovery recovery;
    const aes3_mark none = {0, 0}, far = {(uint64_t)1 << 32, UINT64_MAX}, early = {5, 7}, farther = {((uint64_t)1 << 32) + 6, UINT64_MAX};
    for (int i = 0; i < SAMPLES; i++)
        octets[i] = (uint8_t)(cells[i / 256 % AES3_BLOCK_WORDS] >> (i / 4 % 64) & 1);
    for (int i = 0; i < 3; i++) {
        aes3_mark mark = {0, 0}, later = {1, 2};
        size_t at = 0, all = 0, taken, put;
        int wrong = 0, made = 0;
        aes3_recovery_init(&recovery, 0);
        WANT(!aes3_recovery_mark(&recovery, &later) && later.cells == 1 && later.samples == 2);
        while (at < SAMPLES) {
            const size_t left = SAMPLES - at < 64 ? SAMPLES - at : 64;
            aes3_recovery_take(&recovery, octets + at, left, 1, 0, &taken, packed, rooms[i], &put);
            at += taken, all += put;
            if (!aes3_recovery_mark(&recovery, &later))
                continue;
            made++;
            wrong |= later.samples > at || later.samples != 4 * later.cells || later.cells < mark.cells || later.cells < 8 * all;
            for (uint64_t cell = mark.cells; cell < later.cells; cell++)
                wrong |= aes3_sample_between(&mark, &later, cell) != 4 * cell;
            mark = later;
        }
        WANT(!wrong && made > 1000 && mark.cells > CELLS - 64);
        while (!aes3_recovery_finish(&recovery, packed, rooms[i], &put)) {
        }
        later = none;
        WANT(!aes3_recovery_mark(&recovery, &later) && later.cells == 0);
    }
    WANT(aes3_sample_between(&none, &far, (uint64_t)1 << 31) == UINT64_MAX / 2 && aes3_sample_between(&none, &far, 0) == 0);
    WANT(aes3_sample_between(&none, &far, far.cells - 1) == UINT64_MAX - ((uint64_t)1 << 32));
    /* Marks more than 2^32 cells apart. */
    WANT(aes3_sample_between(&early, &farther, far.cells) == 7 && aes3_sample_between(&early, &farther, farther.cells) == UINT64_MAX);
    WANT(aes3_sample_between(&none, &far, far.cells) == UINT64_MAX && aes3_sample_between(&early, &far, 4) == 7);
    WANT(aes3_sample_between(&far, &early, 6) == UINT64_MAX && aes3_sample_between(&far, &early, far.cells) == 7);
}

/* Frames between whole blocks: a lost block, blocks in a row, and gaps whose halves of a frame are carried on. */
static void frames(void) {
    const uint64_t block = AES3_BLOCK_CELLS, most = UINT64_MAX;
    uint64_t at = 100, all = AES3_BLOCK_CELLS / 128;
    WANT(aes3_frames_between(7, 7, 7 + block) == 0 && aes3_frames_between(7, 7 + block, 7 + 3 * block) == 192);
    WANT(aes3_frames_between(7, 7, 7 + block + 63) == 0 && aes3_frames_between(7, 7, 7 + block + 64) == 1);
    WANT(aes3_frames_between(0, 0, block + 191) == 1 && aes3_frames_between(0, 0, block + 192) == 2);
    /* After a gap that was rounded up, one is rounded down, so that the blocks keep their time. */
    for (int i = 0; i < 1000; i++) {
        const uint64_t next = at + block + 64 + (uint64_t)i % 7;
        const uint64_t due = (next - 100 + 64) / 128;
        all += aes3_frames_between(100, at, next);
        WANT(all == due && 128 * all <= next - 100 + 64 && next - 100 < 128 * all + 64);
        all += 192;
        at = next;
    }
    /* Any numbers have an answer. */
    WANT(aes3_frames_between(0, 0, most) == most / 128 + 1 - 192 && aes3_frames_between(0, most, 0) == 0);
    WANT(aes3_frames_between(most, 0, most) == 0 && aes3_frames_between(0, most, most) == 0);
}

/* The first sample that would lose bits, or none: in no words and in two blocks, at each word and in each form. */
static void blocks_that_fit(void) {
    static uint32_t blocks[2 * AES3_BLOCK_WORDS];
    const size_t all = sizeof blocks / sizeof *blocks;
    for (size_t i = 0; i < all; i++)
        blocks[i] = ((uint32_t)(i * 0x9E3779B9u) & ~0xFF0u) | (uint32_t)i % 16;
    for (uint8_t form = 0; form < 5; form++) {
        WANT(aes3_blocks_fit(blocks, 0, form) == 0 && aes3_blocks_fit(blocks, 1, form) == 1);
        WANT(aes3_blocks_fit(blocks, all, form) == all && aes3_blocks_fit(blocks + 1, all - 1, form) == all - 1);
        for (size_t i = all; i-- > 0;) {
            const uint32_t was = blocks[i];
            int wrong = 0;
            /* Each of the lowest 8 bits, and none of those around them. */
            for (int bit = 4; bit < 12; bit++) {
                blocks[i] = was | 1u << bit;
                wrong |= aes3_blocks_fit(blocks, all, form) != (form == AES3_SAMPLES_S16 ? i : all);
                wrong |= aes3_blocks_fit(blocks, i, form) != i;
                wrong |= aes3_blocks_fit(blocks + i, 1, form) != (form == AES3_SAMPLES_S16 ? 0 : 1);
            }
            blocks[i] = was ^ 0xF000100F;
            wrong |= aes3_blocks_fit(blocks, all, form) != all;
            blocks[i] = was;
            WANT(!wrong);
        }
    }
    /* Of several it is the first. */
    blocks[383] = 0x10, blocks[384] = 0xFF0, blocks[767] = 0x800;
    WANT(aes3_blocks_fit(blocks, all, AES3_SAMPLES_S16) == 383 && aes3_blocks_fit(blocks + 384, 384, AES3_SAMPLES_S16) == 0);
    WANT(aes3_blocks_fit(blocks + 385, 383, AES3_SAMPLES_S16) == 382 && aes3_blocks_fit(blocks + 385, 382, AES3_SAMPLES_S16) == 382);
}

/* The first sample of more than 24 bits, or none: octets of each number, the last sample whole or not. */
static void samples_that_fit(void) {
    static uint8_t octets[4 * 70];
    for (size_t i = 0; i < sizeof octets; i++)
        octets[i] = i % 4 ? (uint8_t)(i | 1) : 0;
    for (uint8_t form = 0; form < 5; form++)
        for (size_t count = 0; count <= sizeof octets; count++) {
            int wrong = aes3_samples_fit(octets, count, form) != count;
            for (size_t i = 0; i < sizeof octets; i += 4) {
                octets[i] = (uint8_t)(1u << i / 4 % 8);
                wrong |= aes3_samples_fit(octets, count, form) != ((form == AES3_SAMPLES_S32 || form == 4) && i < count ? i : count);
                octets[i] = 0;
            }
            WANT(!wrong);
        }
    octets[4] = 0x80, octets[8] = 1;
    WANT(aes3_samples_fit(octets, sizeof octets, AES3_SAMPLES_S32) == 4 && aes3_samples_fit(octets + 8, 1, AES3_SAMPLES_S32) == 0);
    WANT(aes3_samples_fit(octets, 4, AES3_SAMPLES_S32) == 4 && aes3_samples_fit(octets, 5, AES3_SAMPLES_S32) == 4);
}

/* The order of bits in octets of any length, and nothing before or after them. Memory ends at a page that can't be touched. */
static void reversed(void) {
    const size_t page = (size_t)sysconf(_SC_PAGESIZE);
    uint8_t *const memory = (uint8_t *)mmap(NULL, 2 * page, PROT_READ | PROT_WRITE, MAP_PRIVATE | MAP_ANONYMOUS, -1, 0);
    static uint8_t line[8 * AES3_BLOCK_WORDS], low[8 * AES3_BLOCK_WORDS];
    uint8_t octets[8];
    WANT(memory != (uint8_t *)MAP_FAILED && mprotect(memory + page, page, PROT_NONE) == 0);
    for (size_t count = 0; count <= 300; count++) {
        uint8_t *const end = memory + page, *const own = end - count;
        int wrong = 0;
        memset(end - 310, 0x5A, 310);
        for (size_t i = 0; i < count; i++)
            own[i] = (uint8_t)(i + 7 * count);
        aes3_reverse_octets(own, count);
        for (size_t i = 0; i < count; i++)
            for (int j = 0; j < 8; j++)
                wrong |= (own[i] >> j & 1) != ((i + 7 * count) >> (7 - j) & 1);
        WANT(!wrong && end[-1 - (int)count] == 0x5A && end[-310] == 0x5A);
    }
    munmap(memory, 2 * page);
    /* The cells of a block with the first of each octet in the lowest bit are its words, the lowest octet first. */
    for (int i = 0; i < AES3_BLOCK_WORDS; i++) {
        aes3_octets_of_word(cells[i], line + 8 * i);
        for (int j = 0; j < 8; j++)
            low[8 * i + j] = (uint8_t)(cells[i] >> 8 * j);
    }
    aes3_reverse_octets(low, sizeof low);
    WANT(memcmp(low, line, sizeof line) == 0);
    aes3_reverse_octets(line, sizeof line);
    memcpy(octets, line, 8);
    WANT(octets[0] == 0x17 && octets[0] == (uint8_t)cells[0] && octets[7] == (uint8_t)(cells[0] >> 56));
}

/* A header of two channels of 16 bits at 48 kHz, of so many octets in its chunk fmt, and what comes behind that. */
#define HEADER "RIFF\xFF\xFF\xFF\xFFWAVE"
#define FORMAT "fmt \x10\0\0\0\x01\0\x02\0\x80\xBB\0\0\0\xEE\x02\0\x04\0\x10\0"
#define DATA "data\xFF\xFF\xFF\xFF"

/* What is answered of octets, the text without its last NUL, and at which octet. */
#define ANSWERS(text, code, place) \
    WANT(aes3_wav_read((const uint8_t *)(text), sizeof(text) - 1, &wav, &at) == (code) && at == (place))

static void wav_headers(void) {
    static const char whole[] = HEADER FORMAT DATA "more";
    aes3_wav wav = {1, 2, 3, 4, 5, 6};
    uint8_t octets[AES3_WAV_OCTETS];
    uint64_t at;
    /* As long as it is not whole, no header is put. */
    for (size_t count = 0; count < 44; count++) {
        at = 0;
        WANT(aes3_wav_read((const uint8_t *)whole, count, &wav, &at) == AES3_WAV_MORE && at > count && at <= 44);
        WANT(wav.start == 1 && wav.len == 2 && wav.rate == 3 && wav.channels == 4 && wav.octets == 5 && wav.bits == 6);
    }
    /* A chunk before the samples is needed whole, and so is the head behind it. */
    ANSWERS(HEADER "LIST\x05\x01\0\0", AES3_WAV_MORE, 12 + 8 + 262 + 8);
    ANSWERS("RIFX", AES3_WAV_MORE, 12);
    ANSWERS("RIFX\0\0\0\0WAVE", AES3_WAV_NOT_RIFF, 0);
    ANSWERS("RIFF\0\0\0\0AVI " FORMAT, AES3_WAV_NOT_WAVE, 8);
    ANSWERS("RF64\0\0\0\0WAVEds64\x0F\0\0\0\0\0\0\0\0\0\0\0\0\0\0\0\0\0\0\0", AES3_WAV_SHORT_SIZES, 12);
    ANSWERS(HEADER "fmt \x0E\0\0\0\x01\0\x02\0\x80\xBB\0\0\0\xEE\x02\0\x04\0", AES3_WAV_SHORT_FORMAT, 12);
    ANSWERS(HEADER "fmt \x10\0\0\0\x03\0\x02\0\x80\xBB\0\0\0\xDC\x05\0\x08\0\x20\0", AES3_WAV_NOT_PCM, 20);
    ANSWERS(HEADER "fmt \x10\0\0\0\x01\0\0\0\x80\xBB\0\0\0\xEE\x02\0\x04\0\x10\0", AES3_WAV_NO_CHANNELS, 22);
    ANSWERS(HEADER "fmt \x10\0\0\0\x01\0\x02\0\x80\xBB\0\0\0\xEE\x02\0\x04\0\x0C\0", AES3_WAV_WRONG_BITS, 34);
    ANSWERS(HEADER "fmt \x10\0\0\0\x01\0\x02\0\x80\xBB\0\0\0\xEE\x02\0\x05\0\x10\0", AES3_WAV_WRONG_FRAME, 32);
    ANSWERS(HEADER DATA, AES3_WAV_NO_FORMAT, 12);
    WANT(wav.start == 1 && wav.bits == 6);
    at = 7;
    ANSWERS(HEADER FORMAT DATA "more", AES3_WAV_HEADER, 7);
    WANT(wav.start == 44 && wav.len == AES3_WAV_UNKNOWN && wav.rate == 48000 && wav.channels == 2 && wav.octets == 2 && wav.bits == 16);
    ANSWERS(HEADER FORMAT "data\x08\0\0\0", AES3_WAV_HEADER, 7);
    WANT(wav.start == 44 && wav.len == 8);

    /* What is written is read: of each width, of none, few and very many frames. */
    for (int bits = 16; bits <= 32; bits += 8) {
        const uint64_t counts[] = {0, 1, 1000, (uint64_t)1 << 32, AES3_WAV_UNKNOWN};
        const uint32_t length = bits == 16 ? 80 : 104;
        for (int i = 0; i < 5; i++) {
            memset(octets, 0x55, sizeof octets);
            WANT(aes3_wav_write((uint8_t)bits, 96000, counts[i], octets) == length && (length == 104 || octets[length] == 0x55));
            WANT(memcmp(octets, i == 3 ? "RF64" : "RIFF", 4) == 0);
            WANT(aes3_wav_read(octets, length, &wav, &at) == AES3_WAV_HEADER && wav.start == length && wav.rate == 96000);
            WANT(wav.channels == 2 && wav.octets == bits / 8 && wav.bits == bits);
            WANT(wav.len == (i == 0 || i == 4 ? AES3_WAV_UNKNOWN : counts[i] * (uint64_t)(bits / 4)));
        }
    }
    memset(octets, 0x55, sizeof octets);
    WANT(aes3_wav_write(20, 48000, 1, octets) == 0 && octets[0] == 0x55);
}

static void wav_samples(void) {
    static const uint8_t octets[] = {1, 2, 3, 4, 5, 6, 7, 8, 9, 10, 0x8B, 0x8C, 0x8D, 0x8E};
    aes3_wav wav = {0, 0, 48000, 2, 2, 16};
    int32_t got[6];
    memset(got, 0x55, sizeof got);
    /* As many frames as there are, and as have room. */
    WANT(aes3_wav_samples(&wav, 1, 2, octets, 7, got, 6) == 1 && got[0] == 0x02010000 && got[1] == 0x04030000 && got[2] == 0x55555555);
    WANT(aes3_wav_samples(&wav, 2, 1, octets, 14, got, 5) == 2 && got[2] == 0x08070000 && got[3] == 0x06050000 && got[4] == 0x55555555);
    WANT(aes3_wav_samples(&wav, 1, 2, octets, 3, got, 6) == 0 && aes3_wav_samples(&wav, 1, 2, octets, 14, got, 1) == 0);
    /* Channels that the file has not, and none. */
    WANT(aes3_wav_samples(&wav, 0, 1, octets, 14, got, 6) == 0 && aes3_wav_samples(&wav, 3, 1, octets, 14, got, 6) == 0);
    WANT(aes3_wav_samples(&wav, 1, 3, octets, 14, got, 6) == 0 && got[0] == 0x04030000);
    WANT(aes3_wav_samples(&wav, 2, 0, octets, 4, got, 6) == 1 && got[0] == 0x04030000 && got[1] == 0);
    /* Each width: 8 bits have 128 for their zero, and of 20 bits in 24 the lowest 4 don't count. */
    wav.octets = 1, wav.bits = 8;
    WANT(aes3_wav_samples(&wav, 1, 2, octets + 9, 2, got, 6) == 1 && got[0] == (10 - 128) * (1 << 24) && got[1] == 0x0B000000);
    wav.octets = 3, wav.bits = 24;
    WANT(aes3_wav_samples(&wav, 1, 2, octets, 6, got, 6) == 1 && got[0] == 0x03020100 && got[1] == 0x06050400);
    wav.bits = 20;
    WANT(aes3_wav_samples(&wav, 1, 2, octets + 8, 6, got, 6) == 1 && got[0] == (int32_t)0x8B0A0000 && got[1] == (int32_t)0x8E8D8000);
    wav.octets = 4, wav.bits = 32;
    WANT(aes3_wav_samples(&wav, 1, 2, octets, 14, got, 6) == 1 && got[0] == 0x04030201 && got[1] == 0x08070605);
    wav.channels = 1;
    WANT(aes3_wav_samples(&wav, 1, 1, octets, 4, got, 6) == 1 && got[0] == 0x04030201 && got[1] == 0x04030201);
}

/* The text of each number, and of each that has no meaning. */
static void texts(void) {
    static const char *const kinds[] = {"none", "whole", "marked", "fault", "unfinished"};
    static const char *const whys[] = {"preamble", "biphase", "unclosed"};
    static const char *const checks[] = {"good", "absent", "bad"};
    static const char *const events[] = {"locked", "lost", "back", "slipped", "status", "validity", "end"};
    static const char *const validities[] = {"clear", "set", "mixed"};
    for (int i = 0; i < 256; i++) {
        const uint8_t number = (uint8_t)i;
        WANT(strcmp(aes3_kind_text(number), i <= AES3_UNFINISHED ? kinds[i] : "unknown kind") == 0);
        WANT(strcmp(aes3_why_text(number), i <= AES3_UNCLOSED ? whys[i] : "unknown cause") == 0);
        WANT(strcmp(aes3_check_text(number), i <= AES3_BAD ? checks[i] : "unknown state") == 0);
        WANT((strcmp(aes3_wav_answer_text(number), "unknown answer") == 0) == (i > AES3_WAV_ENDED));
        WANT(strcmp(aes3_event_text(number), i >= 1 && i <= AES3_EVENT_END ? events[i - 1] : "unknown event") == 0);
        WANT(strcmp(aes3_validity_text(number), i <= AES3_VALIDITY_MIXED ? validities[i] : "unknown validity") == 0);
    }
    WANT(strcmp(aes3_wav_answer_text(AES3_WAV_MORE), "more octets are needed") == 0);
    WANT(strcmp(aes3_wav_answer_text(AES3_WAV_ENDED), "the file ends before its samples") == 0);
}

int main(void) {
    WANT(aes3_version() == AES3_VERSION_NUMBER);
    texts();
    statuses();
    settings();
    carried();
    channels();
    sampled();
    words[5] ^= 0x80000000;
    memset(cells, 0x55, sizeof cells);
    WANT(aes3_encode_block(words, 0, cells) == 5 && cells[0] == 0x5555555555555555);
    WANT(cells[AES3_BLOCK_WORDS - 1] == 0x5555555555555555);
    words[5] ^= 0x80000000;
    WANT(aes3_encode_block(words, 0, cells) == AES3_BLOCK_WORDS);
    written();
    locks();
    octets();
    many_words();
    accounts();
    watches();
    sums_by_periods();
    sample_levels();
    frames();
    blocks_that_fit();
    samples_that_fit();
    reversed();
    captures();
    pieces();
    marks();
    wav_headers();
    wav_samples();
    if (!failed)
        puts("each call answers as it should");
    return failed;
}
