/*
 * blocks [FORM]: a block file on standard input. On standard output its cells as octets, those of `aes3 encode --packed-out` without
 * the last octet; or, in FORM, its words (own, alsa, am824) or its samples (s32, s24, s24in32, s16). Many blocks go in a call.
 *
 * blocks from FORM: such words or samples on standard input, the block file of them on standard output.
 *
 * blocks test: the calls for many blocks beside those for one, in memory that ends where a page begins that nothing may touch.
 * Status 1 where they differ.
 */
#define _DEFAULT_SOURCE
#include "aes3.h"
#include <stdio.h>
#include <stdlib.h>
#include <string.h>
#include <sys/mman.h>
#include <unistd.h>

enum { MANY = 16, WORD_BYTES = 4 * AES3_BLOCK_WORDS };

static int failed;

static void want(int line, int holds) {
    if (!holds) {
        fprintf(stderr, "blocks.c:%d is not so\n", line);
        failed = 1;
    }
}
#define WANT(holds) want(__LINE__, (holds))

/* ---- Files ---- */

enum call { CELLS, SUBFRAMES, SAMPLES };

/* A form by its name: which call has it, its number there, and how many octets a block has. */
struct form {
    const char *name;
    enum call call;
    uint8_t number;
    size_t size;
};

static const struct form forms[] = {
    {"cells", CELLS, 0, AES3_BLOCK_OCTETS},
    {"own", SUBFRAMES, AES3_SUBFRAMES_OWN, WORD_BYTES},
    {"alsa", SUBFRAMES, AES3_SUBFRAMES_ALSA, WORD_BYTES},
    {"am824", SUBFRAMES, AES3_SUBFRAMES_AM824, WORD_BYTES},
    {"s32", SAMPLES, AES3_SAMPLES_S32, 4 * AES3_BLOCK_WORDS},
    {"s24", SAMPLES, AES3_SAMPLES_S24, 3 * AES3_BLOCK_WORDS},
    {"s24in32", SAMPLES, AES3_SAMPLES_S24_IN_32, 4 * AES3_BLOCK_WORDS},
    {"s16", SAMPLES, AES3_SAMPLES_S16, 2 * AES3_BLOCK_WORDS},
};
enum { FORMS = sizeof forms / sizeof *forms };

static size_t write_form(const struct form *form, const uint32_t *words, size_t count, uint8_t before, uint8_t *octets, size_t room) {
    return form->call == CELLS ? aes3_encode_blocks(words, count, before, octets, room)
        : form->call == SUBFRAMES ? aes3_subframes_of_blocks(words, count, form->number, octets, room)
        : aes3_samples_of_blocks(words, count, form->number, octets, room);
}

static size_t read_form(const struct form *form, const uint8_t *octets, size_t count, uint32_t *words, size_t room) {
    return form->call == SUBFRAMES ? aes3_blocks_of_subframes(octets, count, form->number, words, room)
        : aes3_blocks_of_samples(octets, count, form->number, words, room);
}

/* Blocks from one form to another, through their words. The words of a block file are a form, too. */
static int convert(const struct form *from, const struct form *to) {
    static uint8_t in[MANY * AES3_BLOCK_OCTETS], out[MANY * AES3_BLOCK_OCTETS];
    static uint32_t words[MANY * AES3_BLOCK_WORDS];
    size_t count, done = 0;
    while ((count = fread(in, from->size, MANY, stdin)) > 0) {
        const size_t taken = read_form(from, in, count * from->size, words, MANY * AES3_BLOCK_WORDS), blocks = taken / AES3_BLOCK_WORDS;
        write_form(to, words, blocks * AES3_BLOCK_WORDS, 0, out, sizeof out);
        fwrite(out, to->size, blocks, stdout);
        if (blocks < count) {
            fprintf(stderr, "blocks: word %lu is not valid\n", (unsigned long)(done + taken));
            return 3;
        }
        done += taken;
    }
    return 0;
}

/* ---- The tests ---- */

/* Memory of so many octets, with a page after it that nothing may touch. */
static uint8_t *guarded(size_t size) {
    const size_t page = (size_t)sysconf(_SC_PAGESIZE), pages = (size + page - 1) / page * page;
    uint8_t *const begin = (uint8_t *)mmap(NULL, pages + page, PROT_READ | PROT_WRITE, MAP_PRIVATE | MAP_ANONYMOUS, -1, 0);
    if (begin == (uint8_t *)MAP_FAILED || mprotect(begin + pages, page, PROT_NONE) != 0) {
        perror("blocks");
        exit(2);
    }
    return begin + pages - size;
}

static void unguard(uint8_t *memory, size_t size) {
    const size_t page = (size_t)sysconf(_SC_PAGESIZE), pages = (size + page - 1) / page * page;
    munmap(memory + size - pages, pages + page);
}

static uint32_t next_number(void) {
    static uint32_t number = 1;
    number = number * 1664525u + 1013904223u;
    return number;
}

/* Words of blocks, all of them valid. */
static void make_blocks(uint32_t *words, size_t blocks) {
    int32_t samples[AES3_BLOCK_WORDS];
    uint8_t bits[AES3_STATUS_BYTES];
    for (size_t at = 0; at < blocks * AES3_BLOCK_WORDS; at += AES3_BLOCK_WORDS) {
        for (int i = 0; i < AES3_BLOCK_WORDS; i++)
            samples[i] = (int32_t)next_number();
        for (int i = 0; i < AES3_STATUS_BYTES; i++)
            bits[i] = (uint8_t)(next_number() >> 24);
        aes3_block_of_samples(samples, words + at);
        WANT(aes3_block_set_status(words + at, 1, bits) == AES3_BLOCK_WORDS);
        WANT(aes3_block_set_user(words + at, 2, bits) == AES3_BLOCK_WORDS);
        WANT(aes3_block_set_validity(words + at, 2, bits) == AES3_BLOCK_WORDS);
    }
}

static size_t smaller(size_t one, size_t other) { return one < other ? one : other; }

/* What the call for one block answers of each in turn: the number of the first word that is not valid, or of all words. */
static size_t first_wrong(const uint32_t *words, size_t blocks) {
    uint64_t cells[AES3_BLOCK_WORDS];
    for (size_t i = 0; i < blocks; i++) {
        const uint32_t word = aes3_encode_block(words + i * AES3_BLOCK_WORDS, 0, cells);
        if (word != AES3_BLOCK_WORDS)
            return i * AES3_BLOCK_WORDS + word;
    }
    return blocks * AES3_BLOCK_WORDS;
}

/* The cells of a block as octets, by the calls for one. */
static void put_cells(const uint32_t *words, uint8_t before, uint8_t *octets) {
    uint64_t cells[AES3_BLOCK_WORDS];
    WANT(aes3_encode_block(words, before, cells) == AES3_BLOCK_WORDS);
    for (int i = 0; i < AES3_BLOCK_WORDS; i++)
        aes3_octets_of_word(cells[i], octets + 8 * i);
}

/* Its words: with the code of the preamble, and in AM824 turned right by four bits, the highest octet first. */
static void put_subframes(const uint32_t *words, uint8_t number, uint8_t *octets) {
    static const uint32_t codes[3][3] = {{0, 0, 0}, {8, 2, 4}, {3, 1, 0}};
    for (int i = 0; i < AES3_BLOCK_WORDS; i++) {
        const uint32_t word = words[i] | codes[number][i == 0 ? 0 : 1 + i % 2];
        const uint32_t turned = number == AES3_SUBFRAMES_AM824 ? word >> 4 | word << 28 : word;
        for (int k = 0; k < 4; k++)
            octets[4 * i + k] = (uint8_t)(turned >> (number == AES3_SUBFRAMES_AM824 ? 24 - 8 * k : 8 * k));
    }
}

/* Its samples, by the call for one. */
static void put_samples(const uint32_t *words, uint8_t number, uint8_t *octets) {
    int32_t samples[AES3_BLOCK_WORDS];
    WANT(aes3_block_samples(words, samples) == AES3_BLOCK_WORDS);
    for (int i = 0; i < AES3_BLOCK_WORDS; i++) {
        const uint32_t sample = (uint32_t)samples[i];
        if (number == AES3_SAMPLES_S24_IN_32) {
            const uint32_t low = sample >> 8 | (sample >> 31 ? 0xFF000000u : 0);
            for (int k = 0; k < 4; k++)
                *octets++ = (uint8_t)(low >> 8 * k);
            continue;
        }
        for (int k = number == AES3_SAMPLES_S32 ? 0 : number == AES3_SAMPLES_S24 ? 1 : 2; k < 4; k++)
            *octets++ = (uint8_t)(sample >> 8 * k);
    }
}

/* Whether these octets are a block in a form. */
static int are_right(const struct form *form, const uint32_t *words, uint8_t before, const uint8_t *octets) {
    uint8_t wanted[AES3_BLOCK_OCTETS];
    if (form->call == CELLS)
        put_cells(words, before, wanted);
    else if (form->call == SUBFRAMES)
        put_subframes(words, form->number, wanted);
    else
        put_samples(words, form->number, wanted);
    return memcmp(octets, wanted, form->size) == 0;
}

static int are_untouched(const uint8_t *octets, size_t count) {
    for (size_t i = 0; i < count; i++)
        if (octets[i] != 0xA5)
            return 0;
    return 1;
}

/* So many words in a form, into so much room. */
static void write_some(const struct form *form, const uint32_t *words, size_t count, uint8_t before, size_t room) {
    uint8_t *const octets = guarded(room);
    const size_t blocks = smaller(count / AES3_BLOCK_WORDS, room / form->size);
    memset(octets, 0xA5, room);
    const size_t taken = write_form(form, words, count, before, octets, room), put = taken / AES3_BLOCK_WORDS;
    WANT(taken == first_wrong(words, blocks));
    for (size_t i = 0; i < put; i++)
        WANT(are_right(form, words + i * AES3_BLOCK_WORDS, before, octets + i * form->size));
    WANT(are_untouched(octets + put * form->size, room - put * form->size));
    unguard(octets, room);
}

/* What is written in a form is read again: the words, or of samples the audio. */
static void read_some(const struct form *form, const uint32_t *words, size_t blocks, size_t rest, size_t room) {
    const size_t size = blocks * form->size + rest, all = smaller(blocks, room / AES3_BLOCK_WORDS);
    uint8_t *const octets = guarded(size), *const memory = guarded(4 * room);
    uint32_t *const read = (uint32_t *)(void *)memory;
    memset(octets, 0, size);
    memset(memory, 0xA5, 4 * room);
    WANT(write_form(form, words, blocks * AES3_BLOCK_WORDS, 0, octets, size) == blocks * AES3_BLOCK_WORDS);
    WANT(read_form(form, octets, size, read, room) == all * AES3_BLOCK_WORDS);
    for (size_t i = 0; i < all * AES3_BLOCK_WORDS; i++) {
        const uint32_t audio = form->call == SUBFRAMES ? 0xFFFFFFFFu : form->number == AES3_SAMPLES_S16 ? 0x0FFFF000u : 0x0FFFFFF0u;
        WANT(((read[i] ^ words[i]) & audio) == 0 && (form->call == SUBFRAMES || (read[i] & ~audio & 0x7FFFFFFFu) == 0));
    }
    WANT(first_wrong(read, all) == all * AES3_BLOCK_WORDS);
    WANT(are_untouched(memory + 4 * all * AES3_BLOCK_WORDS, 4 * (room - all * AES3_BLOCK_WORDS)));
    if (form->call == SUBFRAMES && all > 1) {
        /* A wrong parity bit in word 500: the first block is read, and the others are not. */
        octets[4 * 500 + (form->number == AES3_SUBFRAMES_AM824 ? 0 : 3)] ^= form->number == AES3_SUBFRAMES_AM824 ? 0x08 : 0x80;
        memset(memory, 0xA5, 4 * room);
        WANT(read_form(form, octets, size, read, room) == 500 && memcmp(read, words, WORD_BYTES) == 0);
        WANT(are_untouched(memory + WORD_BYTES, 4 * room - WORD_BYTES));
    }
    unguard(octets, size);
    unguard(memory, 4 * room);
}

/* Words of no block, of a part of one and of up to three, and room for as many and for fewer. */
static void test_form(const struct form *form) {
    static const size_t counts[] = {0, 1, 383, 384, 385, 767, 768, 1152, 1535};
    static const size_t wrongs[] = {0, 7, 383, 384, 500, 767, 768, 1151, 1300};
    const size_t rests[] = {0, 1, form->size - 1};
    for (size_t i = 0; i < sizeof counts / sizeof *counts; i++) {
        const size_t count = counts[i], size = 4 * count, whole = count / AES3_BLOCK_WORDS;
        uint32_t *const words = (uint32_t *)(void *)guarded(size);
        memset(words, 0, size);
        make_blocks(words, whole);
        for (size_t blocks = 0; blocks <= 4; blocks++)
            for (size_t k = 0; k < sizeof rests / sizeof *rests; k++)
                write_some(form, words, count, (uint8_t)(blocks % 3 * k), blocks * form->size + rests[k]);
        for (size_t k = 0; k < sizeof wrongs / sizeof *wrongs; k++)
            if (wrongs[k] < count) {
                words[wrongs[k]] ^= k % 2 ? 1u : 0x80000000u;
                write_some(form, words, count, 1, 4 * form->size);
                write_some(form, words, count, 0, form->size);
                words[wrongs[k]] ^= k % 2 ? 1u : 0x80000000u;
            }
        if (form->call != CELLS)
            for (size_t room = 0; room <= 1536; room += 383)
                for (size_t k = 0; k < sizeof rests / sizeof *rests; k++)
                    read_some(form, words, whole, rests[k], room);
        unguard((uint8_t *)words, size);
    }
}

/* The code of another preamble is a word that is not valid; of ALSA, code 0 is right anywhere. */
static void test_codes(void) {
    static uint32_t words[AES3_BLOCK_WORDS], read[AES3_BLOCK_WORDS];
    static uint8_t octets[WORD_BYTES];
    make_blocks(words, 1);
    aes3_subframes_of_blocks(words, AES3_BLOCK_WORDS, AES3_SUBFRAMES_ALSA, octets, sizeof octets);
    octets[4 * 9] &= 0xF0;
    WANT(aes3_blocks_of_subframes(octets, sizeof octets, AES3_SUBFRAMES_ALSA, read, AES3_BLOCK_WORDS) == AES3_BLOCK_WORDS);
    WANT(memcmp(read, words, sizeof words) == 0);
    octets[4 * 9] |= 2; /* X, where Y is due */
    WANT(aes3_blocks_of_subframes(octets, sizeof octets, AES3_SUBFRAMES_ALSA, read, AES3_BLOCK_WORDS) == 9);
    /* Any other number is the first form. */
    WANT(aes3_subframes_of_blocks(words, AES3_BLOCK_WORDS, 3, octets, sizeof octets) == AES3_BLOCK_WORDS);
    WANT(aes3_blocks_of_subframes(octets, sizeof octets, 255, read, AES3_BLOCK_WORDS) == AES3_BLOCK_WORDS);
    WANT(memcmp(read, words, sizeof words) == 0);
    WANT(aes3_samples_of_blocks(words, AES3_BLOCK_WORDS, 4, octets, sizeof octets) == AES3_BLOCK_WORDS && octets[0] == 0);
    WANT(aes3_blocks_of_samples(octets, sizeof octets, 9, read, AES3_BLOCK_WORDS) == AES3_BLOCK_WORDS);
}

static const struct form *form_of(const char *name) {
    for (int i = 0; i < FORMS; i++)
        if (strcmp(name, forms[i].name) == 0)
            return forms + i;
    return NULL;
}

int main(int count, char **arguments) {
    const struct form *const own = form_of("own");
    const struct form *const form = count == 1 ? form_of("cells") : form_of(arguments[count - 1]);
    if (count == 2 && strcmp(arguments[1], "test") == 0) {
        for (int i = 0; i < FORMS; i++)
            test_form(forms + i);
        test_codes();
        if (!failed)
            puts("many blocks are as one after the other");
        return failed;
    }
    if (count <= 2 && form)
        return convert(own, form);
    if (count == 3 && strcmp(arguments[1], "from") == 0 && form && form->call != CELLS)
        return convert(form, own);
    fputs("usage: blocks [FORM], or blocks from FORM, or blocks test\n", stderr);
    return 2;
}
