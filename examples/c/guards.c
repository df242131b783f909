/*
 * Each call of aes3.h that takes a pointer, with each object beside a page that nothing may touch. In one run every object ends
 * where such a page begins, in another it begins where such a page ends. An array has as many elements as the call is told or as
 * aes3.h says, some have none. A call that touches such a page ends the program by a signal. The calls have to put what they put
 * in ordinary memory. Status 1 if they do not.
 */
#ifndef _GNU_SOURCE
#define _GNU_SOURCE
#endif
#include "aes3.h"
#include <stdio.h>
#include <stdlib.h>
#include <string.h>
#include <sys/mman.h>
#include <unistd.h>

static int failed;

static void want(int line, int holds) {
    if (!holds) {
        fprintf(stderr, "guards.c:%d is not so\n", line);
        failed = 1;
    }
}
#define WANT(holds) want(__LINE__, (holds))

/* ---- Memory ---- */

/* Where the objects of a run are. */
static enum place { ORDINARY, BEFORE_A_PAGE, AFTER_A_PAGE } place;

enum { FILL = 0xA5, MOST_OBJECTS = 64 };

/* The objects that there are. Each has pages of its own, between two pages that nothing may touch. */
static struct object {
    uint8_t *memory, *pages;
    size_t size, inside;
} objects[MOST_OBJECTS];
static size_t held;

/* Memory of so many octets, each FILL. */
static void *give(size_t size) {
    const size_t page = (size_t)sysconf(_SC_PAGESIZE), inside = (size + page - 1) / page * page;
    struct object *const it = &objects[held];
    if (held++ == MOST_OBJECTS)
        exit(3);
    it->size = size, it->inside = inside;
    if (place == ORDINARY) {
        it->memory = (uint8_t *)malloc(size ? size : 1);
        if (!it->memory)
            exit(3);
        return memset(it->memory, FILL, size);
    }
    it->pages = (uint8_t *)mmap(NULL, inside + 2 * page, PROT_NONE, MAP_PRIVATE | MAP_ANONYMOUS, -1, 0);
    if (it->pages == (uint8_t *)MAP_FAILED)
        exit(3);
    it->pages += page;
    if (inside > 0 && mprotect(it->pages, inside, PROT_READ | PROT_WRITE) != 0)
        exit(3);
    memset(it->pages, FILL, inside);
    it->memory = it->pages + (place == BEFORE_A_PAGE ? inside - size : 0);
    return it->memory;
}
#define GIVE(type, count) ((type *)give((count) * sizeof(type)))

static void *give_copy(const void *from, size_t size) { return memcpy(give(size), from, size); }
#define COPY(type, count, from) ((type *)give_copy((from), (count) * sizeof(type)))

/* Takes back all objects but the first ones. Nothing was written beside them in their pages. */
static void take_back(size_t keep) {
    const size_t page = (size_t)sysconf(_SC_PAGESIZE);
    while (held > keep) {
        const struct object *const it = &objects[--held];
        if (place == ORDINARY) {
            free(it->memory);
            continue;
        }
        const size_t before = (size_t)(it->memory - it->pages);
        int wrong = 0;
        for (size_t i = 0; i < it->inside; i++)
            wrong |= (i < before || i >= before + it->size) && it->pages[i] != FILL;
        WANT(!wrong);
        munmap(it->pages - page, it->inside + 2 * page);
    }
}

/* ---- What the calls put ---- */

/* All that they put in ordinary memory, one after the other, and how much of it this run put again. */
static uint8_t known[1 << 24];
static size_t known_len, met;

static void note(int line, const void *what, size_t size) {
    if (place == ORDINARY) {
        if (sizeof known - known_len < size)
            exit(3);
        memcpy(known + known_len, what, size);
        known_len += size;
    } else if (known_len - met < size || memcmp(known + met, what, size) != 0) {
        fprintf(stderr, "guards.c:%d: beside a page it is something else\n", line);
        exit(1);
    }
    met += size;
}
#define NOTE(what, count) note(__LINE__, (what), (count) * sizeof *(what))
/* Of a structure, up to its last field: no call says what fills it up. */
#define NOTE_TO(what, type, last) note(__LINE__, (what), offsetof(type, last) + sizeof (what)->last)

static void note_number(int line, uint64_t number) { note(line, &number, sizeof number); }
#define ANSWER(number) note_number(__LINE__, (number))

static uint32_t seed;

static uint32_t below(uint32_t limit) {
    seed = seed * 1664525 + 1013904223;
    return (seed >> 8) % limit;
}

/* ---- A line ---- */

enum { BLOCKS = 2, LINE = 30 * AES3_BLOCK_CELLS };

static uint32_t blocks[BLOCKS][AES3_BLOCK_WORDS];
static uint8_t cells_of_line[LINE];
static size_t line_len;
static uint8_t octets_of_line[LINE / 8];
static uint64_t words_of_line[LINE / 64];

/* Two blocks of other samples, and of another status and other validity bits in both channels. */
static void make_blocks(void) {
    for (int i = 0; i < BLOCKS; i++) {
        int32_t samples[AES3_BLOCK_WORDS];
        uint8_t status[AES3_STATUS_BYTES] = {0x04, 0, 0, 0x02, 0x0B}, bits[AES3_STATUS_BYTES];
        status[2] = (uint8_t)i;
        for (int j = 0; j < AES3_BLOCK_WORDS; j++)
            samples[j] = (int32_t)(below(1 << 24) << 8);
        for (int j = 0; j < AES3_STATUS_BYTES; j++)
            bits[j] = (uint8_t)(i == 0 ? 0 : below(256));
        aes3_block_of_samples(samples, blocks[i]);
        for (uint8_t channel = 1; channel <= 2; channel++) {
            WANT(aes3_block_set_status(blocks[i], channel, status) == AES3_BLOCK_WORDS);
            WANT(aes3_block_set_validity(blocks[i], channel, bits) == AES3_BLOCK_WORDS);
            WANT(aes3_block_set_user(blocks[i], channel, bits) == AES3_BLOCK_WORDS);
        }
    }
}

static void add_cells(const char *cells) {
    for (; *cells; cells++)
        cells_of_line[line_len++] = *cells == '1';
}

static void add_still(size_t count) {
    for (; count > 0; count--, line_len++)
        cells_of_line[line_len] = cells_of_line[line_len - 1];
}

static void add_noise(size_t count) {
    for (; count > 0; count--)
        cells_of_line[line_len++] = (uint8_t)below(2);
}

/* The cells of a block after a cell of this level. Returns the first. */
static uint8_t *add_block(int i, uint8_t before) {
    uint64_t cells[AES3_BLOCK_WORDS];
    uint8_t *const first = cells_of_line + line_len;
    WANT(aes3_encode_block(blocks[i], before, cells) == AES3_BLOCK_WORDS);
    for (int j = 0; j < AES3_BLOCK_CELLS; j++)
        cells_of_line[line_len++] = cells[j / 64] >> j % 64 & 1;
    return first;
}

/* A line with each kind of report, of event and of fault. It ends inside a block, and inside an octet. */
static void make_line(void) {
    uint8_t *lost;
    add_noise(300);
    add_cells("0");
    add_block(0, 0);
    add_block(0, 0)[65] ^= 1;  /* in a preamble */
    add_block(0, 0)[802] ^= 1; /* the first of a time slot */
    add_block(0, 0);
    add_block(1, 0); /* another status, other validity bits */
    add_cells("1010000");
    add_block(1, 0); /* the line slipped */
    lost = add_block(1, 0) + 5000;
    memmove(lost, lost + 1, (size_t)(cells_of_line + line_len - lost) - 1);
    line_len--;
    add_block(1, 0);
    add_block(1, 0)[AES3_BLOCK_CELLS - 1] ^= 1; /* a wrong parity bit: the line is inverted from here on */
    add_block(1, 1);
    add_still(3); /* a block that no change of level closes */
    add_block(1, 1);
    add_still(4 * AES3_BLOCK_CELLS + 100); /* no signal */
    add_block(0, 1);
    add_block(0, 1);
    add_noise(3000);
    add_cells("0");
    add_block(1, 0);
    add_block(1, 0);
    line_len -= 9005;
    while (line_len % 8 == 0)
        line_len--;
    for (size_t i = 0; i < line_len; i++) {
        octets_of_line[i / 8] = (uint8_t)(octets_of_line[i / 8] | cells_of_line[i] << (7 - i % 8));
        words_of_line[i / 64] |= (uint64_t)cells_of_line[i] << i % 64;
    }
}

/* ---- The lock, and what takes its reports ---- */

/* The last are no periods. */
static const uint64_t periods[] = {5000, 30011, (uint64_t)1 << 40, 0};
enum { PERIODS = sizeof periods / sizeof *periods, SUM_NUMBERS = sizeof(aes3_sum) / sizeof(uint64_t) };

static aes3_lock *lock;
static aes3_report *report;
static uint32_t *words;
static aes3_account *account;
static aes3_gap *gap;
static aes3_watch *watch;
static aes3_event *events;
static aes3_sums *sums[PERIODS];
static aes3_sum *sum;

/* Which kinds of reports, causes and events came, and each number of a sum that was not 0. */
static uint32_t kinds, causes, event_kinds, numbers, gaps;

static void note_events(uint32_t count) {
    ANSWER(count);
    WANT(count <= AES3_EVENTS);
    for (uint32_t i = 0; i < AES3_EVENTS; i++) {
        NOTE_TO(&events[i], aes3_event, locked);
        if (i < count)
            event_kinds |= 1u << events[i].kind;
    }
}

static bool note_gap(bool is_there) {
    ANSWER(is_there);
    NOTE_TO(gap, aes3_gap, counts);
    gaps += is_there;
    return is_there;
}

static bool note_sum(bool is_there) {
    uint64_t all[SUM_NUMBERS];
    ANSWER(is_there);
    NOTE(sum, 1);
    memcpy(all, sum, sizeof all);
    for (int i = 0; is_there && i < SUM_NUMBERS; i++)
        numbers |= (uint32_t)(all[i] != 0) << i;
    return is_there;
}

static aes3_levels *levels;

/* The samples of a block's words, and the levels of them so far. */
static void note_levels(const uint32_t *block) {
    aes3_levels_add(levels, block);
    NOTE_TO(&levels->first, aes3_channel_levels, peak);
    NOTE_TO(&levels->second, aes3_channel_levels, peak);
    for (uint8_t channel = 0; channel <= 3; channel++) {
        ANSWER(aes3_levels_peak(levels, channel));
        ANSWER(aes3_levels_rms(levels, channel));
    }
}

/* The lock's report goes to all that take reports. */
static void take_report(void) {
    const uint64_t seen = aes3_lock_seen(lock);
    ANSWER(seen);
    NOTE_TO(report, aes3_report, why);
    kinds |= 1u << report->kind;
    if (report->kind == AES3_FAULT)
        causes |= 1u << report->why;
    while (note_gap(aes3_account_before(account, report, gap))) {
    }
    while (note_gap(aes3_account_passed(account, seen, gap))) {
    }
    if (report->kind == AES3_WHOLE)
        note_levels(report->words);
    note_events(aes3_watch_report(watch, report, events));
    note_events(aes3_watch_passed(watch, seen, events));
    for (int i = 0; i < PERIODS; i++) {
        while (note_sum(aes3_sums_before(sums[i], report, sum))) {
        }
        while (note_sum(aes3_sums_passed(sums[i], seen, sum))) {
        }
    }
}

static void take_report_without_words(void) {
    if (report->kind == AES3_WHOLE || report->kind == AES3_MARKED) {
        aes3_lock_block(lock, words);
        NOTE(words, AES3_BLOCK_WORDS);
        memcpy(report->words, words, sizeof report->words);
    }
    take_report();
}

/* So many cells of a word, one report after the other. */
static void push(uint64_t word, uint32_t count) {
    while (count > 0) {
        const uint32_t taken = aes3_lock_push(lock, word, count, report);
        ANSWER(taken);
        WANT(taken > 0);
        if (taken == 0)
            return;
        take_report();
        word = taken < 64 ? word >> taken : 0;
        count -= taken;
    }
}

/* The length of the next piece, which may be none. */
static size_t next_piece(size_t left) {
    static const uint16_t lengths[] = {0, 1, 2, 7, 64, 383, 384, 1000, 3072, 4096, 5001, 9000};
    const size_t length = lengths[below(sizeof lengths / sizeof *lengths)];
    return length < left ? length : left;
}

static void take_octets(void) {
    const size_t kept = held, all = line_len / 8;
    for (size_t from = 0, count; from < all; from += count) {
        size_t at = 0;
        count = next_piece(all - from);
        const uint8_t *const piece = COPY(uint8_t, count, octets_of_line + from);
        do {
            at += aes3_lock_take_octets(lock, piece, count, at, report);
            ANSWER(at);
            take_report_without_words();
        } while (report->kind != AES3_NONE);
        WANT(at == 8 * count);
        /* From cells on that are not there it takes none. */
        WANT(aes3_lock_take_octets(lock, piece, count, at + 9, report) == 0);
        WANT(aes3_lock_take_octets(lock, piece, count, SIZE_MAX, report) == 0);
        take_back(kept);
    }
}

static void take_cells(void) {
    const size_t kept = held, all = line_len / 64;
    for (size_t from = 0, count; from < all; from += count) {
        size_t at = 0;
        count = next_piece(all - from);
        const uint64_t *const piece = COPY(uint64_t, count, words_of_line + from);
        do {
            at += aes3_lock_take_cells(lock, piece, count, at, report);
            ANSWER(at);
            take_report_without_words();
        } while (report->kind != AES3_NONE);
        WANT(at == 64 * count);
        /* From cells on that are not there it takes none. */
        WANT(aes3_lock_take_cells(lock, piece, count, at + 9, report) == 0);
        WANT(aes3_lock_take_cells(lock, piece, count, SIZE_MAX, report) == 0);
        take_back(kept);
    }
}

static void take_words(void) {
    const size_t kept = held, all = line_len / 64;
    for (size_t from = 0, count; from < all; from += count) {
        count = next_piece(all - from);
        const uint64_t *const piece = COPY(uint64_t, count, words_of_line + from);
        size_t at = aes3_lock_take_words(lock, piece, count);
        for (ANSWER(at); at < count; ANSWER(at)) {
            push(piece[at], 64);
            at++;
            at += aes3_lock_take_words(lock, piece + at, count - at);
        }
        take_back(kept);
    }
}

/* The whole line by one of these, then the cells that it has no word or no octet for, and the end. */
static void test_line(void (*take)(void)) {
    uint64_t word = 0;
    uint32_t rest = 0;
    lock = GIVE(aes3_lock, 1), report = GIVE(aes3_report, 1), words = GIVE(uint32_t, AES3_BLOCK_WORDS);
    account = GIVE(aes3_account, 1), gap = GIVE(aes3_gap, 1);
    watch = GIVE(aes3_watch, 1), events = GIVE(aes3_event, AES3_EVENTS), sum = GIVE(aes3_sum, 1);
    kinds = causes = event_kinds = numbers = gaps = 0;
    aes3_lock_init(lock);
    aes3_account_init(account);
    aes3_watch_init(watch);
    levels = GIVE(aes3_levels, 1);
    aes3_levels_init(levels);
    for (int i = 0; i < PERIODS; i++) {
        sums[i] = GIVE(aes3_sums, 1);
        WANT(aes3_sums_init(sums[i], periods[i]) == (periods[i] != 0));
    }
    take();
    for (size_t at = (size_t)aes3_lock_seen(lock); at < line_len; at++)
        word |= (uint64_t)cells_of_line[at] << rest++;
    push(word, rest);
    WANT(aes3_lock_seen(lock) == line_len);
    aes3_lock_finish(lock, report);
    take_report();
    while (note_gap(aes3_account_end(account, line_len, gap))) {
    }
    note_events(aes3_watch_end(watch, line_len, events));
    for (int i = 0; i < PERIODS; i++)
        while (note_sum(aes3_sums_end(sums[i], line_len, sum))) {
        }
    /* The line has all of each. */
    WANT(kinds == (1u << (AES3_UNFINISHED + 1)) - 1 && causes == (1u << (AES3_UNCLOSED + 1)) - 1);
    WANT(event_kinds == (1u << (AES3_EVENT_END + 1)) - 2 && numbers == (1u << SUM_NUMBERS) - 1 && gaps > 5);
    take_back(0);
}

/* ---- Blocks ---- */

/* The calls for one block. Those that need valid words have them, and then a last word that is not valid. */
static void test_block(void) {
    for (int i = 0; i < 2; i++)
        for (uint8_t channel = 0; channel <= 3; channel++) {
            uint32_t *const block = COPY(uint32_t, AES3_BLOCK_WORDS, blocks[1]), *const made = GIVE(uint32_t, AES3_BLOCK_WORDS);
            uint64_t *const cells = GIVE(uint64_t, AES3_BLOCK_WORDS);
            int32_t *const samples = GIVE(int32_t, AES3_BLOCK_WORDS);
            uint8_t *const status = GIVE(uint8_t, AES3_STATUS_BYTES), *const bits = GIVE(uint8_t, AES3_STATUS_BYTES);
            block[AES3_BLOCK_WORDS - 1] ^= (uint32_t)i << 31;
            ANSWER(aes3_encode_block(block, channel, cells));
            NOTE(cells, AES3_BLOCK_WORDS);
            ANSWER(aes3_block_status(block, channel, status));
            NOTE(status, AES3_STATUS_BYTES);
            ANSWER(aes3_block_validity(block, channel, status));
            NOTE(status, AES3_STATUS_BYTES);
            ANSWER(aes3_block_user(block, channel, status));
            NOTE(status, AES3_STATUS_BYTES);
            ANSWER(aes3_block_samples(block, samples));
            NOTE(samples, AES3_BLOCK_WORDS);
            aes3_block_of_samples(samples, made);
            NOTE(made, AES3_BLOCK_WORDS);
            ANSWER(aes3_block_set_status(block, channel, bits));
            NOTE(block, AES3_BLOCK_WORDS);
            ANSWER(aes3_block_set_validity(block, channel, bits));
            NOTE(block, AES3_BLOCK_WORDS);
            ANSWER(aes3_block_set_user(block, channel, bits));
            NOTE(block, AES3_BLOCK_WORDS);
            take_back(0);
        }
}

/* So many words of blocks in a form, into room for so many words; then as many octets of that form back. */
static void test_form(uint8_t form, size_t count, size_t room, size_t rest) {
    static const uint8_t sizes[] = {4, 3, 4, 2};
    static uint8_t source[BLOCKS * 4 * AES3_BLOCK_WORDS + 1];
    const uint32_t *const given = COPY(uint32_t, count, blocks);
    const size_t cells_size = 8 * room + rest, words_size = 4 * room + rest, samples_size = sizes[form] * room + rest;
    uint8_t *const cells = GIVE(uint8_t, cells_size), *const own = GIVE(uint8_t, words_size), *const samples = GIVE(uint8_t, samples_size);
    uint32_t *const back = GIVE(uint32_t, count);
    ANSWER(aes3_encode_blocks(given, count, form, cells, cells_size));
    NOTE(cells, cells_size);
    ANSWER(aes3_subframes_of_blocks(given, count, form, own, words_size));
    NOTE(own, words_size);
    ANSWER(aes3_samples_of_blocks(given, count, form, samples, samples_size));
    NOTE(samples, samples_size);
    aes3_subframes_of_blocks(blocks[0], BLOCKS * AES3_BLOCK_WORDS, form, source, sizeof source);
    memcpy(own, source, words_size);
    ANSWER(aes3_blocks_of_subframes(own, words_size, form, back, count));
    NOTE(back, count);
    aes3_samples_of_blocks(blocks[0], BLOCKS * AES3_BLOCK_WORDS, form, source, sizeof source);
    memcpy(samples, source, samples_size);
    ANSWER(aes3_blocks_of_samples(samples, samples_size, form, back, count));
    NOTE(back, count);
    take_back(0);
}

static void test_forms(void) {
    static const size_t counts[] = {0, 1, 383, 384, 385, 768};
    for (uint8_t form = 0; form < 4; form++)
        for (int i = 0; i < 6; i++)
            for (int j = 0; j < 6; j++)
                for (size_t rest = 0; rest < 2; rest++)
                    test_form(form, counts[i], counts[j], rest);
}

/* Words and samples that all fit, and of which the last does not. */
static void test_fit(void) {
    for (uint8_t form = 0; form < 4; form++)
        for (size_t count = 0; count <= 100; count++) {
            uint32_t *const given = GIVE(uint32_t, count);
            uint8_t *const samples = GIVE(uint8_t, count);
            memset(given, 0, 4 * count);
            memset(samples, 0, count);
            WANT(aes3_blocks_fit(given, count, form) == count && aes3_samples_fit(samples, count, form) == count);
            if (count > 0) {
                const size_t last = (count - 1) / 4 * 4;
                given[count - 1] = 0x10, samples[last] = 1;
                WANT(aes3_blocks_fit(given, count, form) == (form == AES3_SAMPLES_S16 ? count - 1 : count));
                WANT(aes3_samples_fit(samples, count, form) == (form == AES3_SAMPLES_S32 ? last : count));
            }
            take_back(0);
        }
}

/* ---- Words of cells ---- */

static void test_cells(void) {
    for (size_t count = 0; count <= 300; count++) {
        uint8_t *const octets = COPY(uint8_t, count, octets_of_line + count);
        for (size_t room = 0; room <= count / 8 + 1; room++) {
            uint64_t *const put = GIVE(uint64_t, room);
            ANSWER(aes3_words_of_octets(octets, count, put, room));
            NOTE(put, room);
            take_back(1);
        }
        aes3_reverse_octets(octets, count);
        NOTE(octets, count);
        take_back(0);
    }
    for (int i = 0; i < 100; i++) {
        const uint64_t given = words_of_line[i];
        uint8_t *const octets = GIVE(uint8_t, 8), *const text_line = GIVE(uint8_t, 65), *text;
        uint64_t *const put = GIVE(uint64_t, 1);
        aes3_octets_of_word(given, octets);
        WANT(aes3_word_of_octets(octets) == given);
        aes3_line_of_word(given, text_line);
        NOTE(text_line, 65);
        text = COPY(uint8_t, 64, text_line);
        WANT(aes3_word_of_text(text, put) && *put == given);
        text[63] = 'x';
        WANT(!aes3_word_of_text(text, put) && *put == given);
        take_back(0);
    }
}

/* ---- Channel status ---- */

static void test_statuses(void) {
    for (int i = 0; i < 500; i++) {
        uint8_t *const status = GIVE(uint8_t, AES3_STATUS_BYTES), *const made = GIVE(uint8_t, AES3_STATUS_BYTES);
        aes3_professional *const professional = GIVE(aes3_professional, 1);
        aes3_consumer *const consumer = GIVE(aes3_consumer, 1);
        char *const text = GIVE(char, AES3_STATUS_TEXT);
        for (int j = 0; j < AES3_STATUS_BYTES; j++)
            status[j] = (uint8_t)below(256);
        ANSWER(aes3_status_check_state(status));
        if (i % 4 == 0)
            status[23] = aes3_status_check_byte(status);
        ANSWER(aes3_status_check_state(status));
        ANSWER(aes3_status_text(status, text));
        NOTE(text, AES3_STATUS_TEXT);
        /* The fields of the other use stay FILL, which is too great for some of them. */
        WANT(aes3_status_professional(status, professional) == (status[0] & 1));
        NOTE_TO(professional, aes3_professional, b22low);
        ANSWER(aes3_status_of_professional(professional, made));
        NOTE(made, AES3_STATUS_BYTES);
        WANT(aes3_status_consumer(status, consumer) == !(status[0] & 1));
        NOTE(consumer, 1);
        ANSWER(aes3_status_of_consumer(consumer, made));
        NOTE(made, AES3_STATUS_BYTES);
        WANT(memcmp(made, status, AES3_STATUS_BYTES - 1) == 0);
        take_back(0);
    }
}

static void test_settings(void) {
    static const char *const settings[] = {
        "", "u", "use", "use=", "use=consumer", "emphasis=50/15", "emphasis=50/1", "rate=44100", "copyright=asserted", "word=24",
        "greatest=24", "word=24", "use=professional", "rate=96000", "aux=audio", "word=24", "origin=JATH", "origin=JAT",
        "destination=JATHX", "local=0", "local=", "time=4294967295", "time=4294967296", "unreliable=1010", "mode=stereophonic",
    };
    uint8_t *const status = GIVE(uint8_t, AES3_STATUS_BYTES);
    uint32_t answers = 0;
    memset(status, 0, AES3_STATUS_BYTES);
    for (size_t i = 0; i < sizeof settings / sizeof *settings; i++) {
        const size_t len = strlen(settings[i]);
        const uint8_t answer = aes3_status_set(status, COPY(char, len, settings[i]), len);
        ANSWER(answer);
        NOTE(status, AES3_STATUS_BYTES);
        answers |= 1u << answer;
        take_back(1);
    }
    WANT(answers == (1u << (AES3_SET_REFUSED + 1)) - 1);
    take_back(0);
}

/* ---- Captures ---- */

enum { A_CELL = 4, CAPTURED = 100000 }; /* samples a cell, and cells */

static uint8_t capture[2 * A_CELL * CAPTURED];

/* The first cells of the line in samples of one octet or two. */
static size_t make_capture(uint8_t unit, uint8_t bit) {
    memset(capture, 0, sizeof capture);
    for (size_t i = 0; i < A_CELL * CAPTURED; i++)
        capture[unit * i + bit / 8] = (uint8_t)(cells_of_line[i / A_CELL] << bit % 8);
    return (size_t)unit * A_CELL * CAPTURED;
}

/* All samples at once, or none, into more room than is needed, just as much, less, and none. */
static void test_capture(uint8_t unit, uint8_t bit) {
    const size_t all = make_capture(unit, bit);
    for (size_t count = 0; count <= all; count += all) {
        const uint8_t *const samples = COPY(uint8_t, count, capture);
        aes3_capture *const found = GIVE(aes3_capture, 1);
        size_t room = count / 4 + 64, needed = 0;
        for (int i = 0; i < 4; i++) {
            uint8_t *const put = GIVE(uint8_t, room);
            WANT(aes3_capture_cells(samples, count, unit, bit, 0, put, room, found) == (room >= needed));
            NOTE(found, 1);
            NOTE(put, room);
            take_back(2);
            if (i == 0)
                needed = (size_t)found->octets;
            room = i == 0 ? needed : i == 1 && needed > 0 ? needed - 1 : 0;
        }
        WANT(count == 0 || (found->measured > 0 && needed > CAPTURED / 8));
        take_back(0);
    }
}

/* The same in pieces, some of no sample, with little room and with much. */
static void test_recovery(uint8_t unit, uint8_t bit, uint64_t period, size_t room) {
    const size_t all = make_capture(unit, bit);
    aes3_recovery *const recovery = GIVE(aes3_recovery, 1);
    size_t *const taken = GIVE(size_t, 1), *const put = GIVE(size_t, 1);
    aes3_capture *const found = GIVE(aes3_capture, 1);
    aes3_mark *const earlier = GIVE(aes3_mark, 1), *const later = GIVE(aes3_mark, 1);
    uint8_t *const cells = GIVE(uint8_t, room);
    const size_t kept = held;
    size_t marks = 0;
    bool ended = false;
    memset(earlier, 0, sizeof *earlier);
    aes3_recovery_init(recovery, period);
    for (size_t at = 0; all - at >= unit; at += *taken) {
        const size_t count = next_piece(all - at);
        ANSWER(aes3_recovery_take(recovery, COPY(uint8_t, count, capture + at), count, unit, bit, taken, cells, room, put));
        NOTE(taken, 1);
        NOTE(put, 1);
        NOTE(cells, room);
        take_back(kept);
        if (!aes3_recovery_mark(recovery, later))
            continue;
        NOTE(later, 1);
        ANSWER(aes3_sample_between(earlier, later, (earlier->cells + later->cells) / 2));
        *earlier = *later;
        marks++;
    }
    while (!ended) {
        ended = aes3_recovery_finish(recovery, cells, room, put);
        NOTE(put, 1);
        NOTE(cells, room);
    }
    aes3_recovery_figures(recovery, found);
    NOTE(found, 1);
    WANT(marks > 10 && found->octets > CAPTURED / 8);
    take_back(0);
}

/* ---- WAV files ---- */

/* The first octets of a header, from none to all of them; then all, with each of them wrong in turn. */
static void test_wav_header(uint8_t bits, uint64_t frames) {
    uint8_t *const header = GIVE(uint8_t, AES3_WAV_OCTETS);
    aes3_wav *const wav = GIVE(aes3_wav, 1);
    uint64_t *const at = GIVE(uint64_t, 1);
    const size_t len = aes3_wav_write(bits, 48000, frames, header);
    NOTE(header, AES3_WAV_OCTETS);
    WANT(len == (bits == 16 ? 80 : bits % 8 ? 0 : 104));
    for (size_t count = 0; count <= len; count++) {
        const uint8_t answer = aes3_wav_read(COPY(uint8_t, count, header), count, wav, at);
        WANT(answer == (count < len || len == 0 ? AES3_WAV_MORE : AES3_WAV_HEADER));
        NOTE(at, 1);
        NOTE(wav, 1);
        take_back(3);
    }
    for (size_t i = 0; i < len; i++) {
        uint8_t *const wrong = COPY(uint8_t, len, header);
        wrong[i] ^= 0x55;
        ANSWER(aes3_wav_read(wrong, len, wav, at));
        NOTE(at, 1);
        NOTE(wav, 1);
        take_back(3);
    }
    take_back(0);
}

/* Frames of one to three channels in samples of each width, the last one whole or not, and as much room, less, and more. */
static void test_wav_samples(uint8_t octets, uint16_t channels, uint16_t second) {
    const size_t frame = (size_t)octets * channels;
    aes3_wav *const wav = GIVE(aes3_wav, 1);
    wav->start = 44, wav->len = AES3_WAV_UNKNOWN, wav->rate = 48000;
    wav->channels = channels, wav->octets = octets, wav->bits = (uint8_t)(8 * octets);
    for (size_t count = 0; count <= 5 * frame; count++)
        for (size_t room = 0; room <= 11; room++) {
            const uint8_t *const given = COPY(uint8_t, count, octets_of_line + 5000);
            int32_t *const samples = GIVE(int32_t, room);
            const size_t frames = aes3_wav_samples(wav, channels, second, given, count, samples, room);
            const size_t there = count / frame < room / 2 ? count / frame : room / 2;
            WANT(frames == (second <= channels ? there : 0));
            NOTE(samples, room);
            take_back(1);
        }
    take_back(0);
}

/* ---- */

static void run(enum place where) {
    static void (*const takes[])(void) = {take_octets, take_cells, take_words};
    place = where;
    met = 0;
    seed = 1;
    for (int i = 0; i < 3; i++)
        test_line(takes[i]);
    test_block();
    test_forms();
    test_fit();
    test_cells();
    test_statuses();
    test_settings();
    test_capture(1, 3);
    test_capture(2, 9);
    test_recovery(1, 3, 0, 64);
    test_recovery(1, 7, A_CELL << 16, 6000);
    test_recovery(2, 9, 0, 1);
    for (uint8_t bits = 16; bits <= 32; bits = (uint8_t)(bits + 4)) {
        test_wav_header(bits, 192);
        test_wav_header(bits, (uint64_t)1 << 32);
    }
    for (uint8_t octets = 1; octets <= 4; octets++)
        for (uint16_t channels = 1; channels <= 3; channels++)
            for (uint16_t second = 0; second <= 3; second++)
                test_wav_samples(octets, channels, second);
    WANT(met == known_len);
}

int main(void) {
    make_blocks();
    make_line();
    run(ORDINARY);
    run(BEFORE_A_PAGE);
    run(AFTER_A_PAGE);
    if (!failed)
        puts("each call keeps to its objects");
    return failed;
}
