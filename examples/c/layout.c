/*
 * Where the library puts each field, against where aes3.h has it. Each field gets a value of its own, so that two that
 * were exchanged, or one of another width, would show. Status 1 where one is elsewhere.
 */
#include "aes3.h"
#include <stdio.h>
#include <string.h>

static int failed;

static void want(int line, int holds) {
    if (!holds) {
        fprintf(stderr, "layout.c:%d is not so\n", line);
        failed = 1;
    }
}
#define WANT(holds) want(__LINE__, (holds))

/* A field of channel status: its place in the header's type, how many bytes it has, its first bit and how many. */
struct field {
    const char *name;
    size_t at, size;
    int first, bits;
};
#define FIELD(type, name, first, bits) \
    { #type "." #name, offsetof(type, name), sizeof(((type *)0)->name), first, bits }
#define PRO(name, first, bits) FIELD(aes3_professional, name, first, bits)
#define CON(name, first, bits) FIELD(aes3_consumer, name, first, bits)

static const struct field professional[] = {
    PRO(payload, 1, 1), PRO(emphasis, 2, 3), PRO(unlocked, 5, 1), PRO(rate, 6, 2), PRO(mode, 8, 4), PRO(user, 12, 4),
    PRO(aux, 16, 3), PRO(word, 19, 3), PRO(b2high, 22, 2), PRO(b3, 24, 8), PRO(b4, 32, 8), PRO(b5, 40, 8),
    PRO(origin, 48, 32), PRO(destination, 80, 32), PRO(local, 112, 32), PRO(time, 144, 32), PRO(b22low, 176, 4),
    PRO(unreliable, 180, 4),
};

static const struct field consumer[] = {
    CON(payload, 1, 1), CON(copyright, 2, 1), CON(emphasis, 3, 3), CON(mode, 6, 2), CON(category, 8, 7),
    CON(generation, 15, 1), CON(source, 16, 4), CON(number, 20, 4), CON(rate, 24, 4), CON(accuracy, 28, 2),
    CON(b3high, 30, 2), CON(greatest, 32, 1), CON(word, 33, 3), CON(original, 36, 4), CON(rest, 40, 152),
};

/* One bit of a status stands in its field, and no other field has a bit. */
static void bit_of_status(const struct field *fields, size_t count, const unsigned char *got, int bit) {
    for (size_t i = 0; i < count; i++)
        for (size_t j = 0; j < fields[i].size; j++) {
            int k = bit - fields[i].first;
            int here = k >= 0 && k < fields[i].bits && (size_t)k / 8 == j;
            if (got[fields[i].at + j] != (here ? 1 << k % 8 : 0)) {
                fprintf(stderr, "layout.c: bit %d of a status: byte %d of %s\n", bit, (int)j, fields[i].name);
                failed = 1;
            }
        }
}

static void statuses(void) {
    unsigned char got[2][64];
    for (int bit = 1; bit < 8 * AES3_STATUS_BYTES; bit++) {
        uint8_t status[AES3_STATUS_BYTES] = {0}, back[AES3_STATUS_BYTES];
        union {
            aes3_professional professional;
            aes3_consumer consumer;
            unsigned char bytes[64];
        } room;
        status[bit / 8] = (uint8_t)(1 << bit % 8);
        memset(&room, 0xAA, sizeof room);
        WANT(aes3_status_consumer(status, &room.consumer));
        memset(back, 0x55, sizeof back);
        WANT(aes3_status_of_consumer(&room.consumer, back) && memcmp(back, status, sizeof back) == 0);
        memcpy(got[0], &room, sizeof got[0]);
        bit_of_status(consumer, sizeof consumer / sizeof *consumer, got[0], bit);
        WANT(got[0][sizeof(aes3_consumer)] == 0xAA);
        status[0] |= 1;
        memset(&room, 0xAA, sizeof room);
        WANT(aes3_status_professional(status, &room.professional));
        memset(back, 0x55, sizeof back);
        WANT(aes3_status_of_professional(&room.professional, back) && memcmp(back, status, sizeof back - 1) == 0);
        WANT(back[23] == aes3_status_check_byte(status));
        memcpy(got[1], &room, sizeof got[1]);
        bit_of_status(professional, sizeof professional / sizeof *professional, got[1], bit);
        WANT(got[1][sizeof(aes3_professional)] == 0xAA);
    }
}

static uint32_t words[AES3_BLOCK_WORDS];
static uint64_t cells[AES3_BLOCK_WORDS];
static union {
    aes3_report report;
    unsigned char bytes[sizeof(aes3_report) + 8];
} told;
static unsigned char wanted[sizeof told];

#define PUT(name, value) \
    (memcpy(wanted + offsetof(aes3_report, name), (value), sizeof told.report.name))

/* Lets the lock take some cells of a word, which decide nothing. */
static void quiet(aes3_lock *lock, uint64_t word, uint32_t count) {
    WANT(aes3_lock_push(lock, word, count, &told.report) == count && told.report.kind == AES3_NONE);
}

/* A lock behind five high cells and the words of the block up to one. */
static void begun(aes3_lock *lock, int count) {
    aes3_lock_init(lock);
    quiet(lock, 31, 5);
    for (int i = 0; i < count; i++)
        quiet(lock, cells[i], 64);
    memset(&told, 0xAA, sizeof told);
    memset(wanted, 0xAA, sizeof wanted);
}

static void reports(void) {
    static aes3_lock lock;
    const uint64_t at = 5, refuted = 5 + 64 * 300 + 10, taken = 5 + 64 * 300 - 5;
    const uint8_t kinds[] = {AES3_NONE, AES3_WHOLE, AES3_MARKED, AES3_FAULT, AES3_UNFINISHED};
    const uint8_t before = 1, why = AES3_BIPHASE;
    const uint16_t wrong = 1;
    for (int i = 0; i < AES3_BLOCK_WORDS; i++)
        words[i] = (uint32_t)i * 48 << 5 | (uint32_t)i * 48 << 16;
    for (int i = 0; i < AES3_BLOCK_WORDS; i++) {
        uint32_t ones = 0;
        for (int j = 4; j < 31; j++)
            ones += words[i] >> j & 1;
        words[i] = (words[i] & 0x7FFFFFFF) | (ones & 1) << 31;
    }
    WANT(aes3_encode_block(words, before, cells) == AES3_BLOCK_WORDS);

    begun(&lock, AES3_BLOCK_WORDS);
    aes3_lock_finish(&lock, &told.report);
    PUT(at, &at), PUT(words, words), PUT(kind, &kinds[1]), PUT(before, &before);
    WANT(memcmp(&told, wanted, sizeof told) == 0);

    begun(&lock, AES3_BLOCK_WORDS - 1);
    quiet(&lock, cells[AES3_BLOCK_WORDS - 1] ^ (uint64_t)1 << 63, 64);
    memset(&told, 0xAA, sizeof told);
    aes3_lock_finish(&lock, &told.report);
    PUT(at, &at), PUT(wrong, &wrong), PUT(kind, &kinds[2]), PUT(before, &before);
    WANT(memcmp(&told, wanted, sizeof told) == 0);

    /* The cell with which a time slot begins is that before it. */
    begun(&lock, 300);
    WANT(aes3_lock_push(&lock, cells[300] ^ 1 << 10, 64, &told.report) == 11);
    PUT(at, &at), PUT(cell, &refuted), PUT(kind, &kinds[3]), PUT(why, &why);
    WANT(memcmp(&told, wanted, sizeof told) == 0);

    begun(&lock, 300);
    aes3_lock_finish(&lock, &told.report);
    PUT(at, &at), PUT(cell, &taken), PUT(kind, &kinds[4]);
    WANT(memcmp(&told, wanted, sizeof told) == 0);

    aes3_lock_init(&lock);
    memset(&told, 0xAA, sizeof told);
    memset(wanted, 0xAA, sizeof wanted);
    aes3_lock_finish(&lock, &told.report);
    PUT(kind, &kinds[0]);
    WANT(memcmp(&told, wanted, sizeof told) == 0);
}

/* The gap of seven cells between two whole blocks, octet by octet, and that of a cell behind them. */
static void gaps(void) {
    static aes3_account account;
    static union {
        aes3_gap gap;
        unsigned char bytes[sizeof(aes3_gap) + 8];
    } put, due;
    const uint64_t at = 100000 + AES3_BLOCK_CELLS, cells = 7, early = 100000;
    const uint8_t counts[] = {0, 1};
    aes3_account_init(&account);
    told.report.kind = AES3_WHOLE;
    told.report.at = early;
    while (aes3_account_before(&account, &told.report, &put.gap)) {
    }
    memset(&put, 0xAA, sizeof put);
    memset(&due, 0xAA, sizeof due);
    told.report.at = at + cells;
    WANT(aes3_account_before(&account, &told.report, &put.gap));
    memcpy(&due.gap.at, &at, sizeof at), memcpy(&due.gap.cells, &cells, sizeof cells);
    memcpy(&due.gap.counts, &counts[1], sizeof counts[1]);
    WANT(memcmp(&put, &due, sizeof put) == 0);
    WANT(!aes3_account_before(&account, &told.report, &put.gap));
    WANT(memcmp(&put, &due, sizeof put) == 0);
    WANT(aes3_account_end(&account, at + cells + AES3_BLOCK_CELLS + 1, &put.gap));
    WANT(put.gap.at == at + cells + AES3_BLOCK_CELLS && put.gap.cells == 1 && put.gap.counts == counts[0]);
}

/* Each kind of event, octet by octet; each field that it has no use for is 0. */
static void events(void) {
    enum { BLOCK = AES3_BLOCK_CELLS };
    static aes3_watch watch;
    static union {
        aes3_event events[AES3_EVENTS + 1];
        unsigned char bytes[(AES3_EVENTS + 1) * sizeof(aes3_event)];
    } put, due;
    const uint64_t first = 100000, slipped = first + BLOCK + 7, back = slipped + 3 * (uint64_t)BLOCK, lost = slipped + BLOCK;
    const uint64_t seven = 7, many = 2 * (uint64_t)BLOCK, seen = back + BLOCK + 5;
    const uint8_t kinds[] = {0, 1, 2, 3, 4, 5, 6, 7}, one = 1, two = 2;
    const uint8_t status[AES3_STATUS_BYTES] = {4, 0, 0, 2};
    uint8_t bits[AES3_STATUS_BYTES] = {1};
#define DUE(i, name, value) (memcpy(due.bytes + (i) * sizeof(aes3_event) + offsetof(aes3_event, name), (value), sizeof due.events[i].name))
#define BEGIN(count) \
    (memset(&put, 0xAA, sizeof put), memset(&due, 0xAA, sizeof due), memset(&due, 0, (count) * sizeof(aes3_event)))
    /* What fills the last octets of an event is not told. */
#define SAME(count) \
    for (size_t i = 0; i < (count); i++) { \
        size_t used = offsetof(aes3_event, locked) + 1, at = i * sizeof(aes3_event); \
        memcpy(due.bytes + at + used, put.bytes + at + used, sizeof(aes3_event) - used); \
    } \
    WANT(memcmp(&put, &due, sizeof put) == 0)
    aes3_watch_init(&watch);
    memset(&told, 0, sizeof told);
    told.report.kind = AES3_WHOLE;
    told.report.at = first;
    told.report.before = 1;
    BEGIN(2);
    WANT(aes3_watch_report(&watch, &told.report, put.events) == 2);
    const uint64_t start = 0;
    DUE(0, at, &start), DUE(0, kind, &kinds[AES3_EVENT_LOST]);
    DUE(1, at, &first), DUE(1, kind, &kinds[AES3_EVENT_LOCKED]), DUE(1, before, &one);
    SAME(2);
    told.report.at = slipped;
    WANT(aes3_block_set_status(told.report.words, 2, status) == AES3_BLOCK_WORDS);
    WANT(aes3_block_set_validity(told.report.words, 1, bits) == AES3_BLOCK_WORDS);
    BEGIN(3);
    WANT(aes3_watch_report(&watch, &told.report, put.events) == 3);
    DUE(0, at, &slipped), DUE(0, cells, &seven), DUE(0, kind, &kinds[AES3_EVENT_SLIPPED]);
    DUE(1, at, &slipped), DUE(1, kind, &kinds[AES3_EVENT_STATUS]), DUE(1, channel, &two), DUE(1, status, status);
    DUE(2, at, &slipped), DUE(2, kind, &kinds[AES3_EVENT_VALIDITY]), DUE(2, channel, &one), DUE(2, validity, &two);
    SAME(3);
    told.report.at = back;
    memset(bits, 0xFF, sizeof bits);
    WANT(aes3_block_set_validity(told.report.words, 1, bits) == AES3_BLOCK_WORDS);
    BEGIN(3);
    WANT(aes3_watch_report(&watch, &told.report, put.events) == 3);
    DUE(0, at, &lost), DUE(0, kind, &kinds[AES3_EVENT_LOST]);
    DUE(1, at, &back), DUE(1, cells, &many), DUE(1, kind, &kinds[AES3_EVENT_BACK]);
    DUE(2, at, &back), DUE(2, kind, &kinds[AES3_EVENT_VALIDITY]), DUE(2, channel, &one), DUE(2, validity, &one);
    SAME(3);
    BEGIN(1);
    WANT(aes3_watch_end(&watch, seen, put.events) == 1);
    DUE(0, at, &seen), DUE(0, kind, &kinds[AES3_EVENT_END]), DUE(0, locked, &one);
    SAME(1);
}

/* A sum, octet by octet, in which each number is another. */
static void sums_of_periods(void) {
    static aes3_sums sums;
    static union {
        aes3_sum sum;
        unsigned char bytes[sizeof(aes3_sum) + 8];
    } put, due;
    static const uint8_t faults[] = {AES3_PREAMBLE, AES3_BIPHASE, AES3_BIPHASE, AES3_UNCLOSED, AES3_UNCLOSED, AES3_UNCLOSED};
    const uint64_t every = 40 * (uint64_t)AES3_BLOCK_CELLS, seen = every + 100 + 5 * (uint64_t)AES3_BLOCK_CELLS + 7;
    const uint64_t numbers[] = {every, seen, 5, 9, 6, 1, 2, 3, 7, 20, 28, 4};
    const uint8_t status[AES3_STATUS_BYTES] = {4}, five[AES3_STATUS_BYTES] = {0x1F}, seven[AES3_STATUS_BYTES] = {0x7F};
    memset(&told, 0, sizeof told);
    memset(&put, 0xAA, sizeof put);
    memset(&due, 0xAA, sizeof due);
    WANT(aes3_sums_init(&sums, every));
    told.report.at = every + 100;
    WANT(!aes3_sums_before(&sums, &told.report, &put.sum));
    WANT(memcmp(&put, &due, sizeof put) == 0);
    told.report.kind = AES3_MARKED;
    WANT(aes3_sums_before(&sums, &told.report, &put.sum));
    for (int i = 0; i < 9; i++)
        WANT(!aes3_sums_before(&sums, &told.report, &put.sum));
    told.report.kind = AES3_FAULT;
    for (size_t i = 0; i < sizeof faults; i++) {
        told.report.why = faults[i];
        WANT(!aes3_sums_before(&sums, &told.report, &put.sum));
    }
    told.report.kind = AES3_WHOLE;
    for (uint64_t i = 0; i < 5; i++) {
        told.report.at = every + 100 + i * AES3_BLOCK_CELLS + (i < 2 ? 0 : 7);
        if (i == 1)
            WANT(aes3_block_set_validity(told.report.words, 1, five) + aes3_block_set_validity(told.report.words, 2, seven) ==
                 2 * AES3_BLOCK_WORDS);
        if (i == 2)
            WANT(aes3_block_set_status(told.report.words, 1, status) + aes3_block_set_status(told.report.words, 2, status) ==
                 2 * AES3_BLOCK_WORDS);
        WANT(!aes3_sums_before(&sums, &told.report, &put.sum));
    }
    memset(&put, 0xAA, sizeof put);
    WANT(aes3_sums_end(&sums, seen, &put.sum));
    const size_t places[] = {offsetof(aes3_sum, from),          offsetof(aes3_sum, to),             offsetof(aes3_sum, whole),
                             offsetof(aes3_sum, marked),        offsetof(aes3_sum, fault),          offsetof(aes3_sum, preamble),
                             offsetof(aes3_sum, biphase),       offsetof(aes3_sum, unclosed),       offsetof(aes3_sum, lost),
                             offsetof(aes3_sum, invalid_first), offsetof(aes3_sum, invalid_second), offsetof(aes3_sum, changes)};
    for (size_t i = 0; i < sizeof places / sizeof *places; i++)
        memcpy(due.bytes + places[i], &numbers[i], sizeof numbers[i]);
    WANT(memcmp(&put, &due, sizeof put) == 0);
}

/* The header of a file of three channels, 20 bits of 24, whose lengths are in its chunk ds64. */
static void wavs(void) {
    static const uint8_t octets[] =
        "BW64\xFF\xFF\xFF\xFFWAVE"
        "ds64\x1C\0\0\0\0\0\0\0\0\0\0\0\x01\x02\x03\x04\x05\x06\0\0\0\0\0\0\0\0\0\0\0\0\0\0"
        "fmt \x28\0\0\0\xFE\xFF\x03\0\x80\xBB\0\0\x80\x97\x06\0\x09\0\x18\0\x16\0\x14\0\0\0\0\0"
        "\x01\0\0\0\0\0\x10\0\x80\0\0\xAA\0\x38\x9B\x71"
        "data\xFF\xFF\xFF\xFF";
    static union {
        aes3_wav wav;
        unsigned char bytes[sizeof(aes3_wav) + 8];
    } put, due;
    const size_t count = sizeof octets - 1;
    const uint64_t start = count, len = 0x060504030201;
    const uint32_t rate = 48000;
    const uint16_t channels = 3;
    const uint8_t octets_of_one = 3, bits = 20;
    uint64_t at = 5;
    memset(&put, 0xAA, sizeof put);
    memset(&due, 0xAA, sizeof due);
    WANT(aes3_wav_read(octets, count - 1, &put.wav, &at) == AES3_WAV_MORE && at == count && memcmp(&put, &due, sizeof put) == 0);
    WANT(aes3_wav_read(octets, count, &put.wav, &at) == AES3_WAV_HEADER && at == count);
    memcpy(&due.wav.start, &start, sizeof start), memcpy(&due.wav.len, &len, sizeof len);
    memcpy(&due.wav.rate, &rate, sizeof rate), memcpy(&due.wav.channels, &channels, sizeof channels);
    memcpy(&due.wav.octets, &octets_of_one, sizeof octets_of_one), memcpy(&due.wav.bits, &bits, sizeof bits);
    WANT(memcmp(&put, &due, sizeof put) == 0);
}

/* A mark, octet by octet, and the sample between two. */
static void marks(void) {
    static aes3_recovery recovery;
    static union {
        aes3_mark mark;
        unsigned char bytes[sizeof(aes3_mark) + 8];
    } put, due;
    const aes3_mark before = {100, 1000}, after = {300, 5000};
    const uint64_t cells = 1, samples = 4;
    uint8_t levels[5], packed[8];
    size_t taken, count;
    for (int i = 0; i < 5; i++)
        levels[i] = (uint8_t)(i / 4 % 2);
    memset(&put, 0xAA, sizeof put);
    memset(&due, 0xAA, sizeof due);
    aes3_recovery_init(&recovery, 4 << 16);
    WANT(!aes3_recovery_mark(&recovery, &put.mark) && memcmp(&put, &due, sizeof put) == 0);
    WANT(aes3_recovery_take(&recovery, levels, 5, 1, 0, &taken, packed, sizeof packed, &count) && count == 0);
    WANT(aes3_recovery_mark(&recovery, &put.mark));
    memcpy(&due.mark.cells, &cells, sizeof cells), memcpy(&due.mark.samples, &samples, sizeof samples);
    WANT(memcmp(&put, &due, sizeof put) == 0);
    WANT(aes3_sample_between(&before, &after, 150) == 2000);
}

// The counts of a block whose first sample is 3 in channel 1 and -2^23 in channel 2.
static void levels(void) {
    static const aes3_levels due = {1, {9, 0, 3}, {UINT64_C(1) << 46, 0, UINT32_C(1) << 23}};
    uint32_t words[AES3_BLOCK_WORDS] = {UINT32_C(3) << 4, UINT32_C(0x800000) << 4};
    aes3_levels told;
    memset(&told, 0, sizeof told);
    aes3_levels_init(&told);
    aes3_levels_add(&told, words);
    WANT(told.blocks == due.blocks);
    WANT(told.first.energy_low == due.first.energy_low && told.first.energy_high == 0 && told.first.peak == due.first.peak);
    WANT(told.second.energy_low == due.second.energy_low && told.second.energy_high == 0 && told.second.peak == due.second.peak);
}

int main(void) {
    WANT(sizeof(aes3_lock) == 3104 && sizeof(aes3_report) == 1560);
    WANT(sizeof(aes3_account) == 16 && sizeof(aes3_gap) == 24);
    WANT(sizeof(aes3_watch) == 80 && sizeof(aes3_event) == 48);
    WANT(sizeof(aes3_sums) == 192 && sizeof(aes3_sum) == 96);
    WANT(sizeof(aes3_levels) == 56 && sizeof(aes3_channel_levels) == 24);
    WANT(sizeof(aes3_professional) == 32 && sizeof(aes3_consumer) == 33 && sizeof(aes3_capture) == 80);
    WANT(sizeof(aes3_wav) == 24 && sizeof(aes3_recovery) == 6504 && sizeof(aes3_mark) == 16);
    statuses();
    reports();
    gaps();
    events();
    sums_of_periods();
    levels();
    marks();
    wavs();
    if (!failed)
        puts("each field stands where the header has it");
    return failed;
}
