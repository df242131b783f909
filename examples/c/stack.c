/* How much stack each call of aes3.h uses: each runs on a stack of its own that was painted before. Linux. */
#define _XOPEN_SOURCE 700
#include "aes3.h"
#include <stdio.h>
#include <stdlib.h>
#include <string.h>
#include <ucontext.h>

enum { SIZE = 65536, PAINT = 0xA5 };

static unsigned char stack[SIZE];
static ucontext_t back, there;

static aes3_lock lock;
static aes3_report report;
static aes3_account account;
static aes3_gap gap;
static aes3_watch watch;
static aes3_event events[AES3_EVENTS];
static aes3_sums sums;
static aes3_levels levels;
static uint32_t level;
static aes3_sum sum;
static bool has_sum;
static aes3_professional professional;
static aes3_consumer consumer;
static uint32_t words[AES3_BLOCK_WORDS];
static int32_t samples[AES3_BLOCK_WORDS];
static char text[AES3_STATUS_TEXT];
static uint64_t cells[AES3_BLOCK_WORDS], line_cells[AES3_BLOCK_WORDS + 1], word;
static aes3_capture found;
static aes3_recovery recovery;
static aes3_mark mark, later;
static size_t taken, put;
static aes3_wav wav;
static uint8_t header[AES3_WAV_OCTETS];
static uint8_t status[AES3_STATUS_BYTES], line[65], line_octets[8 * AES3_BLOCK_WORDS + 1], packed[8 * AES3_BLOCK_WORDS];

static void nothing(void) {}
static void init(void) { aes3_lock_init(&lock); }
static void seen(void) { word = aes3_lock_seen(&lock); }
static void begin_block(void) { aes3_lock_push(&lock, cells[0], 64, &report); }
static void take_words(void) { aes3_lock_take_words(&lock, cells + 1, AES3_BLOCK_WORDS - 1); }
static void end_block(void) { aes3_lock_push(&lock, cells[0], 64, &report); }
static void take_octets(void) { aes3_lock_take_octets(&lock, line_octets, sizeof line_octets, 0, &report); }
static void take_cells(void) { aes3_lock_take_cells(&lock, line_cells, AES3_BLOCK_WORDS + 1, 0, &report); }
static void words_of_octets(void) { aes3_words_of_octets(line_octets, sizeof line_octets, line_cells, AES3_BLOCK_WORDS); }
static void lock_block(void) { aes3_lock_block(&lock, words); }
static void finish(void) { aes3_lock_finish(&lock, &report); }
static void account_init(void) { aes3_account_init(&account); }
static void account_before(void) { aes3_account_before(&account, &report, &gap); }
static void account_passed(void) { aes3_account_passed(&account, 100000, &gap); }
static void account_end(void) { aes3_account_end(&account, 100000, &gap); }
static void watch_init(void) { aes3_watch_init(&watch); }
static void watch_report(void) { aes3_watch_report(&watch, &report, events); }
static void watch_passed(void) { aes3_watch_passed(&watch, 200000, events); }
static void watch_end(void) { aes3_watch_end(&watch, 200000, events); }
static void levels_init(void) { aes3_levels_init(&levels); }
static void levels_add(void) { aes3_levels_add(&levels, report.words); }
static void levels_peak(void) { level = aes3_levels_peak(&levels, 1); }
static void levels_rms(void) { level = aes3_levels_rms(&levels, 1); }
static void sums_init(void) { has_sum = aes3_sums_init(&sums, 3 * AES3_BLOCK_CELLS); }
static void sums_before(void) { has_sum = aes3_sums_before(&sums, &report, &sum); }
static void sums_passed(void) { has_sum = aes3_sums_passed(&sums, 200000, &sum); }
static void sums_end(void) { has_sum = aes3_sums_end(&sums, 200000, &sum); }
static void frames_between(void) { word = aes3_frames_between(5, 100000, 200000); }
static void encode_block(void) { aes3_encode_block(words, 0, cells); }
static void encode_blocks(void) { aes3_encode_blocks(words, AES3_BLOCK_WORDS, 0, packed, sizeof packed); }
static void subframes_of_blocks(void) { aes3_subframes_of_blocks(words, AES3_BLOCK_WORDS, AES3_SUBFRAMES_AM824, packed, sizeof packed); }
static void blocks_of_subframes(void) { aes3_blocks_of_subframes(packed, sizeof packed, AES3_SUBFRAMES_AM824, words, AES3_BLOCK_WORDS); }
static void samples_of_blocks(void) { aes3_samples_of_blocks(words, AES3_BLOCK_WORDS, AES3_SAMPLES_S24, packed, sizeof packed); }
static void blocks_of_samples(void) { aes3_blocks_of_samples(packed, sizeof packed, AES3_SAMPLES_S24, words, AES3_BLOCK_WORDS); }
static void blocks_fit(void) { word = aes3_blocks_fit(words, AES3_BLOCK_WORDS, AES3_SAMPLES_S16); }
static void samples_fit(void) { word = aes3_samples_fit(packed, sizeof packed, AES3_SAMPLES_S32); }
static void block_status(void) { aes3_block_status(words, 1, status); }
static void block_validity(void) { aes3_block_validity(words, 1, status); }
static void block_user(void) { aes3_block_user(words, 1, status); }
static void set_status(void) { aes3_block_set_status(words, 1, status); }
static void set_validity(void) { aes3_block_set_validity(words, 1, status); }
static void set_user(void) { aes3_block_set_user(words, 1, status); }
static void block_samples(void) { aes3_block_samples(words, samples); }
static void block_of_samples(void) { aes3_block_of_samples(samples, words); }
static void word_of_text(void) { aes3_word_of_text(line, &word); }
static void word_of_octets(void) { word = aes3_word_of_octets(status); }
static void line_of_word(void) { aes3_line_of_word(word, line); }
static void octets_of_word(void) { aes3_octets_of_word(word, line); }
static void reverse_octets(void) { aes3_reverse_octets(packed, sizeof packed); }
static void read_professional(void) { aes3_status_professional(status, &professional); }
static void read_consumer(void) { aes3_status_consumer(status, &consumer); }
static void of_professional(void) { aes3_status_of_professional(&professional, status); }
static void of_consumer(void) { aes3_status_of_consumer(&consumer, status); }
static void status_text(void) { aes3_status_text(status, text); }
static void status_set(void) { aes3_status_set(status, "time=1", 6); }
static void check_byte(void) { status[23] = aes3_status_check_byte(status); }
static void recover(void) { aes3_capture_cells(line_octets, sizeof line_octets, 1, 0, 0, packed, sizeof packed, &found); }
static void recovery_init(void) { aes3_recovery_init(&recovery, 0); }
static void recovery_take(void) { aes3_recovery_take(&recovery, line_octets, sizeof line_octets, 1, 0, &taken, packed, sizeof packed, &put); }
static void recovery_finish(void) { aes3_recovery_finish(&recovery, packed, sizeof packed, &put); }
static void recovery_figures(void) { aes3_recovery_figures(&recovery, &found); }
static void recovery_mark(void) { aes3_recovery_mark(&recovery, &later); }
static void sample_between(void) { word = aes3_sample_between(&mark, &later, 1000); }
static void version(void) { status[22] = (uint8_t)aes3_version(); }
static void write_wav(void) { aes3_wav_write(24, 48000, (uint64_t)1 << 32, header); }
static void read_wav(void) { aes3_wav_read(header, sizeof header, &wav, &word); }
static void wav_samples(void) { aes3_wav_samples(&wav, 2, 1, line_octets, sizeof line_octets, samples, AES3_BLOCK_WORDS); }
static void check_state(void) { status[22] = aes3_status_check_state(status); }

static size_t used(void (*call)(void)) {
    size_t unused = 0;
    memset(stack, PAINT, SIZE);
    getcontext(&there);
    there.uc_stack.ss_sp = stack;
    there.uc_stack.ss_size = SIZE;
    there.uc_link = &back;
    makecontext(&there, call, 0);
    swapcontext(&back, &there);
    while (unused < SIZE && stack[unused] == PAINT)
        unused++;
    return SIZE - unused;
}

/* Tells a call, and fails where it used more than `most`. */
static int tell(const char *name, void (*call)(void), size_t most) {
    size_t bytes = used(call) - used(nothing);
    printf("%-26s %5lu\n", name, (unsigned long)bytes);
    if (bytes <= most)
        return 0;
    fprintf(stderr, "stack: %s used more than %lu bytes\n", name, (unsigned long)most);
    return 1;
}

int main(void) {
    int failed = 0;
    failed |= tell("aes3_encode_block", encode_block, 2048);
    failed |= tell("aes3_encode_blocks", encode_blocks, 8192);
    failed |= packed[0] != 0xE8;
    failed |= tell("aes3_subframes_of_blocks", subframes_of_blocks, 8192);
    failed |= tell("aes3_blocks_of_subframes", blocks_of_subframes, 8192);
    failed |= tell("aes3_samples_of_blocks", samples_of_blocks, 8192);
    failed |= tell("aes3_blocks_of_samples", blocks_of_samples, 8192);
    failed |= tell("aes3_blocks_fit", blocks_fit, 256);
    failed |= tell("aes3_samples_fit", samples_fit, 256);
    failed |= tell("aes3_lock_init", init, 256);
    failed |= tell("aes3_lock_push, none", begin_block, 8192);
    failed |= tell("aes3_lock_take_words", take_words, 4096);
    failed |= tell("aes3_lock_finish, whole", finish, 8192);
    failed |= report.kind != AES3_WHOLE;
    failed |= tell("aes3_lock_push, whole", end_block, 8192);
    failed |= report.kind != AES3_WHOLE;
    failed |= tell("aes3_lock_seen", seen, 256);
    failed |= tell("aes3_account_init", account_init, 256);
    failed |= tell("aes3_account_before", account_before, 256);
    failed |= tell("aes3_account_passed", account_passed, 256);
    failed |= tell("aes3_account_end", account_end, 256);
    failed |= tell("aes3_watch_init", watch_init, 1024);
    failed |= tell("aes3_watch_report, locked", watch_report, 8192);
    failed |= events[0].kind != AES3_EVENT_LOCKED;
    report.at += 5, report.words[0] ^= UINT32_C(5) << 28, report.words[1] ^= UINT32_C(5) << 28;
    failed |= tell("aes3_watch_report, changes", watch_report, 8192);
    failed |= events[0].kind != AES3_EVENT_STATUS || events[2].kind != AES3_EVENT_VALIDITY;
    failed |= tell("aes3_watch_passed", watch_passed, 4096);
    failed |= tell("aes3_watch_end", watch_end, 4096);
    failed |= tell("aes3_levels_init", levels_init, 512);
    failed |= tell("aes3_levels_add", levels_add, 1024);
    failed |= levels.blocks != 1;
    failed |= tell("aes3_levels_peak", levels_peak, 1024);
    failed |= tell("aes3_levels_rms", levels_rms, 1024);
    failed |= tell("aes3_sums_init", sums_init, 1024);
    failed |= tell("aes3_sums_before, counted", sums_before, 8192);
    failed |= has_sum;
    report.at += 4 * AES3_BLOCK_CELLS;
    failed |= tell("aes3_sums_before, a sum", sums_before, 4096);
    failed |= !has_sum || sum.whole != 1;
    failed |= tell("aes3_sums_passed", sums_passed, 4096);
    failed |= !has_sum;
    failed |= tell("aes3_sums_end", sums_end, 4096);
    failed |= !has_sum;
    failed |= tell("aes3_frames_between", frames_between, 256);
    for (int i = 0; i < AES3_BLOCK_WORDS; i++)
        aes3_octets_of_word(cells[i], line_octets + 8 * i);
    line_octets[8 * AES3_BLOCK_WORDS] = line_octets[0];
    aes3_lock_init(&lock);
    failed |= tell("aes3_lock_take_octets", take_octets, 4096);
    failed |= report.kind != AES3_WHOLE;
    failed |= tell("aes3_words_of_octets", words_of_octets, 256);
    line_cells[AES3_BLOCK_WORDS] = line_cells[0];
    aes3_lock_init(&lock);
    failed |= tell("aes3_lock_take_cells", take_cells, 4096);
    failed |= report.kind != AES3_WHOLE;
    failed |= tell("aes3_lock_block", lock_block, 8192);
    failed |= tell("aes3_block_status", block_status, 2048);
    failed |= tell("aes3_block_validity", block_validity, 2048);
    failed |= tell("aes3_block_user", block_user, 2048);
    failed |= tell("aes3_block_set_status", set_status, 4096);
    failed |= tell("aes3_block_set_validity", set_validity, 4096);
    failed |= tell("aes3_block_set_user", set_user, 4096);
    failed |= tell("aes3_block_samples", block_samples, 4096);
    failed |= tell("aes3_block_of_samples", block_of_samples, 8192);
    failed |= tell("aes3_line_of_word", line_of_word, 256);
    failed |= tell("aes3_word_of_text", word_of_text, 256);
    failed |= tell("aes3_octets_of_word", octets_of_word, 256);
    failed |= tell("aes3_word_of_octets", word_of_octets, 256);
    failed |= tell("aes3_reverse_octets", reverse_octets, 256);
    failed |= tell("aes3_status_professional", read_professional, 256);
    failed |= tell("aes3_status_consumer", read_consumer, 256);
    failed |= tell("aes3_status_of_professional", of_professional, 256);
    failed |= tell("aes3_status_of_consumer", of_consumer, 256);
    failed |= tell("aes3_status_text", status_text, 4096);
    failed |= tell("aes3_status_set", status_set, 16384);
    failed |= tell("aes3_status_check_byte", check_byte, 256);
    failed |= tell("aes3_status_check_state", check_state, 256);
    failed |= tell("aes3_version", version, 256);
    failed |= tell("aes3_wav_write", write_wav, 4096);
    failed |= tell("aes3_wav_read", read_wav, 1024);
    failed |= wav.len != (uint64_t)6 << 32;
    failed |= tell("aes3_wav_samples", wav_samples, 1024);
    for (size_t i = 0; i < sizeof line_octets; i++) /* a line of four samples a cell */
        line_octets[i] = cells[i / 256] >> (i / 4 % 64) & 1;
    failed |= tell("aes3_capture_cells", recover, 8192);
    failed |= found.edges == 0;
    failed |= tell("aes3_recovery_init", recovery_init, 8192);
    failed |= tell("aes3_recovery_take", recovery_take, 16384);
    failed |= tell("aes3_recovery_mark", recovery_mark, 8192);
    failed |= later.cells == 0;
    failed |= tell("aes3_sample_between", sample_between, 256);
    failed |= tell("aes3_recovery_finish", recovery_finish, 16384);
    failed |= tell("aes3_recovery_figures", recovery_figures, 8192);
    failed |= found.edges == 0 || taken != sizeof line_octets;
    return failed;
}
