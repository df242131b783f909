/**
 * @file
 * The AES3 / IEC 60958 line codec for C, over libaes3.a or libaes3.so.1.
 *
 * bin/install puts both in their places. The archive is the libaes3_c.a of `bin/build aes3_c`.
 *
 * No function allocates, prints, waits, aborts or keeps anything between calls. Each returns for all arguments that meet what
 * is said here. The library needs memcpy, memmove and memset, and nothing else. Different threads may use different locks at
 * once, one lock one thread at a time.
 *
 * What the caller has to keep to, and nothing checks:
 *
 * - No pointer is null. Each points to the number of objects that its type or `count` says, aligned as C requires it.
 * - What a function writes overlaps no other argument of that call.
 * - A structure that has an `_init` call, such as aes3_lock_init(), was made by that call. Only the functions here write it.
 *
 * The words that are used here:
 *
 * - A cell is half of a time slot, low or high.
 * - A level is 0 for low; 1, and every other number, for high.
 * - A word of cells is a `uint64_t`. The earliest of its 64 cells is in bit 0, 1 for high.
 * - An octet of cells has eight, the first in its highest bit. aes3_reverse_octets() makes such octets of those with the first
 *   cell in the lowest bit, and the other way round.
 * - A place is the number of a cell, counted from 0 at the lock's first cell.
 * - A block has 384 words, as in a block file: one for each subframe, channel 1 first. Bit n of a word is time slot n: bits 0
 *   to 3 are zero, 4 to 27 the audio sample, 28 V, 29 U, 30 C, and 31 P.
 * - A word of a block is valid if two things hold: bits 0 to 3 are zero, and the number of ones in bits 4 to 31 is even.
 *
 * Stack in bytes that a call used (examples/c/stack.c, x86-64):
 *
 * - aes3_recovery_take(): 9,520
 * - aes3_recovery_finish(): 7,056
 * - aes3_status_set(): 6,760
 * - aes3_blocks_of_samples(): 6,248
 * - aes3_capture_cells(): 5,552
 * - aes3_lock_push(): 5,064
 * - aes3_lock_finish(), aes3_encode_blocks(), aes3_subframes_of_blocks(), aes3_samples_of_blocks(): 4,792
 * - aes3_blocks_of_subframes(): 4,680
 * - aes3_sums_before(): 4,176
 * - aes3_watch_report(): 4,080
 * - aes3_lock_take_octets(): 3,976
 * - aes3_lock_take_cells(): 3,432
 * - aes3_lock_take_words(): 3,304
 * - aes3_block_of_samples(): 3,096
 * - aes3_wav_write(): 2,104
 * - aes3_recovery_mark(): 1,752
 * - aes3_block_status(), aes3_block_validity(), aes3_block_user(): 1,592
 * - aes3_block_set_status(), aes3_block_set_validity(), aes3_block_set_user(): 1,592
 * - aes3_encode_block(): 1,576
 * - aes3_lock_block(), aes3_block_samples(): 1,560
 * - aes3_recovery_init(): 1,320
 * - aes3_status_text(): 1,304
 * - aes3_watch_end(): 464
 * - aes3_sums_passed(): 288
 * - aes3_wav_read(): 272
 * - aes3_wav_samples(): 136
 * - each other: 70 at most
 */
#ifndef AES3_H
#define AES3_H

#include <stdbool.h>
#include <stddef.h>
#include <stdint.h>

/**
 * @defgroup version Version
 * @{
 */

/** The major number of the version of this header, which is that of the program aes3. */
#define AES3_VERSION_MAJOR 0
/** Its minor number. */
#define AES3_VERSION_MINOR 1
/** Its patch number. */
#define AES3_VERSION_PATCH 0
/** The version of this header as text. */
#define AES3_VERSION "0.1.0"
/** The same as one number: 65,536 times the major number, 256 times the minor one, and the patch. */
#define AES3_VERSION_NUMBER (65536 * AES3_VERSION_MAJOR + 256 * AES3_VERSION_MINOR + AES3_VERSION_PATCH)

/** @cond */
/* The sizes that the library was built for; C11 and C++11 can say so. */
#if defined(__cplusplus) && __cplusplus >= 201103L
#define AES3_SIZE(type, size) static_assert(sizeof(type) == (size), #type)
#elif defined(__STDC_VERSION__) && __STDC_VERSION__ >= 201112L
#define AES3_SIZE(type, size) _Static_assert(sizeof(type) == (size), #type)
#else
#define AES3_SIZE(type, size) struct aes3_no_size
#endif
/** @endcond */

#ifdef __cplusplus
extern "C" {
#endif

/**
 * The version of the library that runs.
 *
 * @return a number like #AES3_VERSION_NUMBER, which is that of this header
 *
 * @code
 * assert(aes3_version() == AES3_VERSION_NUMBER);
 * @endcode
 */
uint32_t aes3_version(void);

/** @} */

/** Numbers of the format, and lengths of arrays. */
enum {
    AES3_BLOCK_WORDS = 384,   /**< words of a block, and words of its cells */
    AES3_BLOCK_CELLS = 24576, /**< cells of a block */
    AES3_BLOCK_OCTETS = 3072, /**< octets of the cells of a block */
    AES3_NO_CHANNEL = 385,    /**< what a call returns if the channel is neither 1 nor 2 */
    AES3_STATUS_BYTES = 24,   /**< bytes of a channel status */
    AES3_STATUS_TEXT = 800,   /**< characters of the text of a channel status, at most */
    AES3_WAV_OCTETS = 104,    /**< octets of the header of a WAV file that is written, at most */
    AES3_EVENTS = 6           /**< events that a call puts, at most */
};

/**
 * @defgroup lock Lock
 * Finds the blocks in cells that come one after the other.
 *
 * Which call for which cells: aes3_lock_take_octets() for octets, aes3_lock_take_cells() for words, aes3_lock_push() for a few
 * cells. Each stops after the cell that decides a report. Call it again with the cells that are left, until the report is
 * #AES3_NONE. At the end of the cells, aes3_lock_finish() gives the last report.
 * @{
 */

/**
 * A lock, in memory of its caller. It may be copied by assignment; the copy then goes on by itself.
 */
typedef struct aes3_lock {
    uint64_t state[388]; /**< opaque */
} aes3_lock;
AES3_SIZE(aes3_lock, 3104);

/** What a report says of a place where the preamble of a block is. */
enum aes3_kind {
    AES3_NONE = 0,      /**< there is no report */
    AES3_WHOLE = 1,     /**< a whole block, all of whose parity bits are right: `at`, `before`, `words` */
    AES3_MARKED = 2,    /**< a whole block with wrong parity bits: `at`, `before`, `wrong` */
    AES3_FAULT = 3,     /**< no block: `at`, `cell`, `why` */
    AES3_UNFINISHED = 4 /**< a block that the end of the cells cuts: `at`, `cell`; only of aes3_lock_finish() */
};

/** Why a cell shows that no block is there. */
enum aes3_why {
    AES3_PREAMBLE = 0, /**< the preamble of its subframe has the other level there */
    AES3_BIPHASE = 1,  /**< a time slot does not begin with a change of level */
    AES3_UNCLOSED = 2  /**< the cell after a block's last does not change the level */
};

/** A report. Its kind says which fields have a meaning. */
typedef struct aes3_report {
    uint64_t at;         /**< place of the block's first cell */
    uint64_t cell;       /**< of a fault the place of the wrong cell; of an unfinished block how many cells it has */
    uint32_t words[384]; /**< the block */
    uint16_t wrong;      /**< how many subframes have a wrong parity bit, 1 to 384 */
    uint8_t kind;        /**< an #aes3_kind */
    uint8_t before;      /**< the level before the block's first cell */
    uint8_t why;         /**< an #aes3_why */
} aes3_report;
AES3_SIZE(aes3_report, 1560);

/**
 * The word of a kind of report. The line that `aes3 check` prints of a report begins with it.
 *
 * @param kind  an #aes3_kind
 * @return a constant text: `none`, `whole`, `marked`, `fault` or `unfinished`; of any other number `unknown kind`
 *
 * @code
 * assert(strcmp(aes3_kind_text(AES3_WHOLE), "whole") == 0);
 * assert(strcmp(aes3_kind_text(9), "unknown kind") == 0);
 * @endcode
 */
static inline const char *aes3_kind_text(uint8_t kind) {
    static const char *const texts[] = {"none", "whole", "marked", "fault", "unfinished"};
    return kind <= AES3_UNFINISHED ? texts[kind] : "unknown kind";
}

/**
 * The word of a cause. The line that `aes3 check` prints of a fault ends with it.
 *
 * @param why  an #aes3_why
 * @return a constant text: `preamble`, `biphase` or `unclosed`; of any other number `unknown cause`
 *
 * @code
 * aes3_report report = {0};
 * report.kind = AES3_FAULT;
 * report.why = AES3_BIPHASE;
 * assert(strcmp(aes3_why_text(report.why), "biphase") == 0);
 * @endcode
 */
static inline const char *aes3_why_text(uint8_t why) {
    static const char *const texts[] = {"preamble", "biphase", "unclosed"};
    return why <= AES3_UNCLOSED ? texts[why] : "unknown cause";
}

/**
 * Makes a lock that has seen no cell.
 *
 * @param[out] lock  the lock
 *
 * @code
 * static aes3_lock lock;
 * aes3_lock_init(&lock);
 * assert(aes3_lock_seen(&lock) == 0);
 * @endcode
 */
void aes3_lock_init(aes3_lock *lock);

/**
 * How many cells a lock has seen.
 *
 * @param lock  the lock
 * @return the number of cells, 2^43 at most
 *
 * @code
 * static aes3_lock lock;
 * aes3_report report;
 * aes3_lock_init(&lock);
 * aes3_lock_push(&lock, 5, 3, &report); // high, low, high
 * assert(aes3_lock_seen(&lock) == 3);
 * @endcode
 */
uint64_t aes3_lock_seen(const aes3_lock *lock);

/**
 * Takes words of cells as long as no cell of a word decides a report.
 *
 * The word after those, if there is one, goes to aes3_lock_push(). A cell of it decides a report; or no block is begun and the
 * preamble of one ends in it; or the lock would have seen more than 2^43 cells with it. aes3_lock_take_cells() needs no second
 * call, and fewer instructions.
 *
 * @param[in,out] lock  the lock
 * @param words  words of cells
 * @param count  how many words
 * @return how many words it took; that may be 0
 *
 * @code
 * static aes3_lock lock;
 * static const uint32_t zeros[384] = {0};
 * uint64_t cells[384];
 * aes3_report report;
 * aes3_encode_block(zeros, 0, cells);
 * aes3_lock_init(&lock);
 * for (size_t at = 0; at < 384; at++) {
 *     at += aes3_lock_take_words(&lock, cells + at, 384 - at);
 *     if (at < 384)
 *         aes3_lock_push(&lock, cells[at], 64, &report); // and again, if it took fewer than 64 cells
 * }
 * assert(aes3_lock_seen(&lock) == 24576);
 * @endcode
 */
size_t aes3_lock_take_words(aes3_lock *lock, const uint64_t *words, size_t count);

/**
 * Takes the first cells of a word, up to the cell that decides a report.
 *
 * @param[in,out] lock  the lock
 * @param word  a word of cells
 * @param count  how many of its cells to take, 64 at most
 * @param[out] report  the report, with the words of a whole block; or #AES3_NONE
 * @return how many cells it took. With a report that is up to the cell that decides it. Without one it is all of them, or the
 *     number left to 2^43 cells, which is 16 days of a line at 48 kHz. A lock that has seen 2^43 cells takes none: call
 *     aes3_lock_finish(), and make it anew.
 *
 * @code
 * static aes3_lock lock;
 * aes3_report report;
 * uint64_t word = 0x1117; // 13 cells: the preamble of a block begins with 1 1 1 0 1
 * uint32_t left = 13;
 * aes3_lock_init(&lock);
 * while (left > 0) {
 *     const uint32_t taken = aes3_lock_push(&lock, word, left, &report);
 *     if (taken == 0)
 *         break; // 2^43 cells
 *     if (report.kind == AES3_FAULT)
 *         printf("fault at %llu\n", (unsigned long long)report.at);
 *     word >>= taken < 64 ? taken : 63;
 *     left -= taken;
 * }
 * assert(aes3_lock_seen(&lock) == 13);
 * @endcode
 */
uint32_t aes3_lock_push(aes3_lock *lock, uint64_t word, uint32_t count, aes3_report *report);

/**
 * Takes the cells of octets, up to the cell that decides a report.
 *
 * @param[in,out] lock  the lock
 * @param octets  octets of cells, the first cell in the highest bit of the first
 * @param count  how many octets
 * @param first  the number of the first cell to take, counted from 0 in `octets`
 * @param[out] report  the report, or #AES3_NONE. Its words are unchanged: aes3_lock_block() gives those of a whole block.
 * @return how many cells it took. Without a report that is all from `first` on, or the number left to 2^43 cells. The next call
 *     begins where this one ended.
 *
 * @code
 * static aes3_lock lock;
 * static aes3_report report;
 * static uint8_t octets[3072 + 1]; // those of a block, and one after it
 * static const uint32_t zeros[384] = {0};
 * uint64_t cells[384];
 * size_t at = 0, blocks = 0;
 * aes3_encode_block(zeros, 0, cells);
 * for (int i = 0; i < 384; i++)
 *     aes3_octets_of_word(cells[i], octets + 8 * i);
 * octets[3072] = octets[0];
 * aes3_lock_init(&lock);
 * do {
 *     at += aes3_lock_take_octets(&lock, octets, sizeof octets, at, &report);
 *     blocks += report.kind == AES3_WHOLE;
 * } while (report.kind != AES3_NONE);
 * assert(blocks == 1 && at == 8 * sizeof octets);
 * @endcode
 */
size_t aes3_lock_take_octets(aes3_lock *lock, const uint8_t *octets, size_t count, size_t first, aes3_report *report);

/**
 * Takes the cells of words, up to the cell that decides a report.
 *
 * A loop that takes words by aes3_lock_take_words() and each next one by aes3_lock_push() gets the same reports. But it makes the
 * words of every whole block, and copies the lock three times a block.
 *
 * @param[in,out] lock  the lock
 * @param words  words of cells
 * @param count  how many words
 * @param first  the number of the first cell to take, counted from 0 in `words`, 64 a word
 * @param[out] report  the report, or #AES3_NONE. Its words are unchanged: aes3_lock_block() gives those of a whole block.
 * @return how many cells it took. Without a report that is all from `first` on, or the number left to 2^43 cells. The next call
 *     begins where this one ended.
 *
 * @code
 * static aes3_lock lock;
 * static aes3_report report;
 * static const uint32_t zeros[384] = {0};
 * uint64_t cells[385];
 * size_t at = 0, blocks = 0;
 * aes3_encode_block(zeros, 0, cells);
 * cells[384] = cells[0]; // a block is reported with the first cell after it
 * aes3_lock_init(&lock);
 * do {
 *     at += aes3_lock_take_cells(&lock, cells, 385, at, &report);
 *     blocks += report.kind == AES3_WHOLE;
 * } while (report.kind != AES3_NONE);
 * assert(blocks == 1 && at == 64 * 385);
 * @endcode
 */
size_t aes3_lock_take_cells(aes3_lock *lock, const uint64_t *words, size_t count, size_t first, aes3_report *report);

/**
 * Puts the words of the block of the lock's last report, until the lock takes more cells.
 *
 * If that block is marked, it puts what the subframes carry, with right parity bits.
 *
 * @param lock  the lock, whose last report is of a whole or a marked block
 * @param[out] words  the 384 words of the block
 *
 * @code
 * static aes3_lock lock;
 * static aes3_report report;
 * static const uint32_t zeros[384] = {0};
 * uint64_t cells[385];
 * uint32_t words[384];
 * aes3_encode_block(zeros, 0, cells);
 * cells[384] = cells[0];
 * aes3_lock_init(&lock);
 * aes3_lock_take_cells(&lock, cells, 385, 0, &report);
 * if (report.kind == AES3_WHOLE)
 *     aes3_lock_block(&lock, words);
 * assert(memcmp(words, zeros, sizeof words) == 0);
 * @endcode
 */
void aes3_lock_block(const aes3_lock *lock, uint32_t words[384]);

/**
 * Puts the report that the end of the cells decides. The lock is unchanged, and may take more cells.
 *
 * @param lock  the lock
 * @param[out] report  the report, with the words of a whole block; or #AES3_NONE
 *
 * @code
 * static aes3_lock lock;
 * static aes3_report report;
 * static const uint32_t zeros[384] = {0};
 * uint64_t cells[384];
 * aes3_encode_block(zeros, 0, cells);
 * aes3_lock_init(&lock);
 * aes3_lock_take_cells(&lock, cells, 384, 0, &report);
 * assert(report.kind == AES3_NONE); // only the next cell, or the end, decides the block
 * aes3_lock_finish(&lock, &report);
 * assert(report.kind == AES3_WHOLE && report.at == 0);
 * @endcode
 */
void aes3_lock_finish(const aes3_lock *lock, aes3_report *report);

/** @} */

/**
 * @defgroup account Account
 * Gives the gaps between a lock's whole blocks.
 *
 * Each report goes to aes3_account_before() until that returns false. Then aes3_account_passed() may be asked:
 *
 * @code
 * do {
 *     at += aes3_lock_take_octets(&lock, octets, count, at, &report);
 *     while (aes3_account_before(&account, &report, &gap))
 *         print_gap();
 *     print_report();
 *     while (aes3_account_passed(&account, aes3_lock_seen(&lock), &gap))
 *         print_gap();
 * } while (report.kind != AES3_NONE);
 * aes3_lock_finish(&lock, &report);
 * while (aes3_account_before(&account, &report, &gap))
 *     print_gap();
 * print_report();
 * while (aes3_account_end(&account, aes3_lock_seen(&lock), &gap))
 *     print_gap();
 * @endcode
 *
 * All gaps and reports, in this order, are the lines of `aes3 check --gaps`: each cell is in one whole block or in one gap.
 * @{
 */

/**
 * Which reports and gaps of a lock's cells were given, in memory of its caller. It may be copied by assignment.
 */
typedef struct aes3_account {
    uint64_t state[2]; /**< opaque */
} aes3_account;
AES3_SIZE(aes3_account, 16);

/**
 * A gap: cells in a row that are in no whole block, as `aes3 check --gaps` prints it. If more than 24,576 are in a row, there are
 * gaps of 24,576 cells one after the other, and one of those that are left.
 */
typedef struct aes3_gap {
    uint64_t at;    /**< place of its first cell */
    uint64_t cells; /**< how many cells, 1 to 24,576 */
    uint8_t counts; /**< 1 if it is one of the faults of `aes3 check --gaps`; 0 for fewer than 24,576 cells before the first or
                         after the last whole block, where the cells are cut */
} aes3_gap;
AES3_SIZE(aes3_gap, 24);

/**
 * Makes an account for a lock that has seen no cell.
 *
 * @param[out] account  the account
 *
 * @code
 * aes3_account account;
 * aes3_account_init(&account);
 * @endcode
 */
void aes3_account_init(aes3_account *account);

/**
 * Puts the next gap before a report, if any.
 *
 * Each report of the lock goes here in turn, until the answer is false. A report of #AES3_NONE gives false, and changes nothing.
 *
 * @param[in,out] account  the account
 * @param report  the report; it needs no words
 * @param[out] gap  the gap
 * @return true if there is a gap; else false, and `*gap` is unchanged
 *
 * @code
 * aes3_account account;
 * aes3_report report = {0};
 * aes3_gap gap;
 * aes3_account_init(&account);
 * report.kind = AES3_WHOLE;
 * report.at = 100;
 * assert(aes3_account_before(&account, &report, &gap) && gap.at == 0 && gap.cells == 100);
 * assert(!aes3_account_before(&account, &report, &gap));
 * @endcode
 */
bool aes3_account_before(aes3_account *account, const aes3_report *report, aes3_gap *gap);

/**
 * Puts the next gap that no later cell changes, if any: one of 24,576 cells with that many cells after it.
 *
 * So a line without signal is reported while it has none. Without this call the same gaps come later, in the same order.
 *
 * @param[in,out] account  the account, to which each report of the lock was given
 * @param seen  how many cells the lock has seen
 * @param[out] gap  the gap
 * @return true if there is a gap; else false, and `*gap` is unchanged
 *
 * @code
 * aes3_account account;
 * aes3_gap gap;
 * aes3_account_init(&account);
 * assert(!aes3_account_passed(&account, 2 * 24576 - 1, &gap));
 * assert(aes3_account_passed(&account, 2 * 24576, &gap) && gap.at == 0 && gap.cells == 24576 && gap.counts);
 * @endcode
 */
bool aes3_account_passed(aes3_account *account, uint64_t seen, aes3_gap *gap);

/**
 * Puts the next of all gaps that are left at the end of the cells, if any.
 *
 * @param[in,out] account  the account, to which each report of the lock was given, with that of aes3_lock_finish()
 * @param seen  how many cells the lock has seen
 * @param[out] gap  the gap
 * @return true if there is a gap; else false, and `*gap` is unchanged
 *
 * @code
 * aes3_account account;
 * aes3_gap gap;
 * aes3_account_init(&account);
 * assert(aes3_account_end(&account, 800, &gap) && gap.at == 0 && gap.cells == 800 && !gap.counts);
 * assert(!aes3_account_end(&account, 800, &gap));
 * @endcode
 */
bool aes3_account_end(aes3_account *account, uint64_t seen, aes3_gap *gap);

/**
 * How many frames are missing between a whole block and the next one.
 *
 * `aes3 to-pcm --fill` writes that many frames between the samples of the two blocks. So each block keeps its time, to half a
 * frame: the frames before it, from the first block on, last as long as the cells before it, 128 cells a frame. For that, each
 * place is that of a report of #AES3_WHOLE, and the blocks come in their order.
 *
 * @param first  place of the first whole block of all
 * @param before  place of a whole block
 * @param at  place of the next whole block
 * @return how many frames; 0 if the next block begins directly after the one before
 *
 * @code
 * assert(aes3_frames_between(100, 100, 100 + 24576) == 0);
 * assert(aes3_frames_between(100, 100, 100 + 2 * 24576) == 192); // a block is missing
 * assert(aes3_frames_between(100, 100, 100 + 24576 + 63) == 0); // less than half a frame
 * assert(aes3_frames_between(100, 100, 100 + 24576 + 64) == 1);
 * @endcode
 */
uint64_t aes3_frames_between(uint64_t first, uint64_t before, uint64_t at);

/** @} */

/**
 * @defgroup watch Watch
 * Gives the events of a line: where it locks, is lost, comes back or slips, and where its channel status or its validity bits
 * change.
 *
 * Each report of the lock goes to aes3_watch_report(), that of a whole block with its words. Then aes3_watch_passed() is asked:
 *
 * @code
 * do {
 *     at += aes3_lock_take_octets(&lock, octets, count, at, &report);
 *     if (report.kind == AES3_WHOLE)
 *         aes3_lock_block(&lock, report.words);
 *     print_events(aes3_watch_report(&watch, &report, events));
 *     print_events(aes3_watch_passed(&watch, aes3_lock_seen(&lock), events));
 * } while (report.kind != AES3_NONE);
 * aes3_lock_finish(&lock, &report);
 * print_events(aes3_watch_report(&watch, &report, events));
 * print_events(aes3_watch_end(&watch, aes3_lock_seen(&lock), events));
 * @endcode
 *
 * All events, in this order, are the lines of `aes3 watch`.
 * @{
 */

/**
 * The state of a line that is watched, in memory of its caller. It may be copied by assignment.
 */
typedef struct aes3_watch {
    uint64_t state[10]; /**< opaque */
} aes3_watch;
AES3_SIZE(aes3_watch, 80);

/** What changes on a line. */
enum aes3_event_kind {
    AES3_EVENT_LOCKED = 1,   /**< the first whole block: `at`, `before` */
    AES3_EVENT_LOST = 2,     /**< 24,576 cells or more are in no whole block: `at` */
    AES3_EVENT_BACK = 3,     /**< the first whole block after lost cells: `at`, `cells` */
    AES3_EVENT_SLIPPED = 4,  /**< a whole block after fewer than 24,576 cells that are in none: `at`, `cells` */
    AES3_EVENT_STATUS = 5,   /**< a whole block with another channel status than the one before it: `at`, `channel`, `status` */
    AES3_EVENT_VALIDITY = 6, /**< one with other validity bits than the one before it: `at`, `channel`, `validity` */
    AES3_EVENT_END = 7       /**< the cells end; only of aes3_watch_end(): `at`, `locked` */
};

/** What the 192 validity bits of a channel in a block are. A bit is 0 if the sample may be converted to analogue. */
enum aes3_validity {
    AES3_VALIDITY_CLEAR = 0, /**< all are 0 */
    AES3_VALIDITY_SET = 1,   /**< all are 1 */
    AES3_VALIDITY_MIXED = 2  /**< some are 0, some are 1 */
};

/** An event, as `aes3 watch` prints it. Its kind says which fields have a meaning; each other is 0. */
typedef struct aes3_event {
    uint64_t at;        /**< place: where cells are lost, of the first of them; at the end, the number of cells; else that of the
                             block's first cell */
    uint64_t cells;     /**< where the line comes back, how many cells were lost; where it slips, how many cells are between the
                             block and the one before it */
    uint8_t status[24]; /**< the new channel status */
    uint8_t kind;       /**< an #aes3_event_kind */
    uint8_t channel;    /**< 1 or 2 */
    uint8_t before;     /**< the level before the block's first cell */
    uint8_t validity;   /**< an #aes3_validity */
    uint8_t locked;     /**< 1 if the last whole block is followed by fewer than 24,576 cells, else 0 */
} aes3_event;
AES3_SIZE(aes3_event, 48);

/**
 * The word of a kind of event. The line that `aes3 watch` prints of an event begins with it.
 *
 * @param kind  an #aes3_event_kind
 * @return a constant text: `locked`, `lost`, `back`, `slipped`, `status`, `validity` or `end`; of any other number `unknown event`
 *
 * @code
 * assert(strcmp(aes3_event_text(AES3_EVENT_SLIPPED), "slipped") == 0);
 * assert(strcmp(aes3_event_text(0), "unknown event") == 0);
 * @endcode
 */
static inline const char *aes3_event_text(uint8_t kind) {
    static const char *const texts[] = {"locked", "lost", "back", "slipped", "status", "validity", "end"};
    return kind >= AES3_EVENT_LOCKED && kind <= AES3_EVENT_END ? texts[kind - 1] : "unknown event";
}

/**
 * The word of a state of validity bits, as `aes3 watch` prints it.
 *
 * @param validity  an #aes3_validity
 * @return a constant text: `clear`, `set` or `mixed`; of any other number `unknown validity`
 *
 * @code
 * assert(strcmp(aes3_validity_text(AES3_VALIDITY_MIXED), "mixed") == 0);
 * @endcode
 */
static inline const char *aes3_validity_text(uint8_t validity) {
    static const char *const texts[] = {"clear", "set", "mixed"};
    return validity <= AES3_VALIDITY_MIXED ? texts[validity] : "unknown validity";
}

/**
 * Makes the state of a line for a lock that has seen no cell.
 *
 * @param[out] watch  the state
 *
 * @code
 * aes3_watch watch;
 * aes3_watch_init(&watch);
 * @endcode
 */
void aes3_watch_init(aes3_watch *watch);

/**
 * Puts the events of a report.
 *
 * Each report of the lock goes here once, in turn. That of a whole block needs its words: aes3_lock_push() and
 * aes3_lock_finish() put them, and aes3_lock_block() puts them after the other calls. If the report is #AES3_NONE, nothing
 * changes.
 *
 * @param[in,out] watch  the state
 * @param report  the report
 * @param[out] events  room for #AES3_EVENTS events; unchanged after those put
 * @return how many events it put, 0 to 6
 *
 * @code
 * aes3_watch watch;
 * aes3_event events[AES3_EVENTS];
 * static aes3_report report; // a block of zeros
 * report.kind = AES3_WHOLE;
 * report.at = 100;
 * aes3_watch_init(&watch);
 * assert(aes3_watch_report(&watch, &report, events) == 1 && events[0].kind == AES3_EVENT_LOCKED && events[0].at == 100);
 * report.at = 100 + 24576 + 5;
 * assert(aes3_watch_report(&watch, &report, events) == 1 && events[0].kind == AES3_EVENT_SLIPPED && events[0].cells == 5);
 * @endcode
 */
uint32_t aes3_watch_report(aes3_watch *watch, const aes3_report *report, aes3_event events[AES3_EVENTS]);

/**
 * Puts the loss of a line that no later cell changes, if there is one: two blocks' cells have come from its first cell on.
 *
 * So a line without signal is reported while it has none. Without this call the same events come later, in the same order.
 *
 * @param[in,out] watch  the state, to which each report of the lock was given
 * @param seen  how many cells the lock has seen
 * @param[out] events  room for #AES3_EVENTS events; unchanged after those put
 * @return how many events it put, 0 or 1
 *
 * @code
 * aes3_watch watch;
 * aes3_event events[AES3_EVENTS];
 * aes3_watch_init(&watch);
 * assert(aes3_watch_passed(&watch, 2 * 24576 - 1, events) == 0);
 * assert(aes3_watch_passed(&watch, 2 * 24576, events) == 1 && events[0].kind == AES3_EVENT_LOST && events[0].at == 0);
 * assert(aes3_watch_passed(&watch, 3 * 24576, events) == 0); // it is lost already
 * @endcode
 */
uint32_t aes3_watch_passed(aes3_watch *watch, uint64_t seen, aes3_event events[AES3_EVENTS]);

/**
 * Puts the events of the end of the cells: a loss that is left, if any, and #AES3_EVENT_END. The state is unchanged.
 *
 * @param watch  the state, to which each report of the lock was given, with that of aes3_lock_finish()
 * @param seen  how many cells the lock has seen
 * @param[out] events  room for #AES3_EVENTS events; unchanged after those put
 * @return how many events it put, 1 or 2
 *
 * @code
 * aes3_watch watch;
 * aes3_event events[AES3_EVENTS];
 * aes3_watch_init(&watch);
 * assert(aes3_watch_end(&watch, 800, events) == 1 && events[0].kind == AES3_EVENT_END);
 * assert(events[0].at == 800 && events[0].locked == 0);
 * assert(aes3_watch_end(&watch, 24576, events) == 2 && events[0].kind == AES3_EVENT_LOST);
 * @endcode
 */
uint32_t aes3_watch_end(const aes3_watch *watch, uint64_t seen, aes3_event events[AES3_EVENTS]);

/** @} */

/**
 * @defgroup sums Sums
 * Gives the sums of a line by periods: what is counted in its first cells, as many as a period has, in the next ones, and so on.
 *
 * Each report of the lock goes to aes3_sums_before(), that of a whole block with its words. A report can come after the end of
 * any number of periods. The call puts the sum of one of them and returns true. Call it again with the same report until it
 * returns false: then the report is counted. Call aes3_sums_passed() in the same way:
 *
 * @code
 * do {
 *     at += aes3_lock_take_octets(&lock, octets, count, at, &report);
 *     if (report.kind == AES3_WHOLE)
 *         aes3_lock_block(&lock, report.words);
 *     while (aes3_sums_before(&sums, &report, &sum))
 *         print_sum(&sum);
 *     while (aes3_sums_passed(&sums, aes3_lock_seen(&lock), &sum))
 *         print_sum(&sum);
 * } while (report.kind != AES3_NONE);
 * aes3_lock_finish(&lock, &report);
 * while (aes3_sums_before(&sums, &report, &sum))
 *     print_sum(&sum);
 * while (aes3_sums_end(&sums, aes3_lock_seen(&lock), &sum))
 *     print_sum(&sum);
 * @endcode
 *
 * All sums, in this order, are those that `aes3 watch --every` prints. The events come from an #aes3_watch beside it.
 * @{
 */

/**
 * The state of a line whose sums are given, in memory of its caller. It may be copied by assignment.
 */
typedef struct aes3_sums {
    uint64_t state[24]; /**< opaque */
} aes3_sums;
AES3_SIZE(aes3_sums, 192);

/**
 * What is counted in a period. A block is counted where it begins. A gap of 24,576 cells is counted where its last cell is, a
 * shorter one where the whole block after it begins. A count stops at the greatest number.
 */
typedef struct aes3_sum {
    uint64_t from;           /**< place of the first cell of the period */
    uint64_t to;             /**< place of the cell after its last one */
    uint64_t whole;          /**< whole blocks */
    uint64_t marked;         /**< marked blocks */
    uint64_t fault;          /**< faults of all three causes */
    uint64_t preamble;       /**< faults of #AES3_PREAMBLE */
    uint64_t biphase;        /**< faults of #AES3_BIPHASE */
    uint64_t unclosed;       /**< faults of #AES3_UNCLOSED */
    uint64_t lost;           /**< cells in gaps that count as faults */
    uint64_t invalid_first;  /**< validity bits of 1 of channel 1 in whole blocks */
    uint64_t invalid_second; /**< those of channel 2 */
    uint64_t changes;        /**< events of #AES3_EVENT_STATUS and #AES3_EVENT_VALIDITY */
} aes3_sum;
AES3_SIZE(aes3_sum, 96);

/**
 * Makes the state of a line for a lock that has seen no cell, with periods of `every` cells.
 *
 * If there are no such periods, it returns false. Then aes3_sums_before(), aes3_sums_passed() and aes3_sums_end() return false
 * too, whatever they are given.
 *
 * @param[out] sums  the state
 * @param every  how many cells a period has, 1 to 2^40
 * @return true; false if `every` is 0 or above 2^40
 *
 * @code
 * aes3_sums sums;
 * assert(!aes3_sums_init(&sums, 0));
 * assert(aes3_sums_init(&sums, 10 * 24576));
 * @endcode
 */
bool aes3_sums_init(aes3_sums *sums, uint64_t every);

/**
 * Puts the sum of the next period that ends before a report, if any; else counts the report.
 *
 * A period ends before a report if the report's `at` is in a later one. Call it with the same report until it returns false:
 * only then the report is counted. Each report of the lock goes here, in turn. That of a whole block needs its words:
 * aes3_lock_push() and aes3_lock_finish() put them, and aes3_lock_block() puts them after the other calls. If the report is
 * #AES3_NONE, it returns false, and nothing changes.
 *
 * @param[in,out] sums  the state
 * @param report  the report
 * @param[out] sum  the sum
 * @return true if there is a sum; else false, and `*sum` is unchanged
 *
 * @code
 * aes3_sums sums;
 * aes3_sum sum;
 * static aes3_report report; // a block of zeros
 * report.kind = AES3_WHOLE;
 * report.at = 24576;
 * assert(aes3_sums_init(&sums, 24576));
 * assert(aes3_sums_before(&sums, &report, &sum) && sum.from == 0 && sum.to == 24576 && sum.whole == 0);
 * assert(!aes3_sums_before(&sums, &report, &sum)); // it is counted
 * report.at = 2 * 24576;
 * assert(aes3_sums_before(&sums, &report, &sum) && sum.from == 24576 && sum.whole == 1);
 * @endcode
 */
bool aes3_sums_before(aes3_sums *sums, const aes3_report *report, aes3_sum *sum);

/**
 * Puts the sum of the next period that no later cell changes, if any: 24,576 cells have come after it.
 *
 * So the sums of a line without signal come while it has none. Without this call the same sums come later, in the same order.
 *
 * @param[in,out] sums  the state, by which each report of the lock was counted
 * @param seen  how many cells the lock has seen
 * @param[out] sum  the sum
 * @return true if there is a sum; else false, and `*sum` is unchanged
 *
 * @code
 * aes3_sums sums;
 * aes3_sum sum;
 * assert(aes3_sums_init(&sums, 24576));
 * assert(!aes3_sums_passed(&sums, 2 * 24576 - 1, &sum));
 * assert(aes3_sums_passed(&sums, 2 * 24576, &sum) && sum.from == 0 && sum.lost == 24576);
 * assert(!aes3_sums_passed(&sums, 2 * 24576, &sum));
 * @endcode
 */
bool aes3_sums_passed(aes3_sums *sums, uint64_t seen, aes3_sum *sum);

/**
 * Puts the next of all sums that are left at the end of the cells, if any. The last period can be shorter.
 *
 * @param[in,out] sums  the state, by which each report of the lock was counted, with that of aes3_lock_finish()
 * @param seen  how many cells the lock has seen
 * @param[out] sum  the sum
 * @return true if there is a sum; else false, and `*sum` is unchanged
 *
 * @code
 * aes3_sums sums;
 * aes3_sum sum;
 * assert(aes3_sums_init(&sums, 500));
 * assert(aes3_sums_end(&sums, 800, &sum) && sum.from == 0 && sum.to == 500);
 * assert(aes3_sums_end(&sums, 800, &sum) && sum.from == 500 && sum.to == 800);
 * assert(!aes3_sums_end(&sums, 800, &sum));
 * @endcode
 */
bool aes3_sums_end(aes3_sums *sums, uint64_t seen, aes3_sum *sum);

/** @} */

/**
 * @defgroup levels Levels
 * Counts the samples of each channel of whole blocks, and gives their peak and their RMS.
 *
 * Each block goes to aes3_levels_add(), as its words:
 *
 * @code
 * if (report.kind == AES3_WHOLE) {
 *     aes3_lock_block(&lock, report.words);
 *     aes3_levels_add(&levels, report.words);
 * }
 * @endcode
 *
 * With all whole blocks of the cells, `peak` of a channel and the two levels are those that `aes3 info` prints: `peak`,
 * `peak_dbfs` and `rms_dbfs`. To get the levels of each second, begin again with aes3_levels_init().
 * @{
 */

/** The level if there is none: all samples are 0, where `aes3 info` prints `-inf`. */
#define AES3_NO_LEVEL UINT32_MAX

/**
 * What is counted of a channel's samples of 24 bits.
 */
typedef struct aes3_channel_levels {
    uint64_t energy_low;  /**< sum of the squares of the samples, modulo 2^64 */
    uint64_t energy_high; /**< the same, divided by 2^64; the sum stops at 2^128 - 1 */
    uint32_t peak;        /**< greatest magnitude of a sample, 0 to 8,388,608 */
} aes3_channel_levels;
AES3_SIZE(aes3_channel_levels, 24);

/**
 * What is counted of the samples of blocks, in memory of its caller. It may be copied by assignment.
 */
typedef struct aes3_levels {
    uint64_t blocks;            /**< how many blocks were added; the count stops at the greatest number */
    aes3_channel_levels first;  /**< channel 1 */
    aes3_channel_levels second; /**< channel 2 */
} aes3_levels;
AES3_SIZE(aes3_levels, 56);

/**
 * Makes the counts without any block.
 *
 * @param[out] levels  the counts
 *
 * @code
 * aes3_levels levels;
 * aes3_levels_init(&levels);
 * assert(levels.blocks == 0 && levels.first.peak == 0);
 * @endcode
 */
void aes3_levels_init(aes3_levels *levels);

/**
 * Counts the samples of a block. Its words are taken as they are, whatever their codes and parity bits.
 *
 * @param[in,out] levels  the counts
 * @param words  the words of the block
 *
 * @code
 * aes3_levels levels;
 * uint32_t words[AES3_BLOCK_WORDS] = {0, UINT32_C(3) << 4}; // a sample of 3 in channel 2
 * aes3_levels_init(&levels);
 * aes3_levels_add(&levels, words);
 * assert(levels.blocks == 1 && levels.first.peak == 0 && levels.second.peak == 3);
 * @endcode
 */
void aes3_levels_add(aes3_levels *levels, const uint32_t words[AES3_BLOCK_WORDS]);

/**
 * The peak of a channel, in tenths of a decibel below full scale, to the nearest. Full scale is a magnitude of 8,388,608.
 *
 * @param levels  the counts
 * @param channel  1 or 2
 * @return 0 to 3,100; or #AES3_NO_LEVEL if all samples of the channel are 0, without a block, and for another channel
 *
 * @code
 * aes3_levels levels;
 * uint32_t words[AES3_BLOCK_WORDS] = {UINT32_C(0x400000) << 4}; // half of full scale
 * aes3_levels_init(&levels);
 * assert(aes3_levels_peak(&levels, 1) == AES3_NO_LEVEL);
 * aes3_levels_add(&levels, words);
 * assert(aes3_levels_peak(&levels, 1) == 60); // -6.0 dB
 * assert(aes3_levels_peak(&levels, 2) == AES3_NO_LEVEL);
 * @endcode
 */
uint32_t aes3_levels_peak(const aes3_levels *levels, uint8_t channel);

/**
 * The RMS of a channel likewise, below that of full scale in each sample.
 *
 * @param levels  the counts
 * @param channel  1 or 2
 * @return 0 to 3,100; or #AES3_NO_LEVEL if all samples of the channel are 0, without a block, and for another channel
 *
 * @code
 * aes3_levels levels;
 * static uint32_t words[AES3_BLOCK_WORDS];
 * for (int i = 0; i < AES3_BLOCK_WORDS; i += 2)
 *     words[i] = UINT32_C(0x400000) << 4; // half of full scale
 * aes3_levels_init(&levels);
 * aes3_levels_add(&levels, words);
 * assert(aes3_levels_rms(&levels, 1) == 60); // -6.0 dB
 * assert(aes3_levels_rms(&levels, 2) == AES3_NO_LEVEL);
 * @endcode
 */
uint32_t aes3_levels_rms(const aes3_levels *levels, uint8_t channel);

/** @} */

/**
 * @defgroup block Blocks
 * The words of a block: their cells, bits and samples.
 *
 * A call that needs valid words returns 384, which is #AES3_BLOCK_WORDS. If a word is not valid, it returns the number of the
 * first such word, counted from 0, and changes nothing.
 * @{
 */

/**
 * Puts the cells of a block, a word for each subframe.
 *
 * A block ends at the level before it. So all blocks of a line have the same `before`.
 *
 * @param words  the words of the block
 * @param before  the level of the cell before the block
 * @param[out] cells  384 words of cells
 * @return 384; or the number of the first word that is not valid, and `cells` is unchanged
 *
 * @code
 * uint32_t words[384] = {0};
 * uint64_t cells[384];
 * assert(aes3_encode_block(words, 0, cells) == 384);
 * words[7] = 1; // bit 0 has to be zero
 * assert(aes3_encode_block(words, 0, cells) == 7);
 * @endcode
 */
uint32_t aes3_encode_block(const uint32_t words[384], uint8_t before, uint64_t cells[384]);

/**
 * Puts the cells of many blocks as octets, one block after the other.
 *
 * They are the octets that `aes3 encode --packed-out` writes, without its last one, which is 0. For each block they are those of
 * aes3_encode_block() and aes3_octets_of_word(). A block ends at the level before it, so the next call takes the same `before`.
 *
 * It takes whole blocks, as long as there is room for 3,072 octets. If a word is not valid, it puts the blocks before that word's.
 *
 * @param words  the words of the blocks, 384 for each
 * @param count  how many words; those after the last whole block make no difference
 * @param before  the level of the cell before the first block
 * @param[out] octets  3,072 octets for each block, the first cell in the highest bit of the first; unchanged after those put
 * @param room  how many octets there is room for
 * @return 384 for each block that is there and has room; or, if one of their words is not valid, the number of the first such
 *     word, counted from 0 in `words`. Divided by 384 and rounded down, it is how many blocks were put.
 *
 * @code
 * static uint32_t words[2 * 384]; // two blocks of zeros
 * static uint8_t octets[2 * 3072];
 * assert(aes3_encode_blocks(words, 768, 0, octets, sizeof octets) == 768);
 * words[390] = 1; // bit 0 has to be zero
 * assert(aes3_encode_blocks(words, 768, 0, octets, sizeof octets) == 390); // block 0 is put
 * @endcode
 */
size_t aes3_encode_blocks(const uint32_t *words, size_t count, uint8_t before, uint8_t *octets, size_t room);

/**
 * Puts the channel status of a channel.
 *
 * @param words  the words of the block
 * @param channel  1 or 2
 * @param[out] status  24 bytes: bit i % 8 of byte i / 8 is the C bit of frame i
 * @return 384; or the number of the first word that is not valid; or #AES3_NO_CHANNEL for another channel. Then `status` is
 *     unchanged.
 *
 * @code
 * static const uint32_t words[384] = {0};
 * uint8_t status[24];
 * assert(aes3_block_status(words, 1, status) == 384 && status[0] == 0);
 * assert(aes3_block_status(words, 3, status) == AES3_NO_CHANNEL);
 * @endcode
 */
uint32_t aes3_block_status(const uint32_t words[384], uint8_t channel, uint8_t status[24]);

/**
 * Puts the V bits of a channel. Such a bit is 0 if the sample may be converted to analogue.
 *
 * @param words  the words of the block
 * @param channel  1 or 2
 * @param[out] bits  24 octets: bit i % 8 of octet i / 8 is the V bit of frame i
 * @return 384; or the number of the first word that is not valid; or #AES3_NO_CHANNEL for another channel. Then `bits` is
 *     unchanged.
 *
 * @code
 * static const uint32_t words[384] = {0};
 * uint8_t bits[24];
 * assert(aes3_block_validity(words, 2, bits) == 384 && bits[0] == 0);
 * @endcode
 */
uint32_t aes3_block_validity(const uint32_t words[384], uint8_t channel, uint8_t bits[24]);

/**
 * Puts the U bits (user data) of a channel.
 *
 * @param words  the words of the block
 * @param channel  1 or 2
 * @param[out] bits  24 octets: bit i % 8 of octet i / 8 is the U bit of frame i
 * @return 384; or the number of the first word that is not valid; or #AES3_NO_CHANNEL for another channel. Then `bits` is
 *     unchanged.
 *
 * @code
 * static const uint32_t words[384] = {0};
 * uint8_t bits[24];
 * assert(aes3_block_user(words, 2, bits) == 384 && bits[0] == 0);
 * @endcode
 */
uint32_t aes3_block_user(const uint32_t words[384], uint8_t channel, uint8_t bits[24]);

/**
 * Sets the channel status of a channel, and the parity bits. Nothing else changes, and each word is valid.
 *
 * @param[in,out] words  the words of the block
 * @param channel  1 or 2
 * @param status  24 bytes, as aes3_block_status() puts them
 * @return 384; or the number of the first word that is not valid; or #AES3_NO_CHANNEL for another channel. Then `words` is
 *     unchanged.
 *
 * @code
 * static const uint8_t status[24] = {0x04, 0, 0, 0x02, 0x0B}; // consumer use, 48 kHz, 24 bits
 * uint32_t words[384] = {0};
 * uint8_t found[24];
 * assert(aes3_block_set_status(words, 1, status) == 384);
 * assert(aes3_block_status(words, 1, found) == 384 && memcmp(found, status, 24) == 0);
 * @endcode
 */
uint32_t aes3_block_set_status(uint32_t words[384], uint8_t channel, const uint8_t status[24]);

/**
 * Sets the V bits of a channel, and the parity bits. Nothing else changes, and each word is valid.
 *
 * @param[in,out] words  the words of the block
 * @param channel  1 or 2
 * @param bits  24 octets, as aes3_block_validity() puts them
 * @return 384; or the number of the first word that is not valid; or #AES3_NO_CHANNEL for another channel. Then `words` is
 *     unchanged.
 *
 * @code
 * static const uint8_t bits[24] = {1}; // the sample of frame 0 is not valid
 * uint32_t words[384] = {0};
 * assert(aes3_block_set_validity(words, 1, bits) == 384);
 * assert(words[0] == (1u << 28 | 1u << 31));
 * @endcode
 */
uint32_t aes3_block_set_validity(uint32_t words[384], uint8_t channel, const uint8_t bits[24]);

/**
 * Sets the U bits of a channel, and the parity bits. Nothing else changes, and each word is valid.
 *
 * @param[in,out] words  the words of the block
 * @param channel  1 or 2
 * @param bits  24 octets, as aes3_block_user() puts them
 * @return 384; or the number of the first word that is not valid; or #AES3_NO_CHANNEL for another channel. Then `words` is
 *     unchanged.
 *
 * @code
 * static const uint8_t bits[24] = {1};
 * uint32_t words[384] = {0};
 * assert(aes3_block_set_user(words, 2, bits) == 384);
 * assert(words[1] == (1u << 29 | 1u << 31));
 * @endcode
 */
uint32_t aes3_block_set_user(uint32_t words[384], uint8_t channel, const uint8_t bits[24]);

/**
 * Puts the samples of a block as `aes3 to-pcm` writes them. The V bits make no difference.
 *
 * @param words  the words of the block
 * @param[out] samples  384 samples, channel 1 and then channel 2 of each frame: 24 bits in the highest of 32, and 0 in the
 *     lowest 8
 * @return 384; or the number of the first word that is not valid, and `samples` is unchanged
 *
 * @code
 * uint32_t words[384] = {0};
 * int32_t samples[384];
 * words[0] = 0x123456u << 4 | 1u << 31;
 * assert(aes3_block_samples(words, samples) == 384 && samples[0] == 0x12345600);
 * @endcode
 */
uint32_t aes3_block_samples(const uint32_t words[384], int32_t samples[384]);

/**
 * Puts the words of a block of samples, as `aes3 from-pcm` makes them. V, U and C are 0; aes3_block_set_status() sets C.
 *
 * @param samples  384 samples, channel 1 and then channel 2 of each of 192 frames. The highest 24 bits of each are sent; the
 *     lowest 8 make no difference.
 * @param[out] words  the words of the block
 *
 * @code
 * int32_t samples[384] = {0x12345600};
 * uint32_t words[384];
 * aes3_block_of_samples(samples, words);
 * assert(words[0] == (0x123456u << 4 | 1u << 31));
 * @endcode
 */
void aes3_block_of_samples(const int32_t samples[384], uint32_t words[384]);

/** How the words of subframes are in octets, four for each. */
enum aes3_subframe_form {
    AES3_SUBFRAMES_OWN = 0,  /**< as in a block file: the lowest octet first, and 0 in bits 0 to 3 */
    AES3_SUBFRAMES_ALSA = 1, /**< ALSA's `IEC958_SUBFRAME_LE`: the same with a code in bits 0 to 3, of preamble Z 8, of X 2, of Y 4 */
    AES3_SUBFRAMES_AM824 = 2 /**< AM824 (IEC 61883-6, ST 2110-31): an octet with the bits 0, 0, B, F, P, C, U and V, then 24 bits of
                                  audio, the highest octet first */
};

/**
 * Puts the words of many blocks in a form, as `aes3 decode --words` writes them.
 *
 * It takes whole blocks, as long as there is room for 1,536 octets. If a word is not valid, it puts the blocks before that word's.
 *
 * @param words  the words of the blocks, 384 for each
 * @param count  how many words; those after the last whole block make no difference
 * @param form  an #aes3_subframe_form; any other number counts as #AES3_SUBFRAMES_OWN
 * @param[out] octets  1,536 octets for each block, four for each word; unchanged after those put
 * @param room  how many octets there is room for
 * @return 384 for each block that is there and has room; or, if one of their words is not valid, the number of the first such
 *     word, counted from 0 in `words`. Divided by 384 and rounded down, it is how many blocks were put.
 *
 * @code
 * static const uint32_t words[384] = {0};
 * static uint8_t octets[1536];
 * assert(aes3_subframes_of_blocks(words, 384, AES3_SUBFRAMES_ALSA, octets, sizeof octets) == 384);
 * assert(octets[0] == 8 && octets[4] == 4 && octets[8] == 2); // preambles Z, Y and X
 * @endcode
 */
size_t aes3_subframes_of_blocks(const uint32_t *words, size_t count, uint8_t form, uint8_t *octets, size_t room);

/**
 * Puts the words of the blocks that octets in a form have, as `aes3 encode --words` reads them.
 *
 * The first octets are those of the first word of a block: its code is that of preamble Z. In ALSA's form, words may also have the
 * code 0. A word with the code of another preamble is not valid. It takes whole blocks, as long as there is room for 384 words. If
 * a word is not valid, it puts the blocks before that word's.
 *
 * @param octets  1,536 octets for each block
 * @param count  how many octets; those after the last whole block make no difference
 * @param form  an #aes3_subframe_form; any other number counts as #AES3_SUBFRAMES_OWN
 * @param[out] words  the words of the blocks, 384 for each; unchanged after those put
 * @param room  how many words there is room for
 * @return 384 for each block that is there and has room; or, if one of their words is not valid, the number of the first such
 *     word, counted from 0. Divided by 384 and rounded down, it is how many blocks were put.
 *
 * @code
 * static const uint32_t zeros[384] = {0};
 * static uint8_t octets[1536];
 * static uint32_t words[384];
 * aes3_subframes_of_blocks(zeros, 384, AES3_SUBFRAMES_AM824, octets, sizeof octets);
 * assert(aes3_blocks_of_subframes(octets, sizeof octets, AES3_SUBFRAMES_AM824, words, 384) == 384);
 * octets[0] = 0x10; // the first word has the code of preamble X
 * assert(aes3_blocks_of_subframes(octets, sizeof octets, AES3_SUBFRAMES_AM824, words, 384) == 0);
 * @endcode
 */
size_t aes3_blocks_of_subframes(const uint8_t *octets, size_t count, uint8_t form, uint32_t *words, size_t room);

/** How the 24 bits of a sample are in octets, the lowest octet first. */
enum aes3_sample_form {
    AES3_SAMPLES_S32 = 0,       /**< the highest 24 of 32 bits; the lowest 8 are 0, and read they make no difference (ALSA's S32_LE) */
    AES3_SAMPLES_S24 = 1,       /**< three octets (S24_3LE) */
    AES3_SAMPLES_S24_IN_32 = 2, /**< the lowest 24 of 32 bits; the highest octet is the sign, and read it makes no difference (S24_LE) */
    AES3_SAMPLES_S16 = 3        /**< the highest 16 bits in two octets; the lowest 8 are dropped, and read they are 0 (S16_LE) */
};

/**
 * Puts the samples of many blocks in a form, as `aes3 to-pcm --pcm` writes them.
 *
 * It takes whole blocks, as long as there is room for their samples: 384 of 2, 3 or 4 octets. If a word is not valid, it puts the
 * samples of the blocks before that word's.
 *
 * @param words  the words of the blocks, 384 for each
 * @param count  how many words; those after the last whole block make no difference
 * @param form  an #aes3_sample_form; any other number counts as #AES3_SAMPLES_S32
 * @param[out] octets  384 samples for each block, channel 1 and then channel 2 of each frame; unchanged after those put
 * @param room  how many octets there is room for
 * @return 384 for each block that is there and has room; or, if one of their words is not valid, the number of the first such
 *     word, counted from 0 in `words`. Divided by 384 and rounded down, it is how many blocks were put.
 *
 * @code
 * static uint32_t words[384];
 * static uint8_t octets[384 * 2];
 * words[0] = 0x123456u << 4 | 1u << 31;
 * assert(aes3_samples_of_blocks(words, 384, AES3_SAMPLES_S16, octets, sizeof octets) == 384);
 * assert(octets[0] == 0x34 && octets[1] == 0x12);
 * @endcode
 */
size_t aes3_samples_of_blocks(const uint32_t *words, size_t count, uint8_t form, uint8_t *octets, size_t room);

/**
 * Puts the words of the blocks that samples in a form make, as `aes3 from-pcm --pcm` does. V, U and C are 0.
 *
 * It takes whole blocks, as long as there is room for 384 words.
 *
 * @param octets  384 samples for each block, channel 1 and then channel 2 of each frame
 * @param count  how many octets; those after the last whole block make no difference
 * @param form  an #aes3_sample_form; any other number counts as #AES3_SAMPLES_S32
 * @param[out] words  the words of the blocks, 384 for each; unchanged after those put
 * @param room  how many words there is room for
 * @return how many words it put: 384 for each block that is there and has room
 *
 * @code
 * static uint8_t octets[384 * 3] = {0x56, 0x34, 0x12};
 * static uint32_t words[384];
 * assert(aes3_blocks_of_samples(octets, sizeof octets, AES3_SAMPLES_S24, words, 384) == 384);
 * assert(words[0] == (0x123456u << 4 | 1u << 31));
 * @endcode
 */
size_t aes3_blocks_of_samples(const uint8_t *octets, size_t count, uint8_t form, uint32_t *words, size_t room);

/**
 * Finds the first word of blocks whose sample would lose bits in a form, as `aes3 to-pcm --exact` does.
 *
 * Only #AES3_SAMPLES_S16 loses bits: the lowest 8 of 24, if one of them is set. aes3_samples_of_blocks() drops them.
 *
 * @param words  the words of blocks; it makes no difference whether they are valid, nor whether the last block is whole
 * @param count  how many words
 * @param form  an #aes3_sample_form; any other number counts as #AES3_SAMPLES_S32
 * @return the number of that word, counted from 0 in `words`, or `count` if no sample would lose bits. Divided by 384 and rounded
 *     down, it is how many whole blocks there are before the first that would lose bits.
 *
 * @code
 * static uint32_t words[384];
 * words[5] = 0x123400u << 4;
 * assert(aes3_blocks_fit(words, 384, AES3_SAMPLES_S16) == 384);
 * words[5] = 0x123401u << 4;
 * assert(aes3_blocks_fit(words, 384, AES3_SAMPLES_S16) == 5);
 * assert(aes3_blocks_fit(words, 384, AES3_SAMPLES_S24) == 384);
 * @endcode
 */
size_t aes3_blocks_fit(const uint32_t *words, size_t count, uint8_t form);

/**
 * Finds the first sample in a form that has more than 24 bits, as `aes3 from-pcm --exact` does.
 *
 * Only samples in #AES3_SAMPLES_S32 can have more: their lowest octet is not 0 then. aes3_blocks_of_samples() drops it.
 *
 * @param octets  samples, from the lowest octet of the first one on; the last one need not be whole
 * @param count  how many octets
 * @param form  an #aes3_sample_form; any other number counts as #AES3_SAMPLES_S32
 * @return the number of the lowest octet of that sample, counted from 0 in `octets`, or `count` if no sample has more bits
 *
 * @code
 * static const uint8_t octets[12] = {0, 0x56, 0x34, 0x12, 0x01, 0x56, 0x34, 0x12};
 * assert(aes3_samples_fit(octets, 12, AES3_SAMPLES_S32) == 4);
 * assert(aes3_samples_fit(octets, 12, AES3_SAMPLES_S24) == 12);
 * @endcode
 */
size_t aes3_samples_fit(const uint8_t *octets, size_t count, uint8_t form);

/** @} */

/**
 * @defgroup cells Words of cells
 * Words of cells from text and octets, and back.
 * @{
 */

/**
 * Puts the word of 64 characters.
 *
 * @param text  64 characters, the first cell first; no 0 is needed after them
 * @param[out] word  the word of cells
 * @return true if each is `0` or `1`; else false, and `*word` is unchanged
 *
 * @code
 * uint8_t line[65];
 * uint64_t word;
 * aes3_line_of_word(0x1B33, line); // cells 1 1 0 0 1 1 0 0 1 1 0 1 1, and zeros
 * assert(aes3_word_of_text(line, &word) && word == 0x1B33);
 * line[5] = 'x';
 * assert(!aes3_word_of_text(line, &word));
 * @endcode
 */
bool aes3_word_of_text(const uint8_t text[64], uint64_t *word);

/**
 * The word of eight octets.
 *
 * @param octets  octets of cells, the first cell in the highest bit of the first
 * @return the word of cells
 *
 * @code
 * static const uint8_t octets[8] = {0x80};
 * assert(aes3_word_of_octets(octets) == 1);
 * @endcode
 */
uint64_t aes3_word_of_octets(const uint8_t octets[8]);

/**
 * Puts the words of octets, as long as there are eight more octets and room for a word.
 *
 * @param octets  octets of cells
 * @param count  how many octets
 * @param[out] words  words of cells
 * @param room  how many words there is room for
 * @return how many words it put
 *
 * @code
 * static const uint8_t octets[20] = {0x80, 0, 0, 0, 0, 0, 0, 0, 0x40};
 * uint64_t words[3];
 * assert(aes3_words_of_octets(octets, 20, words, 3) == 2);
 * assert(words[0] == 1 && words[1] == 2);
 * @endcode
 */
size_t aes3_words_of_octets(const uint8_t *octets, size_t count, uint64_t *words, size_t room);

/**
 * Puts the cells of a word as text.
 *
 * @param word  the word of cells
 * @param[out] line  64 characters `0` and `1`, and a line feed; no 0 at the end
 *
 * @code
 * uint8_t line[65];
 * aes3_line_of_word(5, line);
 * assert(memcmp(line, "10100", 5) == 0 && line[64] == '\n');
 * @endcode
 */
void aes3_line_of_word(uint64_t word, uint8_t line[65]);

/**
 * Puts the cells of a word as eight octets. Packed cells end with one octet more, the number of unused cells; here that is 0.
 *
 * @param word  the word of cells
 * @param[out] octets  eight octets, the first cell in the highest bit of the first
 *
 * @code
 * uint8_t octets[8];
 * aes3_octets_of_word(5, octets);
 * assert(octets[0] == 0xA0 && octets[1] == 0);
 * @endcode
 */
void aes3_octets_of_word(uint64_t word, uint8_t octets[8]);

/**
 * Reverses the bits of each octet: the lowest becomes the highest.
 *
 * The other calls have the first cell of an octet in the highest bit. For octets that have it in the lowest bit
 * (`--lsb-first`), use this call before those that take octets, and after those that put octets. Leave out the last octet of
 * packed cells, which is a number.
 *
 * @param[in,out] octets  the octets
 * @param count  how many octets
 *
 * @code
 * uint8_t octets[2] = {0x17, 0x01}; // cells 1 1 1 0 1 0 0 0 and 1 0 0 0 0 0 0 0
 * aes3_reverse_octets(octets, 2);
 * assert(octets[0] == 0xE8 && octets[1] == 0x80);
 * aes3_reverse_octets(octets, 2);
 * assert(octets[0] == 0x17 && octets[1] == 0x01);
 * @endcode
 */
void aes3_reverse_octets(uint8_t *octets, size_t count);

/** @} */

/**
 * @defgroup status Channel status
 * The 24 bytes of a channel status: their fields, check byte and text.
 * @{
 */

/**
 * The fields of a status for professional use (AES3-2). A field of bits is a number; its lowest bit is the first that is sent.
 */
typedef struct aes3_professional {
    uint8_t payload;        /**< byte 0 bit 1: 0 linear PCM, 1 other */
    uint8_t emphasis;       /**< byte 0 bits 2 to 4: pre-emphasis */
    uint8_t unlocked;       /**< byte 0 bit 5: the source's sampling frequency is unlocked */
    uint8_t rate;           /**< byte 0 bits 6 and 7: sampling frequency */
    uint8_t mode;           /**< byte 1 bits 0 to 3: channel mode */
    uint8_t user;           /**< byte 1 bits 4 to 7: management of the user bits */
    uint8_t aux;            /**< byte 2 bits 0 to 2: use of the auxiliary bits */
    uint8_t word;           /**< byte 2 bits 3 to 5: sample word length, a code under that of aux */
    uint8_t b2high;         /**< byte 2 bits 6 and 7: alignment level */
    uint8_t b3;             /**< byte 3: multichannel use */
    uint8_t b4;             /**< byte 4: reference signal, further sampling frequencies */
    uint8_t b5;             /**< byte 5 */
    uint8_t origin[4];      /**< bytes 6 to 9: four characters */
    uint8_t destination[4]; /**< bytes 10 to 13: four characters */
    uint32_t local;         /**< bytes 14 to 17: local sample address */
    uint32_t time;          /**< bytes 18 to 21: sample address of the time of day */
    uint8_t unreliable;     /**< byte 22 bits 4 to 7: bytes 0 to 5, 6 to 13, 14 to 17, 18 to 21 are unreliable */
    uint8_t b22low;         /**< byte 22 bits 0 to 3 */
} aes3_professional;
AES3_SIZE(aes3_professional, 32);

/** The fields of a status for consumer use (IEC 60958-3), likewise. */
typedef struct aes3_consumer {
    uint8_t payload;    /**< byte 0 bit 1: 0 linear PCM, 1 other */
    uint8_t copyright;  /**< byte 0 bit 2: 0 asserted, 1 not asserted */
    uint8_t emphasis;   /**< byte 0 bits 3 to 5: of linear PCM the pre-emphasis */
    uint8_t mode;       /**< byte 0 bits 6 and 7: status mode */
    uint8_t category;   /**< byte 1 bits 0 to 6: category code without its last bit */
    uint8_t generation; /**< byte 1 bit 7: generation status */
    uint8_t source;     /**< byte 2 bits 0 to 3: source number */
    uint8_t number;     /**< byte 2 bits 4 to 7: channel number */
    uint8_t rate;       /**< byte 3 bits 0 to 3: sampling frequency */
    uint8_t accuracy;   /**< byte 3 bits 4 and 5: clock accuracy */
    uint8_t b3high;     /**< byte 3 bits 6 and 7 */
    uint8_t greatest;   /**< byte 4 bit 0: greatest sample word length, 0 for 20 bits, 1 for 24 */
    uint8_t word;       /**< byte 4 bits 1 to 3: sample word length, a code under that of greatest */
    uint8_t original;   /**< byte 4 bits 4 to 7: original sampling frequency */
    uint8_t rest[19];   /**< bytes 5 to 23 */
} aes3_consumer;
AES3_SIZE(aes3_consumer, 33);

/**
 * Puts the fields of a status for professional use.
 *
 * @param status  the bytes of a status
 * @param[out] fields  its fields
 * @return true if the status is for professional use (byte 0 bit 0 is 1); else false, and `*fields` is unchanged
 *
 * @code
 * static const uint8_t status[24] = {0x85, 0x02, 0x2C};
 * aes3_professional fields;
 * assert(aes3_status_professional(status, &fields));
 * assert(fields.rate == 2 && fields.mode == 2); // 48 kHz, stereophonic
 * @endcode
 */
bool aes3_status_professional(const uint8_t status[24], aes3_professional *fields);

/**
 * Puts the fields of a status for consumer use.
 *
 * @param status  the bytes of a status
 * @param[out] fields  its fields
 * @return true if the status is for consumer use (byte 0 bit 0 is 0); else false, and `*fields` is unchanged
 *
 * @code
 * static const uint8_t status[24] = {0x04, 0, 0, 0x02, 0x0B};
 * aes3_consumer fields;
 * assert(aes3_status_consumer(status, &fields));
 * assert(fields.rate == 2 && fields.greatest == 1 && fields.word == 5); // 48 kHz, 24 bits
 * @endcode
 */
bool aes3_status_consumer(const uint8_t status[24], aes3_consumer *fields);

/**
 * Puts the status for professional use that has these fields, with its check byte.
 *
 * @param fields  the fields; a field of n bits has a code up to 2^n - 1
 * @param[out] status  the bytes of the status
 * @return true; or false if a code is greater, and `status` is unchanged
 *
 * @code
 * aes3_professional fields = {0};
 * uint8_t status[24];
 * fields.rate = 2;
 * assert(aes3_status_of_professional(&fields, status) && status[0] == 0x81);
 * fields.rate = 4; // it has two bits
 * assert(!aes3_status_of_professional(&fields, status));
 * @endcode
 */
bool aes3_status_of_professional(const aes3_professional *fields, uint8_t status[24]);

/**
 * Puts the status for consumer use that has these fields. It has no check byte.
 *
 * @param fields  the fields; a field of n bits has a code up to 2^n - 1
 * @param[out] status  the bytes of the status
 * @return true; or false if a code is greater, and `status` is unchanged
 *
 * @code
 * aes3_consumer fields = {0};
 * uint8_t status[24];
 * fields.copyright = 1;
 * fields.rate = 2;
 * assert(aes3_status_of_consumer(&fields, status) && status[0] == 4 && status[3] == 2);
 * @endcode
 */
bool aes3_status_of_consumer(const aes3_consumer *fields, uint8_t status[24]);

/**
 * The check byte (CRCC) of a status for professional use, which belongs into byte 23 (AES3-2).
 *
 * @param status  the bytes of the status; byte 23 makes no difference
 * @return the check byte of bytes 0 to 22
 *
 * @code
 * uint8_t status[24] = {0x85, 0x02, 0x2C};
 * status[23] = aes3_status_check_byte(status);
 * assert(aes3_status_check_state(status) == AES3_GOOD);
 * @endcode
 */
uint8_t aes3_status_check_byte(const uint8_t status[24]);

/** Whether byte 23 of a status for professional use is its check byte. */
enum aes3_check {
    AES3_GOOD = 0,   /**< it is the check byte */
    AES3_ABSENT = 1, /**< it is not, and is zero, as from a source that sends none */
    AES3_BAD = 2     /**< it is not, and is not zero */
};

/**
 * Whether byte 23 of a status for professional use is its check byte.
 *
 * @param status  the bytes of the status
 * @return an #aes3_check
 *
 * @code
 * uint8_t status[24] = {0x85, 0x02, 0x2C};
 * assert(aes3_status_check_state(status) == AES3_ABSENT);
 * status[23] = (uint8_t)(aes3_status_check_byte(status) ^ 1);
 * assert(aes3_status_check_state(status) == AES3_BAD);
 * @endcode
 */
uint8_t aes3_status_check_state(const uint8_t status[24]);

/**
 * The word of the state of a check byte, as `aes3 show` prints it after `check=`.
 *
 * @param check  an #aes3_check
 * @return a constant text: `good`, `absent` or `bad`; of any other number `unknown state`
 *
 * @code
 * static const uint8_t status[24] = {0x85, 0x02, 0x2C};
 * assert(strcmp(aes3_check_text(aes3_status_check_state(status)), "absent") == 0);
 * @endcode
 */
static inline const char *aes3_check_text(uint8_t check) {
    static const char *const texts[] = {"good", "absent", "bad"};
    return check <= AES3_BAD ? texts[check] : "unknown state";
}

/**
 * Puts the use and the fields of a status as `aes3 show` prints them: ` professional payload=pcm emphasis=none ..`.
 *
 * @param status  the bytes of the status
 * @param[out] text  the text, each word after a space, and no 0 at the end; 800 characters at most
 * @return how many characters it put; those after them are unchanged
 *
 * @code
 * static const uint8_t status[24] = {0x04, 0, 0, 0x02, 0x0B};
 * char text[800];
 * const uint32_t length = aes3_status_text(status, text);
 * assert(length > 30 && memcmp(text, " consumer payload=pcm", 21) == 0);
 * @endcode
 */
uint32_t aes3_status_text(const uint8_t status[24], char text[800]);

/** What aes3_status_set() returns. */
enum aes3_set {
    AES3_SET_DONE = 0,    /**< the status has the setting */
    AES3_SET_UNKNOWN = 1, /**< no field is printed so, and no field of four bytes takes the value */
    AES3_SET_REFUSED = 2     /**< the field is one of the other use, or has no code for it in this status */
};

/**
 * What an answer of aes3_status_set() says.
 *
 * @param answer  an #aes3_set
 * @return a constant text without a full stop; of any other number `unknown answer`
 *
 * @code
 * assert(strcmp(aes3_set_text(AES3_SET_REFUSED), "this status has no such setting") == 0);
 * @endcode
 */
static inline const char *aes3_set_text(uint8_t answer) {
    static const char *const texts[] = {"the field is set", "no field is printed so", "this status has no such setting"};
    return answer <= AES3_SET_REFUSED ? texts[answer] : "unknown answer";
}

/**
 * Sets a field of a status by its name, as `aes3 rewrite --set` does. Byte 23 keeps its value: for professional use put
 * aes3_status_check_byte() there after the last setting.
 *
 * Names and words are those of `aes3 show` and `aes3 show --names`, also `use=professional` and `use=consumer`. A word length needs
 * the right aux or greatest before it. The four fields of four bytes are `origin`, `destination`, `local` and `time`.
 *
 * @param[in,out] status  the bytes of a status
 * @param text  `NAME=WORD`; no 0 is needed after it
 * @param count  how many characters
 * @return an #aes3_set; if it is not #AES3_SET_DONE, `status` is unchanged
 *
 * @code
 * uint8_t status[24] = {0x04, 0, 0, 0x02, 0x0B}; // consumer use
 * assert(aes3_status_set(status, "emphasis=50/15", 14) == AES3_SET_DONE && status[0] == 0x0C);
 * assert(aes3_status_set(status, "emphasis=50/16", 14) == AES3_SET_UNKNOWN);
 * assert(aes3_status_set(status, "unlocked=yes", 12) == AES3_SET_REFUSED); // a field of professional use
 * @endcode
 */
uint8_t aes3_status_set(uint8_t status[24], const char *text, size_t count);

/** @} */

/**
 * @defgroup capture Captures
 * The samples of a logic analyser.
 * @{
 */

/** What was found of a line among samples. */
typedef struct aes3_capture {
    uint64_t octets;   /**< octets of packed cells that were put */
    uint64_t samples;  /**< samples taken */
    uint64_t cells;    /**< cells recovered of them */
    uint64_t period;   /**< how long a cell was last, in 65,536ths of a sample; 0 if none was given or found */
    uint64_t edges;    /**< edges followed */
    uint64_t greatest; /**< the greatest distance of an edge from its place, in 256ths of a sample */
    uint64_t squares;  /**< the sum of the squares of these distances */
    uint64_t dead;     /**< stretches without signal */
    uint64_t dead_at;  /**< the sample at which the latest of them began */
    uint64_t measured; /**< how often the line was measured; 0 if no line was found */
} aes3_capture;
AES3_SIZE(aes3_capture, 80);

/**
 * Recovers the cells of a line from all samples of a capture, packed as `aes3-cells --packed-out` writes them.
 *
 * If found->measured is 0, no line was found. If then `period` is 0 or outside its limits, there are no cells. Otherwise the cells
 * are counted by `period` alone, and no measurement confirmed them. Then the samples are not a line of that period, or too few
 * edges came to check it: 129 up to the end are enough.
 *
 * @param samples  octets of samples, of two the lower first
 * @param count  how many octets
 * @param unit  octets a sample, 1 or 2; any other number counts as 1
 * @param bit  the bit of a sample that is the line, 0 to 7 or 0 to 15; of a greater number its remainder by 8 or 16
 * @param period  how long a cell is, in 65,536ths of a sample: 132,096 to 524,288,000 (2.015625 to 8,000 samples). If it is 0,
 *     it is measured, within the same limits.
 * @param[out] cells  packed cells; unchanged after found->octets octets
 * @param room  how many octets there is room for; a quarter of `count`, and 64, are enough for any samples
 * @param[out] found  what was found of the line, in all samples
 * @return true if all cells fit; else false, and `cells` has the first `room` octets of them
 *
 * @code
 * static uint8_t samples[4 * 24576], packed[24576 + 64];
 * static const uint32_t zeros[384] = {0};
 * uint64_t cells[384];
 * aes3_capture found;
 * aes3_encode_block(zeros, 0, cells);
 * for (size_t i = 0; i < sizeof samples; i++) // four samples a cell, in bit 3
 *     samples[i] = (uint8_t)((cells[i / 256] >> i / 4 % 64 & 1) << 3);
 * assert(aes3_capture_cells(samples, sizeof samples, 1, 3, 0, packed, sizeof packed, &found));
 * assert(found.measured > 0 && found.cells == 24576 && found.octets == 3073);
 * @endcode
 */
bool aes3_capture_cells(const uint8_t *samples, size_t count, uint8_t unit, uint8_t bit, uint64_t period,
                        uint8_t *cells, size_t room, aes3_capture *found);

/**
 * What is kept of a capture that comes in pieces. One recovery takes one line; several lines of a capture take one each.
 */
typedef struct aes3_recovery {
    uint64_t state[813]; /**< opaque */
} aes3_recovery;
AES3_SIZE(aes3_recovery, 6504);

/**
 * Makes a recovery of which no sample came.
 *
 * @param[out] recovery  the recovery
 * @param period  how long a cell is, as aes3_capture_cells() takes it; if it is 0, it is measured
 *
 * @code
 * static aes3_recovery recovery;
 * aes3_capture found;
 * aes3_recovery_init(&recovery, 0);
 * aes3_recovery_figures(&recovery, &found);
 * assert(found.samples == 0 && found.cells == 0 && found.measured == 0);
 * @endcode
 */
void aes3_recovery_init(aes3_recovery *recovery, uint64_t period);

/**
 * Takes samples, 4,032 octets at most, and puts packed cells. The cells of all calls, with those of aes3_recovery_finish(), are those
 * that aes3_capture_cells() puts of all samples at once.
 *
 * A full `cells` is no error: cells that find no room are kept, and come first in the next call. While some are kept, no samples are
 * taken. Give the samples again that were not taken. When a line is found, the cells of all samples before it come at once.
 *
 * Each call copies 13 KB, so give 4,032 octets at once if you can.
 *
 * @param recovery  the recovery
 * @param samples  octets of samples, of two the lower first
 * @param count  how many octets
 * @param unit  octets a sample, as in aes3_capture_cells(), and the same in each call
 * @param bit  the bit of a sample that is the line, likewise
 * @param[out] taken  how many octets of samples were taken: whole samples, and none after aes3_recovery_finish()
 * @param[out] cells  packed cells; unchanged after `*put` octets
 * @param room  how many octets there is room for, at least 1
 * @param[out] put  how many octets of cells were put
 * @return true if all whole samples were taken, else false. Then `cells` is full, or some samples were taken, or aes3_recovery_finish()
 *     was called before. Otherwise the cells of the next two octets of samples are more than 1,024 stretches of equal octets, and can't
 *     be kept: no capture was seen to have so many.
 *
 * @code
 * static uint8_t samples[4 * 24576], packed[24576];
 * static const uint32_t zeros[384] = {0};
 * static aes3_recovery recovery;
 * uint64_t cells[384];
 * aes3_capture found;
 * size_t at = 0, taken, all = 0, put;
 * aes3_encode_block(zeros, 0, cells);
 * for (size_t i = 0; i < sizeof samples; i++) // four samples a cell, in bit 3
 *     samples[i] = (uint8_t)((cells[i / 256] >> i / 4 % 64 & 1) << 3);
 * aes3_recovery_init(&recovery, 0);
 * for (; at < sizeof samples; at += taken, all += put) {
 *     const size_t left = sizeof samples - at;
 *     aes3_recovery_take(&recovery, samples + at, left < 1000 ? left : 1000, 1, 3, &taken, packed + all, 64, &put);
 * }
 * while (!aes3_recovery_finish(&recovery, packed + all, 64, &put))
 *     all += put;
 * all += put;
 * aes3_recovery_figures(&recovery, &found);
 * assert(found.measured > 0 && found.cells == 24576 && found.octets == all && all == 3073);
 * @endcode
 */
bool aes3_recovery_take(aes3_recovery *recovery, const uint8_t *samples, size_t count, uint8_t unit, uint8_t bit, size_t *taken,
                        uint8_t *cells, size_t room, size_t *put);

/**
 * Takes the end of the samples, and puts the last packed cells. Call it again, with more room, until it returns true.
 *
 * @param recovery  the recovery
 * @param[out] cells  packed cells; unchanged after `*put` octets
 * @param room  how many octets there is room for, at least 1
 * @param[out] put  how many octets of cells were put, fewer than `room` if the call returns true
 * @return true if all cells were put; else false, and `cells` is full. Otherwise the last cells are more than 1,024 stretches of equal
 *     octets, likewise.
 *
 * @code
 * static aes3_recovery recovery;
 * static const uint8_t samples[3] = {0, 1, 0};
 * uint8_t packed[8];
 * size_t taken, put;
 * aes3_recovery_init(&recovery, 131072 + 1024); // samples a cell: a little more than two
 * assert(aes3_recovery_take(&recovery, samples, 3, 1, 0, &taken, packed, sizeof packed, &put) && taken == 3 && put == 0);
 * assert(aes3_recovery_finish(&recovery, packed, sizeof packed, &put) && put > 0);
 * assert(aes3_recovery_finish(&recovery, packed, sizeof packed, &put) && put == 0);
 * @endcode
 */
bool aes3_recovery_finish(aes3_recovery *recovery, uint8_t *cells, size_t room, size_t *put);

/**
 * What was found of the line so far.
 *
 * @param recovery  the recovery
 * @param[out] found  what aes3_capture_cells() would have found in these samples; found->octets says how many octets were put
 *
 * @code
 * static aes3_recovery recovery;
 * static const uint8_t samples[100] = {0};
 * uint8_t packed[8];
 * size_t taken, put;
 * aes3_capture found;
 * aes3_recovery_init(&recovery, 0);
 * aes3_recovery_take(&recovery, samples, 100, 2, 15, &taken, packed, sizeof packed, &put);
 * aes3_recovery_figures(&recovery, &found);
 * assert(found.samples == 50 && found.octets == 0 && found.measured == 0);
 * @endcode
 */
void aes3_recovery_figures(const aes3_recovery *recovery, aes3_capture *found);

/**
 * A mark of a capture: its first `cells` cells are those of its first `samples` samples. A mark of no cell and no sample is one
 * too: before the first cell.
 */
typedef struct aes3_mark {
    uint64_t cells;   /**< how many cells */
    uint64_t samples; /**< how many samples */
} aes3_mark;
AES3_SIZE(aes3_mark, 16);

/**
 * Puts a mark after the cells that the samples so far decide. No later sample changes it.
 *
 * So the sample is found at which a cell begins, for instance that of a report. Keep the marks after some calls of
 * aes3_recovery_take(), and give the last mark up to the cell and the first one after it to aes3_sample_between(). With 64 octets
 * of samples a call there is a mark for every run or two of 64 cells. Then the sample is that of `aes3-cells --places`.
 *
 * Samples that wait for an edge are not in the mark. Cells that wait for room are.
 *
 * @param recovery  the recovery
 * @param[out] mark  the mark
 * @return true if there is one; else false, and `*mark` is unchanged: no line is found yet, or no sample came, or
 *     aes3_recovery_finish() took the end
 *
 * @code
 * static aes3_recovery recovery;
 * static uint8_t samples[4000], packed[256];
 * aes3_mark before = {0, 0}, after;
 * size_t taken, put;
 * for (int i = 0; i < 4000; i++) // an edge after every four samples
 *     samples[i] = i / 4 % 2;
 * aes3_recovery_init(&recovery, 4 * 65536); // four samples a cell
 * assert(!aes3_recovery_mark(&recovery, &after));
 * aes3_recovery_take(&recovery, samples, sizeof samples, 1, 0, &taken, packed, sizeof packed, &put);
 * assert(aes3_recovery_mark(&recovery, &after) && after.cells > 700 && after.samples == 4 * after.cells);
 * assert(aes3_sample_between(&before, &after, 50) == 200);
 * @endcode
 */
bool aes3_recovery_mark(const aes3_recovery *recovery, aes3_mark *mark);

/**
 * The sample at which a cell between two marks begins. The samples between the marks are shared out evenly to their cells.
 *
 * @param before  a mark up to the cell
 * @param after  a mark after the cell, of the same recovery, 2^32 cells after the first at most
 * @param cell  the number of the cell, counted from 0 at the first cell that was recovered
 * @return the number of the sample, counted from 0; before->samples for a cell before both marks, or if the marks are more than
 *     2^32 cells apart; after->samples for a cell after both
 *
 * @code
 * static const aes3_mark before = {64, 250}, after = {128, 506};
 * assert(aes3_sample_between(&before, &after, 64) == 250);
 * assert(aes3_sample_between(&before, &after, 65) == 254);
 * @endcode
 */
uint64_t aes3_sample_between(const aes3_mark *before, const aes3_mark *after, uint64_t cell);

/** @} */

/**
 * @defgroup wav WAV files
 * RIFF, RF64 and BW64, with PCM samples of 8, 16, 20, 24 or 32 bits.
 * @{
 */

/** What aes3_wav_read() returns. From 2 on the header is rejected, whatever octets follow. */
enum aes3_wav_answer {
    AES3_WAV_MORE = 0,         /**< the header is not whole: more octets are needed */
    AES3_WAV_HEADER = 1,       /**< the header is whole */
    AES3_WAV_NOT_RIFF = 2,     /**< the file begins with none of RIFF, RF64 and BW64 */
    AES3_WAV_NOT_WAVE = 3,     /**< it is a RIFF file of another kind than WAVE */
    AES3_WAV_SHORT_SIZES = 4,  /**< the chunk `ds64` is too short */
    AES3_WAV_SHORT_FORMAT = 5, /**< the chunk `fmt ` is too short */
    AES3_WAV_NOT_PCM = 6,      /**< the samples are not PCM, but for example floating point */
    AES3_WAV_NO_CHANNELS = 7,  /**< the samples have no channels */
    AES3_WAV_WRONG_BITS = 8,   /**< a sample has other bits than 8, 16, 20, 24 or 32, or more than its octets hold */
    AES3_WAV_WRONG_FRAME = 9,  /**< a frame has another number of octets than the samples of its channels */
    AES3_WAV_NO_FORMAT = 10,   /**< the samples come before their format */
    AES3_WAV_ENDED = 11        /**< for callers: the file ended where more octets are needed; no octets show it */
};

/** A number of octets or of frames that is not known: the samples go on to the end of their file. */
#define AES3_WAV_UNKNOWN ((uint64_t)-1)

/** What the header of a WAV file says. */
typedef struct aes3_wav {
    uint64_t start;    /**< the octet of the file at which the samples begin, counted from 0 */
    uint64_t len;      /**< octets of all samples, or AES3_WAV_UNKNOWN */
    uint32_t rate;     /**< frames a second */
    uint16_t channels; /**< samples a frame, 1 at least */
    uint8_t octets;    /**< octets a sample, 1 to 4, the lowest first; a frame has channels * octets */
    uint8_t bits;      /**< how many of its bits count, the highest ones: 8, 16, 20, 24 or 32 */
} aes3_wav;
AES3_SIZE(aes3_wav, 24);

/**
 * Judges the header of a WAV file by the file's first octets.
 *
 * If there are no more octets to read and more are needed, the file ended inside its header. A header that says 0 octets of
 * samples, or the greatest number, says none: wav->len is #AES3_WAV_UNKNOWN then. Otherwise other chunks may follow the samples.
 *
 * @param octets  the first octets of the file
 * @param count  how many octets
 * @param[out] wav  what the header says, if it is whole; else unchanged
 * @param[out] at  if more octets are needed, how many of the file's first octets at least, more than `count`; if the header is
 *     rejected, the octet that is wrong, counted from 0; else unchanged
 * @return an #aes3_wav_answer
 *
 * @code
 * uint8_t octets[AES3_WAV_OCTETS], answer;
 * const uint32_t length = aes3_wav_write(16, 48000, 192, octets);
 * uint64_t at = 0;
 * size_t count = 0;
 * aes3_wav wav;
 * while ((answer = aes3_wav_read(octets, count, &wav, &at)) == AES3_WAV_MORE)
 *     count = (size_t)at; // here read on, up to the octet before number `at`; a header may be long
 * assert(answer == AES3_WAV_HEADER && wav.start == length && wav.len == 768 && wav.rate == 48000);
 * @endcode
 */
uint8_t aes3_wav_read(const uint8_t *octets, size_t count, aes3_wav *wav, uint64_t *at);

/**
 * What an answer of aes3_wav_read() says. Of a rejected header it is what `aes3 from-wav` prints, without the numbers in it.
 *
 * @param answer  an #aes3_wav_answer
 * @return a constant text without a full stop; of any other number `unknown answer`
 *
 * @code
 * static const uint8_t octets[12] = {'O', 'g', 'g', 'S'};
 * aes3_wav wav;
 * uint64_t at;
 * const uint8_t answer = aes3_wav_read(octets, 12, &wav, &at);
 * assert(strcmp(aes3_wav_answer_text(answer), "this does not begin as a WAV file") == 0);
 * @endcode
 */
static inline const char *aes3_wav_answer_text(uint8_t answer) {
    static const char *const texts[] = {
        "more octets are needed",
        "the header is whole",
        "this does not begin as a WAV file",
        "this RIFF file is no WAV file",
        "its chunk `ds64` is too short",
        "its chunk `fmt ` is too short",
        "its samples are not PCM",
        "its samples have no channels",
        "samples of that many bits are not read",
        "its frames do not fit its channels",
        "its samples come before their format",
        "the file ends before its samples",
    };
    return answer <= AES3_WAV_ENDED ? texts[answer] : "unknown answer";
}

/**
 * Puts the samples of two channels of a WAV file, as aes3_block_of_samples() takes them.
 *
 * It takes whole frames, as long as there are octets and room for two samples.
 *
 * @param wav  what the header says
 * @param first  the channel of the first sample of each pair, counted from 1
 * @param second  the channel of the second one; if it is 0, its samples are zero
 * @param octets  octets of frames
 * @param count  how many octets
 * @param[out] samples  two samples for each frame: the highest bit of a sample is the highest of 32, and bits that don't count
 *     are 0. Those after them are unchanged.
 * @param room  how many samples there is room for
 * @return how many frames it took; 0 if `first` is 0, or if one of the two is greater than wav->channels
 *
 * @code
 * static const uint8_t frame[4] = {0x01, 0x02, 0x03, 0x04};
 * const aes3_wav wav = {80, 4, 48000, 2, 2, 16};
 * int32_t samples[2];
 * assert(aes3_wav_samples(&wav, 1, 2, frame, 4, samples, 2) == 1);
 * assert(samples[0] == 0x02010000 && samples[1] == 0x04030000);
 * @endcode
 */
size_t aes3_wav_samples(const aes3_wav *wav, uint16_t first, uint16_t second, const uint8_t *octets, size_t count,
                        int32_t *samples, size_t room);

/**
 * Puts the header of a WAV file of two channels, as `aes3 to-wav -o` writes it. From 4 GiB on the file is RF64.
 *
 * Samples follow it, channel 1 and 2 of each frame. Each has its highest `bits` bits in octets, the lowest octet first. The
 * header with the right number of frames can be written over one without it later: for the same `bits` it is always as long.
 *
 * @param bits  bits a sample: 16, 24 or 32
 * @param rate  frames a second
 * @param frames  how many frames; if it is #AES3_WAV_UNKNOWN, or 2^60 or more, the header says that the length is not known
 * @param[out] octets  the header; unchanged after it
 * @return how many octets it put, 80 or 104; 0 for other bits
 *
 * @code
 * uint8_t octets[104];
 * assert(aes3_wav_write(24, 48000, 192, octets) == 104 && memcmp(octets, "RIFF", 4) == 0);
 * assert(aes3_wav_write(20, 48000, 192, octets) == 0);
 * @endcode
 */
uint32_t aes3_wav_write(uint8_t bits, uint32_t rate, uint64_t frames, uint8_t octets[104]);

/** @} */

#undef AES3_SIZE

#ifdef __cplusplus
}
#endif
#endif
