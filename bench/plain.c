/* The plain program of this bench: the same work as aes3, a byte and a cell at a time.
 *
 * It is what one writes in an afternoon: right, in fixed memory, not tuned and not proved. It reads encode, decode,
 * normal, check and scan with --packed-in and --packed-out, and takes right input for granted; bench/forms compares
 * its output with that of aes3.
 */
#include <stdint.h>
#include <stdio.h>
#include <stdlib.h>
#include <string.h>

enum { SUBFRAMES = 384, SUBFRAME_CELLS = 64, BLOCK_CELLS = SUBFRAMES * SUBFRAME_CELLS };

/* Eight cells after a low level, the earliest in the highest bit (AES3-3; IEC 60958-1). */
enum { PREAMBLE_X = 0xE2, PREAMBLE_Y = 0xE4, PREAMBLE_Z = 0xE8 };

struct lock {
    uint64_t seen;      /* cells so far */
    unsigned window;    /* the last eight of them */
    int has_candidate;
    uint64_t at;        /* where the candidate begins */
    int before;         /* the level before it */
    int base;           /* the level before its subframe in hand */
    int last;           /* its last cell */
    int count;          /* its cells so far */
    int ones;           /* slots that are 1 in its subframe in hand */
    int wrong;          /* its subframes with a wrong parity bit */
    uint32_t words[SUBFRAMES];
};

struct output {
    int packed;
    int cells;          /* in the line or octet in hand */
    unsigned octet;
};

static int preamble_of(int subframe) {
    return subframe == 0 ? PREAMBLE_Z : subframe % 2 ? PREAMBLE_Y : PREAMBLE_X;
}

/* Whether the window holds a preamble: its letter and the level before it. */
static int find_preamble(unsigned window, int *before) {
    *before = window < 0x80;
    switch (*before ? window ^ 0xFF : window) {
    case PREAMBLE_X: return 'X';
    case PREAMBLE_Y: return 'Y';
    case PREAMBLE_Z: return 'Z';
    default: return 0;
    }
}

static void put_cell(struct output *out, int level) {
    if (out->packed) {
        out->octet = (out->octet << 1 | (unsigned)level) & 0xFF;
        if (++out->cells == 8) {
            putchar_unlocked((int)out->octet);
            out->cells = 0;
        }
    } else {
        putchar_unlocked('0' + level);
        if (++out->cells == SUBFRAME_CELLS) {
            putchar_unlocked('\n');
            out->cells = 0;
        }
    }
}

static void put_block(struct output *out, const uint32_t *words) {
    int level = 0;
    for (int subframe = 0; subframe < SUBFRAMES; subframe++) {
        int preamble = preamble_of(subframe), base = level;
        for (int k = 7; k >= 0; k--)
            put_cell(out, level = (preamble >> k & 1) ^ base);
        for (int slot = 4; slot < 32; slot++) {
            put_cell(out, level ^= 1);
            put_cell(out, level ^= words[subframe] >> slot & 1);
        }
    }
}

static void put_words(const uint32_t *words) {
    for (int i = 0; i < SUBFRAMES; i++)
        for (int shift = 0; shift < 32; shift += 8)
            putchar_unlocked((int)(words[i] >> shift & 0xFF));
}

/* What the cell `level` is to the candidate: NULL where it may stand, else why not. */
static const char *judge(struct lock *lock, int level) {
    int subframe = lock->count / SUBFRAME_CELLS, k = lock->count % SUBFRAME_CELLS;
    if (lock->count == BLOCK_CELLS)
        return level == lock->last ? "unclosed" : NULL;
    if (k < 8) {
        if (k == 0) {
            lock->base = lock->last;
            lock->ones = 0;
            lock->words[subframe] = 0;
        }
        return level == ((preamble_of(subframe) >> (7 - k) & 1) ^ lock->base) ? NULL : "preamble";
    }
    if (k % 2 == 0)
        return level == lock->last ? "biphase" : NULL;
    if (level != lock->last) {
        lock->ones++;
        lock->words[subframe] |= 1U << k / 2;
    }
    if (k == 63)
        lock->wrong += lock->ones % 2;
    return NULL;
}

static void begin(struct lock *lock, int before, int level) {
    lock->has_candidate = 1;
    lock->at = lock->seen - 8;
    lock->before = lock->base = before;
    lock->last = level;
    lock->count = 8;
    lock->ones = lock->wrong = 0;
    lock->words[0] = 0;
}

/* A command: what it does with each cell, and with the end. */
struct run {
    char command;       /* its first letter */
    struct lock lock;
    struct output out;
    int faults;
};

static void tell_block(struct run *run) {
    struct lock *lock = &run->lock;
    unsigned long long at = lock->at;
    if (lock->wrong) {
        run->faults = 1;
        if (run->command == 'c')
            printf("marked at %llu before %d wrong %d\n", at, lock->before, lock->wrong);
    } else if (run->command == 'c') {
        printf("whole at %llu before %d\n", at, lock->before);
    } else if (run->command == 'd') {
        put_words(lock->words);
    } else {
        put_block(&run->out, lock->words);
    }
}

static void take_cell(struct run *run, int level) {
    struct lock *lock = &run->lock;
    int before;
    if (lock->has_candidate) {
        const char *why = judge(lock, level);
        if (why) {
            run->faults = 1;
            if (run->command == 'c')
                printf("fault at %llu cell %llu %s\n", (unsigned long long)lock->at,
                       (unsigned long long)lock->seen, why);
        } else if (lock->count == BLOCK_CELLS) {
            tell_block(run);
        }
        if (why || lock->count == BLOCK_CELLS)
            lock->has_candidate = 0;
        lock->count++;
        lock->last = level;
    }
    lock->window = (lock->window << 1 | (unsigned)level) & 0xFF;
    lock->seen++;
    if (run->command == 's') {
        int letter = lock->seen >= 8 ? find_preamble(lock->window, &before) : 0;
        if (letter)
            printf("mark %c at %llu before %d\n", letter, (unsigned long long)lock->seen - 8, before);
    } else if (!lock->has_candidate && lock->seen >= 8 && find_preamble(lock->window, &before) == 'Z') {
        begin(lock, before, level);
    }
}

static void take_end(struct run *run) {
    struct lock *lock = &run->lock;
    if (lock->has_candidate && lock->count == BLOCK_CELLS)
        tell_block(run);
    else if (lock->has_candidate && run->command == 'c')
        printf("unfinished at %llu cells %d\n", (unsigned long long)lock->at, lock->count);
}

static void read_text(struct run *run) {
    int octet;
    while ((octet = getchar_unlocked()) != EOF)
        if (octet == '0' || octet == '1')
            take_cell(run, octet - '0');
}

/* The last octet says how many cells of the one before it are left unused. */
static void read_packed(struct run *run) {
    int octet, held[2] = {0, 0}, count = 0;
    while ((octet = getchar_unlocked()) != EOF) {
        if (count == 2)
            for (int k = 7; k >= 0; k--)
                take_cell(run, held[0] >> k & 1);
        else
            count++;
        held[0] = held[1];
        held[1] = octet;
    }
    for (int k = 7; count == 2 && k >= held[1]; k--)
        take_cell(run, held[0] >> k & 1);
}

static void encode(struct output *out) {
    unsigned char octets[4 * SUBFRAMES];
    uint32_t words[SUBFRAMES];
    while (fread(octets, sizeof octets, 1, stdin) == 1) {
        for (int i = 0; i < SUBFRAMES; i++)
            words[i] = (uint32_t)octets[4 * i] | (uint32_t)octets[4 * i + 1] << 8
                | (uint32_t)octets[4 * i + 2] << 16 | (uint32_t)octets[4 * i + 3] << 24;
        put_block(out, words);
    }
}

int main(int count, char **words) {
    static struct run run;
    int packed_in = 0;
    for (int i = 2; i < count; i++) {
        packed_in |= !strcmp(words[i], "--packed-in");
        run.out.packed |= !strcmp(words[i], "--packed-out");
    }
    run.command = count > 1 ? words[1][0] : 0;
    if (!run.command || !strchr("edncs", run.command)) {
        fputs("usage: plain encode|decode|normal|check|scan [--packed-in] [--packed-out]\n", stderr);
        return 2;
    }
    if (run.command == 'e')
        encode(&run.out);
    else if (packed_in)
        read_packed(&run);
    else
        read_text(&run);
    take_end(&run);
    if (run.out.packed)
        putchar_unlocked(0);
    return run.command == 'c' && run.faults;
}
