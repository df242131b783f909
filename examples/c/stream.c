/*
 * stream [BIT [UNIT [PIECE [ROOM]]]]: the samples of a logic analyser on standard input, as they come, the packed cells of the line in bit
 * BIT of them on standard output, as `aes3-cells --packed-out` writes them. UNIT is 2 where a sample has two octets. It takes PIECE octets
 * at once, and has room for ROOM octets of cells.
 */
#include "aes3.h"
#include <stdio.h>
#include <stdlib.h>
#include <string.h>

enum { MOST = 65536 };

int main(int count, char **words) {
    static uint8_t samples[MOST], cells[MOST];
    static aes3_recovery recovery;
    uint8_t bit = (uint8_t)(count > 1 ? atoi(words[1]) : 0), unit = (uint8_t)(count > 2 ? atoi(words[2]) : 1);
    size_t piece = MOST, room = MOST, len = 0, read, taken, put;
    aes3_capture found;
    bool ended;
    if (count > 3)
        piece = (size_t)atoi(words[3]);
    if (count > 4)
        room = (size_t)atoi(words[4]);
    if (piece < unit || piece > MOST || room < 1 || room > MOST) {
        fputs("stream: PIECE and ROOM are 1 to 65536, and PIECE is a sample at least\n", stderr);
        return 2;
    }
    aes3_recovery_init(&recovery, 0);
    while ((read = fread(samples + len, 1, piece - len, stdin)) > 0) {
        len += read;
        aes3_recovery_take(&recovery, samples, len, unit, bit, &taken, cells, room, &put);
        fwrite(cells, 1, put, stdout);
        len -= taken;
        memmove(samples, samples + taken, len); /* what was not taken is given again */
        while (len >= unit) {
            aes3_recovery_take(&recovery, samples, len, unit, bit, &taken, cells, room, &put);
            fwrite(cells, 1, put, stdout);
            len -= taken;
            memmove(samples, samples + taken, len);
        }
    }
    do {
        ended = aes3_recovery_finish(&recovery, cells, room, &put);
        fwrite(cells, 1, put, stdout);
    } while (!ended);
    aes3_recovery_figures(&recovery, &found);
    if (found.measured == 0) {
        fputs("stream: no line was found in this bit\n", stderr);
        return 1;
    }
    fprintf(stderr, "stream: %llu cells, %.3f samples a cell\n", (unsigned long long)found.cells, (double)found.period / 65536);
    return 0;
}
