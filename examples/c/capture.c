/*
 * capture [BIT [UNIT]]: the samples of a logic analyser on standard input, all of a capture at once, the packed cells of the line in
 * bit BIT of them on standard output, as `aes3-cells --packed-out` writes them. UNIT is 2 where a sample has two octets.
 */
#include "aes3.h"
#include <stdio.h>
#include <stdlib.h>

int main(int count, char **words) {
    size_t len = 0, room = 1 << 16, cells_room;
    uint8_t *samples = (uint8_t *)malloc(room), *cells, *more;
    uint8_t bit = (uint8_t)(count > 1 ? atoi(words[1]) : 0), unit = (uint8_t)(count > 2 ? atoi(words[2]) : 1);
    aes3_capture found;
    int status = 0;
    while (samples && (len += fread(samples + len, 1, room - len, stdin)) == room) {
        room *= 2;
        more = (uint8_t *)realloc(samples, room);
        if (!more)
            free(samples);
        samples = more;
    }
    cells_room = len / 4 + 64;
    cells = (uint8_t *)malloc(cells_room);
    if (!samples || !cells) {
        fputs("capture: memory was refused\n", stderr);
        return 3;
    }
    if (!aes3_capture_cells(samples, len, unit, bit, 0, cells, cells_room, &found))
        status = 3;
    fwrite(cells, 1, found.octets, stdout);
    if (found.measured == 0) {
        fputs("capture: no line was found in this bit\n", stderr);
        status = 1;
    } else {
        fprintf(stderr, "capture: %llu cells, %.3f samples a cell\n", (unsigned long long)found.cells, (double)found.period / 65536);
    }
    free(samples);
    free(cells);
    return status;
}
