/* Where the buttons beside the levels lead. */

/* The cell of the next fault or marked block before (-1) a cell or behind it (1); -1 where there is none. */
export function nextFault(reports, way, from) {
    let best = -1;
    for (let i = 0; i < reports.count; i++) {
        const kind = reports.kind(i);
        if (kind === 2 || kind === 3) {
            const cell = kind === 3 ? reports.cells[i] : reports.places[i];
            const isNearer = best < 0 || (cell - best) * way < 0;
            best = (cell - from) * way > 0 && isNearer ? cell : best;
        }
    }
    return best;
}

/* The place of the next block, whole or not, before (-1) a cell or behind it (1); -1 where there is none. */
export function nextBlock(reports, way, from) {
    let best = -1;
    for (let i = 0; i < reports.count; i++) {
        const place = reports.places[i];
        if ((place - from) * way > 0 && (best < 0 || (place - best) * way < 0)) {
            best = place;
        }
    }
    return best;
}
