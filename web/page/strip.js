/* The whole input as a strip, in which a place is chosen by a click or by keys. */

import { BLOCK_CELLS } from "./codec.js";
import { lineOf } from "./reports.js";
import { plain } from "./words.js";

const HEIGHT = 30;
const NAMES = ["gap", "whole", "marked", "fault", "unfinished"];
const WORSE = [0, 1, 3, 4, 2];
const TALL = [HEIGHT, 18, 24, HEIGHT, 12]; // so that they differ by more than their colours

/* Draws the strip: a column of it shows the worst that stands there. */
export function drawStrip(canvas, { cells, reports }) {
    [canvas.width, canvas.height] = [canvas.clientWidth, HEIGHT];
    const style = getComputedStyle(canvas);
    const colours = NAMES.map(name => style.getPropertyValue(`--${name}`));
    const columns = new Uint8Array(canvas.width);
    const scale = canvas.width / Math.max(cells.total, 1);
    const brush = canvas.getContext("2d");
    const column = cell => Math.floor(cell * scale);
    for (let i = 0; i < reports.count; i++) {
        const kind = reports.kind(i);
        const end = Math.max(Math.ceil(reports.end(i) * scale), column(reports.places[i]) + 1);
        for (let x = column(reports.places[i]); x < end && x < columns.length; x++) {
            columns[x] = WORSE[kind] > WORSE[columns[x]] ? kind : columns[x];
        }
    }
    brush.fillStyle = colours[0];
    brush.fillRect(0, 0, canvas.width, HEIGHT);
    columns.forEach((kind, x) => {
        brush.fillStyle = colours[kind];
        brush.fillRect(x, HEIGHT - TALL[kind], 1, TALL[kind]);
    });
    if (BLOCK_CELLS * scale > 4) {
        brush.fillStyle = colours[0];
        for (let i = 0; i < reports.count; i++) {
            reports.kind(i) === 1 && brush.fillRect(column(reports.places[i]), 0, 1, HEIGHT);
        }
    }
}

/* What is at a cell, in words: the last report of it. */
function standing({ reports }, cell) {
    let says = "in no block";
    for (let i = 0; i < reports.count && reports.places[i] <= cell; i++) {
        says = cell < reports.end(i) ? lineOf(reports.get(i)) : says;
    }
    return says;
}

/* Says where the levels are, to the eye and to a screen reader. */
export function markPlace(canvas, marker, found, cell) {
    const { total } = found.cells;
    marker.style.left = `${100 * cell / Math.max(total, 1)}%`;
    canvas.setAttribute("aria-valuemax", Math.max(total - 1, 0));
    canvas.setAttribute("aria-valuenow", cell);
    canvas.setAttribute("aria-valuetext", `cell ${plain(cell)} of ${plain(total)}: ${standing(found, cell)}`);
}

/* The cell that a key asks for, from the one that is chosen; undefined for another key. */
export function placeByKey(key, cell, total) {
    const tenth = Math.max(BLOCK_CELLS, Math.floor(total / 10));
    const steps = {
        ArrowLeft: -BLOCK_CELLS, ArrowDown: -BLOCK_CELLS, ArrowRight: BLOCK_CELLS, ArrowUp: BLOCK_CELLS,
        PageDown: -tenth, PageUp: tenth, Home: -Infinity, End: Infinity,
    };
    return key in steps ? Math.max(0, Math.min(cell + steps[key], total - 1)) : undefined;
}
