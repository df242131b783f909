/* The rows of the table of what was found. */

import { BLOCK_CELLS } from "./codec.js";
import { cellOf, rowOf } from "./elements.js";
import { durationOf } from "./rate.js";
import { lineOf } from "./reports.js";
import { cellCount, counted, plain } from "./words.js";

const FAULTS = {
    preamble: " does not match the expected preamble",
    biphase: " begins a time slot, and the level does not change there",
    unclosed: " is right after the block, and the level does not change there",
};

/* What a row of the table says: a report but that of a whole block, a stretch of whole blocks, or cells in none. */
function wordsOf({ report, blocks, gap }) {
    switch (report?.kind) {
        case "marked": {
            return `marked: parity is wrong in ${counted(report.wrong, "subframe", "subframes")} of the block, and nothing else`;
        }
        case "fault":
            return `fault, ${report.why}: cell ${plain(report.cell)}${FAULTS[report.why]}`;
        case "unfinished":
            return `unfinished: the input ends after ${cellCount(report.cell)} of a block, without fault`;
        default:
            return blocks ? `whole: ${counted(blocks, "block", "blocks one after the other")}`
                : `in no whole block: ${cellCount(gap)}`;
    }
}

/* The rows of the table in order of place; `to` is the cell that a row's button shows. */
function* rowsOf({ reports, cells }) {
    let stretch = null, behind = 0, held = []; // the rows of places after the last whole block
    for (let i = 0; i <= reports.count; i++) {
        const isEnd = i === reports.count;
        if (!isEnd && reports.kind(i) !== 1) {
            const report = reports.get(i);
            held.push({ at: report.at, to: report.kind === "fault" ? report.cell : report.at, report });
            continue;
        }
        const place = isEnd ? cells.total : reports.places[i];
        if (stretch && (isEnd || place > behind)) {
            yield stretch;
            stretch = null;
        }
        if (place > behind) {
            yield { at: behind, to: behind, gap: place - behind };
        }
        yield* held;
        held = [];
        stretch ??= { at: place, to: place, blocks: 0 };
        stretch.blocks++;
        behind = place + BLOCK_CELLS;
    }
}

const isFault = row => row.report?.kind === "fault" || row.report?.kind === "marked";

/* The first rows, up to so many faults and three times as many rows, and how many rows and faults are left out. */
export function firstRows(found, most) {
    const rows = [];
    const left = { rows: 0, faults: 0 };
    let faults = 0;
    for (const row of rowsOf(found)) {
        const isOne = isFault(row);
        if (left.rows > 0 || rows.length === 3 * most || isOne && faults === most) {
            left.rows++;
            left.faults += isOne;
        } else {
            rows.push(row);
            faults += isOne;
        }
    }
    return { rows, left };
}

/* A row of the table, whose button shows its place. */
export function rowElement(row, rate, show) {
    const button = cellOf("button", "show");
    button.setAttribute("aria-label", `show the levels at cell ${plain(row.to)}`);
    button.addEventListener("click", () => show(row.to));
    const last = cellOf("td", "");
    last.append(button);
    const place = cellOf("td", plain(row.at), "number");
    place.append(" ", cellOf("span", durationOf(row.at, rate), "time"));
    return rowOf(place, cellOf("td", wordsOf(row), isFault(row) ? "fault" : ""),
        cellOf("td", row.report ? lineOf(row.report) : "", "cells what line"), last);
}
