/* The subframes that stand in a stretch of cells. */

import { SUBFRAME_CELLS } from "./codec.js";
import { sampleText } from "./tally.js";
import { bitsOf, plain } from "./words.js";

const MARKS = { "11101000": "Z", "11100010": "X", "11100100": "Y" };

/* The preamble whose eight cells stand at a place, in either polarity. */
function markAt({ from, read }, place) {
    const cells = read.subarray(place - from, place - from + 8);
    return place < from || cells.length < 8 ? undefined : MARKS[[...cells].map(cell => cell ^ cells[0] ^ 1).join("")];
}

/* The subframes that begin so that one of their cells is shown: those of blocks, up to a fault, and behind one those
   whose preamble stands, or is due 64 cells behind one that does. */
export function subframesIn(seen, reports) {
    const [from, to] = [Math.max(seen.first - SUBFRAME_CELLS + 1, 0), seen.first + seen.count];
    const found = new Map();
    for (let place = from; place < to; place++) {
        const mark = markAt(seen, place);
        if (mark) {
            found.set(place, mark);
        }
    }
    for (const place of [...found.keys()]) {
        const due = place + SUBFRAME_CELLS;
        if (due < to && due + 8 <= seen.from + seen.read.length && !found.has(due)) {
            found.set(due, "missing");
        }
    }
    for (let i = 0; i < reports.count; i++) {
        const [begin, end] = [reports.places[i], reports.end(i)];
        if (begin < to && end > from) {
            const steps = Math.max(Math.ceil((from - begin) / SUBFRAME_CELLS), 0);
            for (let step = steps; step < 384 && begin + step * SUBFRAME_CELLS < Math.min(end, to); step++) {
                const place = begin + step * SUBFRAME_CELLS;
                const name = `channel ${step % 2 + 1}, frame ${step >> 1}`;
                found.set(place, { mark: markAt(seen, place) ?? "missing", name });
            }
        }
    }
    return [...found].sort(([one], [other]) => one - other);
}

/* The 28 bits of the subframe that begins at a place, in bits 4 to 31 of a word; null where one of its cells was not read. */
function wordAt({ from, read }, place) {
    const cells = read.subarray(Math.max(place - from, 0), place - from + SUBFRAME_CELLS);
    if (place < from || cells.length < SUBFRAME_CELLS) {
        return null;
    }
    let word = 0;
    for (let slot = 4; slot < 32; slot++) {
        word |= (cells[2 * slot] ^ cells[2 * slot + 1]) << slot;
    }
    return word;
}

/* A sentence for each subframe and each fault that is shown: what the picture says to those who don't see it. */
export function sentencesOf(seen, subframes, reports) {
    const end = seen.first + seen.count;
    const says = subframes.map(([place, found], i) => {
        const { mark, name } = typeof found === "string" ? { mark: found, name: "a subframe in no block" } : found;
        const word = (subframes[i + 1]?.[0] ?? Infinity) < place + SUBFRAME_CELLS ? null : wordAt(seen, place);
        const bits = word === null ? "" : `, sample ${sampleText(word)}, V U C P ${bitsOf(word, [28, 29, 30, 31]).join(" ")}`;
        return `Cell ${plain(place)}: ${name}, preamble ${mark}${bits}.`;
    });
    return [...says, ...reports.faultsIn(seen.first, end).map(([, line]) => `Fault: ${line}.`)];
}
