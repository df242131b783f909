/* What can be saved: the whole blocks as a block file, their samples as a WAV file, and the account of the input as text. */

import { sampleOf } from "./tally.js";
import { lineOf } from "./reports.js";
import { durationOf } from "./rate.js";
import { statusLine } from "./status.js";
import { cellCount, plain } from "./words.js";

/* A block of a block file: each word lowest byte first. */
export function blockBytes(words) {
    const bytes = new Uint8Array(4 * words.length);
    const view = new DataView(bytes.buffer);
    words.forEach((word, i) => view.setUint32(4 * i, word, true));
    return bytes;
}

/* The samples of a block, three bytes each, lowest first. */
export function sampleBytes(words) {
    const bytes = new Uint8Array(3 * words.length);
    words.forEach((word, i) => {
        const sample = sampleOf(word);
        bytes.set([sample & 255, sample >> 8 & 255, sample >> 16 & 255], 3 * i);
    });
    return bytes;
}

/* The account of an input: what the page says of it, the channel status of its first and last whole block, and its lines. */
export function* accountOf(codec, { cells, reports, tally }, { rate, summary, notes, peaks, changes }) {
    yield `file: ${cells.file.name}, ${plain(cells.file.size)} bytes, as ${cells.form}\n`;
    yield `cells: ${cellCount(cells.total)}, ${durationOf(cells.total, rate)} at ${plain(rate.hertz)} Hz (${rate.by})\n`;
    yield* [summary, ...notes].map(text => `${text}\n`);
    if (tally.blocks > 0) {
        yield* peaks.map(texts => `${texts.filter(text => text).join(": ")}\n`);
        yield `${changes}\n`;
        yield "channel status of the last whole block:\n";
        for (const channel of [1, 2]) {
            yield `${statusLine(codec, tally.statuses[channel - 1], tally.blocks - 1, channel)}\n`;
        }
    }
    yield "lines of aes3 check:\n";
    for (let i = 0; i < reports.count; i++) {
        yield `${lineOf(reports.get(i))}\n`;
    }
}

/* Offers bytes or text as a file that the browser saves. */
export function offer(name, parts, type) {
    const link = document.createElement("a");
    link.href = URL.createObjectURL(new Blob(parts, { type }));
    link.download = name;
    link.click();
    setTimeout(() => URL.revokeObjectURL(link.href), 60000);
}
