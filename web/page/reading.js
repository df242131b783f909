/* What is read of a file of cells: its reports and counts, one of its blocks, or all of its whole blocks. */

import { BLOCK_CELLS } from "./codec.js";
import { Reports } from "./reports.js";
import { Tally } from "./tally.js";

/* Gives `tell` each report of the cells of a file, by a lock of its own. Two such readings must not be under way at a time, since
   they hold cells in one buffer. */
async function readReports(codec, cells, tell, progress) {
    codec.init(codec.lock);
    const left = await cells.pieces(codec.octets, async (words, bytes) => {
        codec.takeWords(codec.lock, words, tell);
        await progress(bytes);
    });
    codec.push(codec.lock, codec.view.getBigUint64(codec.buffer, true), left, tell);
    if (!cells.fault) {
        codec.finish(codec.lock, tell);
    }
}

/* Reads a file to its end. */
export async function readAll(codec, cells, progress) {
    const reports = new Reports();
    const tally = new Tally(codec);
    await readReports(codec, cells, report => {
        reports.add(report);
        tally.take(report);
    }, progress);
    tally.gapCells += cells.total - tally.behind;
    return { cells, reports, tally };
}

/* Gives `take` the words of each whole block of a file, in memory that the next block takes. */
export async function readBlocks(codec, cells, take, progress) {
    await readReports(codec, cells, report => report.kind === 1 && take(codec.words), progress);
}

/* The words of the whole block at a place. */
export async function wordsAt(codec, cells, place) {
    const read = await cells.cells(place, place + BLOCK_CELLS + 1);
    let words = null;
    const tell = report => {
        if (report.kind === 1 && report.at === 0) {
            words = Uint32Array.from(codec.words);
        }
    };
    codec.init(codec.other);
    for (let from = 0; from < read.length && !words; from += 64) {
        let word = 0n;
        const part = read.subarray(from, from + 64);
        part.forEach((cell, i) => word |= BigInt(cell) << BigInt(i));
        codec.push(codec.other, word, part.length, tell);
    }
    if (!words) {
        codec.finish(codec.other, tell);
    }
    return words;
}

/* How many whole blocks stand in some octets, each with its earliest cell in the lowest bit. */
export function wholeIn(codec, octets) {
    let whole = 0;
    const tell = report => whole += report.kind === 1;
    codec.init(codec.other);
    for (let from = 0; from < octets.length; from += 8) {
        const part = octets.subarray(from, from + 8);
        const word = part.reduceRight((word, octet) => word << 8n | BigInt(octet), 0n);
        codec.push(codec.other, word, 8 * part.length, tell);
    }
    codec.finish(codec.other, tell);
    return whole;
}
