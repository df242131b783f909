/* The cells of a capture: samples of a logic analyser, taken as the program `aes3-cells` takes them. */

import { CellFile, PIECE } from "./cells.js";
import { edgesOf } from "./jitter.js";
import { plain } from "./words.js";

/* How many octets differ from the one so many before. */
const changesIn = (bytes, size) => bytes.reduce((count, octet, i) => count + (i >= size && octet !== bytes[i - size]), 0);

/* Samples of one octet or two that tell by their first bytes that they are some: few values, and runs of one that last longer than a
   sample. How many octets a sample has, and the channels that change there; null where they are none. */
export function samplesIn(bytes) {
    const [one, two] = [changesIn(bytes, 1), changesIn(bytes, 2)];
    const [unit, changes] = two < one ? [2, two] : [1, one];
    if (bytes.length < 64 || new Set(bytes).size > 4 || changes === 0 || 3 * changes >= 2 * bytes.length) {
        return null;
    }
    const channels = Array.from({ length: 8 * unit }, (_, channel) => channel).filter(channel => {
        const lane = bytes.filter((_, i) => i % unit === channel >> 3).map(octet => octet >> (channel & 7) & 1);
        return lane.some(level => level !== lane[0]);
    });
    return { unit, channels };
}

/* The whole square root. */
function rootOf(square) {
    let root = BigInt(Math.floor(Math.sqrt(Number(square))));
    for (; root * root > square; root--);
    for (; (root + 1n) * (root + 1n) <= square; root++);
    return root;
}

const thousandths = number => `${number / 1000n}.${String(number % 1000n).padStart(3, "0")}`;

/* How long a cell is in all, in 65,536ths of a sample: of a line that was measured once and has the cells of a block, the average over all
   samples, as `aes3-cells` says at the end; else the latest length. */
function periodInAll({ samples, cells, period, measured }) {
    return measured === 1n && cells >= 24576n ? (samples * 65536n + cells / 2n) / cells : period;
}

/* What was found of the line, in the words of `aes3-cells`. */
function figuresText(found) {
    const { period, edges, greatest, squares, dead, deadAt, measured } = found;
    const unit = period / 256n;
    const root = rootOf(squares / (edges || 1n) * 1000000n / (unit * unit));
    const latest = dead ? `, the latest from sample ${deadAt}` : "";
    return `${thousandths(periodInAll(found) * 1000n / 65536n)} samples a cell, edges ${thousandths(root)} of a cell rms, `
        + `${thousandths(greatest * 1000n / unit)} at most, ${dead} dead stretches${latest}, measured ${measured} times`;
}

/* Reads a file of samples, of `unit` octets each, in whose channel `channel` the line is, and gives its cells as a file of packed ones,
   what was found of it, and where its edges are. */
export async function recoveredFile(codec, file, { unit, channel }, progress) {
    if (file.size > codec.mostSamples()) {
        throw new Error(`this page takes ${plain(codec.mostSamples())} bytes of samples at most. A longer capture is for the program: `
            + `aes3-cells --bit ${channel}${unit === 2 ? " --unit 2" : ""} < FILE > LINE`);
    }
    for (let from = 0; from < file.size; from += PIECE) {
        const to = Math.min(from + PIECE, file.size);
        codec.octets.set(await CellFile.read(file, from, to), from);
        await progress(to);
    }
    const { cells, found } = codec.recover(file.size, unit, channel);
    if (found.measured === 0n) {
        throw new Error(`no line was found in channel ${channel}. Is it another one, or has a sample ${unit === 1 ? "two octets" : "one octet"}?`);
    }
    const edges = edgesOf(codec.octets.subarray(0, file.size), { unit, channel }, Number(found.period) / 65536);
    return { file: new File([cells], file.name), figures: figuresText(found), edges };
}
