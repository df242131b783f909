/* What is counted over the whole blocks of an input, and their samples. */

import { BLOCK_CELLS } from "./codec.js";

export const sampleOf = word => word << 4 >> 8;
export const sampleText = word => {
    const digits = (word >>> 4 & 0xffffff).toString(16).padStart(6, "0");
    return `${(sampleOf(word) / 0x800000).toFixed(9)} (${digits})`;
};
const sameBytes = (one, other) => one.every((byte, i) => byte === other[i]);

/* Counts over the whole blocks of an input. */
export class Tally {
    constructor(codec) {
        this.codec = codec;
        this.blocks = 0;
        this.counts = [0, 0, 0, 0, 0];
        this.gapCells = 0;
        this.behind = 0; // the cell behind the last whole block
        this.peaks = [0, 0];
        this.bits = [[0, 0], [0, 0]]; // of each channel how many V and U are 1
        this.first = null; // the status of channel 1 in the first whole block
        this.statuses = [null, null];
        this.changes = [[], []]; // the blocks whose status is another than the one before
        this.words = null;
    }

    take(report) {
        this.counts[report.kind]++;
        if (report.kind !== 1) {
            return;
        }
        this.gapCells += report.at - this.behind;
        this.behind = report.at + BLOCK_CELLS;
        this.takeSamples(this.codec.words);
        for (const channel of [0, 1]) {
            const status = this.codec.statusOf(this.codec.words, channel + 1);
            const last = this.statuses[channel];
            if (last && !sameBytes(status, last)) {
                this.changes[channel].push(this.blocks);
            }
            this.statuses[channel] = status;
            this.first ??= status;
        }
        this.blocks++;
    }

    takeSamples(words) {
        for (let i = 0; i < 384; i++) {
            const size = Math.abs(sampleOf(words[i]));
            const channel = i & 1;
            if (size > this.peaks[channel]) {
                this.peaks[channel] = size;
            }
            this.bits[channel][0] += words[i] >> 28 & 1;
            this.bits[channel][1] += words[i] >> 29 & 1;
        }
    }
}
