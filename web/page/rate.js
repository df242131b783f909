/* The sampling frequency, and times by it. */

import { statusOf, valueOf } from "./status.js";

const USUAL = 48000;
const seconds = new Intl.NumberFormat("en", { minimumFractionDigits: 6, maximumFractionDigits: 6 });

/* The frequency that the menu says, or the channel status of the first whole block, or else the usual one. */
export function rateOf(codec, tally, chosen) {
    if (chosen !== "status") {
        return { hertz: Number(chosen), by: "as chosen" };
    }
    const told = tally.first ? Number(valueOf(statusOf(codec, tally.first), "rate")) : NaN;
    return told > 0 ? { hertz: told, by: "by its channel status" }
        : { hertz: USUAL, by: tally.first ? "because its channel status names none" : "because there is no channel status" };
}

/* How long some cells last, 128 a frame, in seconds. */
export const durationOf = (cells, { hertz }) => `${seconds.format(cells / 128 / hertz)} s`;
