/* The tables of a whole block: the channel status of both channels, the first frames, and the peaks of all blocks. */

import { cellOf, rowOf } from "./elements.js";
import { statusOf } from "./status.js";
import { sampleText } from "./tally.js";
import { bitsOf, hex, plain } from "./words.js";

const FRAMES_SHOWN = 8;
const LONG = 12; // hexadecimal digits from which on a value may be broken into lines

/* A value, which breaks nowhere but between eight digits of a long row of them. */
function valueCell(text) {
    const made = cellOf("td", "", "cells value");
    const parts = /^[0-9a-f]+$/.test(text) && text.length > LONG ? text.match(/.{1,8}/g) : [text];
    parts.forEach((part, i) => made.append(...i > 0 ? [document.createElement("wbr"), part] : [part]));
    return made;
}

export function statusTable(codec, status, channel) {
    const { kind, fields } = statusOf(codec, status);
    const table = document.createElement("table");
    table.id = `status-${channel}`;
    table.append(cellOf("caption", `Channel ${channel}: ${kind}`));
    for (const [name, value, what] of [...fields, ["bytes", hex(status), "all 24"]]) {
        const head = cellOf("th", name, "cells");
        head.scope = "row";
        table.append(rowOf(head, valueCell(value), cellOf("td", what, "what")));
    }
    return table;
}

/* The samples and the bits V, U, C and P of the first frames. */
export function frameRows(words) {
    return Array.from({ length: FRAMES_SHOWN }, (_, frame) => {
        const sides = [words[2 * frame], words[2 * frame + 1]].flatMap(word => [
            cellOf("td", sampleText(word), "cells"),
            cellOf("td", bitsOf(word, [28, 29, 30, 31]).join(" "), "cells bits"),
        ]);
        return rowOf(cellOf("td", frame, "number"), ...sides);
    });
}

export function changesText(list, channel) {
    if (list.length === 0) {
        return `Channel ${channel} has the same status in all whole blocks.`;
    }
    const more = list.length > 10 ? ` and ${plain(list.length - 10)} more` : "";
    return `The status of channel ${channel} changes with block ${list.slice(0, 10).join(", ")}${more}.`;
}

/* Of a channel over all whole blocks: whose, what, and how much. */
export function peakTexts(tally, channel) {
    const peak = tally.peaks[channel];
    const decibels = (20 * Math.log10(peak / 0x800000)).toFixed(2);
    const level = peak === 0 ? "silent" : `${decibels} dB of full scale (${peak.toString(16)})`;
    const [valid, user] = tally.bits[channel];
    const all = plain(192 * tally.blocks);
    return [
        [`channel ${channel + 1}`, "greatest sample", level],
        ["", "V is 1", `${plain(valid)} of ${all}`],
        ["", "U is 1", `${plain(user)} of ${all}`],
    ];
}

export const peakRows = texts => texts.map(([whose, what, much]) =>
    rowOf(cellOf("td", whose), cellOf("td", what), cellOf("td", much, "cells")));
