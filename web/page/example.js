/* An example: five blocks of a tone, the first cut, and a cell turned. */

import { BLOCK_CELLS } from "./codec.js";

/* A word of a block: a sample of 24 bits and a C bit, with its parity. */
function wordOf(sample, status) {
    let word = (sample & 0xffffff) << 4 | status << 30;
    let ones = word;
    for (const shift of [16, 8, 4, 2, 1]) {
        ones ^= ones >>> shift;
    }
    return (word | (ones & 1) << 31) >>> 0;
}

export function exampleFile(codec) {
    const status = [0x04, 0, 0, 0x02, 0x0b];
    const text = [];
    for (let block = 0; block < 5; block++) {
        const words = Uint32Array.from({ length: 384 }, (_, i) => {
            const frame = i >> 1;
            const level = Math.sin(2 * Math.PI * 997 * (192 * block + frame) / 48000) * (i % 2 ? 0.05 : 0.1);
            return wordOf(Math.round(level * 0x7fffff), (status[frame >> 3] ?? 0) >> (frame & 7) & 1);
        });
        for (const octet of codec.encode(words, 0)) {
            for (let bit = 0; bit < 8; bit++) {
                text.push(octet >> bit & 1);
            }
        }
    }
    text[2 * BLOCK_CELLS + 12736] ^= 1;
    return new File([text.slice(12345).join("")], "an example");
}
