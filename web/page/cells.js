/* Cells in a file: text, or packed with the earliest of eight in the highest bit, or in the lowest. */

import { plain } from "./words.js";

export const PIECE = 1 << 20; // bytes of the file that are read at once
const ZERO = 48, ONE = 49;
const isSeparator = byte => byte === 10 || byte === 13 || byte === 32;
export const isText = bytes => bytes.every(byte => byte === ZERO || byte === ONE || isSeparator(byte));

/* Each octet with its bits in the other order: packed cells have the earliest in the highest bit, words in the lowest. */
const SAME = Uint8Array.from({ length: 256 }, (_, octet) => octet);
export const TURNED = Uint8Array.from({ length: 256 }, (_, octet) => {
    let turned = 0;
    for (let bit = 0; bit < 8; bit++) {
        turned |= (octet >> bit & 1) << 7 - bit;
    }
    return turned;
});

/* A file of cells, read by pieces and at any place. `form` is "text", "packed", or "packed-low" where the earliest cell of an
   octet is in its lowest bit. `fault` says why the file is not read to its end, if it isn't. */
export class CellFile {
    static async open(file, form) {
        const head = await CellFile.read(file, 0, Math.min(4096, file.size));
        const made = new CellFile(file, form === "look" ? (isText(head) ? "text" : "packed") : form);
        made.head = head;
        made.packedCells = 8 * file.size;
        if (made.form === "packed") {
            await made.readEnding();
        }
        return made;
    }

    static async read(file, from, to) {
        return new Uint8Array(await file.slice(from, to).arrayBuffer());
    }

    constructor(file, form) {
        [this.file, this.form] = [file, form];
        this.order = form === "packed-low" ? SAME : TURNED;
        this.total = 0; // cells, as far as they were read
        this.starts = []; // of a text, how many cells stand before each piece
        this.fault = null;
    }

    /* The last octet of packed cells counts the unused ones before it, which are 0. */
    async readEnding() {
        const size = this.file.size;
        const [last, before] = [...await CellFile.read(this.file, Math.max(size - 2, 0), size)].reverse();
        const cells = 8 * (size - 1) - last;
        const lawful = size > 0 && last < 8 && cells >= 0 && ((before ?? 0) & (1 << last) - 1) === 0;
        if (lawful) {
            this.packedCells = cells;
        } else {
            this.ending = "Packed cells end with one more octet, which counts the unused cells before it, 0 to 7, and "
                + "these are 0. This file does not end so, and all its octets are taken as cells. "
                + "(printf '\\0' >> FILE adds the octet.)";
        }
    }

    /* Gives `take` the cells piece by piece: octets in `out`, the earliest cell in bit 0 of the first. */
    async pieces(out, take) {
        let held = { octets: 0, last: 0, bits: 0 };
        for (let from = 0; from < this.file.size && !this.fault; from += PIECE) {
            const bytes = await CellFile.read(this.file, from, Math.min(from + PIECE, this.file.size));
            this.starts.push(this.total);
            const isText = this.form === "text";
            held = isText ? this.unpackText(bytes, from, out, held) : this.unpackPacked(bytes, from, out, held);
            const words = held.octets >> 3;
            await take(words, from + bytes.length);
            out.copyWithin(0, 8 * words, held.octets);
            held.octets -= 8 * words;
        }
        out.fill(0, held.octets, 8);
        out[held.octets] = held.last;
        return 8 * held.octets + held.bits;
    }

    unpackText(bytes, from, out, { octets, last, bits }) {
        const before = 8 * octets + bits;
        for (let i = 0; i < bytes.length; i++) {
            const byte = bytes[i];
            if ((byte & 0xfe) === ZERO) {
                last |= (byte & 1) << bits;
                if (++bits === 8) {
                    out[octets++] = last;
                    last = bits = 0;
                }
            } else if (!isSeparator(byte)) {
                this.fault = `Byte ${plain(from + i)} (counted from 0) is neither 0, 1 nor a separator. `
                    + "The page shows the cells before it.";
                break;
            }
        }
        this.total += 8 * octets + bits - before;
        return { octets, last, bits };
    }

    unpackPacked(bytes, from, out, held) {
        const cells = Math.min(8 * bytes.length, this.packedCells - 8 * from);
        if (cells <= 0) {
            return held;
        }
        const octets = held.octets + (cells >> 3);
        for (let i = 0; 8 * i < cells; i++) {
            out[held.octets + i] = this.order[bytes[i]];
        }
        this.total += cells;
        return { octets, last: cells & 7 ? out[octets] : 0, bits: cells & 7 };
    }

    /* The cells from one place up to another, a byte each. */
    async cells(from, to) {
        [from, to] = [Math.max(from, 0), Math.min(to, this.total)];
        if (from >= to) {
            return new Uint8Array(0);
        }
        return this.form === "text" ? this.textCells(from, to) : this.packedCellsOf(from, to);
    }

    async packedCellsOf(from, to) {
        const bytes = await CellFile.read(this.file, Math.floor(from / 8), Math.ceil(to / 8));
        const first = 8 * Math.floor(from / 8);
        return Uint8Array.from({ length: to - from }, (_, i) => {
            const cell = from - first + i;
            return this.order[bytes[cell >> 3]] >> (cell & 7) & 1;
        });
    }

    async textCells(from, to) {
        let piece = this.starts.findIndex(start => start > from) - 1;
        piece = piece < 0 ? this.starts.length - 1 : piece;
        const cells = new Uint8Array(to - from);
        for (let cell = this.starts[piece]; cell < to; piece++) {
            for (const byte of await CellFile.read(this.file, piece * PIECE, (piece + 1) * PIECE)) {
                if ((byte & 0xfe) === ZERO) {
                    if (cell >= from && cell < to) {
                        cells[cell - from] = byte & 1;
                    }
                    cell++;
                }
            }
        }
        return cells;
    }
}
