/* The reports of an input. */

import { BLOCK_CELLS } from "./codec.js";

const KINDS = ["none", "whole", "marked", "fault", "unfinished"];
const WHYS = ["preamble", "biphase", "unclosed"];

/* Reports one behind the other, in memory that grows. */
export class Reports {
    constructor() {
        this.count = 0;
        this.grow(1024);
    }

    grow(room) {
        const larger = (old, Kind) => {
            const made = new Kind(room);
            old && made.set(old);
            return made;
        };
        this.places = larger(this.places, Float64Array);
        this.cells = larger(this.cells, Float64Array);
        this.rest = larger(this.rest, Uint32Array);
    }

    add(report) {
        if (this.count === this.places.length) {
            this.grow(2 * this.count);
        }
        this.places[this.count] = report.at;
        this.cells[this.count] = report.cell;
        const why = report.kind === 3 ? report.why : 0;
        const wrong = report.kind === 2 ? report.wrong : 0;
        this.rest[this.count++] = report.kind | report.before << 3 | why << 4 | wrong << 6;
    }

    kind(i) {
        return this.rest[i] & 7;
    }

    get(i) {
        const rest = this.rest[i];
        const named = { kind: KINDS[rest & 7], before: rest >> 3 & 1, why: WHYS[rest >> 4 & 3], wrong: rest >> 6 };
        return { at: this.places[i], cell: this.cells[i], ...named };
    }

    /* The cell behind the last that a report speaks of. */
    end(i) {
        const kind = this.kind(i);
        if (kind === 3) {
            return this.cells[i] + 1;
        }
        return this.places[i] + (kind === 4 ? this.cells[i] : BLOCK_CELLS);
    }

    /* The cell where the first fault shows, or a block of wrong parity begins; -1 where there is none. */
    firstFault() {
        for (let i = 0; i < this.count; i++) {
            const kind = this.kind(i);
            if (kind === 2 || kind === 3) {
                return kind === 3 ? this.cells[i] : this.places[i];
            }
        }
        return -1;
    }

    /* The lines of the faults that show from one cell up to another, each with its cell. */
    faultsIn(from, to) {
        const found = [];
        for (let i = 0; i < this.count; i++) {
            if (this.cells[i] >= from && this.cells[i] < to && this.kind(i) === 3) {
                found.push([this.cells[i], lineOf(this.get(i))]);
            }
        }
        return found;
    }

    /* The number of the last whole block that begins before a cell, or 0. */
    wholeBefore(cell) {
        let number = -1;
        for (let i = 0; i < this.count && this.places[i] < cell; i++) {
            number += this.kind(i) === 1;
        }
        return Math.max(number, 0);
    }

    /* The place of whole block number `wanted`, counted from 0. */
    wholePlace(wanted) {
        for (let i = 0; i < this.count; i++) {
            if (this.kind(i) === 1 && wanted-- === 0) {
                return this.places[i];
            }
        }
        return -1;
    }
}

/* A report's line, as `aes3 check` writes it. */
export function lineOf(report) {
    switch (report.kind) {
        case "whole": return `whole at ${report.at} before ${report.before}`;
        case "marked": return `marked at ${report.at} before ${report.before} wrong ${report.wrong}`;
        case "fault": return `fault at ${report.at} cell ${report.cell} ${report.why}`;
        default: return `unfinished at ${report.at} cells ${report.cell}`;
    }
}
