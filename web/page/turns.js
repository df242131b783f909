/* One reading of a file at a time, which ends early where another file is opened. */

import { at } from "./elements.js";

export class Turns {
    constructor() {
        this.turn = 0;
        this.reading = Promise.resolve(); // ends with what is read of a file
    }

    /* Begins the turn of another file. */
    next() {
        return ++this.turn;
    }

    isOver(turn) {
        return turn !== this.turn;
    }

    /* Runs what reads a whole file when nothing else does, and says meanwhile how far it is. */
    async alone(name, read) {
        const { turn, reading } = this;
        const goesOn = () => {
            if (this.isOver(turn)) {
                throw new Error("another file was opened");
            }
        };
        const progress = async (bytes, size) => {
            at("progress").value = size > 0 ? bytes / size : 1;
            await new Promise(done => setTimeout(done, 0));
            goesOn();
        };
        const mine = reading.then(() => {
            goesOn();
            at("state").textContent = `${name} ..`;
            at("progress").hidden = false;
            return read(progress);
        });
        const ended = this.reading = mine.catch(() => {});
        try {
            return await mine;
        } finally {
            if (ended === this.reading) {
                at("progress").hidden = true;
            }
        }
    }
}
