/* The codec: the calls of include/aes3.h, in the module's own memory. */

export const BLOCK_CELLS = 24576;
export const BLOCK_FRAMES = 192;
export const SUBFRAME_CELLS = 64;

/* How many characters the text of a channel status has at most, and how many octets the header of a WAV file. */
const STATUS_TEXT = 800;
const WAV_HEADER = 104;

export class Codec {
    static async make(octets) {
        const { instance } = await WebAssembly.instantiate(octets, {});
        return new Codec(instance.exports);
    }

    constructor(calls) {
        this.calls = calls;
        const memory = calls.memory.buffer;
        let free = Number(calls.__heap_base.value) + 15 & ~15;
        const room = bytes => {
            const from = free;
            free += bytes + 15 & ~15;
            return from;
        };
        [this.lock, this.other] = [room(3104), room(3104)];
        [this.report, this.block, this.cells] = [room(1560), room(1536), room(3072)];
        [this.status, this.text, this.capture, this.header] = [room(24), room(STATUS_TEXT), room(80), room(WAV_HEADER)];
        this.buffer = room(0);
        this.view = new DataView(memory);
        this.bytes = new Uint8Array(memory);
        this.octets = this.bytes.subarray(this.buffer);
        this.words = new Uint32Array(memory, this.report + 16, 384);
    }

    /* A call of the library by its name without `aes3_`. A place in memory is a BigInt. */
    call(name, ...given) {
        return this.calls[`aes3_${name}`](...given);
    }

    init(lock) {
        this.call("lock_init", BigInt(lock));
    }

    /* Gives the lock the first words of the buffer, and `tell` each report. */
    takeWords(lock, count, tell) {
        for (let taken = 0; taken < count; taken++) {
            const from = this.buffer + 8 * taken;
            taken += Number(this.call("lock_take_words", BigInt(lock), BigInt(from), BigInt(count - taken)));
            if (taken < count) {
                this.push(lock, this.view.getBigUint64(this.buffer + 8 * taken, true), 64, tell);
            }
        }
    }

    /* Gives the lock the first `count` cells of a word. */
    push(lock, word, count, tell) {
        while (count > 0) {
            const taken = this.call("lock_push", BigInt(lock), word, count, BigInt(this.report));
            if (taken === 0) {
                throw new Error("a lock takes 2^43 cells");
            }
            word >>= BigInt(taken);
            count -= taken;
            this.tellReport(tell);
        }
    }

    finish(lock, tell) {
        this.call("lock_finish", BigInt(lock), BigInt(this.report));
        this.tellReport(tell);
    }

    tellReport(tell) {
        const { view, report } = this;
        const kind = view.getUint8(report + 1554);
        if (kind !== 0) {
            tell({
                kind,
                at: Number(view.getBigUint64(report, true)),
                cell: Number(view.getBigUint64(report + 8, true)),
                wrong: view.getUint16(report + 1552, true),
                before: view.getUint8(report + 1555),
                why: view.getUint8(report + 1556),
            });
        }
    }

    /* The channel status of channel 1 or 2 of a block of 384 words, which a report told. */
    statusOf(words, channel) {
        new Uint32Array(this.view.buffer, this.block, 384).set(words);
        this.call("block_status", BigInt(this.block), channel, BigInt(this.status));
        return this.bytes.slice(this.status, this.status + 24);
    }

    /* A channel status as `aes3 show` prints it: its use and its fields, each with a space before it. */
    textOf(status) {
        this.bytes.set(status, this.status);
        const count = this.call("status_text", BigInt(this.status), BigInt(this.text));
        return String.fromCharCode(...this.bytes.subarray(this.text, this.text + count));
    }

    /* The cells of a block as 3,072 octets, the earliest cell of each in bit 0; null where a word is not valid. */
    encode(words, before) {
        new Uint32Array(this.view.buffer, this.block, 384).set(words);
        const answer = this.call("encode_block", BigInt(this.block), before, BigInt(this.cells));
        return answer === 384 ? this.bytes.slice(this.cells, this.cells + 3072) : null;
    }

    /* The header of a WAV file of so many frames of two channels with samples of 24 bits, as `aes3 to-wav -o` writes it. */
    wavHeader(frames, hertz) {
        const count = this.call("wav_write", 24, hertz, BigInt(frames), BigInt(this.header));
        return this.bytes.slice(this.header, this.header + count);
    }

    /* How many octets of samples `recover` takes: behind them there is room for their cells. */
    mostSamples() {
        return Math.floor((this.octets.length - 64) / 5) * 4;
    }

    /* The cells of the line in a channel of the samples in the first `size` octets of the buffer, packed, and what was found of it. */
    recover(size, unit, channel) {
        const to = this.buffer + size;
        const room = this.bytes.length - to;
        const isWhole = this.call("capture_cells", BigInt(this.buffer), BigInt(size), unit, channel, 0n, BigInt(to), BigInt(room),
            BigInt(this.capture));
        if (!isWhole) {
            throw new Error("there is no room for the cells");
        }
        const [octets, samples, cells, period, edges, greatest, squares, dead, deadAt, measured] =
            new BigUint64Array(this.view.buffer, this.capture, 10);
        const found = { samples, cells, period, edges, greatest, squares, dead, deadAt, measured };
        return { cells: this.bytes.slice(to, to + Number(octets)), found };
    }
}
