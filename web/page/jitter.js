/* How far the edges of a line are from their places in a capture, by a clock as that of `aes3-cells --picture`. */

export const BARS = 65; // one for each 64th of a cell
export const POINTS = 300;
const FIRST = 257; // edges by which a line is found
const STILL = 64; // cells without an edge are no signal

/* Follows the edges of a line slowly: rising and falling alike, with a 32nd of their distance at first, and a 256th later. */
class Clock {
    constructor(cell) {
        [this.cell, this.ahead, this.edges] = [cell, cell / 2, 0];
    }

    /* The place of an edge that comes so many samples after the one before: in cells from where it is expected. */
    edge(run) {
        const rest = (this.ahead + run) % this.cell;
        const late = rest - this.cell / 2;
        const weight = Math.min(Math.max(this.edges++ / 4, 32), 256);
        const place = late / this.cell;
        this.cell += late / (4 * weight * weight);
        this.ahead = this.cell / 2 + late - late / weight;
        return place;
    }
}

/* The edges of one direction. */
class Side {
    constructor() {
        [this.bars, this.edges, this.sum, this.squares] = [new Array(BARS).fill(0), 0, 0, 0];
        [this.first, this.last] = [0.5, -0.5];
    }

    count(place) {
        this.bars[Math.min(Math.max(Math.round(place * 64) + 32, 0), BARS - 1)]++;
        this.edges++;
        this.sum += place;
        this.squares += place * place;
        this.first = Math.min(this.first, place);
        this.last = Math.max(this.last, place);
    }

    get mean() {
        return this.edges ? this.sum / this.edges : 0;
    }

    /* The rms distance from the mean. */
    get rms() {
        return this.edges ? Math.sqrt(Math.max(this.squares / this.edges - this.mean ** 2, 0)) : 0;
    }
}

/* The edges of the line in a channel of samples, of which a cell has so many: their places, the length of a cell over time, and the
   stretches without signal. The first 257 edges, and those after each such stretch, find the line and are not counted. */
export function edgesOf(octets, { unit, channel }, cell) {
    const [rising, falling, silences] = [new Side(), new Side(), []];
    const count = Math.floor(octets.length / unit);
    const [sums, counts] = [new Float64Array(POINTS), new Uint32Array(POINTS)];
    const [lane, bit] = [channel >> 3, 1 << (channel & 7)];
    let [clock, learning, latest, level] = [null, 0, -1, octets[lane] & bit];
    for (let i = 1; i < count; i++) {
        const now = octets[i * unit + lane] & bit;
        if (now === level) {
            continue;
        }
        level = now;
        const run = i - latest;
        if (latest < 0 || run > STILL * cell) {
            run > STILL * cell && silences.push([Math.max(latest, 0), i]);
            [clock, learning] = [new Clock(cell), FIRST];
        } else {
            const place = clock.edge(run);
            if (learning > 0) {
                clock.edges = --learning === 0 ? 0 : clock.edges;
            } else {
                (now ? rising : falling).count(place);
                const point = Math.floor(i * POINTS / count);
                sums[point] += clock.cell;
                counts[point]++;
            }
        }
        latest = i;
    }
    count - latest > STILL * cell && silences.push([Math.max(latest, 0), count]);
    const cells = Array.from(sums, (sum, i) => counts[i] ? sum / counts[i] : null);
    return { rising, falling, silences, cells, samples: count };
}
