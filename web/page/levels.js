/* Levels as a picture, as examples/pictures/draw.py draws them. */

const CELL = 14, LEFT = 20, HIGH = 62, LOW = 112;
const PARTS = [[0, 4, "preamble"], [4, 28, "sample"], [28, 29, "V"], [29, 30, "U"], [30, 31, "C"], [31, 32, "P"]];

/* Whether a text of letters of 11 points is no wider than some cells. */
const fits = (text, cells) => 6.5 * text.length < CELL * cells;

class Picture {
    constructor(seen) {
        [this.seen, this.parts] = [seen, []];
        this.end = seen.first + seen.count;
    }

    x(cell) {
        return LEFT + (cell - this.seen.first) * CELL;
    }

    cell(place) {
        return this.seen.read[place - this.seen.from];
    }

    /* Rectangles, texts and lines have names by which the style of the page gives them their colours. */
    rect(x, y, width, height, name) {
        this.parts.push(`<rect x="${x}" y="${y}" width="${width}" height="${height}" class="${name}"/>`);
    }

    text(x, y, text, size = 12, name = "", anchor = "middle") {
        this.parts.push(`<text x="${x}" y="${y}" text-anchor="${anchor}" font-size="${size}" class="${name}">${text}</text>`);
    }

    line(points, name) {
        const all = points.map(([x, y]) => `${x},${y}`).join(" ");
        this.parts.push(`<polyline points="${all}" class="${name}"/>`);
    }

    /* A subframe, as far as the place where the next begins. */
    subframe(place, found, next) {
        const { mark, name } = typeof found === "string" ? { mark: found, name: "" } : found;
        const shown = Math.min(next, this.end);
        for (const [from, to, part] of PARTS) {
            const [left, right] = [Math.max(place + 2 * from, this.seen.first), Math.min(place + 2 * to, shown)];
            if (left < right) {
                this.rect(this.x(left), HIGH - 22, (right - left) * CELL, LOW - HIGH + 62, `part-${part}`);
                const titles = { preamble: [`preamble ${mark}`, mark], sample: ["sample, lowest bit first", "sample"] }[part] ?? [part];
                const title = titles.find(text => fits(text, right - left));
                title && this.text((this.x(left) + this.x(right)) / 2, HIGH - 28, title, 11);
            }
        }
        const first = Math.max(place, this.seen.first);
        fits(name, shown - first) && this.text(this.x(first), HIGH - 44, name, 11, "faint", "start");
        for (let slot = 0; slot < 32; slot++) {
            const cell = place + 2 * slot;
            if (cell >= this.seen.first && cell + 2 <= shown) {
                this.line([[this.x(cell), HIGH - 16], [this.x(cell), LOW + 24]], "slot");
                this.text(this.x(cell + 1), LOW + 36, slot, 8, "faint");
                slot >= 4 && this.text(this.x(cell + 1), LOW + 22, Number(this.cell(cell) !== this.cell(cell + 1)), 12);
            }
        }
    }

    faults(reports) {
        const faults = reports.faultsIn(this.seen.first, this.end);
        faults.forEach(([cell, line], row) => {
            this.rect(this.x(cell), HIGH - 22, CELL, LOW - HIGH + 62, "wrong");
            const middle = Math.min(Math.max(this.x(cell), 140), Math.max(this.x(this.end) - 140, 140));
            this.text(middle, LOW + 58 + 15 * row, line, 12, "fault");
        });
        return LOW + 70 + 15 * Math.max(faults.length - 1, 0);
    }

    levels() {
        this.text(LEFT / 2, HIGH + 4, "1", 10, "faint");
        this.text(LEFT / 2, LOW + 4, "0", 10, "faint");
        const points = [];
        for (let place = this.seen.first; place < this.end; place++) {
            const y = this.cell(place) ? HIGH : LOW;
            points.push([this.x(place), y], [this.x(place + 1), y]);
        }
        this.line(points, "level");
    }
}

export function drawLevels(svg, seen, subframes, reports) {
    const picture = new Picture(seen);
    subframes.forEach(([place, found], i) => picture.subframe(place, found, subframes[i + 1]?.[0] ?? picture.end));
    const height = picture.faults(reports);
    picture.levels();
    svg.setAttribute("height", height);
    svg.innerHTML = picture.parts.join("");
}

/* How many cells such a picture shows. */
export const cellsIn = svg => Math.max(Math.floor((svg.clientWidth - 2 * LEFT) / CELL), 16);
