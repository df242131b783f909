/* The edges of a capture, drawn: how far they are from their places, and the length of a cell over time. */

import { cellOf } from "./elements.js";
import { BARS, POINTS } from "./jitter.js";
import { plain } from "./words.js";

const WIDE = 900;
const MARGIN = 84;
const MIDDLE = 110;
const HALF = 90;
const TOLERANCE = 0.25; // unit intervals, peak to peak, above 8 kHz (AES3, IEC 60958-3)

function drawn(kind, given, title) {
    const made = document.createElementNS("http://www.w3.org/2000/svg", kind);
    Object.entries(given).forEach(([name, value]) => made.setAttribute(name, value));
    if (title) {
        made.append(drawn("title", {}));
        made.firstChild.textContent = title;
    }
    return made;
}

function label(x, y, text, anchor = "middle") {
    const made = drawn("text", { x, y, "text-anchor": anchor });
    made.textContent = text;
    return made;
}

const signed = number => (number < 0 ? "-" : "+") + Math.abs(number).toFixed(3);

/* What is said of the edges of one direction. */
function sideText(name, { edges, mean, rms, first, last }) {
    return `${plain(edges)} ${name}: ${Math.abs(mean).toFixed(4)} UI ${mean < 0 ? "early" : "late"} on average, `
        + `${rms.toFixed(4)} UI rms about that, ${edges ? (last - first).toFixed(4) : "0.0000"} UI peak to peak.`;
}

function drawBars(svg, { rising, falling }) {
    const step = (WIDE - 2 * MARGIN) / (BARS - 1);
    const x = bar => MARGIN + bar * step;
    const most = Math.log10(Math.max(...rising.bars, ...falling.bars, 9) + 1);
    svg.replaceChildren(drawn("rect", { class: "tolerance", x: x(32 - 32 * TOLERANCE), y: MIDDLE - HALF, width: 64 * TOLERANCE * step,
        height: 2 * HALF }, "AES3 receiver tolerance above 8 kHz: 0.25 UI peak to peak"));
    for (const [name, { bars }, up] of [["rising", rising, true], ["falling", falling, false]]) {
        bars.forEach((count, bar) => {
            const height = HALF * Math.log10(count + 1) / most;
            count && svg.append(drawn("rect", { class: name, x: x(bar) - step * 0.45, y: up ? MIDDLE - height : MIDDLE, width: step * 0.9, height },
                `${name}, ${signed((bar - 32) / 64)} UI: ${plain(count)} edges`));
        });
        svg.append(label(MARGIN - 8, up ? MIDDLE - HALF / 2 : MIDDLE + HALF / 2, name, "end"));
    }
    svg.append(drawn("line", { x1: MARGIN, x2: WIDE - MARGIN, y1: MIDDLE, y2: MIDDLE }));
    [-0.5, -0.25, 0, 0.25, 0.5].forEach(place => svg.append(label(x(32 + 64 * place), MIDDLE + HALF + 16, `${signed(place)} UI`)));
}

function drawCells(svg, { cells, silences, samples }) {
    const known = cells.filter(cell => cell !== null);
    const middle = known.length ? (Math.min(...known) + Math.max(...known)) / 2 : 1;
    const reach = Math.max(...known.map(cell => Math.abs(cell - middle)), middle * 1e-5);
    const x = place => MARGIN + place * (WIDE - 2 * MARGIN);
    svg.replaceChildren();
    silences.forEach(([from, to]) => svg.append(drawn("rect", { class: "silence", x: x(from / samples), y: 10, height: 60,
        width: Math.max((to - from) / samples * (WIDE - 2 * MARGIN), 1) }, `no signal: samples ${plain(from)} to ${plain(to - 1)}`)));
    cells.forEach((cell, i) => cell !== null && svg.append(drawn("circle", { class: "cell", cx: x((i + 0.5) / POINTS), r: 1.6,
        cy: 40 - 26 * (cell - middle) / reach }, `${cell.toFixed(6)} samples a cell`)));
    svg.append(label(MARGIN - 8, 18, `+${(1e6 * reach / middle).toFixed(0)} ppm`, "end"), label(MARGIN - 8, 44, middle.toFixed(4), "end"),
        label(MARGIN - 8, 70, `-${(1e6 * reach / middle).toFixed(0)} ppm`, "end"));
}

/* Shows the edges of a capture in this part of the page; hides it where there is none. */
export function drawEdges(part, edges) {
    part.hidden = !edges || edges.rising.edges + edges.falling.edges === 0;
    if (!part.hidden) {
        const [bars, cells] = part.querySelectorAll("svg");
        part.querySelector("ul").replaceChildren(...["rising", "falling"].map(name => cellOf("li", sideText(name, edges[name]))));
        drawBars(bars, edges);
        drawCells(cells, edges);
    }
}
