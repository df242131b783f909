/* The page: opens a file, and shows what is found in it. */

import { adviceOf } from "./advice.js";
import { changesText, frameRows, peakRows, peakTexts, statusTable } from "./blocks.js";
import { recoveredFile } from "./capture.js";
import { CellFile } from "./cells.js";
import { Codec, SUBFRAME_CELLS } from "./codec.js";
import { listen } from "./controls.js";
import { at, cellOf } from "./elements.js";
import { exampleFile } from "./example.js";
import { cellsIn, drawLevels } from "./levels.js";
import { durationOf, rateOf } from "./rate.js";
import { readAll, wordsAt } from "./reading.js";
import { drawEdges } from "./picture.js";
import { lineOf } from "./reports.js";
import { firstRows, rowElement } from "./rows.js";
import { isOtherThanPcm } from "./status.js";
import { drawStrip, markPlace } from "./strip.js";
import { sentencesOf, subframesIn } from "./subframes.js";
import { Turns } from "./turns.js";
import { cellCount, counted, plain } from "./words.js";

const MOST_FAULTS = 20; // that are told at once
const MOST_LINES = 20000; // of the lines of `aes3 check`
const FORMS = { text: "text", packed: "packed", "packed-low": "packed, the lowest bit first" };

class Page {
    constructor(codec) {
        this.codec = codec;
        this.file = this.found = null;
        this.turns = new Turns();
        this.first = this.count = 0; // the first cell of the levels, and how many are shown
        this.most = MOST_FAULTS;
        listen(this);
    }

    /* Opens a file that was chosen. What the menu says of the form is so of the file that was open before, and this one's is looked for. */
    choose(file) {
        if (this.file) {
            at("form").value = "look";
            at("samples").hidden = true;
        }
        return this.open(file);
    }

    async open(file) {
        const turn = this.turns.next();
        [this.file, this.found] = [file, null];
        at("trouble").textContent = "";
        at("advice").hidden = at("found").hidden = true;
        document.body.dataset.state = "reading";
        try {
            const found = await this.turns.alone(`${file.name} is read`, async progress => {
                const { cells, figures, edges } = await this.cellsOf(file, progress);
                const found = await readAll(this.codec, cells, bytes => progress(bytes, cells.file.size));
                return { ...found, figures, edges };
            });
            await this.show(found, turn);
        } catch (error) {
            if (!this.turns.isOver(turn)) {
                at("trouble").textContent = `${file.name} can't be read: ${error.message}`;
                at("state").textContent = "";
                document.body.dataset.state = "failed";
            }
        }
    }

    /* The cells of a file, and of samples what was found of the line in them. */
    async cellsOf(file, progress) {
        const form = at("form").value;
        if (form !== "samples") {
            return { cells: await CellFile.open(file, form) };
        }
        const line = { unit: Number(at("unit").value), channel: Number(at("channel").value) };
        const recovered = await recoveredFile(this.codec, file, line, bytes => progress(bytes, file.size));
        const figures = `samples of a logic analyser, channel ${line.channel}: ${recovered.figures}`;
        return { cells: await CellFile.open(recovered.file, "packed"), figures, edges: recovered.edges };
    }

    async show(found, turn) {
        const { cells, reports, tally } = found;
        const advice = tally.blocks === 0 ? await adviceOf(this.codec, cells) : null;
        if (this.turns.isOver(turn)) {
            return;
        }
        this.found = found;
        at("state").textContent = advice?.isOther ? `${this.file.name}: ${counted(this.file.size, "byte", "bytes")}` : this.stateText();
        this.advise(advice);
        at("trouble").textContent = advice?.isOther || advice?.form ? "" : cells.fault ?? cells.ending ?? "";
        at("found").hidden = advice?.isOther ?? false;
        this.most = MOST_FAULTS;
        this.lines();
        drawStrip(at("strip"), found);
        drawEdges(at("edges"), found.edges);
        at("cell").max = Math.max(cells.total - 1, 0);
        at("block").max = Math.max(tally.blocks - 1, 0);
        at("no-pcm").hidden = tally.blocks === 0 || !isOtherThanPcm(this.codec, tally.first);
        at("save-wav").disabled = at("save-blocks").disabled = at("sound").hidden = tally.blocks === 0;
        const fault = reports.firstFault();
        await this.showBlock(fault < 0 ? 0 : reports.wholeBefore(fault));
        this.showTimes();
        await this.levels(fault >= 0 ? fault - Math.floor(this.shown() / 2) : Math.max(reports.wholePlace(0) - 8, 0));
        document.body.dataset.state = "shown";
    }

    stateText() {
        const { cells, figures } = this.found;
        return `${this.file.name}: ${cellCount(cells.total)}, as ${figures ?? FORMS[cells.form]}`;
    }

    /* What to do with a file that is none, with a button where the page can do it. */
    advise(advice) {
        at("advice").hidden = !advice;
        at("advice").replaceChildren(cellOf("p", advice?.says ?? ""));
        advice?.commands.length > 0 && at("advice").append(cellOf("pre", advice.commands.join("\n")));
        const button = (text, press) => {
            const made = cellOf("button", text);
            made.addEventListener("click", press);
            at("advice").append(made);
        };
        advice?.form && button("Read it so", () => this.openAs(advice.form));
        advice?.samples?.channels.forEach(channel => button(`Recover the cells of channel ${channel}`, () => {
            [at("unit").value, at("channel").value] = [advice.samples.unit, channel];
            this.openAs("samples");
        }));
        advice?.isOther && button("Show it as cells all the same", () => {
            at("found").hidden = false;
            at("state").textContent = this.stateText();
            drawStrip(at("strip"), this.found);
            this.levels(this.first + (this.count - this.shown()) / 2);
        });
    }

    /* Reads the file once more, in another form. */
    openAs(form) {
        at("form").value = form;
        return this.reopen();
    }

    /* Reads the file that is open once more, by what the menus say now. */
    reopen() {
        at("samples").hidden = at("form").value !== "samples";
        return this.file && this.open(this.file);
    }

    /* All that speaks of times. */
    showTimes() {
        const { tally } = this.found;
        const [, whole, marked, fault, unfinished] = tally.counts;
        const rate = this.rate();
        const parts = [`${counted(whole, "whole block", "whole blocks")} (${durationOf(whole * 384 * SUBFRAME_CELLS, rate)})`];
        fault && parts.push(counted(fault, "fault", "faults"));
        marked && parts.push(`${counted(marked, "block", "blocks")} with wrong parity`);
        unfinished && parts.push(`${plain(unfinished)} unfinished at the end`);
        parts.push(`${cellCount(tally.gapCells)} in no whole block`);
        at("summary").textContent = `${parts.join(", ")}.`;
        at("rate-used").textContent = `Times are counted from the first cell, at ${plain(rate.hertz)} Hz, ${rate.by}.`;
        this.rows();
    }

    rate() {
        return rateOf(this.codec, this.found.tally, at("rate").value);
    }

    rows() {
        const { rows, left } = firstRows(this.found, this.most);
        const rate = this.rate();
        const show = cell => this.levels(cell - Math.floor(this.shown() / 2));
        at("rows").tBodies[0].replaceChildren(...rows.map(row => rowElement(row, rate, show)));
        at("more").hidden = left.rows === 0;
        at("left").textContent = left.rows > 0
            ? `.. and ${counted(left.rows, "more row", "more rows")}, with ${counted(left.faults, "fault", "faults")}. ` : "";
    }

    lines() {
        const { reports } = this.found;
        const lines = Array.from({ length: Math.min(reports.count, MOST_LINES) }, (_, i) => lineOf(reports.get(i)));
        const rest = reports.count - lines.length;
        at("lines").textContent = lines.join("\n") + (rest > 0 ? `\n.. and ${plain(rest)} more` : "");
    }

    /* How many cells the levels show. */
    shown() {
        return cellsIn(at("wave"));
    }

    async levels(first) {
        const { found } = this;
        const { cells, reports } = found;
        const count = Math.min(this.shown(), cells.total);
        first = Math.max(0, Math.min(Math.round(first), cells.total - count));
        [this.first, this.count] = [first, count];
        at("cell").value = first;
        markPlace(at("strip"), at("here"), found, first);
        const from = Math.max(first - 2 * SUBFRAME_CELLS, 0);
        const read = await cells.cells(from, first + count + SUBFRAME_CELLS + 8);
        if (found === this.found && first === this.first) {
            const seen = { first, count, from, read };
            const subframes = subframesIn(seen, reports);
            const rate = this.rate();
            drawLevels(at("wave"), seen, subframes, reports);
            at("stretch").textContent = count === 0 ? "There are no cells." : `Cells ${plain(first)} to ${plain(first + count - 1)}, `
                + `${durationOf(first, rate)} to ${durationOf(first + count, rate)}.`;
            at("seen").replaceChildren(...sentencesOf(seen, subframes, reports).map(text => cellOf("li", text)));
        }
    }

    /* Channel status and first samples of a whole block, counted from 0. */
    async showBlock(number) {
        const { found } = this;
        const { tally, reports, cells } = found;
        const last = tally.blocks - 1;
        at("of-blocks").textContent = last < 0 ? "(there is no whole block)" : `of 0 to ${plain(last)}`;
        at("show-block").disabled = at("block").disabled = last < 0;
        number = Math.max(0, Math.min(Math.round(number), last));
        const words = last < 0 ? null : await wordsAt(this.codec, cells, reports.wholePlace(number));
        if (found !== this.found) {
            return;
        }
        const rows = (id, made) => at(id).tBodies[0].replaceChildren(...made);
        at("block").value = number;
        at("changes").textContent = words ? this.changes() : "";
        at("statuses").replaceChildren(...(words ? [1, 2] : []).map(channel =>
            statusTable(this.codec, this.codec.statusOf(words, channel), channel)));
        rows("peaks", words ? peakRows(this.peaks()) : []);
        rows("frames", words ? frameRows(words) : []);
    }

    changes() {
        return this.found.tally.changes.map((list, i) => changesText(list, i + 1)).join(" ");
    }

    peaks() {
        return [0, 1].flatMap(channel => peakTexts(this.found.tally, channel));
    }

}

let page = null;

async function start() {
    const octets = Uint8Array.from(atob(MODULE), it => it.charCodeAt(0));
    if (!WebAssembly.validate(octets)) {
        at("trouble").textContent = "This browser runs no WebAssembly with 64-bit memory. "
            + "Chromium, Chrome and Edge do from 133 on, Firefox from 134 on.";
        document.body.dataset.state = "failed";
        return;
    }
    page = new Page(await Codec.make(octets));
    document.body.dataset.state = "ready";
    if (location.hash === "#example") {
        await page.open(exampleFile(page.codec));
    }
}

start();
