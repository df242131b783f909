/* The buttons that save. */

import { CellFile } from "./cells.js";
import { BLOCK_FRAMES } from "./codec.js";
import { at } from "./elements.js";
import { readBlocks } from "./reading.js";
import { accountOf, blockBytes, offer, sampleBytes } from "./save.js";

/* Reads the cells again and saves what `bytesOf` makes of each of their whole blocks, behind what stands before them. */
async function save(page, ending, type, before, bytesOf) {
    const { file, found } = page;
    const from = found.cells.file; // of samples it is not the file that is open
    const parts = [...before];
    at("save-wav").disabled = at("save-blocks").disabled = true;
    try {
        await page.turns.alone(`${file.name} is read once more`, async progress => {
            const cells = await CellFile.open(from, found.cells.form);
            await readBlocks(page.codec, cells, words => parts.push(bytesOf(words)), bytes => progress(bytes, from.size));
        });
        offer(file.name + ending, parts, type);
    } catch (error) {
        if (found === page.found) {
            at("trouble").textContent = `${file.name} can't be saved: ${error.message}`;
        }
    }
    if (found === page.found) {
        at("save-wav").disabled = at("save-blocks").disabled = false;
        at("state").textContent = page.stateText();
    }
}

export async function saveWav(page) {
    const header = page.codec.wavHeader(page.found.tally.blocks * BLOCK_FRAMES, page.rate().hertz);
    await save(page, ".wav", "audio/wav", [header], sampleBytes);
}

export async function saveBlocks(page) {
    await save(page, ".block", "application/octet-stream", [], blockBytes);
}

export function saveAccount(page) {
    const { cells } = page.found;
    const texts = element => [...element.children].filter(it => it.tagName !== "BUTTON").map(it => it.textContent);
    const says = {
        rate: page.rate(), summary: at("summary").textContent, changes: page.changes(), peaks: page.peaks(),
        notes: [cells.fault ?? cells.ending ?? "", ...texts(at("advice"))].filter(text => text),
    };
    offer(`${page.file.name}.account.txt`, [...accountOf(page.codec, page.found, says)], "text/plain");
}
