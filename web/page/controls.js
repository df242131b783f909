/* What the page's buttons, menus, pictures and keys do. */

import { at } from "./elements.js";
import { exampleFile } from "./example.js";
import { nextBlock, nextFault } from "./moves.js";
import { saveAccount, saveBlocks, saveWav } from "./saving.js";
import { drawStrip, placeByKey } from "./strip.js";

function listenToFiles(page) {
    const { body } = document;
    body.addEventListener("dragover", event => {
        event.preventDefault();
        at("drop").className = "over";
    });
    body.addEventListener("dragleave", () => at("drop").className = "");
    body.addEventListener("drop", event => {
        event.preventDefault();
        at("drop").className = "";
        event.dataTransfer.files.length > 0 && page.choose(event.dataTransfer.files[0]);
    });
    at("file").addEventListener("change", () => at("file").files.length > 0 && page.choose(at("file").files[0]));
    // So that the same file is read again where it was written anew.
    at("file").addEventListener("click", () => at("file").value = "");
    for (const id of ["form", "unit", "channel"]) {
        at(id).addEventListener("change", () => page.reopen());
    }
    at("rate").addEventListener("change", () => page.found && (page.showTimes(), page.levels(page.first)));
    at("example").addEventListener("click", () => page.choose(exampleFile(page.codec)));
    at("save-wav").addEventListener("click", () => saveWav(page));
    at("save-blocks").addEventListener("click", () => saveBlocks(page));
    at("save-account").addEventListener("click", () => saveAccount(page));
}

function listenToMoves(page) {
    const half = () => Math.floor(page.shown() / 2);
    const or = (place, before) => place < 0 ? page.first : Math.max(place - before, 0);
    const moves = {
        "page-before": () => page.first - page.shown() + 8,
        "page-behind": () => page.first + page.shown() - 8,
        "block-before": () => or(nextBlock(page.found.reports, -1, page.first + 8), 8),
        "block-behind": () => or(nextBlock(page.found.reports, 1, page.first + 8), 8),
        "fault-before": () => or(nextFault(page.found.reports, -1, page.first + half()), half()),
        "fault-behind": () => or(nextFault(page.found.reports, 1, page.first + half()), half()),
    };
    for (const [id, place] of Object.entries(moves)) {
        at(id).addEventListener("click", () => page.levels(place()));
    }
    at("cell").addEventListener("change", () => page.levels(Number(at("cell").value)));
    at("block").addEventListener("change", () => page.showBlock(Number(at("block").value)));
    at("show-block").addEventListener("click", () => {
        page.levels(page.found.reports.wholePlace(Number(at("block").value)) - 8);
    });
    at("more").addEventListener("click", () => {
        page.most += MOST_FAULTS;
        page.rows();
    });
    at("strip").addEventListener("click", event => {
        const { left, width } = at("strip").getBoundingClientRect();
        page.levels((event.clientX - left) / width * page.found.cells.total - page.shown() / 2);
    });
    at("wave").addEventListener("wheel", event => {
        event.preventDefault();
        page.levels(page.first + Math.sign(event.deltaY + event.deltaX) * 8);
    }, { passive: false });
}

function listenToKeys(page) {
    const take = (event, place) => {
        if (place !== undefined && !event.ctrlKey && !event.altKey && !event.metaKey) {
            event.preventDefault();
            page.levels(place);
        }
    };
    at("strip").addEventListener("keydown", event => take(event, placeByKey(event.key, page.first, page.found.cells.total)));
    at("wave").addEventListener("keydown", event => {
        const places = {
            ArrowLeft: page.first - 8, ArrowRight: page.first + 8, PageUp: page.first - page.shown(),
            PageDown: page.first + page.shown(), Home: 0, End: page.found.cells.total,
        };
        take(event, places[event.key]);
    });
}

function listenToWindow(page) {
    const drawAgain = () => {
        if (page.found) {
            drawStrip(at("strip"), page.found);
            page.levels(page.first + (page.count - page.shown()) / 2);
        }
    };
    window.addEventListener("resize", drawAgain);
    matchMedia("(prefers-color-scheme: dark)").addEventListener("change", drawAgain);
}

export function listen(page) {
    listenToFiles(page);
    listenToMoves(page);
    listenToKeys(page);
    listenToWindow(page);
}
