"""Lines, whole and damaged: what the page shows beside what the program tells."""

import re

from checks.expected import packed, text_cells

SHOWN = """(() => {
    const table = id => [...(at(id)?.rows ?? [])].map(row => [...row.cells].map(cell => cell.textContent));
    const path = [...at("wave").querySelectorAll("polyline")].at(-1).getAttribute("points");
    return {
        state: at("state").textContent, trouble: at("trouble").textContent, summary: at("summary").textContent,
        rows: table("rows").slice(1), lines: at("lines").textContent, changes: at("changes").textContent,
        statuses: [1, 2].map(it => [at(`status-${it}`)?.caption.textContent, table(`status-${it}`)]),
        frames: table("frames").slice(1), peaks: table("peaks"), block: at("block").value,
        left: at("left").textContent, advice: at("advice").textContent, isOther: at("found").hidden,
        rate: at("rate-used").textContent, stretch: at("stretch").textContent,
        seen: [...at("seen").children].map(it => it.textContent),
        first: Number(at("cell").value), points: path, texts: [...at("wave").querySelectorAll("text")].map(it =>
            [it.textContent, Number(it.getAttribute("x"))]),
    };
})()"""


def shown_lines(shown):
    """The two lines of `show` that the tables of channel status make."""
    for channel, (caption, rows) in enumerate(shown["statuses"], 1):
        if caption:
            fields = " ".join(f"{name}={value}" for name, value, _ in rows[:-1])
            yield f"block={shown['block']} channel={channel} {caption.split()[-1]} {fields}"


def is_fault(line):
    return line.startswith(("fault", "marked"))


def compare_rows(compare, name, shown, told):
    """A row for each line but those of whole blocks, up to 20 faults, and a count of the faults that are left out."""
    others = [line for line in told if not line.startswith("whole")]
    rows = [row[2] for row in shown["rows"] if row[2]]
    faults = sum(map(is_fault, rows))
    compare.same(f"{name}: rows", rows, others[:len(rows)])
    compare.same(f"{name}: at most 20 faults and 60 rows", (faults <= 20, len(shown["rows"]) <= 60), (True, True))
    missing = sum(map(is_fault, others)) - faults
    is_whole = re.search(r"with ([\d,]+) faults?\. ", shown["left"])
    compare.same(f"{name}: faults left out", int(is_whole[1].replace(",", "")) if is_whole else 0, missing)
    if missing:
        compare.same(f"{name}: as many as may be", faults == 20 or len(shown["rows"]) == 60, True)


def compare_opening(compare, name, shown, told, count):
    """It opens with the first fault in the middle, and the block before that, or with the first block."""
    fault = next((i for i, line in enumerate(told) if is_fault(line)), None)
    whole = [int(line.split()[2]) for line in told if line.startswith("whole")]
    cells = len(shown["points"].split()) // 2
    if fault is not None:
        words = told[fault].split()
        at = int(words[4] if words[0] == "fault" else words[2])
        first = at - cells // 2
    else:
        at = None
        first = whole[0] - 8 if whole else 0
    compare.same(f"{name}: opens", shown["first"], max(0, min(first, count - cells)))
    if whole:
        before = 0 if at is None else max(sum(place < at for place in whole) - 1, 0)
        compare.same(f"{name}: the block before", shown["block"], str(before))


def compare_levels(compare, name, shown, cells, marks):
    """The levels that are drawn are those of the cells, and each preamble of `scan` there has its title."""
    points = [tuple(map(float, it.split(","))) for it in shown["points"].split()]
    levels = bytes(y < 100 for _, y in points[::2])
    first = shown["first"]
    compare.same(f"{name}: levels", levels, bytes(cells[first:first + len(levels)]))
    titles = {text for text, _ in shown["texts"]}
    for place, mark in marks:
        if first <= place <= first + len(levels) - 8:
            compare.same(f"{name}: preamble {mark} at {place}", f"preamble {mark}" in titles, True)


def compare_blocks(compare, name, shown, words, program, data, option):
    """Status, changes of status and samples of the block that is shown."""
    number = int(shown["block"])
    show = program("show", data, *option).decode().splitlines()
    compare.same(f"{name}: status of the block", list(shown_lines(shown)), show[2 * number:2 * number + 2])
    sample = lambda word: (word >> 4 & 0xffffff) - (word >> 4 & 0x800000) * 2
    block = words[384 * number:384 * (number + 1)]
    side = lambda word: [f"{sample(word) / 2**23:.9f} ({word >> 4 & 0xffffff:06x})",
                         " ".join(str(word >> bit & 1) for bit in range(28, 32))]
    told = [[str(i), *side(block[2 * i]), *side(block[2 * i + 1])] for i in range(8)]
    compare.same(f"{name}: first frames", shown["frames"], told)
    for channel in (0, 1):
        peak = max(abs(sample(word)) for word in words[channel::2])
        found = re.search(r"\((\w+)\)", shown["peaks"][3 * channel][2])
        compare.same(f"{name}: greatest sample", int(found[1], 16) if found else 0, peak)
        for bit in (0, 1):
            count = sum(word >> 28 + bit & 1 for word in words[channel::2])
            compare.same(f"{name}: bits", shown["peaks"][3 * channel + 1 + bit][2], f"{count:,} of {len(words) // 2:,}")
        lines = program("show", data, "--changes", *option).decode()
        changed = re.findall(rf"^block=(\d+) channel={channel + 1}", lines, re.M)
        says = f"The status of channel {channel + 1} changes with block {', '.join(changed[1:])}."
        says = says if changed[1:] else f"Channel {channel + 1} has the same status in all whole blocks."
        compare.same(f"{name}: changes", says in shown["changes"], True)


def compare_input(compare, browser, program, folder, name, data, form):
    path = f"{folder}/{name}"
    with open(path, "wb") as file:
        file.write(data)
    state = browser.give(path)
    shown = browser.ask(SHOWN)
    option = ["--packed-in"] if form == "packed" else []
    told = program("check", data, *option).decode()
    gaps = re.findall(r"^gap at \d+ cells (\d+)$", program("check", data, "--gaps", *option).decode(), re.M)
    cells = text_cells(data) if form == "text" else \
        bytes(octet >> 7 - i & 1 for octet in data[:-1] for i in range(8))[:8 * (len(data) - 1) - data[-1]]
    compare.same(f"{name}: state", (state, shown["trouble"], shown["isOther"]), ("shown", "", False))
    count = lambda number, one: f"{number:,} {one}{'s' if number != 1 else ''}"
    compare.same(f"{name}: size", shown["state"], f"{name}: {count(len(cells), 'cell')}, as {form}")
    compare.same(f"{name}: lines", shown["lines"], told.rstrip("\n"))
    compare.same(f"{name}: gaps", f"{count(sum(map(int, gaps)), 'cell')} in no whole block." in shown["summary"], True)
    for kind, says in (("whole", "whole block"), ("fault", "fault")):
        number = len(re.findall(rf"^{kind}", told, re.M))
        compare.same(f"{name}: {kind}", count(number, says) in shown["summary"], number > 0 or kind == "whole")
    compare_rows(compare, name, shown, told.splitlines())
    compare_opening(compare, name, shown, told.splitlines(), len(cells))
    marks = re.findall(r"^mark (\w) at (\d+)", program("scan", data, *option).decode(), re.M)
    marks = [(int(place), mark) for mark, place in marks]
    compare_levels(compare, name, shown, cells, marks)
    fault = re.search(r"^fault at \d+ cell (\d+) \w+$", told, re.M)
    if fault:
        near = [x for text, x in shown["texts"] if text == fault[0]]
        compare.same(f"{name}: the fault is drawn", len(near), 1)
    whole = program("decode", data, *option)
    if whole:
        words = [int.from_bytes(whole[i:i + 4], "little") for i in range(0, len(whole), 4)]
        compare_blocks(compare, name, shown, words, program, data, option)
        show = program("show", data, *option).decode().splitlines()
        for number, two in ((0, show[:2]), (1 << 30, show[-2:])):
            browser.ask(f"page.showBlock({number})")
            compare.same(f"{name}: status of the first and last block", list(shown_lines(browser.ask(SHOWN))), two)


def compare_moves(compare, browser):
    """A file that is dropped, and the buttons beside the levels."""
    browser.ask("""(() => {
        document.body.dataset.state = "given";
        const data = new DataTransfer();
        data.items.add(exampleFile(page.codec));
        document.body.dispatchEvent(new DragEvent("drop", { dataTransfer: data, bubbles: true, cancelable: true }));
    })()""")
    compare.same("a file that is dropped", browser.wait("shown", "failed"), "shown")
    lines = ["whole at 12231 before 0", "fault at 36807 cell 49543 preamble", "whole at 61383 before 0",
             "whole at 85959 before 0"]
    compare.same("the example", browser.ask(SHOWN)["lines"].split("\n"), lines)
    half = browser.ask("Math.floor(page.shown() / 2)")
    for button, first in (("block-before", 36799), ("block-before", 12223), ("block-before", 12223), ("block-behind", 36799),
                          ("fault-behind", 49543 - half), ("block-behind", 61375), ("fault-before", 49543 - half),
                          ("show-block", 12223), ("fault-behind", 49543 - half), ("page-behind", 49543 - half + browser.ask("page.shown()") - 8)):
        browser.ask(f"at('{button}').click()")
        compare.same(f"the button {button}", browser.ask("page.first"), first)


def compare_refused(compare, browser, program, folder, line):
    """Inputs that the program refuses: the page says so, and shows what stands before."""
    def given(name, data):
        with open(f"{folder}/{name}", "wb") as file:
            file.write(data)
        browser.give(f"{folder}/{name}")
        return browser.ask(SHOWN)

    wrong = line[:50_000] + b"x" + line[50_000:]
    shown = given("a byte that is no cell", wrong)
    compare.same("a byte that is no cell", "Byte 50,000 " in shown["trouble"], True)
    compare.same("and the blocks before it", shown["lines"], program("check", wrong).decode().rstrip("\n"))
    shown = given("no ending", packed(text_cells(line)[:60_000])[:-1] + b"\x80")
    compare.same("packed cells without their ending", "one more octet" in shown["trouble"], True)
