"""Samples of a logic analyser: what the page recovers of them beside `aes3-cells`, how it draws their edges beside `--picture`, and what it
says where there is no line."""

import os
import re
import subprocess

from checks.expected import ROOT
from checks.lines import SHOWN
from checks.saves import saved

CELLS = f"{ROOT}/crates/aes3_cells_program/out/aes3_cells_program"


def captures(program):
    """Each capture as its name, its samples, and the octets of one and the channel of the line."""
    with open(f"{ROOT}/examples/speech.block", "rb") as file:
        line = program("encode", file.read(1536 * 60))
    rows = line.split(b"\n")
    rows[5000] = bytes([rows[5000][0] ^ 1]) + rows[5000][1:]
    damaged = b"\n".join(rows)[3001:]
    to_samples = ["python3", f"{ROOT}/examples/neighbours/samples.py"]
    samples = lambda *how, of=damaged: subprocess.run([*to_samples, *how], input=of, stdout=subprocess.PIPE, check=True).stdout
    yield "3.9 samples a cell with jitter", samples("3.90625", "0.3"), 1, 0
    yield "channel 6", samples("8").translate(bytes([0, 64]) + bytes(range(2, 256))), 1, 6
    yield "channel 11 of 16", b"".join(bytes([it * 7, it << 3]) for it in samples("4")), 2, 11
    part = samples("5")[:400_000]
    yield "a dead stretch", bytes(300_000) + part + bytes(200_001) + part, 1, 0


def recovered(path, unit, channel):
    """The packed cells, and what was found, by the program."""
    with open(path, "rb") as file:
        ran = subprocess.run([CELLS, "--packed-out", "--unit", str(unit), "--bit", str(channel)], stdin=file, stdout=subprocess.PIPE,
                             stderr=subprocess.PIPE)
    return ran.stdout, ran.stderr.decode()


BAR = re.compile(r"(rising|falling), ([+-]?)(\d+\.\d+) UI: (\d+) edges")
SIDE = re.compile(r"([\d,]+) (rising|falling): (\d+\.\d+) UI (early|late) on average, (\d+\.\d+) UI rms about that")
EDGES = """(() => ["rising", "falling"].map(name => {
    const { edges, mean, rms, bars } = page.found.edges[name];
    return [edges, mean, rms, bars];
}))()"""


def compare_edges(compare, browser, name, path, line, folder):
    """The edges that the page draws, by the numbers in a picture of the program."""
    picture = f"{folder}/edges.svg"
    with open(path, "rb") as file:
        subprocess.run([CELLS, "--unit", str(line[0]), "--bit", str(line[1]), "--picture", picture], stdin=file, stdout=subprocess.DEVNULL,
                       stderr=subprocess.DEVNULL)
    with open(picture, encoding="ascii") as file:
        text = file.read()
    bars = {"rising": [0] * 65, "falling": [0] * 65}
    for side, sign, distance, count in BAR.findall(text):
        bars[side][32 + round(float(sign + distance) * 64)] += int(count)
    for (count, side, mean, where, rms), shown in zip(SIDE.findall(text), browser.ask(EDGES)):
        count = int(count.replace(",", ""))
        mean = float(mean) * (-1 if where == "early" else 1)
        compare.same(f"{name}: {side} edges, {count} and {shown[0]}", abs(shown[0] - count) <= 4 + count / 200, True)
        compare.same(f"{name}: {side}, their mean", abs(shown[1] - mean) < 0.003, True)
        compare.same(f"{name}: {side}, their rms", abs(shown[2] - float(rms)) < 0.003, True)
        moved = sum(abs(one - other) for one, other in zip(bars[side], shown[3]))
        compare.same(f"{name}: {side}, their bars differ by {moved}", moved <= 20 + count / 20, True)
    compare.same(f"{name}: the edges are drawn", browser.ask("[at('edges').hidden, at('edges').querySelectorAll('rect.rising').length > 0]"),
                 [False, True])


def compare_captures(compare, browser, program, folder):
    """How many captures were compared; None where there is no program to compare with."""
    if not os.access(CELLS, os.X_OK):
        print("left out: captures on the page (bin/build aes3_cells_program makes aes3-cells)")
        return None
    count = 0
    for name, samples, unit, channel in captures(program):
        path = f"{folder}/{name}"
        with open(path, "wb") as file:
            file.write(samples)
        browser.ask("at('form').value = 'look'")
        compare.same(f"{name}: state", browser.give(path), "shown")
        shown = browser.ask(SHOWN)
        buttons = browser.ask("[...at('advice').querySelectorAll('button')].map(it => it.textContent)")
        press = f"Recover the cells of channel {channel}"
        if not name.startswith("a dead"):
            compare.same(f"{name}: recognised", (shown["isOther"], press in buttons, "--unit 2" in shown["advice"]), (True, True, unit == 2))
            browser.ask("document.body.dataset.state = 'given'; [...at('advice').querySelectorAll('button')]"
                        f".find(it => it.textContent === '{press}').click()")
        else:
            browser.ask(f"""document.body.dataset.state = 'given'; at('unit').value = {unit}; at('channel').value = {channel};
                at('form').value = 'samples'; at('form').dispatchEvent(new Event('change'))""")
        compare.same(f"{name}: state of its cells", browser.wait("shown", "failed"), "shown")
        shown = browser.ask(SHOWN)
        cells, said = recovered(path, unit, channel)
        compare.same(f"{name}: lines", shown["lines"], program("check", cells, "--packed-in").decode().rstrip("\n"))
        number, figures = re.match(r"aes3-cells: (\d+) cells, (.*)\n", said).groups()
        compare.same(f"{name}: what was found", shown["state"],
                     f"{name}: {int(number):,} cells, as samples of a logic analyser, channel {channel}: {figures}")
        compare.same(f"{name}: the packed cells", browser.ask("page.found.cells.file.size"), len(cells))
        blocks = saved(browser, folder, "save-blocks", f"{name}.block")
        compare.same(f"{name}: the block file", blocks == program("decode", cells, "--packed-in"), True)
        compare_edges(compare, browser, name, path, (unit, channel), folder)
        compare.same(f"{name}: the menus are shown", browser.ask("at('samples').hidden"), False)
        count += 1
    browser.ask("document.body.dataset.state = 'given'; at('channel').value = 1; at('channel').dispatchEvent(new Event('change'))")
    compare.same("no line: state", browser.wait("shown", "failed"), "failed")
    compare.same("no line", "no line was found in channel 1" in browser.ask(SHOWN)["trouble"], True)
    browser.ask("at('form').value = 'look'; at('channel').value = 0; at('unit').value = 1; at('samples').hidden = true")
    return count
