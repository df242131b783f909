#!/usr/bin/env python3
"""tests/pictures.py CELLS AES3: the numbers in the pictures of aes3-cells (--picture) against those computed here.

Captures of lines are made here, with each edge displaced by a known distance from a known grid. From these distances the test counts
the edges in each 64th of a cell, rising and falling apart, and compares means, rms, the greatest distance and each bar. It compares the
length of a cell over time with that of a line that drifts, and the samples without signal with those that it put in. The picture
measures places by a clock of its own, not by the grid; so bars may differ by the edges near their borders.

Then it draws what is no line, and names files that can't be written or may not be replaced: the cells have to be those without a
picture, and the status 3. CELLS is the program aes3-cells, AES3 is aes3. The last line is `N passed, M failed`, and the status 1 where
one failed.
"""

import argparse
import bisect
import math
import os
import random
import re
import subprocess
import sys
import tempfile
import xml.etree.ElementTree

SUBFRAMES = 384
FIRST = 257  # the first edge, and 256 by which the line is found
NEAR, FEW = 0.006, 0.002  # the noise of the picture's clock in cells, and the part of the edges that it may displace farther
BAR = re.compile(r"(rising|falling), ([+-]?)(\d+\.\d+) UI: (\d+) edges")
POINT = re.compile(r"samples (\d+) to (\d+): (\d+\.\d+) samples a cell")
SILENCE = re.compile(r"no signal: samples (\d+) to (\d+)")
SIDE = re.compile(r"([\d,]+) (rising|falling): (\d+\.\d+) UI (early|late) on average, (\d+\.\d+) UI rms about that, (\d+\.\d+) UI peak")
ALL = re.compile(r"([\d,]+) edges: (\d+\.\d+) UI rms from their places, (\d+\.\d+) UI at most")


def run(words, given=b"", **more):
    return subprocess.run(words, input=given, stdout=subprocess.PIPE, stderr=subprocess.PIPE, check=False, **more)


def cells_of_blocks(aes3, chance, count):
    """The cells of blocks with random payloads, as a string of 0 and 1."""
    words = b""
    for _ in range(count * SUBFRAMES):
        word = chance.randrange(1 << 27) << 4
        word |= (bin(word).count("1") & 1) << 31
        words += word.to_bytes(4, "little")
    return run([aes3, "encode"], words).stdout.decode().replace("\n", "")


class Capture:
    """The samples of a line: a cell has `cell` samples, and at the end `drift` parts more; edges are displaced by `rms` samples, and
    falling ones are `late`. A pause of some samples comes before each cell that `pauses` names."""

    def __init__(self, chance, cells, cell, rms=0.0, late=0.0, drift=0.0, pauses=None):
        pauses = pauses or {}
        self.samples = bytearray()
        self.edges = []  # the sample, whether it rises, and the distance from its place in cells
        self.silences = []
        self.lengths = []  # the place of each cell and its length
        place = 20 + chance.random() * cell
        at = 0
        for number, level in enumerate(cells):
            length = cell * (1 + drift * number / len(cells))
            if number in pauses:
                place += pauses[number]
            if number > 0 and level != cells[number - 1]:
                edge = max(at + 1, math.ceil(place + chance.gauss(0, rms) + (late if level == "0" else 0)))
                if number in pauses:
                    self.silences.append((self.edges[-1][0], edge - 1))
                self.samples += bytes([int(cells[number - 1])]) * (edge - at)
                self.edges.append((edge, level == "1", (edge - place) / length))
                at = edge
            self.lengths.append((place, length))
            place += length
        self.samples += bytes([int(cells[-1])]) * int(cell)

    def distances(self):
        """The distances of the edges that are followed, rising and falling, from the middle between the means of both."""
        sides = {name: [] for name in ("rising", "falling")}
        for _, rises, distance in self.edges[FIRST:]:
            sides["rising" if rises else "falling"].append(distance)
        middle = sum(sum(side) / len(side) for side in sides.values()) / 2
        return {name: [distance - middle for distance in side] for name, side in sides.items()}


class Drawn:
    """What is in a picture."""

    def __init__(self, file):
        with open(file, encoding="ascii") as opened:
            text = opened.read()
        xml.etree.ElementTree.fromstring(text)
        self.bars = {"rising": [0] * 65, "falling": [0] * 65}
        for name, sign, distance, count in BAR.findall(text):
            self.bars[name][32 + round(float(sign + distance) * 64)] += int(count)
        self.points = [(int(a), int(b), float(p)) for a, b, p in POINT.findall(text)]
        self.silences = [(int(a), int(b)) for a, b in SILENCE.findall(text)]
        self.sides = {}
        for count, name, mean, side, rms, width in SIDE.findall(text):
            self.sides[name] = (int(count.replace(",", "")), float(mean) * (-1 if side == "early" else 1), float(rms), float(width))
        count, self.rms, self.greatest = ALL.search(text).groups()
        self.edges, self.rms, self.greatest = int(count.replace(",", "")), float(self.rms), float(self.greatest)
        self.title = re.search(r'font-weight="bold">([^<]*)</text>', text).group(1)


def rms_of(numbers):
    return math.sqrt(sum(number * number for number in numbers) / len(numbers))


def differences(drawn, capture):
    """What differs between a picture and its capture."""
    wanted = capture.distances()
    total = sum(len(side) for side in wanted.values())
    if drawn.edges != total or sum(map(sum, drawn.bars.values())) != total:
        yield f"{drawn.edges} edges, {sum(map(sum, drawn.bars.values()))} in bars, not {total}"
    for name, side in wanted.items():
        count, mean, rms, width = drawn.sides[name]
        if count != len(side) or sum(drawn.bars[name]) != count:
            yield f"{name}: {count} edges, not {len(side)}"
        is_mean = sum(side) / len(side)
        is_rms = rms_of([distance - is_mean for distance in side])
        is_width = max(side) - min(side)
        if abs(mean - is_mean) > 0.001 or abs(rms - is_rms) > 0.001 + 0.01 * is_rms or abs(width - is_width) > 0.02:
            yield f"{name}: mean {mean}, rms {rms}, width {width}, not {is_mean:.4f}, {is_rms:.4f}, {is_width:.4f}"
        # How many edges lie up to each border between bars: of the edges within NEAR of it some may be on its other side.
        side = sorted(side)
        upto = 0
        for number, bar in enumerate(drawn.bars[name]):
            upto += bar
            border = (number - 31.5) / 64
            least, most = bisect.bisect(side, border - NEAR), bisect.bisect(side, border + NEAR)
            if not least - FEW * len(side) <= upto <= most + FEW * len(side):
                yield f"{name}: {upto} of {len(side)} edges up to {border:.4f}, not {least} to {most}: {drawn.bars[name]}"
                break
    both = wanted["rising"] + wanted["falling"]
    if abs(drawn.rms - rms_of(both)) > 0.001 + 0.01 * rms_of(both) or abs(drawn.greatest - max(map(abs, both))) > 0.02:
        yield f"rms {drawn.rms} and at most {drawn.greatest}, not {rms_of(both):.4f} and {max(map(abs, both)):.4f}"
    if drawn.silences != capture.silences:
        yield f"no signal in {drawn.silences}, not in {capture.silences}"


def period_differences(drawn, capture, least):
    """Points whose length of a cell is farther than so many parts from the mean of the cells in them."""
    if not drawn.points:
        yield "there is no point"
    for number, (first, last, period) in enumerate(drawn.points):
        # The clock begins with the length of a cell that was measured from 256 runs, and settles in the first point.
        parts = 0.0005 if number == 0 else least
        lengths = [length for place, length in capture.lengths if first <= place <= last]
        if lengths and abs(period / (sum(lengths) / len(lengths)) - 1) > parts:
            yield f"samples {first} to {last}: {period}, not {sum(lengths) / len(lengths)}"


def main():
    parser = argparse.ArgumentParser(description=__doc__, formatter_class=argparse.RawDescriptionHelpFormatter)
    parser.add_argument("cells")
    parser.add_argument("aes3")
    given = parser.parse_args()
    program, aes3 = os.path.abspath(given.cells), os.path.abspath(given.aes3)
    chance = random.Random(1)
    counts = {True: 0, False: 0}

    def judge(what, wrong):
        wrong = list(wrong)
        counts[not wrong] += 1
        if wrong:
            print(f"pictures: {what}:", *wrong[:6], sep="\n    ", file=sys.stderr)

    def draw(samples, *words, status=0):
        """The picture of these samples; judges whether the run differs from one without a picture."""
        if os.path.exists("drawn.svg"):
            os.remove("drawn.svg")
        plain = run([program, *words], samples)
        drawing = run([program, "--picture", "drawn.svg", *words], samples)
        judge(
            f"the cells beside a picture, {words}",
            ["they differ"] * ((plain.stdout, plain.stderr, plain.returncode) != (drawing.stdout, drawing.stderr, drawing.returncode))
            + [f"status {drawing.returncode}: {drawing.stderr.decode()}"] * (drawing.returncode != status)
            + ["a part is left"] * os.path.exists("drawn.svg.part"),
        )
        return Drawn("drawn.svg")

    with tempfile.TemporaryDirectory() as folder:
        os.chdir(folder)
        cells = cells_of_blocks(aes3, chance, 3)

        def edge_from(number):
            """The first cell from this one on that begins with an edge."""
            while cells[number] == cells[number - 1]:
                number += 1
            return number

        lines = (
            ("sharp edges", {"cell": 8.25}, ()),
            ("jitter", {"cell": 8.25, "rms": 0.3}, ()),
            ("jitter, at four samples a cell", {"cell": 4.07, "rms": 0.12}, ()),
            ("falling edges late", {"cell": 10.3, "rms": 0.2, "late": 2.5}, ()),
            ("rising edges late", {"cell": 10.3, "rms": 0.2, "late": -2.5}, ("--rate", "24M")),
            ("a line that drifts", {"cell": 6.1, "rms": 0.15, "drift": 0.0002}, ()),
            ("long cells", {"cell": 61.3, "rms": 3}, ()),
            ("a line that stops twice", {"cell": 5.7, "rms": 0.1, "pauses": {edge_from(20_000): 3000, edge_from(51_234): 500_000}}, ()),
        )
        for what, have, words in lines:
            capture = Capture(chance, cells, **have)
            drawn = draw(bytes(capture.samples), *words)
            if "pauses" in have:
                judge(what, [f"{drawn.silences}, not {capture.silences}"] * (drawn.silences != capture.silences))
            else:
                judge(what, differences(drawn, capture))
                judge(f"{what}: the length of a cell", period_differences(drawn, capture, 0.0001))

        # The same samples in another bit of two octets, with chance in the others; the figures are the same.
        capture = Capture(chance, cells[:30_000], cell=7.3, rms=0.2)
        drawn = draw(bytes(capture.samples))
        judge("one octet a sample", differences(drawn, capture))
        pairs = b"".join((chance.randrange(1 << 16) & ~(1 << 9) | sample << 9).to_bytes(2, "little") for sample in capture.samples)
        other = draw(pairs, "--unit", "2", "--bit", "9")
        judge("two octets a sample", ["other bars"] * (other.bars != drawn.bars or other.points != drawn.points))

        # What is no line, or too little of one. Nothing is drawn of edges, and the cells are as without a picture.
        few = Capture(chance, cells[:90], cell=8)
        noise = b"".join(bytes([number & 1]) * chance.randrange(2, 10) for number in range(40_000))
        for what, samples, words, status in (
            ("no sample", b"", (), 1),
            ("one sample", b"\x01", (), 1),
            ("half a sample", b"\x01", ("--unit", "2"), 1),
            ("one cell", b"\x00" * 40 + b"\x01" * 8 + b"\x00" * 40, (), 1),
            ("no signal", b"\x00" * 1_000_000, (), 1),
            ("no signal at the other level", b"\x01" * 1_000_000, ("--rate", "24M", "--at", "48k"), 1),
            ("few edges", bytes(few.samples), (), 1),
            ("noise", noise, (), 1),
            ("noise, with a rate", noise, ("--rate", "24M", "--at", "48k"), 1),
        ):
            drawn = draw(samples, *words, status=status)
            judge(what, [f"{drawn.title}: {drawn.edges} edges"] * (drawn.edges != 0 or "No AES3 line" not in drawn.title))

        # Noise between two lines, and more stretches without signal than a picture keeps.
        parts = [Capture(chance, cells[:5000], cell=6.2, rms=0.2) for _ in range(300)]
        silent = b"".join(bytes(part.samples) + bytes(2000) for part in parts)
        drawn = draw(silent, "--rate", "24M")
        judge("300 stretches without signal", [f"{drawn.title}: {len(drawn.silences)}"] * (not 200 <= len(drawn.silences) <= 256))
        line = bytes(Capture(chance, cells, cell=6.2, rms=0.2).samples)
        drawn = draw(line + noise + line)
        judge("noise between lines", [f"{drawn.edges}"] * (drawn.edges < 90_000))

        # Files that can't be written, or that are no pictures: nothing of them changes.
        samples = bytes(Capture(chance, cells[:6000], cell=8, rms=0.1).samples)
        with open("capture.bin", "wb") as file:
            file.write(samples)
        os.symlink("capture.bin", "link")
        os.mkdir("folder")
        os.mkfifo("part.svg.part")
        wanted = run([program, "capture.bin"])
        for name, why in (
            ("capture.bin", "is no SVG picture"),
            ("link", "is no SVG picture"),
            ("folder", "no picture was written"),
            ("none/drawn.svg", "no picture was written"),
            ("part.svg", "no picture was written to part.svg: part.svg.part exists, so remove or rename it"),
            ("/dev/full", "no picture was written"),
            ("-", "standard output has the cells"),
            ("", "no picture was written"),
        ):
            before = sorted(os.listdir("."))
            ran = run([program, "--picture", name, "capture.bin"])
            judge(
                f"--picture {name}",
                [f"status {ran.returncode}"] * (ran.returncode != 3)
                + ["other cells"] * (ran.stdout != wanted.stdout)
                + [ran.stderr.decode()] * (why not in ran.stderr.decode() or wanted.stderr.decode() not in ran.stderr.decode())
                + ["other files"] * (sorted(os.listdir(".")) != before),
            )
        with open("capture.bin", "rb") as file:
            judge("the capture is as it was", ["it differs"] * (file.read() != samples))

        # A picture is replaced, and so is an empty file; into a pipe it is written at once; where the output fails there is none.
        open("drawn.svg", "w", encoding="ascii").close()
        ran = run([program, "--picture", "drawn.svg", "capture.bin"])
        again = run([program, "--picture", "drawn.svg", "capture.bin"])
        judge("a picture is replaced", [again.stderr.decode()] * (ran.returncode != 0 or again.returncode != 0 or Drawn("drawn.svg").edges == 0))
        ran = run(["sh", "-c", '"$1" --picture /dev/fd/3 capture.bin 3>&1 >/dev/null | cat', "sh", program])
        with open("drawn.svg", "rb") as file:
            judge("a picture into a pipe", ["another picture"] * (ran.stdout != file.read()))
        ran = run(["sh", "-c", '"$1" --picture full.svg capture.bin >/dev/full', "sh", program])
        judge("an output that fails", [f"status {ran.returncode}"] * (ran.returncode != 3 or os.path.exists("full.svg") or os.path.exists("full.svg.part")))

        # By pieces of any length the picture is the same.
        with open("drawn.svg", "rb") as file:
            whole = file.read()
        ran = run(["sh", "-c", '{ dd bs=7 count=1001; dd bs=4099; } <capture.bin 2>/dev/null | "$1" --picture pieces.svg >/dev/null', "sh", program])
        with open("pieces.svg", "rb") as file:
            judge("a capture in pieces", ["another picture"] * (file.read() != whole))

    print(f"{counts[True]} passed, {counts[False]} failed")
    sys.exit(counts[False] > 0)


if __name__ == "__main__":
    main()
