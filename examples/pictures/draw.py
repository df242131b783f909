#!/usr/bin/env python3
"""Draws a stretch of a line as SVG, from its cells and from what aes3 prints for them.

    draw.py PROGRAM FROM COUNT < LINE.txt > PICTURE.svg

LINE.txt is cell text. The picture has the blocks of the whole input as a strip (`check`), and below it the levels of
COUNT cells from cell FROM on, with preambles (`scan`), time slots, their bits, and the cell of each fault in red. The
first words of the channel status of the block there (`show`) are above.
"""

import argparse
import html
import re
import subprocess
import sys

CELL = 14
LEFT = 20
HIGH, LOW = 150, 200
BLOCK = 24576
FIELDS = [(0, 4, "preamble"), (4, 28, "sample"), (28, 29, "V"), (29, 30, "U"), (30, 31, "C"), (31, 32, "P")]
COLOURS = {"preamble": "#cfe2ff", "sample": "#eef3ea", "V": "#fff1c9", "U": "#ffe3c9", "C": "#f3dcff", "P": "#e3e3e3"}


def told(program, command, text):
    try:
        ran = subprocess.run([program, command], input=text, stdout=subprocess.PIPE, text=True)
    except OSError as error:
        sys.exit(f"draw.py: {program} can't be run: {error.strerror}")
    if ran.returncode > 1:
        sys.exit(ran.returncode)
    return ran.stdout.splitlines()


class Picture:
    def __init__(self, first, count):
        self.first, self.count = first, count
        self.width = 2 * LEFT + count * CELL
        self.parts = []

    def x(self, cell):
        return LEFT + (cell - self.first) * CELL

    def rect(self, x, y, width, height, fill, stroke="none", opacity=1):
        at = f'x="{x:.1f}" y="{y}" width="{width:.1f}" height="{height}"'
        self.parts.append(f'<rect {at} fill="{fill}" fill-opacity="{opacity}" stroke="{stroke}"/>')

    def text(self, x, y, text, size=12, fill="#222", anchor="middle"):
        at = f'x="{x:.1f}" y="{y}" font-size="{size}" fill="{fill}" text-anchor="{anchor}"'
        self.parts.append(f"<text {at}>{html.escape(text)}</text>")

    def line(self, points, stroke="#123", width=2):
        at = " ".join(f"{x:.1f},{y}" for x, y in points)
        self.parts.append(f'<polyline points="{at}" fill="none" stroke="{stroke}" stroke-width="{width}"/>')

    def svg(self, height):
        head = f'<svg xmlns="http://www.w3.org/2000/svg" width="{self.width}" height="{height}" '
        head += f'viewBox="0 0 {self.width} {height}" font-family="sans-serif">'
        back = f'<rect width="{self.width}" height="{height}" fill="#ffffff"/>'
        return "\n".join([head, back, *self.parts, "</svg>"]) + "\n"


def reports(lines):
    """Each line of `check` as its word, the cell where the block begins, the cell of the fault or None, and the rest."""
    for line in lines:
        word, _, place, *more = line.split()
        if word == "fault":
            yield word, int(place), int(more[1]), more[2]
        else:
            yield word, int(place), None, " ".join(more)


def draw_strip(picture, found, total):
    """The whole input, and which part of it the window shows."""
    scale = (picture.width - 2 * LEFT) / total
    picture.rect(LEFT, 40, total * scale, 18, "#ffffff", "#999")
    for word, place, fault, _ in found:
        end = min(place + BLOCK, total) if fault is None else fault
        colour = {"whole": "#b9dcb4", "marked": "#f5a25d", "fault": "#e5484d", "unfinished": "#d9d9d9"}[word]
        picture.rect(LEFT + place * scale, 40, max((end - place) * scale - 0.4, 1.5), 18, colour)
    x = LEFT + (picture.first + picture.count / 2) * scale
    picture.line([(x, 58), (x, 66)], "#222", 1)
    picture.line([(LEFT, 74), (x, 66), (picture.width - LEFT, 74)], "#222", 1)
    counts = {word: sum(it[0] == word for it in found) for word in ("whole", "marked", "fault", "unfinished")}
    says = ", ".join(f"{count} {word}" for word, count in counts.items() if count)
    picture.text(LEFT, 32, f"the input: {total:,} cells; check tells {says}", anchor="start")


def draw_subframe(picture, place, mark, cells):
    """The fields and the bits of the subframe whose preamble begins at a place."""
    last = picture.first + picture.count
    for first, end, name in FIELDS:
        left, right = max(place + 2 * first, picture.first), min(place + 2 * end, last)
        if left >= right:
            continue
        picture.rect(picture.x(left), HIGH - 22, (right - left) * CELL, LOW - HIGH + 62, COLOURS[name])
        title = f"preamble {mark}" if name == "preamble" else name if name != "sample" else "sample, lowest bit first"
        if right - left > 1:
            picture.text((picture.x(left) + picture.x(right)) / 2, HIGH - 28, title, 11)
    for slot in range(32):
        cell = place + 2 * slot
        if picture.first <= cell and cell + 2 <= last:
            x = picture.x(cell)
            picture.line([(x, HIGH - 16), (x, LOW + 24)], "#bbb", 0.7)
            picture.text(x + CELL, LOW + 36, str(slot), 8, "#888")
            if slot >= 4:
                bit = int(cells[cell] != cells[cell + 1])
                picture.text(x + CELL, LOW + 22, str(bit), 12, "#222")


def draw_level(picture, cells):
    points = []
    for level, y in (("1", HIGH), ("0", LOW)):
        picture.text(LEFT / 2, y + 4, level, 10, "#888")
    for cell in range(picture.first, min(picture.first + picture.count, len(cells))):
        y = HIGH if cells[cell] == "1" else LOW
        points += [(picture.x(cell), y), (picture.x(cell + 1), y)]
    picture.line(points)


def main():
    parser = argparse.ArgumentParser(description=__doc__, formatter_class=argparse.RawDescriptionHelpFormatter)
    parser.add_argument("program", metavar="PROGRAM")
    parser.add_argument("first", metavar="FROM", type=int)
    parser.add_argument("count", metavar="COUNT", type=int)
    given = parser.parse_args()
    program, first, count = given.program, given.first, given.count
    if first < 0 or count < 1:
        parser.error("FROM is a cell counted from 0, and COUNT at least 1")
    try:
        text = sys.stdin.read()
    except UnicodeDecodeError:
        sys.exit("draw.py: the input is no cell text")
    cells = re.sub(r"\s", "", text)
    if first >= len(cells):
        sys.exit(f"draw.py: the input has {len(cells):,} cells, and cell {first:,} is not among them")
    found = list(reports(told(program, "check", text)))
    marks = [line.split() for line in told(program, "scan", text)]
    marks = {int(it[3]): it[1] for it in marks}
    picture = Picture(first, count)
    last = first + count

    # Subframes follow their preambles; where one is damaged, the step of 64 cells shows where it was due.
    places = [place for place in marks if first - 64 < place < last]
    due = [place + 64 for place in places if place + 64 < last and place + 64 not in marks]
    for place in sorted(places + due):
        draw_subframe(picture, place, marks.get(place, "missing"), cells)

    whole = [place for word, place, _, _ in found if word == "whole"]
    middle = first + count // 2
    block = next((place for place in whole if place <= middle < place + BLOCK), None)
    if block is None:
        says = f"cells {first:,} to {last - 1:,}"
    else:
        status = told(program, "show", text)[2 * whole.index(block)]
        says = f"cells {first:,} to {last - 1:,}; " + " ".join(status.split()[:8]) + " ..."
    picture.text(LEFT, 92, says, anchor="start")
    draw_strip(picture, found, len(cells))
    for word, place, fault, reason in found:
        if fault is not None and first <= fault < last:
            picture.rect(picture.x(fault), HIGH - 22, CELL, LOW - HIGH + 62, "#e5484d", "#e5484d", 0.35)
            picture.text(picture.x(fault) + CELL / 2, LOW + 58, f"fault at {place} cell {fault} {reason}", 12, "#c1121f")
    draw_level(picture, cells)
    print(picture.svg(LOW + 70), end="")
    return 0


if __name__ == "__main__":
    sys.exit(main())
