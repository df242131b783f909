#!/usr/bin/env python3
"""tests/places.py PROGRAM [CELLS]: aes3-cells --places, on captures whose edges this script makes: each sample that it adds to a report is compared
with the edge at which the cell begins.

- Captures of 3.9 and 16.3 samples a cell, without jitter and with it, damaged, cut, with a line that stops and comes back, in one octet and two.
- The reports of check --gaps, watch, watch --json, scan and show --at.
- A report whose lines are in another order, without a last line feed, with lines of 100,000 octets, empty, and in pieces of one octet.
- What a person gives by mistake: the report of another capture, a capture without a line, no file.

PROGRAM is that of bin/build, CELLS that of bin/build aes3_cells_program; all is left out where it is not given. The last line is
`N passed, M failed`, and the status 1 where one failed.
"""

import argparse
import itertools
import math
import os
import random
import re
import subprocess
import sys
import tempfile

BLOCK = 24576
passed = failed = 0


def judge(name, is_right, why=""):
    global passed, failed
    if is_right:
        passed += 1
    else:
        failed += 1
        print(f"FAILED: {name} {why}")


def run(words, given=b""):
    ran = subprocess.run([str(word) for word in words], input=given, stdout=subprocess.PIPE, stderr=subprocess.PIPE, check=False)
    return ran.returncode, ran.stdout, ran.stderr.decode()


def cells_of_blocks(program, chance, count):
    """The cells of blocks with random payloads."""
    words = b""
    for _ in range(count * 384):
        word = chance.randrange(1 << 27) << 4
        word |= (bin(word).count("1") & 1) << 31
        words += word.to_bytes(4, "little")
    return run([program, "encode"], words)[1].decode().replace("\n", "")


def capture_of(cells, length, jitter, chance):
    """The samples of cells, and for each edge the cell that begins there and its first sample."""
    samples, edges = bytearray(), []
    at = begin = end = cell = 0
    for level, same in itertools.groupby(cells):
        run_of = sum(1 for _ in same)
        if cell:
            edges.append((cell, begin))
        at += length * run_of
        cell += run_of
        end = max(begin, math.ceil(at + chance.gauss(0, jitter)))
        samples += bytes([int(level)]) * (end - begin)
        begin = end
    return bytes(samples), edges


def edge_cells(text):
    """The cells of this text that differ from the one before them."""
    return [at for at in range(1, len(text)) if text[at] != text[at - 1]]


PLACE = re.compile(r"(.*?) sample (\d+)(?: seconds (\d+\.\d{9}))?")
JSON_PLACE = re.compile(r'(.*),"sample":(\d+)(?:,"seconds":(\d+\.\d{9}))?}')


def cell_in(line):
    """The cell that a line names: that of a fault, or else the place."""
    for pattern in (r" cell (\d+)", r" at[ =](\d+)", r'"at":(\d+)'):
        found = re.search(pattern, line)
        if found:
            return int(found[1])
    return None


class Line:
    """A capture, its cells by aes3-cells, and where its edges are."""

    def __init__(self, folder, options, samples, edges, program, cells):
        self.name = os.path.join(folder, "capture.bin")
        self.program, self.cells, self.options = program, cells, options
        with open(self.name, "wb") as file:
            file.write(samples)
        self.text = run([cells, *options, self.name])[1].decode().replace("\n", "")
        # Counted from the end: what comes before the first edge can be less than a cell.
        found = edge_cells(self.text)
        self.at = {cell: sample for cell, (_, sample) in zip(reversed(found), reversed(edges))} if 0 <= len(edges) - len(found) <= 1 else {}

    def report(self, *words):
        return run([self.program, *words], "\n".join(self.text[i : i + 64] for i in range(0, len(self.text), 64)).encode() + b"\n")[1]

    def places(self, report, rate=("--rate", "24M")):
        return run([self.cells, *rate, *self.options, "--places", self.name], report)


def compare(name, line, report, most, length=4, rate=24_000_000):
    """Each line of the report is there with the sample of its cell, `most` samples from the edge at most."""
    status, got, said = line.places(report)
    lines, was = got.decode().splitlines(), report.decode().splitlines()
    judge(f"{name}: status", status == 0, f"{status} {said}")
    judge(f"{name}: as many lines", len(lines) == len(was) and was != [], f"{len(lines)} {len(was)}")
    compared = 0
    for one, other in zip(lines, was):
        cell = cell_in(other)
        found = PLACE.fullmatch(one) or JSON_PLACE.fullmatch(one)
        if cell is None:
            judge(f"{name}: no cell", one == other, one)
            continue
        if not found:
            judge(f"{name}: {other}", False, one)
            continue
        kept = found[1] + ("}" if other.endswith("}") else "")
        if kept != other:
            judge(f"{name}: the line is kept", False, one)
        sample = int(found[2])
        if found[3] and abs(float(found[3]) - sample / rate) > 2e-9:
            judge(f"{name}: its time", False, one)
        if cell in line.at:
            compared += 1
            # The first 256 runs are measured together, and the first of them can be less than a cell.
            if abs(line.at[cell] - sample) > (most if cell > 600 else most + length):
                judge(f"{name}: cell {cell}", False, f"{sample}, and the edge is at {line.at[cell]}")
    judge(f"{name}: compared", compared > 0, f"{compared} of {len(was)}")


def damaged(cells, chance, count):
    """Cells with inverted ones in them."""
    some = list(cells)
    for _ in range(count):
        at = chance.randrange(len(some))
        some[at] = "10"[int(some[at])]
    return "".join(some)


def main(program, cells):
    chance = random.Random(62)
    line_cells = cells_of_blocks(program, chance, 6)
    with tempfile.TemporaryDirectory() as folder:
        for length, jitter, most in ((3.90625, 0, 2), (3.90625, 0.2, 3), (16.3, 0.5, 6), (48.1, 0, 3)):
            name = f"{length} samples a cell, jitter {jitter}"
            samples, edges = capture_of(line_cells[1000:-3000], length, jitter, chance)
            line = Line(folder, [], samples, edges, program, cells)
            judge(f"{name}: all edges", line.at != {})
            for words in (["check", "--gaps"], ["watch"], ["watch", "--json"], ["scan"], ["show", "--at"]):
                compare(f"{name}: {' '.join(words)}", line, line.report(*words), most, length)
        samples, edges = capture_of(damaged(line_cells, chance, 6), 3.90625, 0.1, chance)
        line = Line(folder, [], samples, edges, program, cells)
        report = line.report("check", "--gaps")
        judge("damaged: faults", report.count(b"fault") > 2, report.decode())
        compare("damaged", line, report, 3)

        # Two octets a sample, and the line in bit 9.
        wide = b"".join(bytes([7, 2 * level]) for level in samples)
        line = Line(folder, ["--unit", "2", "--bit", "9"], wide, edges, program, cells)
        compare("two octets", line, line.report("check", "--gaps"), 3)
        line = Line(folder, ["--rate", "24000000", "--at", "48000"], samples, edges, program, cells)
        status, got, said = run([cells, *line.options, "--places", line.name], line.report("check", "--gaps"))
        judge("--at", status == 0 and got.count(b" sample ") == got.count(b" at "), said)

        # A line that stops for 100,000 samples, and comes back.
        first, first_edges = capture_of(line_cells[:80_000], 4, 0, chance)
        last = len(first) + 100_000
        second, second_edges = capture_of(line_cells[50_000:], 4, 0, chance)
        if first[-1] != second[0]:
            second_edges.insert(0, (0, 0))
        samples = first + first[-1:] * 100_000 + second
        edges = first_edges + [(cell, sample + last) for cell, sample in second_edges]
        line = Line(folder, [], samples, edges, program, cells)
        report = line.report("watch")
        judge("a line that stops: lost and back", b"lost" in report and b"back" in report, report.decode())
        compare("a line that stops", line, report, 4)
        report = line.report("check", "--gaps")

        # Lines in any order, pieces and lines of any length.
        lines = report.splitlines(keepends=True)
        right = line.places(report)[1].splitlines()
        status, got, _ = line.places(b"".join(reversed(lines)))
        judge("the lines in reverse", status == 0 and got.splitlines() == right[::-1])
        status, got, _ = line.places(report.rstrip(b"\n"))
        judge("no line feed at the end", status == 0 and got.splitlines() == right)
        judge("an empty report", line.places(b"")[:2] == (0, b""))
        odd = b"x" * 100_000 + b"\n" + b"at at at at\nat 99999999999999999999\ncells 5\nat\n"
        judge("lines that name no cell", line.places(odd)[:2] == (1, odd))
        status, got, said = line.places(line.text.encode())
        judge("cells for the report", status == 1 and got == line.text.encode() and "names no cell" in said, said)
        with subprocess.Popen([cells, "--places", line.name], stdin=subprocess.PIPE, stdout=subprocess.PIPE) as slow:
            for octet in report[:300]:
                slow.stdin.write(bytes([octet]))
                slow.stdin.flush()
            slow.stdin.close()
            whole = line.places(report[:300], ())[1]
            judge("one octet at a time", slow.stdout.read() == whole)

        # Mistakes.
        status, got, said = line.places(b"whole at 900000000 before 0\n")
        judge("a place behind the capture", status == 1 and got == b"whole at 900000000 before 0\n" and "1 report line" in said, said)
        judge("no file", run([cells, "--places"], report)[0] == 2)
        judge("standard input for the capture", run([cells, "--places", "-"], report)[0] == 2)
        for name, samples in (("no sample", b""), ("no signal", b"\0" * 100_000), ("noise", random.Random(1).randbytes(300_000))):
            line = Line(folder, [], samples, [], program, cells)
            status, got, said = line.places(report)
            judge(f"{name}: status", status == 1, f"{status} {said}")
            judge(f"{name}: the report alone", got in (report, b""), got[:80])
    print(f"{passed} passed, {failed} failed")
    return failed > 0


if __name__ == "__main__":
    parser = argparse.ArgumentParser(description=__doc__, formatter_class=argparse.RawDescriptionHelpFormatter)
    parser.add_argument("program")
    parser.add_argument("cells", nargs="?")
    given = parser.parse_args()
    if not given.cells or not os.access(given.cells, os.X_OK):
        print("left out: tests/places.py (there is no aes3-cells: bin/build aes3_cells_program)")
        print("0 passed, 0 failed")
        sys.exit(0)
    sys.exit(main(given.program, given.cells))
