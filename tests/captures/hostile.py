#!/usr/bin/env python3
"""hostile.py PROGRAM [PIECES]: runs of samples that are no line, 10 million where none are given. It wants numpy.

First runs of any length, from one sample to a dead line, with pieces of a line between them, and bytes of chance: PROGRAM has to
end by itself, with 0, or with 1 where it finds no line, and to write no more cells than samples. Then runs of two cells and more at a given
rate: each has to come back as so many cells as passed in its time, or one more or fewer. The last line is `N passed, M failed`.
"""
import argparse
import subprocess
import sys

import numpy as np

PARTS = 40
CELL = 4.0
passed = failed = 0


def judge(what, is_right):
    global passed, failed
    passed, failed = passed + bool(is_right), failed + (not is_right)
    if not is_right:
        print(f"hostile: {what}")


def run(program, words, pieces):
    """What the program answers to these pieces of samples, and the runs of the cells that it writes."""
    with subprocess.Popen([program, *words], stdin=subprocess.PIPE, stdout=open("cells", "wb"), stderr=subprocess.DEVNULL) as child:
        for piece in pieces:
            child.stdin.write(piece.tobytes())
        child.stdin.close()
        status = child.wait()
    cells = np.fromfile("cells", dtype=np.uint8)
    return status, cells[cells != 10]


def any_pieces(count, chance):
    """Runs of all lengths, samples by chance, and pieces of lines of other rates, one part after the other."""
    for part in range(PARTS):
        lengths = np.exp(chance.exponential(1.2, count // PARTS)).astype(np.int64)
        if part % 4 == 1:
            lengths = np.rint(chance.integers(1, 4, count // PARTS) * chance.uniform(2, 12)).astype(np.int64)
        lengths[:: 1 + count // 100] = 100_000
        yield np.repeat((np.arange(len(lengths)) & 1).astype(np.uint8), np.clip(lengths, 1, 1_000_000))
        yield chance.integers(0, 256, count // PARTS, dtype=np.uint8)


def main(program, count):
    chance = np.random.default_rng(1)
    sizes = []
    for words in ([], ["--rate", "24576000", "--at", "48000"]):
        pieces = any_pieces(count, chance)
        status, cells = run(program, words, (sizes.append(len(it)) or it for it in pieces))
        judge(f"status {status} of {words}", status in (0, 1))
        judge(f"{len(cells)} cells of {sum(sizes)} samples", len(cells) <= sum(sizes))
        sizes.clear()

    runs = (2.2 * CELL * np.exp(chance.exponential(0.6, count))).astype(np.int64).clip(0, 60 * int(CELL))
    runs[0] = 400
    levels = (np.arange(count) & 1).astype(np.uint8)
    split = [np.repeat(*it) for it in zip(np.array_split(levels, PARTS), np.array_split(runs, PARTS))]
    status, cells = run(program, ["--rate", "24576000", "--at", "48000"], split)
    changes = np.flatnonzero(np.diff(cells)) + 1
    told = np.diff(changes, prepend=0, append=len(cells))
    judge(f"{len(told)} runs of {count}", len(told) == count)
    if len(told) == count:
        # The period itself may be a thousandth more or less.
        furthest = np.abs(told - runs / CELL) - runs / CELL / 1000
        judge(f"a run of {runs[furthest.argmax()]} samples is {told[furthest.argmax()]} cells", furthest.max() <= 1)
    print(f"{passed} passed, {failed} failed")
    return failed > 0


if __name__ == "__main__":
    parser = argparse.ArgumentParser(description=__doc__, formatter_class=argparse.RawDescriptionHelpFormatter)
    parser.add_argument("program", metavar="PROGRAM")
    parser.add_argument("pieces", metavar="PIECES", nargs="?", type=int, default=10_000_000)
    given = parser.parse_args()
    sys.exit(main(given.program, given.pieces))
