#!/usr/bin/env python3
"""Cell text, from standard input, as the samples of a logic analyser, to standard output. Each cell has N
samples on average, a number such as 4 or 3.90625, and each edge lies JITTER samples rms from its place, none where none are given. A
sample is a byte, 0 or 1, as in sigrok's `binary` format. The same cells make the same samples. `aes3-cells` goes the other way.
"""
import argparse
import itertools
import math
import random
import sys


def cells(source):
    """Each cell of a text, as the octet of its character."""
    is_empty = True
    for line in source:
        line = line.translate(None, b" \r\n")
        other = line.translate(None, b"01")
        if other:
            sys.exit(f"samples.py: the input is no cell text: it has the byte {other[:1]!r}")
        is_empty = is_empty and not line
        yield from line
    if is_empty:
        sys.exit("samples.py: the input has no cell")


def main(number, jitter=0.0):
    chance = random.Random(1)
    begin = end = 0
    at = 0.0
    for level, run in itertools.groupby(cells(sys.stdin.buffer)):
        at += number * sum(1 for _ in run)
        # The first sample behind the edge; no edge comes before the one that it follows.
        end = max(begin, math.ceil(at + chance.gauss(0, jitter)))
        sys.stdout.buffer.write(bytes([level & 1]) * (end - begin))
        begin = end


if __name__ == "__main__":
    parser = argparse.ArgumentParser(description=__doc__, formatter_class=argparse.RawDescriptionHelpFormatter)
    parser.add_argument("number", metavar="N", type=float)
    parser.add_argument("jitter", metavar="JITTER", type=float, nargs="?", default=0.0)
    given = parser.parse_args()
    if not (0 < given.number < math.inf and 0 <= given.jitter < math.inf):
        parser.error("N is more than 0, and JITTER is not less")
    main(given.number, given.jitter)
