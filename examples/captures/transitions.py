#!/usr/bin/env python3
"""Makes samples, as a logic analyser takes them, from a file that lists when signals change.

    transitions.py [--rate HZ] [--signal NAME] FILE | aes3-cells | aes3 check

FILE is one of these; `-` is standard input:

- a VCD file. NAME is a signal of one bit, with or without its scopes: `top.line` or `line`;
- a CSV export of Saleae Logic 2, with times in seconds. NAME is the title of a column;
- a binary export of Saleae Logic 2: one digital channel, version 0 of the format.

NAME is not needed if the file has one signal only. A sample is an octet, 0 or 1; x and z of a VCD file are 0. HZ is samples a second, 100M
if it is not given. That is four a cell of a line at 192 kHz, and aes3-cells needs that many.
"""

import argparse
import csv
import io
import re
import signal
import struct
import sys
from fractions import Fraction

UNITS = {"s": 0, "ms": 3, "us": 6, "ns": 9, "ps": 12, "fs": 15}
PIECE = 1 << 20
LEVELS = bytes(PIECE), b"\1" * PIECE


def fail(why):
    sys.exit(f"transitions.py: {why}")


def chosen(signals, name):
    """The place of the signal NAME, by the full names and places of all signals."""
    named = [it for it in signals if name in (None, it[0])] or [it for it in signals if it[0].endswith(f".{name}")]
    if len({place for _, place in named}) != 1:
        fail(f"--signal is one of these: {', '.join(sorted({full for full, _ in named or signals}))}")
    return named[0][1]


def of_vcd(file, name):
    """The unit of time in seconds. Then times, each with the level from there on. So do the other two."""
    words = (word for line in io.TextIOWrapper(file, "latin-1") for word in line.split())
    unit, scopes, signals = Fraction(1, 10**9), [], []
    for word in words:
        said = list(iter(lambda: next(words, "$end"), "$end"))
        if word == "$timescale":
            number, power = re.fullmatch(r"(\d+)(\w+)", "".join(said)).groups()
            unit = Fraction(int(number), 10 ** UNITS[power])
        elif word in ("$scope", "$upscope"):
            scopes = [*scopes, said[1]] if said else scopes[:-1]
        elif word == "$var" and said[1] == "1":
            signals.append((".".join([*scopes, "".join(said[3:])]), said[2]))
        elif word == "$enddefinitions":
            break
    wanted, time, level = chosen(signals, name), 0, 0
    yield unit
    for word in words:
        if word[0] == "#":
            time = int(word[1:])
            continue
        if word == "$comment":
            list(iter(lambda: next(words, "$end"), "$end"))
        elif word[0] in "bBrR":
            word = word[-1] + next(words, "")
        if word[1:] == wanted:
            level = int(word[0] in "1hH")
            yield time, level
    yield time, level


def of_csv(file, name):
    rows = csv.reader(io.TextIOWrapper(file, "utf-8", newline=""))
    titles = [title.strip() for title in next(rows)]
    place = chosen([(title, place) for place, title in enumerate(titles) if place], name)
    yield 1
    yield from ((float(row[0]), int(row[place])) for row in rows)


def of_binary(file, _):
    _, version, kind, level, begin, end, count = struct.unpack("<8siiIddQ", file.read(44))
    if (version, kind) != (0, 0):
        fail("this is not a digital channel in version 0 of the format: export it as CSV")
    yield 1
    yield begin, level
    yield from ((*struct.unpack("<d", file.read(8)), (level + number) % 2) for number in range(1, count + 1))
    yield end, (level + count) % 2


KINDS = {b"$": of_vcd, b"Time": of_csv, b"<SALEAE>": of_binary}


def write(changes, rate, out):
    factor, divisor = (rate * next(changes)).as_integer_ratio()
    first, level = next(changes)
    at = 0
    for time, after in changes:
        sample = int((time - first) * factor / divisor + 0.5)
        if sample < at:
            fail(f"the times go back at {time}")
        for begin in range(at, sample, PIECE):
            out.write(LEVELS[level][: sample - begin])
        at, level = sample, after
    out.write(LEVELS[level][:1])


def frequency(text):
    power = {"k": 3, "K": 3, "m": 6, "M": 6}.get(text[-1:], 0)
    hertz = Fraction(text[:-1] if power else text) * 10**power
    if hertz <= 0:
        raise ValueError
    return hertz


if __name__ == "__main__":
    parser = argparse.ArgumentParser(description=__doc__, formatter_class=argparse.RawDescriptionHelpFormatter)
    parser.add_argument("--rate", metavar="HZ", type=frequency, default="100M")
    parser.add_argument("--signal", metavar="NAME")
    parser.add_argument("file", metavar="FILE")
    given = parser.parse_args()
    if hasattr(signal, "SIGPIPE"):
        signal.signal(signal.SIGPIPE, signal.SIG_DFL)
    try:
        file = sys.stdin.buffer if given.file == "-" else open(given.file, "rb")
        kinds = [of for head, of in KINDS.items() if file.peek(8).lstrip().startswith(head)]
        if not kinds:
            fail(f"{given.file} is neither a VCD file nor an export of Saleae Logic 2 with times")
        write(kinds[0](file, given.signal), given.rate, sys.stdout.buffer)
    except (OSError, ValueError, LookupError, AttributeError, StopIteration, struct.error) as error:
        fail(f"{given.file} can't be read: {error}")
