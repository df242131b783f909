#!/usr/bin/env python3
"""tests/info.py PROGRAM: the page of `aes3 info` against what other commands print of the same input.

Its counts are compared with `check --gaps`, with `watch --every` and with `show`, and its levels with those that Python computes of the
samples of `to-pcm`. The inputs are a line as text and packed, in either bit order, cut, damaged and slipped, noise, no signal, silence,
full scale, statuses for either use, and nothing. Prints each that differs, and then `N passed, M failed`.
"""

import argparse
import json
import math
import os
import random
import re
import struct
import subprocess
import sys

ROOT = os.path.dirname(os.path.dirname(os.path.realpath(__file__)))
FULL = 1 << 23
COUNTS = ("whole", "marked", "fault", "preamble", "biphase", "unclosed")


def run(program, words, data=b""):
    done = subprocess.run([program, *words], input=data, stdout=subprocess.PIPE, stderr=subprocess.PIPE, check=False)
    return done.returncode, done.stdout


def output(program, *words, data=b""):
    return run(program, words, data)[1]


def level(power):
    """A power, with that of full scale as 1, in decibels to the tenth."""
    if power == 0:
        return "-inf"
    tenths = math.floor(-100 * math.log10(power) + 0.5)
    return f"-{tenths // 10}.{tenths % 10}" if tenths else "0.0"


def expected(program, form, data):
    """The page by what other commands print, as a dict of texts, and the exit status."""
    status, account = run(program, ["check", "--gaps", *form], data)
    lines = account.decode().splitlines()
    total = output(program, "watch", "--every", str(1 << 40), *form, data=data).decode().splitlines()
    sums = next((line.split() for line in total if line.startswith("sum ")), None)
    numbers = dict(zip(sums[1::2], map(int, sums[2::2]))) if sums else {}
    ends = [line.split() for line in total if line.startswith("end at ")]
    page = {"cells": int(ends[0][2])}
    for name in COUNTS:
        page[name] = numbers.get(name, 0)
    page["unfinished"] = sum(line.startswith("unfinished ") for line in lines)
    gaps = [(int(line.split()[2]), int(line.split()[4])) for line in lines if line.startswith("gap ")]
    places = [int(line.split()[2]) for line in lines if line.startswith("whole ")]
    counted = [
        cells for at, cells in gaps if cells == 24576 or (places and places[0] < at < places[-1])
    ]
    page["gaps"] = len(counted)
    page["lost"] = sum(counted)
    page["cut"] = sum(cells for _, cells in gaps) - page["lost"]
    if page["lost"] != numbers.get("lost", 0):
        raise AssertionError("`check --gaps` and `watch --every` count other cells")
    shown = output(program, "show", *form, data=data).decode().splitlines()
    changed = output(program, "show", "--changes", *form, data=data).decode().splitlines()
    samples = output(program, "to-pcm", *form, data=data)
    values = [word >> 8 for (word,) in struct.iter_unpack("<i", samples)]
    for channel in (1, 2):
        own = values[channel - 1 :: 2]
        mark = f" channel={channel} "
        status_line = next((line.split(mark)[1] for line in shown if mark in line), "unknown")
        page[f"status{channel}"] = status_line
        page[f"changes{channel}"] = max(sum(mark in line for line in changed) - 1, 0)
        page[f"invalid{channel}"] = numbers.get(f"invalid{channel}", 0)
        peak = max(map(abs, own), default=0)
        page[f"peak{channel}"] = peak
        page[f"peak_dbfs{channel}"] = level((peak / FULL) ** 2)
        page[f"rms_dbfs{channel}"] = level(sum(v * v for v in own) / (len(own) * FULL**2) if own else 0)
        page[f"silent{channel}"] = "unknown" if not own else "no" if peak else "yes"
    rate = re.search(r" rate=(\d+)", " " + page["status1"])
    page["rate"] = rate.group(1) if rate else "unknown"
    page["seconds"] = f"{page['cells'] * 1000 // (128 * int(rate.group(1))) / 1000:.3f}" if rate else "unknown"
    return {name: str(value) for name, value in page.items()}, status


def told(text):
    return dict(line.split(" ", 1) for line in text.decode().splitlines())


def as_json(page, statuses):
    """What the JSON object of a page has."""
    made = {}
    for name, value in page.items():
        if value in ("unknown", "-inf"):
            made[name] = None
        elif value in ("yes", "no"):
            made[name] = value == "yes"
        elif name.startswith("status"):
            made[name] = statuses[name]
        else:
            made[name] = json.loads(value)
    return made


class Tests:
    def __init__(self, program):
        self.program, self.passed, self.failed = program, 0, 0

    def same(self, name, got, wanted):
        if got == wanted:
            self.passed += 1
        else:
            self.failed += 1
            print(f"FAIL {name}: {got!r} in place of {wanted!r}")

    def statuses(self, form, data):
        """Both statuses of the first whole block as digits."""
        block = output(self.program, "decode", *form, data=data)[:1536]
        if len(block) < 1536:
            return {"status1": None, "status2": None}
        words = struct.unpack("<384I", block)
        made = {}
        for channel in (0, 1):
            bits = [word >> 30 & 1 for word in words[channel::2]]
            octets = bytes(sum(bits[8 * i + k] << k for k in range(8)) for i in range(24))
            made[f"status{channel + 1}"] = octets.hex()
        return made

    def page(self, name, data, form=(), known=True):
        """The page of this input, of which the options say the form; and without them, where it is known by its octets."""
        wanted, status = expected(self.program, list(form), data)
        for options in (list(form), []) if known else (list(form),):
            got, text = run(self.program, ["info", *options], data)
            self.same(f"{name} {options}", told(text), wanted)
            self.same(f"{name} {options}: status", got, status)
            got, text = run(self.program, ["info", "--json", *options], data)
            self.same(f"{name} {options} --json", json.loads(text), as_json(wanted, self.statuses(form, data)))
            self.same(f"{name} {options} --json: status", got, status)
        return wanted

    def refused(self, name, data, words, status=3):
        got, text = run(self.program, ["info", *words], data)
        self.same(name, (got, text), (status, b""))


def samples(frames):
    """Samples of 24 bits, in the highest of 32, of both channels."""
    return b"".join(struct.pack("<ii", first << 8, second << 8) for first, second in frames)


def flipped(text, places):
    cells = bytearray(text.replace(b"\n", b""))
    for place in places:
        cells[place] ^= 1
    return bytes(cells)


def main():
    parser = argparse.ArgumentParser(description=__doc__, formatter_class=argparse.RawDescriptionHelpFormatter)
    parser.add_argument("program", metavar="PROGRAM")
    program = os.path.realpath(parser.parse_args().program)
    tests = Tests(program)
    with open(os.path.join(ROOT, "examples", "speech.block"), "rb") as file:
        speech = file.read()
    line = output(program, "encode", data=speech)
    cells = line.replace(b"\n", b"")
    packed = output(program, "encode", "--packed-out", data=speech)
    turned = output(program, "encode", "--packed-out", "--lsb-first", data=speech)
    rng = random.Random(53)

    tests.page("speech", line)
    tests.page("packed", packed, ["--packed-in"])
    tests.page("packed, lowest bit first", turned, ["--packed-in", "--lsb-first"])
    tests.page("raw", packed[:-1], ["--raw-in"], known=False)
    tests.page("a cell a line", b"\n".join(cells[i : i + 1] for i in range(60000)))
    tests.page("cut", cells[12345:-6789])
    tests.page("inverted", cells.translate(bytes.maketrans(b"01", b"10")))
    tests.page("damaged", flipped(line, [48200, 3072391 % len(cells), len(cells) // 2]))
    odd = 24576 + 5 * 64 + 63
    tests.page("marked", cells[:odd] + cells[odd:].translate(bytes.maketrans(b"01", b"10")))
    tests.page("two cells exchanged", flipped(line, [24576 + 60, 24576 + 61]))
    tests.page("closed wrongly", cells[:24576] + bytes([cells[24575]]) + cells[24577:])
    tests.page("slipped", cells[: 24576 * 2] + cells[24576 * 2 + 7 :])
    tests.page("slipped by doubled cells", cells[: 24576 * 2] + b"01100" + cells[24576 * 2 :])
    tests.page("lost for a while", cells[: 24576 * 2] + b"0" * 100000 + cells[24576 * 2 :])
    tests.page("no signal", b"0" * 70000)
    tests.page("noise", bytes(rng.choice(b"01") for _ in range(100000)))
    tests.page("nothing", b"")
    tests.page("a cell", b"1")
    tests.page("preambles everywhere", b"1110100010" * 3000)

    for name, frames in (
        ("silence", [(0, 0)] * 384),
        ("silence in channel 2", [(i % 7, 0) for i in range(384)]),
        ("full scale", [(FULL - 1, -FULL)] * 384),
        ("one step", [(1, -1)] * 384),
        ("one sample", [(1, 0)] + [(0, 0)] * 383),
        ("a sine", [(round((FULL - 1) * math.sin(i / 8)), round(FULL / 10 * math.cos(i / 5))) for i in range(1920)]),
        ("random", [(rng.randrange(-FULL, FULL), rng.randrange(-(FULL >> 9), FULL >> 9)) for _ in range(960)]),
    ):
        block = output(program, "from-pcm", data=samples(frames))
        tests.page(name, output(program, "encode", data=block))
    for tenths in range(0, 1385, 19):
        value = max(round(FULL * 10 ** (-tenths / 200)), 1)
        block = output(program, "from-pcm", data=samples([(min(value, FULL - 1), -value)] * 192))
        tests.page(f"{tenths} tenths", output(program, "encode", data=block))

    # Statuses by their octets: byte 0, byte 3 and byte 4.
    blank = output(program, "from-pcm", data=samples([(5, 6)] * 384))
    rates = {0: 44100, 2: 48000, 3: 32000, 4: 22050, 6: 24000, 8: 88200, 9: 768000, 10: 96000, 12: 176400, 14: 192000}
    cases = [(0, code, 0, rates.get(code)) for code in range(16)]
    cases += [(0x01 | code << 6, 0, 0, rate) for code, rate in ((0, None), (1, 44100), (2, 48000), (3, 32000))]
    others = {1: 24000, 2: 96000, 3: 192000, 9: 22050, 10: 88200, 11: 176400}
    cases += [(0x01, 0, code << 3, others.get(code)) for code in range(16)]
    cases.append((0x81, 0, 2 << 3, 48000))
    encoded = output(program, "encode", data=blank)
    for byte0, byte3, byte4, rate in cases:
        status = bytes([byte0, 0, 0, byte3, byte4]) + bytes(19)
        made = output(program, "rewrite", "--status1", status.hex(), data=encoded)
        page = told(output(program, "info", data=made))
        seconds = f"{49152 * 1000 // (128 * rate) / 1000:.3f}" if rate else "unknown"
        name = f"status {status[:5].hex()}"
        tests.same(name, (page["rate"], page["seconds"]), (str(rate) if rate else "unknown", seconds))
        tests.same(f"{name} --json", json.loads(output(program, "info", "--json", data=made))["status1"], status.hex())

    # A status that changes, and validity.
    first = output(program, "rewrite", "--status1", "01" + 46 * "0", "--valid2", "0", data=encoded)
    joined = output(program, "decode", data=first) + blank + output(program, "decode", data=first)
    tests.page("changes", output(program, "encode", data=joined))
    tests.same("changes1", told(output(program, "info", data=output(program, "encode", data=joined)))["changes1"], "2")

    tests.refused("no cell", b"0110x", [])
    tests.refused("a WAV file", b"RIFF\x24\x00\x00\x00WAVEfmt ", [])
    tests.refused("packed cells that end wrongly", packed[:-1] + b"\x09", ["--packed-in"])
    tests.refused("a wrong word", b"", ["--every", "1"], 2)
    print(f"{tests.passed} passed, {tests.failed} failed")
    sys.exit(1 if tests.failed else 0)


if __name__ == "__main__":
    main()
