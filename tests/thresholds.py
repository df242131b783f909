#!/usr/bin/env python3
"""tests/thresholds.py PROGRAM [CELLS]: both sides of each place where the program takes another way to the same result.

- Text with 0 to 40 separators in each 64 bytes, of one kind and mixed, and with every second byte a separator: `check` and `normal`
  print what they print of the same cells in lines of 64. Up to nine separators are taken out one by one, more by a table.
- A preamble at every cell from 9,990 to 10,010 and around 100,000 and 1,000,000: `scan` prints its place. The last four digits of a
  place are made together.
- CELLS (aes3-cells; left out where it is not given): a run of 56 to 90 samples in a line with 16 samples a cell becomes the number of
  cells nearest to its length. Up to four periods are counted by comparisons, more by a division.
- CELLS: a capture that is read whole gives the cells and the figures that it gives in pieces of less than 4,096 octets, as whole blocks of so many
  go another way: lines of 2.02 to 100 samples a cell, around 32 and 42; single edges 0.25 to 0.55 of a cell from their places; runs of 120 to 136 samples;
  falling edges late; lines that stop; noise; lengths around that of a block; and no signal, up to the last sample of a block, the first or the
  second of the next one, at both levels.

The last line is `N passed, M failed`, and the status 1 where one failed.
"""

import argparse
import random
import socket
import subprocess
import sys
import tempfile

SUBFRAMES = 384


def run(program, words, given):
    ran = subprocess.run([program, *words], input=given, stdout=subprocess.PIPE, stderr=subprocess.DEVNULL, check=False)
    return ran.returncode, ran.stdout


def cells_of_blocks(program, chance, count):
    """The cells of blocks with random payloads, as a string of 0 and 1."""
    words = b""
    for _ in range(count * SUBFRAMES):
        word = chance.randrange(1 << 27) << 4
        word |= (bin(word).count("1") & 1) << 31
        words += word.to_bytes(4, "little")
    return run(program, ["encode"], words)[1].decode().replace("\n", "")


def in_lines(cells):
    return "".join(cells[at : at + 64] + "\n" for at in range(0, len(cells), 64)).encode()


def separated(chance, cells, count, kinds):
    """These cells with `count` separators in each 64 bytes, at random places."""
    text, at = [], 0
    while at < len(cells):
        places = set(chance.sample(range(64), count))
        for place in range(64):
            if place in places:
                text.append(chance.choice(kinds))
            elif at < len(cells):
                text.append(cells[at])
                at += 1
    return "".join(text).encode()


def text_cases(program, chance):
    cells = cells_of_blocks(program, chance, 3)
    damaged = cells[5:40_000] + ("0" if cells[40_000] == "1" else "1") + cells[40_001:]
    wanted = {name: run(program, [name], in_lines(damaged)) for name in ("check", "normal")}
    texts = [(f"{count} separators", separated(chance, damaged, count, kinds)) for count in range(41) for kinds in ("\n", "\r", " ", "\n\r ")]
    texts += [("a separator after each cell", "".join(cell + "\n" for cell in damaged).encode())]
    texts += [("a separator before each cell", "".join(" " + cell for cell in damaged).encode())]
    for what, text in texts:
        for name, answer in wanted.items():
            yield f"{name}, {what}", run(program, [name], text) == answer


def place_cases(program, chance):
    cells = cells_of_blocks(program, chance, 1)[:24_576]
    for about in (10_000, 100_000, 1_000_000):
        for at in range(about - 10, about + 11):
            # before the block cells that alternate, and so have no preamble, up to its first one
            before = "".join("01"[(int(cells[0]) + at - i) % 2] for i in range(at))
            said = run(program, ["scan"], in_lines(before + cells))[1].split()
            yield f"scan, a preamble at {at}", said[:4] == [b"mark", b"Z", b"at", b"%d" % at]


def run_cases(program, cells_program, chance):
    cells = cells_of_blocks(program, chance, 2)
    cut = 64 * 300 + 8  # behind a preamble
    begin = cut
    while cells[begin - 1] == cells[cut - 1]:
        begin -= 1
    for samples in range(56, 91):
        if samples % 16 in (7, 8, 9):
            continue  # half way between two numbers of cells
        # the run that ends at the cut, made longer or shorter
        octets = bytes(int(cell) for cell in cells[:begin] for _ in range(16)) + bytes([int(cells[cut - 1])]) * samples
        octets += bytes(int(cell) for cell in cells[cut:] for _ in range(16))
        wanted = cells[:begin] + cells[cut - 1] * ((samples + 8) // 16) + cells[cut:]
        said = run(cells_program, ["--rate", str(128 * 16 * 48_000), "--at", "48000"], octets)[1].decode().replace("\n", "")
        yield f"a run of {samples} samples", said == wanted


def levels_of(runs, low=0, high=1):
    return b"".join(bytes([high if number % 2 else low]) * run for number, run in enumerate(runs))


def runs_of(chance, cells, period, rms, late=0.0, far=0.0):
    """The runs of samples of these cells, each edge displaced; falling ones are late, and each 97th is far from its place."""
    edges = [at for at in range(1, len(cells)) if cells[at] != cells[at - 1]]
    places = []
    for number, at in enumerate(edges):
        place = at * period + chance.gauss(0, rms) + (late if number % 2 else 0)
        if number % 97 == 96:
            place += far * chance.choice((-1, 1))
        places.append(max(round(place), places[-1] + 1 if places else 1))
    return [b - a for a, b in zip([0, *places], places)]


def captures(program, chance):
    """Captures, each with its name and the words for aes3-cells."""
    cells = cells_of_blocks(program, chance, 2)
    for period in (2.02, 2.3, 3, 4.07, 8, 17.7, 31.9, 32, 32.1, 33, 41, 41.9, 42, 42.1, 43, 100):
        few = cells[: 49_152 if period < 20 else 10_000]  # fewer than 2^20 samples: the read before a pause is short, and a socket drops the rest of a packet
        runs = runs_of(chance, few, period, 0.05 * period)
        yield f"{period} samples a cell", levels_of(runs), []
        octets = levels_of(runs, 0x5A, 0xDA)
        yield f"{period} samples a cell, in bit 15 of pairs", b"".join(bytes([octet ^ 0x33, octet]) for octet in octets), ["--unit", "2", "--bit", "15"]
    few = cells[:20_000]
    for far in range(25, 56, 2):
        yield f"edges {far} hundredths of a cell away", levels_of(runs_of(chance, few, 16, 0.3, 0, far * 0.16)), []
    for late in range(10, 71, 10):
        yield f"falling edges {late} hundredths of a cell late", levels_of(runs_of(chance, few, 16, 0.3, late * 0.16)), []
    for long in range(120, 137):
        runs = runs_of(chance, few, 32, 0.5)
        for at in range(600, len(runs), 300):
            runs[at] = long
        yield f"runs of {long} samples", levels_of(runs), []
    line = runs_of(chance, few, 4.07, 0.2)
    octets = levels_of(line)
    for size in (1, 63, 64, 65, 4095, 4096, 4097, 8191, 8192, 8193, 12_288, 20_000):
        yield f"{size} octets", octets[:size], []
    for dead in (100, 200, 400, 4000, 4096, 9000):
        yield f"a line that stops for {dead} samples", octets[:50_001] + bytes(dead) + octets[50_001:], []
    for level in (0, 1):
        yield f"no signal, level {level}", bytes([level]) * 50_000, []
        signal = bytes(octet ^ level ^ 1 for octet in octets)
        for more in (-1, 0, 1):
            still = bytes([level]) * (5 * 4096 + more)
            between = bytes([level]) * (4 * 4096 - 50_001 % 4096 + more)
            what = f"level {level} for {more} samples more than blocks"
            yield f"{what}, then a line", still + signal, []
            yield f"{what}, then one edge", still + bytes([level ^ 1]) * 50_000, []
            yield f"{what}, within a line", octets[:50_001] + between + signal, []
            pairs = b"".join(bytes([octet * 255, 0]) for octet in octets[:50_001] + between + signal)
            yield f"{what}, within a line of pairs", pairs, ["--unit", "2", "--bit", "3"]
            slow = levels_of(runs_of(chance, few[:3000], 229, 9), level ^ 1, level)
            yield f"{what}, then a slow line", still + slow + still, []
    noise = bytes(chance.randrange(256) for _ in range(60_000))
    yield "noise", noise, []
    yield "noise within a line", octets[:40_000] + noise + octets[40_000:], []
    yield "every sample another level", bytes([0, 1]) * 10_000 + octets, []


def in_pieces(chance, program, words, octets):
    """What a program answers that is given so many octets a read, fewer than 4,096."""
    ours, its = socket.socketpair(socket.AF_UNIX, socket.SOCK_SEQPACKET)
    with tempfile.TemporaryFile() as said, tempfile.TemporaryFile() as told:
        with subprocess.Popen([program, *words], stdin=its, stdout=said, stderr=told) as ran:
            its.close()
            at = 0
            while at < len(octets):
                piece = octets[at : at + chance.choice((1, 7, 64, 4000, 4095))]
                ours.send(piece)
                at += len(piece)
            ours.close()
        said.seek(0)
        told.seek(0)
        return ran.returncode, said.read(), told.read()


def way_cases(program, cells_program, chance):
    for what, octets, words in captures(program, chance):
        for form in ([], ["--packed-out"]):
            ran = subprocess.run([cells_program, *words, *form], input=octets, stdout=subprocess.PIPE, stderr=subprocess.PIPE, check=False)
            whole = ran.returncode, ran.stdout, ran.stderr
            yield f"{what} {' '.join(form)}", in_pieces(chance, cells_program, [*words, *form], octets) == whole


def main():
    parser = argparse.ArgumentParser(description=__doc__, formatter_class=argparse.RawDescriptionHelpFormatter)
    parser.add_argument("program")
    parser.add_argument("cells", nargs="?")
    given = parser.parse_args()
    chance = random.Random(52)
    counts = [0, 0]
    cases = [text_cases(given.program, chance), place_cases(given.program, chance)]
    if given.cells:
        cases.append(run_cases(given.program, given.cells, chance))
        cases.append(way_cases(given.program, given.cells, chance))
    else:
        print("left out: runs of samples in tests/thresholds.py (no aes3-cells is named)")
    for part in cases:
        for what, is_right in part:
            counts[not is_right] += 1
            if not is_right:
                print(f"FAILED: {what}")
    print(f"{counts[0]} passed, {counts[1]} failed")
    return 1 if counts[1] else 0


if __name__ == "__main__":
    sys.exit(main())
