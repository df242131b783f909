#!/usr/bin/env python3
"""tests/spoil.py PROGRAM [CASES [SEED]]: random cells with random errors, as aes3-spoil writes them and as Python does.

Each case (200 where no number is given) is some cells, 64 errors at most and perhaps one that comes again and again, in each of the four
ways of reading and writing cells. The last line is `N passed, M failed`.
"""

import argparse
import random
import subprocess
import sys

KINDS = ("cell", "invert", "drop", "double")


def packed(cells):
    unused = -len(cells) % 8
    octets = [int(cells[i : i + 8].ljust(8, "0"), 2) for i in range(0, len(cells), 8)]
    return bytes(octets + [unused])


def text(cells):
    return "".join(cells[i : i + 64] + "\n" for i in range(0, len(cells), 64)).encode()


def asked(chance, count):
    """The words for some errors, and the errors as places and kinds."""
    words, errors, room = [], [], chance.choice([1, 1, 2, 5, 20, 64])
    while room > 0:
        name = chance.choice([*KINDS, "parity", "biphase", "preamble", "check-byte"])
        place, slot = chance.randrange(count + 10), chance.randrange(4, 32)
        if name in KINDS:
            put = [(place, name)]
        elif name == "parity":
            put = [(place + 63, "invert")]
        elif name == "biphase":
            put = [(place + 2 * slot, "cell")]
        elif name == "preamble":
            put = [(place + 2, "cell")]
        else:
            at = place + 128 * 184
            put = [(at + 61, "cell"), (at + 62, "cell")]
        if len(put) > room:
            continue
        room -= len(put)
        errors += put
        words += [f"--{name}", f"{place}:{slot}" if name == "biphase" else str(place)]
    if chance.random() < 0.4:
        every, kind = chance.randrange(1, chance.choice([3, 100, 5000])), chance.choice(KINDS)
        words += ["--every", f"{every}:{kind}"]
        errors += [(place, kind) for place in range(every, count, every)]
    return words, errors


def spoiled(cells, errors):
    turned, copies, inverted = [0] * len(cells), [1] * len(cells), [0] * (len(cells) + 1)
    for place, kind in errors:
        if place >= len(cells):
            continue
        if kind == "cell":
            turned[place] ^= 1
        elif kind == "invert":
            inverted[place] ^= 1
        elif kind == "drop":
            copies[place] = 0
        elif copies[place]:
            copies[place] = 2
    out, is_inverted = [], 0
    for place, cell in enumerate(cells):
        is_inverted ^= inverted[place]
        out.append("01"[int(cell) ^ turned[place] ^ is_inverted] * copies[place])
    return "".join(out)


def main():
    parser = argparse.ArgumentParser(description=__doc__, formatter_class=argparse.RawDescriptionHelpFormatter)
    parser.add_argument("program", metavar="PROGRAM")
    parser.add_argument("cases", metavar="CASES", nargs="?", type=int, default=200)
    parser.add_argument("seed", metavar="SEED", nargs="?", type=int, default=1)
    given = parser.parse_args()
    program, cases, chance = given.program, given.cases, random.Random(given.seed)
    passed = failed = 0
    for case in range(cases):
        count = chance.choice([0, 1, 63, 64, 65, 500, 5000, 30_000])
        cells = "".join(chance.choices("01", k=count))
        words, errors = asked(chance, count)
        want = spoiled(cells, errors)
        reads, writes = chance.random() < 0.5, chance.random() < 0.5
        forms = ["--packed-in"] * reads + ["--packed-out"] * writes
        ran = subprocess.run([program, *forms, *words], input=(packed if reads else text)(cells), stdout=subprocess.PIPE, check=False)
        if ran.returncode == 0 and ran.stdout == (packed if writes else text)(want):
            passed += 1
        else:
            failed += 1
            print(f"case {case}: {' '.join(forms + words)} of {count} cells, status {ran.returncode}")
    print(f"{passed} passed, {failed} failed")
    return int(failed > 0)


if __name__ == "__main__":
    sys.exit(main())
