#!/usr/bin/env python3
"""Makes the samples of a line as a logic analyser has them, by an encoder that shares nothing with aes3. It wants numpy.

    line.py SAMPLES_A_CELL CAPTURE [NAME=VALUE..]

    blocks=N   how many blocks, of random bits, with eight subframes behind the last (20)    words=FILE  ALSA's subframes in place of them
    rms=S      each edge is displaced by so many samples rms, normal      uniform=J  by up to J samples either way, all alike
    late=S     falling edges are later by so many samples                 drift=P    the rate goes P parts in a million up and down
    sine=HZ:C  and the edges go C cells to and fro, at 48 kHz             lead=N     so many samples of a dead line first
    bit=B      the line is in this bit of a sample (0)                    unit=U     octets in a sample (1)
    noise=1    the other bits are chance                                  seed=N     another chance (1)
    sent=FILE  the blocks of the line, as a block file                    silence=1  each bit is 0
    full=1     each bit is 1                                              odd=1    each parity bit is wrong
"""
import argparse

import numpy as np

# Where the levels change in the first eight cells of each preamble.
CHANGES = {"Z": (0, 3, 4, 5), "X": (0, 3, 6, 7), "Y": (0, 3, 5, 6)}


def subframes(have, chance):
    """Bits 4 to 31 of each subframe, and its preamble."""
    if "words" in have:
        words = np.fromfile(have["words"], dtype="<u4")
        return words >> 4, np.select([words & 15 == 8, words & 15 == 2], ["Z", "X"], "Y")
    count = 384 * int(have.get("blocks", 20)) + 8
    bits = chance.integers(0, 1 << 27, count, dtype=np.uint32) * ("silence" not in have) | ((1 << 27) - 1) * ("full" in have)
    parity = bits.copy()
    for shift in (16, 8, 4, 2, 1):
        parity ^= parity >> shift
    number = np.arange(count)
    return bits | ((parity & 1) ^ ("odd" in have)) << 27, np.select([number % 384 == 0, number % 2 == 0], ["Z", "X"], "Y")


def edges(bits, preambles):
    """The numbers of the cells that begin with a change of level."""
    changes = np.zeros((len(bits), 64), dtype=bool)
    for name, places in CHANGES.items():
        for place in places:
            changes[preambles == name, place] = True
    changes[:, 8::2] = True
    changes[:, 9::2] = bits[:, None] >> np.arange(28) & 1
    return np.flatnonzero(changes).astype(float)


def main(words):
    cell, capture, have = float(words[0]), words[1], dict(word.split("=") for word in words[2:])
    number = {name: float(value) for name, value in have.items() if name not in ("words", "sent", "sine")}
    chance = np.random.default_rng(int(number.get("seed", 1)))
    bits, preambles = subframes(have, chance)
    if "sent" in have:
        (bits << 4).astype("<u4")[: len(bits) // 384 * 384].tofile(have["sent"])
    at = edges(bits, preambles)
    half = 128 * 48000 / 2  # cells in half a second
    at += number.get("drift", 0) * 1e-6 * half / (2 * np.pi) * (1 - np.cos(2 * np.pi * at / half))
    if "sine" in have:
        hertz, cells = map(float, have["sine"].split(":"))
        at += cells * np.sin(2 * np.pi * hertz / (2 * half) * at)
    at = at * cell + number.get("lead", 0) + 20 + chance.uniform(0, cell)
    at += chance.normal(0, number.get("rms", 0), len(at)) + chance.uniform(-1, 1, len(at)) * number.get("uniform", 0)
    at[1::2] += number.get("late", 0)
    # The first sample behind each edge, and no edge before the one that it follows.
    sampled = np.maximum.accumulate(np.ceil(at).astype(np.int64))
    runs = np.diff(sampled, prepend=0, append=sampled[-1] + 4)
    kind = np.uint16 if number.get("unit") == 2 else np.uint8
    levels = (np.arange(len(runs)) & 1).astype(kind) << int(number.get("bit", 0))
    samples = np.repeat(levels, runs)
    if "noise" in have:
        samples |= chance.integers(0, np.iinfo(kind).max, len(samples), dtype=kind) & ~kind(1 << int(number.get("bit", 0)))
    samples.astype(samples.dtype.newbyteorder("<")).tofile(capture)


if __name__ == "__main__":
    parser = argparse.ArgumentParser(description=__doc__, formatter_class=argparse.RawDescriptionHelpFormatter)
    for name, count in (("SAMPLES_A_CELL", None), ("CAPTURE", None), ("NAME=VALUE", "*")):
        parser.add_argument(name, nargs=count)
    given = vars(parser.parse_args())
    known = "blocks words rms uniform late drift sine lead bit unit noise seed sent silence full odd".split()
    unknown = [it for it in given["NAME=VALUE"] if it.partition("=")[0] not in known]
    if unknown:
        parser.error(f"nothing is called {unknown[0]}")
    main([given["SAMPLES_A_CELL"], given["CAPTURE"], *given["NAME=VALUE"]])
