#!/usr/bin/env python3
"""tests/random.py PROGRAM [CASES [SEED]]: random lines with random damage, and what is made of them in Python beside what PROGRAM makes.

Each case (40 where no number is given) is some blocks of the speech with V and U bits turned, and some for professional use, as cells that are then turned, lost, put in
and cut. Of these the sums of `watch --every` are compared with the lines of `check --gaps`; `to-bits`, `show --more`, `to-pcm --valid`,
`to-pcm --fill`, `to-pcm --exact` and `rewrite` with the block file of `decode`, `to-pcm --marked` with the cells, and each with what standard error has; `show --names` with the codes of alsa/asoundef.h, and what it prints with what `rewrite` sets by it; and `--lsb-first` with octets that are packed here. The last line is `N passed, M failed`.
"""

import argparse
import os
import random
import subprocess
import sys

BLOCK_BYTES, CELLS, FRAMES, SLOT = 1536, 24_576, 192, 64
PLACES = {"validity": 28, "user": 29, "status": 30}
# The words of codes by alsa/asoundef.h: category codes of consumer use, original sampling frequencies from code 0 on.
CATEGORIES = {
    0x01 | 0x08: "non-iec908-cd", 0x01 | 0x48: "mini-disc", 0x01 | 0x18: "dvd", 0x01 | 0x78: "other-laser-optical",
    0x02: "pcm-coder", 0x02 | 0x10: "mixer", 0x02 | 0x18: "rate-converter", 0x02 | 0x20: "sampler", 0x02 | 0x28: "sound-processor",
    0x02 | 0x78: "other-converter", 0x03 | 0x08: "video-recorder", 0x03 | 0x40: "dcc", 0x03 | 0x18: "magnetic-disc",
    0x03 | 0x78: "other-magnetic", 0x04: "dab-japan", 0x04 | 0x08: "dab-europe", 0x04 | 0x60: "dab-usa", 0x04 | 0x40: "software-delivery",
    0x04 | 0x20: "iec62105", 0x04 | 0x78: "other-broadcast", 0x05: "synthesizer", 0x05 | 0x08: "microphone", 0x05 | 0x78: "other-musical",
    0x06: "adc", 0x06 | 0x60: "other-adc", 0x16: "adc-copyright", 0x16 | 0x60: "other-adc-copyright", 0x08: "solid-state-recorder",
    0x08 | 0x70: "other-solid-state", 0x40: "experimental",
}  # fmt: skip
# The fields of a line that can't be set by name.
UNSET = ("check", "rest")
FREQUENCIES = {1: "24000", 2: "96000", 3: "192000", 9: "22050", 10: "88200", 11: "176400", 15: "user-defined"}
ORIGINALS = "not-indicated 192000 12000 176400 - 96000 8000 88200 16000 24000 11025 22050 32000 48000 - 44100".split()
CAUSES = ("preamble", "biphase", "unclosed")
ROOT = os.path.dirname(os.path.dirname(os.path.realpath(__file__)))


def run(program, words, given):
    ran = subprocess.run([program, *words], input=given, stdout=subprocess.PIPE, stderr=subprocess.DEVNULL, check=False)
    return ran.returncode, ran.stdout


def run_and_told(program, words, given):
    ran = subprocess.run([program, *words], input=given, capture_output=True, check=False)
    return ran.returncode, ran.stdout, ran.stderr.decode()


def told(program, words, cells):
    return [line.split() for line in run(program, words, cells)[1].decode().splitlines()]


def words_of(octets):
    return [int.from_bytes(octets[i : i + 4], "little") for i in range(0, len(octets), 4)]


def bytes_of(words):
    return b"".join(word.to_bytes(4, "little") for word in words)


def with_parity(word):
    return word & 0x7FFFFFFF | (bin(word & 0x7FFFFFF0).count("1") & 1) << 31


def line_of(program, chance, speech):
    """Some blocks with V and U bits turned, as cells that are damaged."""
    count = chance.randrange(1, 7)
    first = chance.randrange(len(speech) // BLOCK_BYTES - count)
    words = words_of(speech[BLOCK_BYTES * first : BLOCK_BYTES * (first + count)])
    for _ in range(chance.choice([0, 3, 50])):
        at = chance.randrange(len(words))
        words[at] = with_parity(words[at] ^ 1 << chance.choice([28, 29]))
    for at in range(0, len(words), 2 * FRAMES):
        words[at] = with_parity(words[at] ^ chance.choice([0, 0, 1]) << 30)
    cells = bytearray(run(program, ["encode"], bytes_of(words))[1].replace(b"\n", b""))
    for _ in range(chance.choice([0, 0, 1, 4])):
        at = SLOT * chance.randrange(len(cells) // SLOT) + 9 + 2 * chance.randrange(28)
        cells[at:] = bytes(cell ^ 1 for cell in cells[at:])
    for _ in range(chance.choice([0, 0, 1, 2, 5])):
        at, kind = chance.randrange(len(cells)), chance.randrange(4)
        if kind == 0:
            cells[at] ^= 1
        elif kind == 1:
            del cells[at : at + chance.randrange(1, 200)]
        elif kind == 2:
            cells[at:at] = bytes(chance.choice(b"01") for _ in range(chance.randrange(1, 30_000)))
        else:
            del cells[: chance.randrange(3000)]
    return bytes(cells)


def counted(lines):
    """What the lines of `check --gaps` add up to, by the words of a sum: the whole input, or a period by its number."""
    wholes = [int(line[2]) for line in lines if line[0] == "whole"]
    for kind, _, at, *rest in lines:
        at = int(at)
        if kind == "gap":
            cells = int(rest[1])
            if cells == CELLS or (wholes and wholes[0] < at < wholes[-1]):
                yield at, "lost", cells
        elif kind == "fault":
            yield at, "fault", 1
            yield at, rest[2], 1
        elif kind in ("whole", "marked"):
            yield at, kind, 1


def sums_differ(program, cells, every):
    lines = told(program, ["watch", "--every", str(every)], cells)
    if [line for line in lines if line[0] != "sum"] != told(program, ["watch"], cells):
        return True
    found, end = {}, 0
    for _, _, begin, _, behind, *fields in (line for line in lines if line[0] == "sum"):
        if int(begin) != end or int(behind) not in (end + every, len(cells)):
            return True
        for word, number in zip(fields[::2], map(int, fields[1::2])):
            found[word, end // every] = number
            found[word] = found.get(word, 0) + number
        end = int(behind)
    wanted = {}
    for at, word, number in counted(told(program, ["check", "--gaps"], cells)):
        wanted[word] = wanted.get(word, 0) + number
        wanted[word, at // every] = wanted.get((word, at // every), 0) + number
    totals = ("whole", "marked", "fault", "lost", *CAUSES)
    periods = [(word, period) for word in ("whole", "marked", *CAUSES) for period in range(-(-end // every))]
    return end != len(cells) or any(found.get(key, 0) != wanted.get(key, 0) for key in [*totals, *periods])


def bits_of(words, place, channel):
    """The bits of a channel at a place, a list for each block."""
    bits = [word >> place & 1 for word in words[channel::2]]
    return [bits[i : i + FRAMES] for i in range(0, len(bits), FRAMES)]


def octets_of(bits):
    return bytes(sum(bits[8 * i + j] << j for j in range(8)) for i in range(len(bits) // 8))


def packed(cells):
    """Whole and begun octets with the first cell in the lowest bit, and how many cells of the last are unused."""
    bits = [cell & 1 for cell in cells] + [0] * (-len(cells) % 8)
    return octets_of(bits) + bytes([-len(cells) % 8])


def changed(word, channel):
    """A word as `rewrite --valid2 1 --clear-user1` makes it."""
    return with_parity(word | 1 << 28 if channel else word & ~(1 << 29))


def named(status):
    """What `show --names` tells behind the line of a status."""
    if status[0] & 1:
        found = {"mode": "vector-to-byte-3" if status[1] & 15 == 15 else None, "rate": FREQUENCIES.get(status[4] >> 3 & 15)}
    else:
        found = {"category": CATEGORIES.get(status[1] & 127), "rate": "768000" if status[3] & 15 == 9 else None}
        found["original"] = ORIGINALS[status[4] >> 4].strip("-")
    return [f"{name}={word}" for name, word in found.items() if word]


def settings(line):
    """What `show --names` prints of a status, as `rewrite` takes it."""
    fields = [it for it in line[3:] if it.partition("=")[0] not in UNSET]
    return [word for it in (f"use={line[2]}", *fields) for word in ("--set1", it)]


def judged(program, cells, every, statuses):
    """Each comparison by its name, and whether it holds."""
    words = words_of(run(program, ["decode"], cells)[1])
    wholes = [line[2] for line in told(program, ["check"], cells) if line[0] == "whole"]
    yield "the sums", not sums_differ(program, cells, every)
    for name, place in PLACES.items():
        for channel in (0, 1):
            wanted = b"".join(map(octets_of, bits_of(words, place, channel)))
            yield f"to-bits {name}", run(program, ["to-bits", name, str(channel + 1)], cells)[1] == wanted
    counts = [[sum(bits) for bits in bits_of(words, place, channel)] for channel in (0, 1) for place in (28, 29)]
    behind = [
        [f"v={counts[2 * channel][i]}", f"u={counts[2 * channel + 1][i]}", f"at={at}"]
        for i, at in enumerate(wholes)
        for channel in (0, 1)
    ]
    plain = told(program, ["show"], cells)
    yield "show --more", told(program, ["show", "--more"], cells) == [line + more for line, more in zip(plain, behind)]
    set_anew = run(program, ["rewrite", "--status1", statuses[0].hex(), "--status2", statuses[1].hex()], cells)[1]
    plain = told(program, ["show"], set_anew)
    behind = [named(status) for status in statuses] * (len(plain) // 2)
    yield "show --names", told(program, ["show", "--names"], set_anew) == [line + more for line, more in zip(plain, behind)]
    lines = told(program, ["show", "--names"], set_anew)[:1]
    typed = [["rewrite", "--status1", statuses[1].hex(), *settings(line)] for line in lines]
    again = [told(program, ["show", "--names"], run(program, it, cells)[1])[0] for it in typed]
    yield "rewrite by what show prints", list(map(settings, again)) == list(map(settings, lines))
    samples = b"".join((0 if word >> 28 & 1 else (word >> 4 & 0xFFFFFF) << 8).to_bytes(4, "little") for word in words)
    yield "to-pcm --valid", run(program, ["to-pcm", "--valid"], cells)[1] == samples
    blocks = [(int(at), subframes(words[2 * FRAMES * i : 2 * FRAMES * (i + 1)])) for i, at in enumerate(wholes)]
    given = [int(line[2]) for line in told(program, ["check"], cells) if line[0] in ("whole", "marked")]
    for fill in ("zero", "hold"):
        yield f"to-pcm --fill {fill}", run_and_told(program, ["to-pcm", "--fill", fill], cells) == filled(blocks, fill)
        wanted = filled([(at, read(cells, at)) for at in given], fill)
        yield f"to-pcm --fill {fill} --marked", run_and_told(program, ["to-pcm", "--fill", fill, "--marked"], cells) == wanted
    for pcm, octets in (("s16", 2), ("s24", 3), ("s32", 4)):
        yield f"to-pcm --exact --pcm {pcm}", run_and_told(program, ["to-pcm", "--exact", "--pcm", pcm], cells) == exact(blocks, octets)
    statuses = [octets_of(bits)[0] & 1 for bits in bits_of(words, PLACES["status"], 0)]
    both = {"time=007": 1, "rate=code9": 0, "aux=audio": 1, "origin=JATH": 1}
    for fields in ({"copyright=asserted": 0}, {"aux=audio": 1}, {"copyright=asserted": 0, "aux=audio": 1}, both):
        typed = [word for field in fields for word in ("--set1", field)]
        yield f"rewrite {typed}", run_and_told(program, ["rewrite", *typed], cells)[2] == untaken(fields, statuses)
        first = next((i for i, use in enumerate(statuses) if any(use != wanted for wanted in fields.values())), len(blocks))
        status, out, err = run_and_told(program, ["rewrite", "--exact", *typed], cells)
        yield f"rewrite --exact {typed}", out == b"".join(run(program, ["rewrite", *typed], cells)[1].splitlines(True)[: 2 * FRAMES * first])
        yield f"what rewrite --exact {typed} tells", (status, err) == refused(blocks, first)
    again = run(program, ["rewrite", "--valid2", "1", "--clear-user1"], cells)[1]
    wanted = bytes_of(changed(word, i % 2) for i, word in enumerate(words))
    yield "rewrite of V and U", run(program, ["decode"], again)[1] == wanted
    check = run(program, ["check"], cells)
    yield "check --lsb-first", run(program, ["check", "--packed-in", "--lsb-first"], packed(cells)) == check
    out = run(program, ["normal"], cells)[1].replace(b"\n", b"")
    yield "normal --lsb-first", run(program, ["normal", "--packed-out", "--lsb-first"], cells)[1] == packed(out)


def subframes(words):
    """The sample of each word, and that it stands."""
    return [(word >> 4 & 0xFFFFFF, True) for word in words]


def read(cells, at):
    """The sample of each subframe of the block at a place, by the cells, and whether it has right parity."""
    found = []
    for begin in range(at, at + CELLS, SLOT):
        bits = [cells[place] != cells[place + 1] for place in range(begin + 8, begin + SLOT, 2)]
        found.append((sum(bit << i for i, bit in enumerate(bits[:24])), sum(bits) % 2 == 0))
    return found


def filled(blocks, fill):
    """The samples of blocks by their places, of wrong parity filled, and frames before each but the first, until it stands in its time."""
    out, frames, told = [], 0, 0
    for at, block in blocks:
        missing = round_up_half(at - blocks[0][0], CELLS // FRAMES) - frames
        out += missing * ([0, 0] if fill == "zero" else out[-2:])
        for sample, stands in block:
            out.append(sample if stands else 0 if fill == "zero" or len(out) < 2 else out[-2])
        frames += missing + FRAMES
        told += missing
    return 0, b"".join((sample << 8).to_bytes(4, "little") for sample in out), f"aes3: filled {told} frames\n"


def exact(blocks, octets):
    """The samples of blocks in their highest octets, up to the first that has more."""
    lost = (1 << 8 * max(3 - octets, 0)) - 1
    first = next((i for i, (_, block) in enumerate(blocks) if any(sample & lost for sample, _ in block)), len(blocks))
    out = [sample << 8 for _, block in blocks[:first] for sample, _ in block]
    return refused(blocks, first)[0], b"".join(it.to_bytes(4, "little")[4 - octets :] for it in out), refused(blocks, first)[1]


def refused(blocks, first):
    """The status and what is told where blocks from one on are refused."""
    return (0, "") if first == len(blocks) else (3, f"aes3: refused 13 at {blocks[first][0]}\n")


def untaken(fields, uses):
    """What is told of fields by their use, of blocks by theirs."""
    name = {0: "consumer", 1: "professional"}
    lacking = {field: use for field, use in fields.items() if uses and use not in uses}
    return "".join(
        f"aes3: no block took --set1 {field}: only {name[use]} status has it; set use={name[use]} first\n"
        for field, use in lacking.items()
    )


def round_up_half(number, by):
    return (2 * number + by) // (2 * by)


def main():
    parser = argparse.ArgumentParser(description=__doc__, formatter_class=argparse.RawDescriptionHelpFormatter)
    parser.add_argument("program", metavar="PROGRAM")
    parser.add_argument("cases", metavar="CASES", nargs="?", type=int, default=40)
    parser.add_argument("seed", metavar="SEED", nargs="?", type=int, default=1)
    given = parser.parse_args()
    program, cases, seed = os.path.realpath(given.program), given.cases, given.seed
    chance, passed, failed = random.Random(seed), 0, 0
    with open(f"{ROOT}/examples/speech.block", "rb") as file:
        speech = file.read()
    for case in range(cases):
        cells = line_of(program, chance, speech)
        every = chance.choice([1000, CELLS, 30_000, 100_000, 1 << 30, chance.randrange(300, 60_000)])
        statuses = [bytes(chance.randrange(256) for _ in range(24)) for _ in range(2)]
        for name, holds in judged(program, cells, every, statuses):
            passed, failed = passed + holds, failed + (not holds)
            if not holds:
                print(f"NOT the same: {name}, case {case} of seed {seed}")
    print(f"{passed} passed, {failed} failed")
    return 1 if failed else 0


if __name__ == "__main__":
    sys.exit(main())
