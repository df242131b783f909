#!/usr/bin/env python3
"""Judges the decoder of sigrok/aes3 on a capture that it makes by the encoder of line.py, which shares nothing with it. It wants numpy.

    sigrok.py PROGRAM CELLS CASE [OPTION=VALUE..]

PROGRAM and CELLS are aes3 and aes3-cells; CASE is a name in CASES, and the options are the decoder's. The blocks, faults and gaps are
those of `aes3 check --gaps` on what CELLS writes; the status that of `aes3 show`, the samples and the WAV those of `aes3 to-pcm`, the packed
cells those of CELLS. Each whole block, sample, preamble and time slot begins and ends at the sample at which the encoder made it begin.
"""
import re
import subprocess
import sys

import numpy as np

import line

RATE = 24000000


class Line:
    """The samples of a line of blocks with jitter, and where its subframes and slots begin in them."""

    def __init__(self, cell, blocks, seed=1, rms=0.0, late=0.0, drift=0.0, lead=20):
        chance = np.random.default_rng(seed)
        self.bits, preambles = line.subframes({"blocks": blocks}, chance)
        cells = line.edges(self.bits, preambles)
        at = cells + drift * 1e-6 * 3072000 / (2 * np.pi) * (1 - np.cos(2 * np.pi * cells / 3072000))
        at = at * cell + lead + chance.uniform(0, cell) + chance.normal(0, rms, len(cells))
        at[1::2] += late
        sampled = np.maximum.accumulate(np.ceil(at).astype(np.int64))
        self.levels = np.repeat((np.arange(len(sampled) + 1) & 1).astype(np.uint8), np.diff(sampled, prepend=0, append=sampled[-1] + 4))
        # Each slot begins with an edge: of all edges those of even cells behind the preamble, and of its first cell.
        number = np.searchsorted(cells, np.arange(len(self.bits) * 32) * 2)
        self.slots = sampled[np.minimum(number, len(cells) - 1)].reshape(-1, 32)
        self.slots[:, 1:4] = -1

    def moved(self, samples):
        self.slots = np.where(self.slots < 0, -1, self.slots + samples)
        return self


def silent(count):
    return np.zeros(count, np.uint8)


def noise(count, seed=3):
    return np.random.default_rng(seed).integers(0, 2, count, dtype=np.uint8)


def row(*parts):
    """Lines and samples that are none, one after the other: all levels, and the lines at their places."""
    levels, lines, at = [], [], 0
    for part in parts:
        if isinstance(part, Line):
            lines.append(part.moved(at))
            part = part.levels
        levels.append(part)
        at += len(part)
    return np.concatenate(levels) if levels else silent(0), lines


def damaged():
    """A line that stays high for a short time within its third block, and has a glitch in its sixth."""
    levels, lines = row(Line(8.1, 8, rms=0.3))
    levels[lines[0].slots[2 * 384 + 100, 9] :][:60] = 1
    at = lines[0].slots[5 * 384 + 50, 12] + 4
    levels[at : at + 1] ^= 1
    return levels, lines


# Of each the levels and the lines in them, and below how many blocks are whole at least.
CASES = {
    "clean": lambda: row(Line(3.90625, 6)),
    "jitter": lambda: row(Line(3.90625, 12, rms=0.25, drift=200)),
    "late": lambda: row(Line(8.138, 6, rms=0.4, late=2)),
    "slow": lambda: row(Line(40.3, 4, rms=3)),
    "long": lambda: row(Line(3.90625, 100, rms=0.2, drift=200)),
    "stops": lambda: row(Line(3.90625, 6, rms=0.2), silent(390625), Line(5.3, 6, rms=0.2, seed=2)),
    "rests": lambda: row(Line(3.90625, 6, rms=0.2), silent(12000000), Line(3.90625, 6, rms=0.2, seed=2)),
    "noise": lambda: row(Line(3.90625, 8, rms=0.2), noise(200000), Line(5.3, 8, rms=0.2, seed=2)),
    "begins": lambda: row(silent(6000000), noise(100000), Line(3.90625, 8, rms=0.2)),
    "damaged": damaged,
    "none": lambda: row(silent(100000)),
    "chance": lambda: row(noise(300000)),
}
LEAST = {"clean": 6, "jitter": 12, "late": 6, "slow": 4, "long": 100, "stops": 11, "rests": 11, "noise": 13, "begins": 7, "damaged": 6, "none": 0, "chance": 0}
# Here the numbers of cells can differ from those of CELLS: samples without a line that are dropped are counted by the line after them.
COUNTED_BY_TIME = "rests", "begins"


def run(*words, data=None):
    return subprocess.run(words, input=data, stdout=subprocess.PIPE, stderr=subprocess.PIPE, check=False).stdout


class Judge:
    def __init__(self, program, cells, case, options):
        self.levels, self.lines = CASES[case]()
        self.case, self.options = case, options
        unit, bit = int(options.pop("unit", 1)), int(options.pop("bit", 0))
        others = np.random.default_rng(9).integers(0, 1 << 8 * unit, len(self.levels), dtype=np.uint16) & ~np.uint16(1 << bit)
        samples = (self.levels.astype(np.uint16) << bit) | others
        samples.astype("<u%d" % unit).tofile("capture")
        self.words = ["sigrok-cli", "-I", f"binary:numchannels={8 * unit}:samplerate={RATE}", "-i", "capture"]
        self.decoder = ":".join([f"aes3:data={bit}", *(f"{name}={value}" for name, value in options.items())])
        rate = ["--rate", str(RATE), "--at", options["rate"]] if "rate" in options else []
        self.packed = run(cells, "--packed-out", "--unit", str(unit), "--bit", str(bit), *rate, "capture")
        self.program, self.failed = program, []

    def aes3(self, *words):
        return run(self.program, *words, "--packed-in", data=self.packed)

    def annotations(self, *kinds, detail="subframes"):
        """Of each annotation of these kinds its first and last sample, its number in the line and its text."""
        words = [*self.words, "-P", f"{self.decoder}:detail={detail}", "-A", "aes3=" + ":".join(kinds), "--protocol-decoder-samplenum"]
        said = run(*words).decode()
        return [(int(a), int(b), text) for a, b, text in re.findall(r"^(\d+)-(\d+) aes3-1: (.*)$", said, re.M)]

    def binary(self, kind):
        return run(*self.words, "-P", f"{self.decoder}:detail=blocks", "-B", f"aes3={kind}")

    def same(self, what, got, want):
        if list(got) != list(want):
            at = next((i for i, (a, b) in enumerate(zip(got, want)) if a != b), min(len(got), len(want)))
            self.failed.append(f"{what}: {len(got)} for {len(want)}, at {at} {list(got[at : at + 2])} for {list(want[at : at + 2])}")

    def all(self):
        """Judges everything."""
        blocks = self.annotations("whole", "marked", "fault", "unfinished", "gap", detail="blocks")
        told = [text for _, _, text in blocks]
        check = self.aes3("check", "--gaps").decode().split("\n")[:-1]
        if self.case in COUNTED_BY_TIME:
            kinds = [[re.sub(r"\d+", "N", it) for it in lines if not it.startswith("gap")] for lines in (told, check)]
            self.same("blocks and faults", *kinds)
        else:
            # Read by edges, the samples after the last one are not known.
            by_edges = self.options.get("reading") == "edges"
            told_by_both, check_by_both = ([re.sub(r"^(unfinished|gap) at (\d+) cells \d+$", r"\1 at \2", it) if by_edges else it for it in lines] for lines in (told, check))
            self.same("blocks, faults and gaps", told_by_both, check_by_both)
            if len(self.packed) > 1 and not by_edges:
                self.same("packed cells", self.binary("cells"), self.packed)
        whole = [it for it in blocks if it[2].startswith("whole")]
        if len(whole) < LEAST[self.case]:
            self.failed.append(f"{len(whole)} blocks for {LEAST[self.case]}")
        self.same("status", *self.status())
        self.places(whole)
        pcm = np.frombuffer(self.aes3("to-pcm"), "<i4") >> 8
        samples = self.annotations("sample")
        self.same("samples", [int(text.split(": ")[1]) for _, _, text in samples], pcm.tolist())
        wave = self.binary("wav")
        self.same("WAV", wave[44:], b"".join(int(it).to_bytes(3, "little", signed=True) for it in pcm))
        if len(pcm) and wave[24:28] != (48000).to_bytes(4, "little") and self.case in ("clean", "jitter", "long"):
            self.failed.append("the rate of the WAV")
        warnings = [text for _, _, text in self.annotations("warning", detail="blocks")]
        wants = {"none": "No line found", "chance": "No line found", "noise": "Noise"}.get(self.case)
        if wants and not any(it.startswith(wants) for it in warnings):
            self.failed.append(f"no warning {wants}: {warnings}")
        if self.case in ("clean", "long") and warnings:
            self.failed.append(f"warnings {warnings}")
        if self.case in ("stops", "rests", "noise"):
            self.same("lost and back", [text.split()[0] for _, _, text in self.annotations("lost", "back", detail="blocks")], ["lost", "back"])
        return self.failed

    def status(self):
        """The status of each block as the decoder and as `aes3 show` have it."""
        got = [text for _, _, text in self.annotations("status1", "status2", detail="blocks")]
        return got, [re.sub(r"^block=\d+ channel=\d+ ", "", it) for it in self.aes3("show").decode().splitlines()]

    def places(self, whole):
        """Each whole block, its subframes and their slots are where the encoder has them."""
        sent = {}
        for each in self.lines:
            for block in range(len(each.bits) // 384):
                slots = each.slots[384 * block : 384 * block + 385]
                sent[int(slots[0, 0])] = slots, each.bits[384 * block : 384 * block + 384]
        found = [sent.get(begin) for begin, _, _ in whole]
        if None in found:
            self.failed.append(f"a whole block at sample {whole[found.index(None)][0]}, where none was sent")
            return
        self.same("the ends of blocks", [end for _, end, _ in whole], [int(slots[384, 0]) for slots, _ in found])
        samples, preambles, slots = [], [], []
        for block, bits in found:
            for i in range(384):
                begin, end = int(block[i, 0]), int(block[i + 1, 0])
                sample = (int(bits[i]) & 0xFFFFFF ^ 1 << 23) - (1 << 23)
                samples.append((begin, end, f"{i % 2 + 1}: {sample}"))
                preambles.append((begin, int(block[i, 4]), "Preamble " + ("Z" if i == 0 else "XY"[i % 2])))
                ends = [*block[i, 5:].tolist(), end]
                slots += [(int(block[i, 4 + n]), ends[n], str(int(bits[i]) >> n & 1)) for n in range(28)]
        self.same("the places of samples", self.annotations("sample"), samples)
        if self.case in ("clean", "jitter"):
            self.same("the places of preambles", self.annotations("preamble"), [*preambles, *self.annotations("preamble")[len(preambles) :]])
            self.same("the places of slots", self.annotations("slot", detail="slots")[: len(slots)], slots)
            flags = [text for _, _, text in self.annotations("flags")]
            want = [" ".join(f"{name}{int(it) >> n & 1}" for name, n in zip("VUCP", range(24, 28))) for _, bits in found for it in bits]
            self.same("V, U, C and P", flags[: len(want)], want)
        if self.case == "clean" and self.options.get("reading") != "edges":
            cells = self.annotations("cell", detail="cells")
            text = "".join(it[2] for it in cells)
            want = "".join(f"{octet:08b}" for octet in self.packed[:-1])
            self.same("cells", text, want[: len(want) - self.packed[-1]])
            self.same("cells one after the other", [it[0] for it in cells[1:]], [it[1] for it in cells[:-1]])


def main(program, cells, case, *options):
    failed = Judge(program, cells, case, dict(it.split("=") for it in options)).all()
    print("\n".join(failed))
    return 1 if failed else 0


if __name__ == "__main__":
    if len(sys.argv) < 4 or sys.argv[3] not in CASES:
        sys.exit(__doc__)
    sys.exit(main(*sys.argv[1:]))
