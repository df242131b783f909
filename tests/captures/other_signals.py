#!/usr/bin/env python3
"""other_signals.py PROGRAM: what a person may connect or name by mistake. It wants numpy.

Each signal is a million samples of bit 0, at several numbers of samples for its shortest run, clean and with jitter. None has the preambles of
AES3, so PROGRAM has to end with 1 and to write nothing. Then files that are no captures at all. The last line is
`N passed, M failed`.
"""
import argparse
import subprocess
import sys

import numpy as np

SAMPLES = 1_000_000
CELLS = (2.1, 3.0, 3.90625, 4.7, 8.14, 20.3)
passed = failed = 0


def judge(what, is_right):
    global passed, failed
    passed, failed = passed + bool(is_right), failed + (not is_right)
    if not is_right:
        print(f"other_signals: {what}")


def is_refused(program, octets):
    answer = subprocess.run([program], input=octets, stdout=subprocess.PIPE, stderr=subprocess.DEVNULL)
    return answer.returncode == 1 and not answer.stdout


def bits_of_bytes(count, chance, frame):
    """Bits on a wire that sends bytes: `frame` makes the bits of one."""
    return np.concatenate([frame(byte) for byte in chance.integers(0, 256, count // 8)])


def signals(count, chance):
    """The runs of each signal, in cells."""
    bits = chance.integers(0, 2, count)
    yield "clock", np.ones(count)
    yield "clock of one and three", np.tile([1, 3], count // 2)
    yield "runs of one to three", chance.integers(1, 4, count)
    yield "Manchester code", runs_of(np.stack([bits, 1 - bits], 1).ravel())
    yield "biphase-mark code without preambles", np.concatenate([[1, 1] if bit else [2] for bit in bits])
    octet = np.arange(8)
    uart = bits_of_bytes(count, chance, lambda byte: np.concatenate([[0], byte >> octet & 1, [1] * int(chance.integers(1, 4))]))
    yield "UART", runs_of(uart)
    text = np.frombuffer(b"#1000\n1!\n0\"\n" * (count // 80), dtype=np.uint8)
    yield "UART of text", runs_of(np.concatenate([np.concatenate([[0], byte >> octet & 1, [1]]) for byte in text]))
    music = (8000 * np.sin(np.arange(count // 32) / 7)).astype(np.int16).astype(np.uint16)
    yield "I2S", runs_of(np.concatenate([np.concatenate([word >> np.arange(15, -1, -1) & 1, [0] * 16]) for word in music]))
    yield "SPI", runs_of(bits_of_bytes(count, chance, lambda byte: np.concatenate([byte >> octet[::-1] & 1, [1] * 4])))


def runs_of(bits):
    """How long each run of equal bits is."""
    return np.diff(np.flatnonzero(np.diff(bits)), prepend=-1)


def sampled(runs, cell, jitter, chance):
    """Samples of runs."""
    edges = np.cumsum(runs) * cell
    edges = edges[edges < SAMPLES]
    edges += chance.uniform(-jitter, jitter, len(edges)) * cell
    counts = np.diff(np.maximum.accumulate(np.ceil(edges).astype(np.int64)), prepend=0)
    return np.repeat((np.arange(len(counts)) & 1).astype(np.uint8), counts).tobytes()


def main(program):
    chance = np.random.default_rng(1)
    for cell in CELLS:
        for name, runs in signals(int(SAMPLES / cell), chance):
            for jitter in (0, 0.1):
                judge(f"{name}, {cell} samples, jitter {jitter}", is_refused(program, sampled(runs, cell, jitter, chance)))
    with open(program, "rb") as file:
        judge("a program", is_refused(program, file.read()))
    change = "".join(f"#{40 * i}\n{i % 2}!\n" for i in range(100_000))
    judge("a VCD file", is_refused(program, ("$timescale 1 ns $end\n$var wire 1 ! D0 $end\n" + change).encode()))
    table = "".join(f"{i / 24e6:.9f},{chance.integers(0, 2)}\n" for i in range(50_000))
    judge("a table", is_refused(program, ("Time [s],Channel 0\n" + table).encode()))
    print(f"{passed} passed, {failed} failed")
    return failed > 0


if __name__ == "__main__":
    parser = argparse.ArgumentParser(description=__doc__, formatter_class=argparse.RawDescriptionHelpFormatter)
    parser.add_argument("program", metavar="PROGRAM")
    sys.exit(main(parser.parse_args().program))
