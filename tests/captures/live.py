#!/usr/bin/env python3
"""live.py [--fail] [--measured N] PROGRAM CAPTURE TEXT: the cells of a live capture come piece by piece, and are those of the file TEXT.

CAPTURE has 3.90625 samples a cell, and N octets of it are enough to measure the line. Behind them each piece of 101 octets is given once
nearly all cells of those before it have come: a line of 64 cells that is not full yet may be held, and at most three cells are open of an
edge that has not come yet. With --fail the input can't be read any further within a block of octets: PROGRAM has to end
with 3 and to have written the cells of what came before.
"""
import argparse
import ctypes
import mmap
import os
import select
import subprocess
import sys

SAMPLES_A_CELL = 3.90625
OPEN = 64 + 5
PAGES = 7


def cells_of(octets):
    return octets.replace(b"\n", b"")


def judged(status, wanted_status, said, cells, wanted, count):
    """What is wrong with the end, if anything is."""
    front = len(os.path.commonprefix([cells, wanted]))
    if status != wanted_status or (status and not said.startswith("aes3-cells: the input can't be read\n")):
        return f"status {status}: {said}"
    if len(cells) - front > OPEN or front < int(count / SAMPLES_A_CELL) - OPEN:
        return f"{len(cells)} cells came of {count} octets, of which {front} are right"
    return None


def live(program, samples, wanted, measured):
    child = subprocess.Popen([program], stdin=subprocess.PIPE, stdout=subprocess.PIPE, stderr=subprocess.PIPE, bufsize=0)
    cells = b""
    for at in range(0, len(samples), 101):
        child.stdin.write(samples[at : at + 101])
        due = int((at + 101) / SAMPLES_A_CELL) - OPEN if measured <= at < len(samples) - 101 else 0
        while len(cells) < due:
            if not select.select([child.stdout], [], [], 20)[0]:
                return f"{due - len(cells)} cells are missing of {at + 101} octets"
            cells += cells_of(os.read(child.stdout.fileno(), 1 << 16))
    child.stdin.close()
    cells += cells_of(child.stdout.read())
    said = child.stderr.read().decode()
    return judged(child.wait(), 0, said, cells, wanted, len(samples))


def failing(program, samples, wanted):
    """The samples stand in memory, with none behind them, and are read through /proc."""
    memory = mmap.mmap(-1, (PAGES + 1) * mmap.PAGESIZE)
    begin = 1000
    count = PAGES * mmap.PAGESIZE - begin
    memory[begin : begin + count] = samples[:count]
    address = ctypes.addressof(ctypes.c_char.from_buffer(memory))
    if ctypes.CDLL(None).munmap(ctypes.c_void_p(address + begin + count), ctypes.c_size_t(mmap.PAGESIZE)):
        return "the last page stays"
    file = os.open("/proc/self/mem", os.O_RDONLY)
    os.lseek(file, address + begin, os.SEEK_SET)
    ran = subprocess.run([program], stdin=file, stdout=subprocess.PIPE, stderr=subprocess.PIPE)
    answer = judged(ran.returncode, 3, ran.stderr.decode(), cells_of(ran.stdout), wanted, count)
    print(answer or "", end="", flush=True)
    os._exit(1 if answer else 0)  # before Python frees what is no longer there


def main(program, capture, text, measured, fails):
    with open(capture, "rb") as file:
        samples = file.read(measured + 24_000)
    with open(text, "rb") as file:
        wanted = cells_of(file.read())
    return failing(program, samples, wanted) if fails else live(program, samples, wanted, measured)


if __name__ == "__main__":
    parser = argparse.ArgumentParser(description=__doc__, formatter_class=argparse.RawDescriptionHelpFormatter)
    parser.add_argument("--fail", action="store_true")
    parser.add_argument("--measured", metavar="N", type=int, default=6000)
    for name in ("PROGRAM", "CAPTURE", "TEXT"):
        parser.add_argument(name.lower(), metavar=name)
    given = parser.parse_args()
    sys.exit(main(given.program, given.capture, given.text, given.measured, given.fail))
