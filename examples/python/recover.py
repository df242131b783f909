#!/usr/bin/env python3
"""recover.py [--packed-in] WAV: a damaged line on standard input, as text or as packed cells. Writes the samples of its whole blocks to
the file WAV, as `aes3 to-wav -o WAV` does. Prints every fault and gap with its place, and a fault with its cause: the lines of
`aes3 check --gaps` except those of whole blocks.

Status 0: no fault. 1: faults, or gaps that count. 2: usage error. 3: the input is rejected, or the input or output failed.
The header is written last. So after status 3 WAV has no header, and no program reads it as a WAV file.
"""

import argparse
import io
import os
import re
import sys

PIECE = 65536
HEADER = 104  # octets


class Rejected(Exception):
    """The input is not cells."""


def pieces_of_packed(stream):
    """Octets of cells, and a word with the number of its cells: of all but the last piece none."""
    held = b""
    for piece in iter(lambda: stream.read1(PIECE), b""):
        held += piece
        # Only the end shows which octet is the last.
        yield held[:-2], (0, 0)
        held = held[-2:]
    try:
        _, rest = aes3.words_of_packed(held)
    except ValueError:
        raise Rejected("the octets do not end as packed cells do, with the number of unused cells") from None
    yield b"", rest


def pieces_of_text(stream):
    """The same of text. What is before a byte that is not a cell comes first."""
    cells, done = b"", 0
    for piece in iter(lambda: stream.read1(PIECE), b""):
        wrong = re.search(rb"[^01\r\n ]", piece)
        cells += piece[: wrong.start() if wrong else None].translate(None, b"\r\n ")
        count = len(cells) // 8
        yield int(b"1" + cells[: 8 * count], 2).to_bytes(1 + count, "big")[1:], (0, 0)
        cells = cells[8 * count :]
        if wrong:
            yield b"", rest_of(cells)
            raise Rejected(f"byte {done + wrong.start()} is not a cell: cell text has 0 and 1")
        done += len(piece)
    yield b"", rest_of(cells)


def rest_of(cells):
    """The word of a few cells, the first in bit 0."""
    return int(b"0" + cells[::-1], 2), len(cells)


def recover(stream, form, file):
    """Whether there are faults, or gaps that count."""
    lock, account = aes3.Lock(), aes3.Account()
    blocks = []
    faults = False

    def print_gaps(gaps):
        nonlocal faults
        for gap in gaps:
            print(gap)
            faults |= gap.counts

    def take(reports):
        nonlocal faults
        for report in reports:
            print_gaps(account.before(report))
            if report.kind == aes3.WHOLE:
                blocks.append(report)
            else:
                print(report)
                faults |= report.kind != aes3.UNFINISHED

    try:
        for octets, rest in form(stream):
            take(lock.take_octets(octets))
            take(lock.push(*rest))
            print_gaps(account.passed(lock.seen()))
    except Rejected:
        sys.stdout.flush()
        raise
    take(lock.finish())
    print_gaps(account.end(lock.seen()))
    sys.stdout.flush()
    write(blocks, file)
    return faults


def write(blocks, file):
    """Writes the WAV file: the samples, and then the header."""
    rate = aes3.Status(aes3.block_status(blocks[0].words, 1)).rate if blocks else None
    if blocks and rate is None:
        print("recover: the line names no sampling frequency: the file says 48000 Hz", file=sys.stderr)
    made = io.BytesIO()
    aes3.write_wav(made, blocks, rate or 48000)
    octets = made.getbuffer()
    file.write(bytes(HEADER))
    file.write(octets[HEADER:])
    file.flush()
    file.seek(0)
    file.write(octets[:HEADER])
    file.flush()


def main():
    parser = argparse.ArgumentParser(description=__doc__, formatter_class=argparse.RawDescriptionHelpFormatter)
    parser.add_argument("--packed-in", action="store_true")
    parser.add_argument("WAV")
    given = parser.parse_args()
    form = pieces_of_packed if given.packed_in else pieces_of_text
    if sys.stdin is None or sys.stdout is None:
        print("recover: there is no standard input or output", file=sys.stderr)
        return 3
    try:
        with open(given.WAV, "wb") as file:
            return recover(sys.stdin.buffer, form, file)
    except (Rejected, OSError, OverflowError, MemoryError, ValueError) as error:
        print(f"recover: {error or type(error).__name__}", file=sys.stderr)
        # What is left for a standard output that failed is not written again at the end.
        os.dup2(os.open(os.devnull, os.O_WRONLY), sys.stdout.fileno())
        return 3


try:
    import aes3
except (ImportError, OSError) as error:
    print(f"recover: {error}", file=sys.stderr)
    sys.exit(3)
sys.exit(main())
