#!/usr/bin/env python3
"""Each call of the module, on a block file, with answers that are known. PACKED are the cells of the block file, CHECK_BYTE the
check byte of a status, as two digits. Says whether arrays of numpy went in and out; status 1 where an answer is another."""

import argparse
import array
import struct

import aes3
from aes3 import calls

parser = argparse.ArgumentParser(description=__doc__)
for name in "BLOCKFILE", "PACKED", "VERSION", "CHECK_BYTE":
    parser.add_argument(name)
given = parser.parse_args()
file, packed = (open(name, "rb").read() for name in (given.BLOCKFILE, given.PACKED))
words = struct.unpack(f"<{len(file) // 4}I", file)
blocks = [words[at : at + 384] for at in range(0, len(words), 384)]
assert aes3.VERSION == aes3.library_version() == given.VERSION

# Cells of blocks, and blocks of cells, in one piece and word by word.
cells, rest = aes3.words_of_packed(packed)
assert rest == (0, 0) and len(cells) == len(words)
made = [word for block in blocks for word in aes3.encode_block(block)]
assert made == list(cells)
lock = aes3.Lock()
reports = lock.take(cells) + lock.finish()
assert [tuple(report.words) for report in reports] == blocks and lock.seen() == 64 * len(cells)
by_octets = aes3.Lock()
told = by_octets.take_octets(packed[:1000]) + by_octets.take_octets(bytearray(packed[1000:-1]))
assert [str(report) for report in told + by_octets.finish()] == [str(report) for report in reports]
assert [tuple(report.words) for report in told] == blocks[:-1] and by_octets.seen() == lock.seen()
lock = aes3.Lock()
one_by_one = [report for word in made[:1000] for report in lock.push(word, 64)]
assert [str(report) for report in one_by_one] == [str(report) for report in reports[:2]]
text = "".join(format(int(word), "064b")[::-1] for word in made[:100]) + "\n101"
assert [list(it) for it in aes3.words_of_text(text)] == [made[:100], [5, 3]]

# Status.
assert aes3.block_status(blocks[0], 1) == bytes([4, 0, 0, 2, 0x0B] + 19 * [0])
status = bytes.fromhex("85022c0000004a4154480000000000000000000000000000")
assert aes3.check_byte(status) == int(given.CHECK_BYTE, 16)

assert aes3.status_text(status).startswith("professional payload=pcm emphasis=none unlocked=no rate=48000 mode=stereophonic ")

# V, U and C bits set in a copy of a block, and nothing else.
changed = aes3.with_user(blocks[0], 2, status)
assert [i for i in range(384) if changed[i] != blocks[0][i]] == [2 * i + 1 for i in range(192) if status[i // 8] >> i % 8 & 1]
assert aes3.block_user(changed, 2) == status and aes3.block_user(changed, 1) == aes3.block_user(blocks[0], 1) == bytes(24)
changed = aes3.with_validity(aes3.with_status(changed, 1, status), 1, status)
assert aes3.block_validity(changed, 1) == aes3.block_status(changed, 1) == status
assert aes3.block_validity(changed, 2) == bytes(24) and aes3.block_status(changed, 2) == aes3.block_status(blocks[0], 2)


# A line in bit 2 of samples, five a cell, and in bit 9 of samples of two octets.
bits = "".join(f"{it:08b}" for it in packed[: 2 * 24576 // 8])
levels = [int(it) for it in bits for _ in range(5)]
for unit, bit, octets in (1, 2, [it << 2 for it in levels]), (2, 9, [it for level in levels for it in (0, level << 1)]):
    cells_found, figures = aes3.cells_of_samples(bytes(octets), bit, unit)
    # No edge tells where the first run began, so its cells are counted by the period of those behind it.
    assert "".join(f"{it:08b}" for it in cells_found[:-1]) == bits and cells_found[-1] == 0
    assert figures["cells"] == len(bits) and figures["period"] >> 8 == 5 << 8
assert aes3.cells_of_samples(bytes(1000))[1]["measured"] == 0


def is_refused(call, *words, by=ValueError):
    """Whether the call raises that, with a sentence that says what is wanted."""
    try:
        call(*words)
    except by as error:
        return type(error) is by and len(str(error).split()) > 3
    return False


def is_of_another_type(call, *words):
    return is_refused(call, *words, by=TypeError)


assert is_refused(aes3.encode_block, [1] + 383 * [0]) and is_refused(aes3.encode_block, 383 * [0])
assert is_refused(aes3.block_status, blocks[0], 3) and is_refused(aes3.check_byte, b"")
sound = [(i - 192) * 256 * 32767 for i in range(384)]
assert list(aes3.block_samples(aes3.block_of_samples([it | 255 for it in sound]))) == sound
assert is_refused(aes3.block_samples, [1] + 383 * [0]) and is_refused(aes3.block_of_samples, sound[1:])
assert is_refused(aes3.with_user, [1] + 383 * [0], 1, status) and is_refused(aes3.with_status, blocks[0], 1, b"")
assert is_refused(aes3.words_of_text, "012") and is_refused(aes3.words_of_packed, b"\0\x08") and is_refused(aes3.words_of_packed, b"\1\1")
assert is_refused(lock.push, 0, 65) and is_refused(aes3.cells_of_samples, b"", 8) and is_refused(aes3.cells_of_samples, b"", 0, 3)

# Of each number that a call takes: one below its least, one above its greatest, and what is no whole number.
for call, least, greatest in (
    (lambda it: aes3.block_of_samples([it] + sound[1:]), -(2**31), 2**31 - 1),
    (lambda it: aes3.encode_block([it] + 383 * [0]), 0, 2**32 - 1),
    (lambda it: aes3.encode_block(blocks[0], it), 0, 1),
    (lambda it: aes3.block_status(blocks[0], it), 1, 2),
    (lambda it: aes3.block_user(blocks[0], it), 1, 2),
    (lambda it: aes3.block_validity(blocks[0], it), 1, 2),
    (lambda it: aes3.with_status(blocks[0], it, status), 1, 2),
    (lambda it: aes3.with_user(blocks[0], it, status), 1, 2),
    (lambda it: aes3.with_validity(blocks[0], it, status), 1, 2),
    (lambda it: aes3.check_byte([it] + 23 * [0]), 0, 255),
    (lambda it: aes3.status_text([it] + 23 * [0]), 0, 255),
    (lambda it: aes3.with_status(blocks[0], 1, [it] + 23 * [0]), 0, 255),
    (lambda it: aes3.Lock().take([it]), 0, 2**64 - 1),
    (lambda it: aes3.Lock().take_octets([it]), 0, 255),
    (lambda it: aes3.Lock().push(it, 64), 0, 2**64 - 1),
    (lambda it: aes3.Lock().push(0, it), 0, 64),
    (lambda it: aes3.cells_of_samples(bytes(100), it, 1), 0, 7),
    (lambda it: aes3.cells_of_samples(bytes(100), it, 2), 0, 15),
    (lambda it: aes3.cells_of_samples(bytes(100), 0, it), 1, 2),
    (lambda it: aes3.cells_of_samples(bytes(100), 0, 1, it), 0, 2**64 - 1),
    (lambda it: aes3.Account().passed(it), 0, 2**64 - 1),
    (lambda it: aes3.Account().end(it), 0, None),
):
    assert is_refused(call, least - 1) and (greatest is None or is_refused(call, greatest + 1))
    assert is_of_another_type(call, float(least)) and is_of_another_type(call, "1") and is_of_another_type(call, None)
    try:
        call(least)
    except ValueError as error:
        # A word that has a bit where it must have none is valid for its range.
        assert "not valid" in str(error)
assert is_refused(aes3.block_of_samples, 384 * [40_000_000_000]) and is_of_another_type(aes3.block_of_samples, 384 * [0.5])

# Memory of other items than a call takes, and what is no row at all.
for call, *others in (
    (aes3.block_of_samples, array.array("h", 384 * [1]), array.array("f", 384 * [1]), array.array("d", 384 * [1]), bytes(384), bytearray(384)),
    (aes3.encode_block, array.array("H", 384 * [0]), array.array("d", 384 * [0]), bytes(384)),
    (aes3.Lock().take, bytes(8), bytearray(8), array.array("I", [1]), array.array("d", [1])),
    (aes3.Lock().take_octets, array.array("H", [1]), array.array("d", [1]), array.array("b", [1])),
    (aes3.words_of_packed, array.array("H", [0, 0])),
    (aes3.words_of_text, array.array("H", [1])),
    (aes3.cells_of_samples, array.array("H", [1])),
    (aes3.status_text, array.array("H", 24 * [1])),
):
    for other in (*others, 5, None, 0.5):
        assert is_of_another_type(call, other), (call, other)
    if call is not aes3.words_of_text:
        assert is_of_another_type(call, 24 * "1")
assert is_of_another_type(aes3.Account().before, None) and is_of_another_type(aes3.Account().before, "whole at 0 before 0")
assert list(aes3.block_samples(aes3.block_of_samples(array.array("i", sound)))) == sound
assert list(aes3.encode_block(array.array("I", blocks[0]))) == made[:384]
assert len(aes3.Lock().take(array.array("Q", made[:1000]))) == len(aes3.Lock().take(iter(made[:1000]))) == 2

# Gaps: of a dead line while it is dead, before whole blocks, and at the end.
gap_block = 24576


def gaps(told):
    return [(gap.at, gap.cells, gap.counts) for gap in told]


account = aes3.Account()
assert gaps(account.passed(2 * gap_block)) == [(0, gap_block, True)] and gaps(account.passed(3 * gap_block - 1)) == []
first = aes3.Lock().take_octets(packed)[0]
first.at = 2 * gap_block + 7
assert gaps(account.before(first)) == [(gap_block, gap_block, True), (2 * gap_block, 7, False)]
first.at = 3 * gap_block + 9
told = account.before(first)
assert gaps(told) == [(3 * gap_block + 7, 2, True)] and str(told[0]) == f"gap at {3 * gap_block + 7} cells 2"
assert gaps(account.end(4 * gap_block + 10)) == [(4 * gap_block + 9, 1, False)]

if calls.numpy:
    assert str(cells.dtype) == str(aes3.encode_block(blocks[0]).dtype) == "uint64"
    assert str(reports[0].words.dtype) == "uint32"
    # An array with gaps, and one of another type, are taken as their numbers.
    wide = calls.numpy.zeros(2 * len(cells), calls.numpy.uint64)
    wide[::2] = cells
    for row in wide[::2], cells.astype(">u8"), [int(it) for it in cells]:
        assert len(aes3.Lock().take(row)) == len(blocks) - 1
    assert len(aes3.Lock().take_octets(calls.numpy.frombuffer(packed, calls.numpy.uint8))) == len(blocks)
    # Arrays of another type, or of two dimensions, or with a number out of range.
    numpy, zeros = calls.numpy, calls.numpy.zeros
    for kind in "bool", "int8", "int16", "uint16", "float16", "float32", "float64", "complex128", "object", "U1", "M8[s]":
        for call in aes3.block_of_samples, aes3.encode_block, aes3.Lock().take, aes3.Lock().take_octets, aes3.cells_of_samples:
            assert is_of_another_type(call, zeros(384, kind)), (kind, call)
    assert is_of_another_type(aes3.Lock().take, zeros(384, "uint32")) and is_refused(aes3.Lock().take, -1 - zeros(384, "int64"))
    for call in aes3.block_of_samples, aes3.encode_block, aes3.Lock().take:
        assert is_refused(call, zeros((192, 2), "int64")), call
    assert is_refused(aes3.block_of_samples, zeros(384, "int64") + 2**31) and is_refused(aes3.encode_block, zeros(384, "int32") - 1)
    assert is_of_another_type(aes3.cells_of_samples, zeros(100, "uint16")) and is_of_another_type(lock.push, numpy.float64(1), 64)
    assert list(aes3.block_samples(aes3.block_of_samples(numpy.array(sound, "int32")))) == sound
    assert list(aes3.block_samples(aes3.block_of_samples(numpy.array(sound, ">i8")))) == sound
print("with numpy" if calls.numpy else "without numpy")
