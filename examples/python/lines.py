#!/usr/bin/env python3
"""encode and decode on whole arrays, beside the program: PROGRAM is aes3. Says whether arrays of numpy went in; status 1 where an answer
is another than the program's, or where what is no array of samples is taken."""

import argparse
import array
import struct
import subprocess
import tempfile

import aes3

try:
    import numpy
except ImportError:
    numpy = None

parser = argparse.ArgumentParser(description=__doc__)
parser.add_argument("PROGRAM")
program = parser.parse_args().PROGRAM


def run(octets, *words):
    return subprocess.run([program, *words], input=octets, stdout=subprocess.PIPE, check=True).stdout


def refused(kind, *given, **named):
    try:
        aes3.encode(*given, **named)
    except kind:
        return True
    return False


# Samples of 24 bits in the highest bits of 32, of two channels in turn, that end within a block.
row = [((i * i * 977 + i) % 2**24 - 2**23) << 8 for i in range(2 * (5 * 192 + 77))]
octets = struct.pack(f"<{len(row)}i", *row)
plain = array.array("i", row)

# The program's line of them, for each use and rate.
for use in "consumer", "professional":
    for rate in (22050, 24000, 32000, 44100, 48000, 88200, 96000, 176400, 192000) + (768000,) * (use == "consumer"):
        blocks = run(octets, "from-pcm", "--preset", use, "--rate", str(rate))
        line = run(blocks, "encode", "--packed-out")
        assert aes3.encode(plain, rate, use=use, channels=2) == line, (use, rate)
        found = aes3.decode(line)
        assert [it.rate for it in found.status] == [rate, rate] and found.status[0].use == use
        assert found.status[0] == getattr(aes3.Status, use)(rate) and len(found.reports) == 6
unsaid = aes3.encode(plain, None, channels=2)
assert unsaid == run(run(octets, "from-pcm", "--preset", "consumer"), "encode", "--packed-out")
assert aes3.decode(unsaid).status[0].rate is None and aes3.decode(unsaid).status[0]["rate"] == "not-indicated"

# Each form, and back: the samples of the line, with zeros up to the end of the last block.
padded = row + [0] * (-len(row) % 384)
for form, options in ("packed", ["--packed-in"]), ("raw", ["--raw-in"]), ("text", []):
    line = aes3.encode(plain, channels=2, form=form)
    found = aes3.decode(line, form=form)
    samples = found.samples.reshape(-1).tolist() if numpy else found.samples.tolist()
    assert samples == padded
    assert run(line, "to-pcm", *options) == struct.pack(f"<{len(padded)}i", *padded)
    assert "".join(f"{it}\n" for it in found.reports) == run(line, "check", *options).decode()

# A damaged line, cut anywhere: the reports are the program's, and each whole block has its samples.
damaged = bytearray(aes3.encode(plain, channels=2, form="raw"))
damaged[4000] ^= 4
damaged = bytes(damaged[1001:-500])
found = aes3.decode(damaged, form="raw")
told = subprocess.run([program, "check", "--raw-in"], input=damaged, stdout=subprocess.PIPE).stdout.decode()
assert "".join(f"{it}\n" for it in found.reports) == told and "fault" in told and "unfinished" in told
text = subprocess.run([program, "to-pcm", "--raw-in"], input=damaged, stdout=subprocess.PIPE).stdout
assert bytes(found.samples) == text
again = aes3.decode(damaged, form="raw").reports
assert again == found.reports and again[0] != again[1] and repr(again[0]) == f"Report({again[0]})"
assert aes3.decode(b"\0").status is None and aes3.decode(b"", form="raw").reports == [] and aes3.encode(array.array("i"), channels=1) == b"\0"

# One channel in both, and other types, each by its own scale.
mono = array.array("h", [-32768, -1, 0, 1, 32767])
first = aes3.decode(aes3.encode(mono, channels=1)).samples
first = first.tolist() if numpy else [list(first[i : i + 2]) for i in range(0, len(first), 2)]
assert first[:5] == [[it << 16] * 2 for it in mono] and first[5:] == [[0, 0]] * 187
whole = array.array("i", [-(2**23), 2**23 - 1])
pair = aes3.decode(aes3.encode(whole, bits=24, channels=2)).samples
assert (pair[0].tolist() if numpy else list(pair[:2])) == [-(2**31), (2**23 - 1) << 8]
for floats in array.array("f", [-1.0, 1.0]), array.array("d", [-1.0, 1.0]):
    pair = aes3.decode(aes3.encode(floats, channels=2)).samples
    assert (pair[0].tolist() if numpy else list(pair[:2])) == [-(2**31), (2**23 - 1) << 8]

# A WAV file of the line as the program writes it, and the program's line of a WAV file.
line = aes3.encode(plain, 44100, channels=2)
with tempfile.TemporaryDirectory() as folder:
    ours, theirs = f"{folder}/ours.wav", f"{folder}/theirs.wav"
    for bits in 16, 24, 32:
        run(line, "to-wav", "--packed-in", "--bits", str(bits), "-o", theirs)
        aes3.write_wav(ours, aes3.decode(line).reports, 44100, bits=bits)
        with open(ours, "rb") as first, open(theirs, "rb") as second:
            assert first.read() == second.read()
        wav = aes3.read_wav(theirs)
        told = run(run(b"", "from-wav", "-i", theirs), "encode", "--packed-out")
        status = aes3.decode(told).status
        assert aes3.encode(wav.samples, wav.rate, channels=2, status=status) == told and wav.rate == status[0].rate == 44100

# What is no array of samples, or not clear, is an error.
for wrong in [1, 2], array.array("b", [1]), array.array("H", [1]), array.array("q", [1]), "text", 7, None, b"octets":
    assert refused(TypeError, wrong, channels=1), wrong
for wrong, named in (
    (plain, {}), (plain, {"channels": 3}), (array.array("i", [1, 2, 3]), {"channels": 2}), (plain, {"channels": 2, "bits": 16}),
    (array.array("i", [2**23]), {"channels": 1, "bits": 24}), (array.array("f", [1.5]), {"channels": 1}),
    (array.array("f", [float("nan")]), {"channels": 1}), (array.array("f", [0.0]), {"channels": 1, "bits": 24}),
    (plain, {"channels": 2, "use": "both"}), (plain, {"channels": 2, "form": "cells"}), (plain, {"channels": 2, "rate": 47999}),
    (plain, {"channels": 2, "status": b"short"}),
):
    assert refused(ValueError, wrong, **named), named

if numpy:
    frames = numpy.array(row, numpy.int32).reshape(-1, 2)
    line = aes3.encode(plain, channels=2)
    assert aes3.encode(frames) == aes3.encode(frames.astype(">i4")) == aes3.encode(numpy.asfortranarray(frames)) == line
    assert aes3.encode(frames >> 8, bits=24) == aes3.encode((frames >> 8) / 2.0**23) == line
    assert aes3.encode(frames[::2]) == aes3.encode(frames[::2].copy()) and aes3.encode(frames[:, 0], channels=1) == aes3.encode(frames[:, [0, 0]])
    narrow = (frames >> 16).astype(numpy.int16)
    assert aes3.encode(narrow) == aes3.encode(narrow.astype(numpy.int32) << 16) == aes3.encode(narrow / numpy.float32(2**15))
    for wrong in frames.T, frames.reshape(-1, 1, 2), frames.reshape(-1):
        assert refused(ValueError, wrong)
    for wrong in frames.astype(numpy.int64), frames.astype(numpy.uint16), frames.astype(complex), frames.astype(bool), frames.astype(object):
        assert refused(TypeError, wrong)
print("arrays of numpy" if numpy else "arrays of array")
