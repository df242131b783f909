#!/usr/bin/env python3
"""Judges `aes3 from-wav` and `aes3 to-wav` by a reader of WAV files of its own, and by other programs.

    tests/wave.py [PROGRAM]

PROGRAM is aes3; without it, the one that bin/build leaves. Files that sox, ffmpeg and libsndfile (sndfile-convert) write in each width,
sampling frequency and container are read by `from-wav`; it has to write what `from-pcm` writes of their samples, with the channel status
that the header asks for. What `to-wav` writes is read by the three programs; they have to find the samples that `to-pcm` writes. With
`--fill`, `--marked`, `--valid` and `--exact` it has to be a header and what `to-pcm` writes with the same options. Then come headers that
are put together by hand, 200 damaged ones, input in small pieces, a live stream, and a file of more than 4 GiB in a pipe.

The last line is `N passed, M failed`; the exit status is 1 if one failed. Programs that are not installed are named and left out.
"""

import argparse
import os
import random
import shutil
import struct
import subprocess
import sys
import tempfile
import time

ROOT = os.path.dirname(os.path.dirname(os.path.realpath(__file__)))
PCM, FLOAT, EXTENSIBLE = 1, 3, 0xFFFE
SUBFORMAT = bytes.fromhex("000000001000800000aa00389b71")
CONSUMER = {44100: 0, 48000: 2, 32000: 3, 22050: 4, 24000: 6, 88200: 8, 768000: 9, 96000: 10, 176400: 12, 192000: 14}
PROFESSIONAL = {44100: (1, 0), 48000: (2, 0), 32000: (3, 0), 24000: (0, 1), 96000: (0, 2), 192000: (0, 3), 22050: (0, 9), 88200: (0, 10), 176400: (0, 11)}
LENGTHS = {8: (0, 0), 16: (0, 1), 20: (0, 5), 24: (1, 5), 32: (1, 5)}  # the greatest length of 24 bits, and the code under it

passed = failed = 0


def judge(name, is_right):
    global passed, failed
    if is_right:
        passed += 1
    else:
        failed += 1
        print(f"failed: {name}", flush=True)


# ---- a reader of WAV files


class Refused(Exception):
    """The number of the refusal, and its place."""


def format_of(chunk, at):
    """The format code, channels, frequency, octets of a frame and bits that count, of a chunk `fmt ` at place `at`."""
    if len(chunk) < 16:
        raise Refused(14, at)
    code, channels, rate, _, frame, bits = struct.unpack_from("<HHIIHH", chunk)
    counting = bits
    if code == EXTENSIBLE and len(chunk) >= 40:
        counting = struct.unpack_from("<H", chunk, 18)[0] or bits
        code = struct.unpack_from("<H", chunk, 24)[0] if chunk[26:40] == SUBFORMAT else code
    return code, channels, rate, frame, bits, counting


def samples_of(data):
    """The frequency, the width and the samples of each channel, left-aligned in 32 bits, of a whole RIFF file in memory."""
    sizes, form, at = None, None, 12
    while True:
        name, length = data[at : at + 4], struct.unpack_from("<I", data, at + 4)[0]
        if name == b"data":
            break
        content = data[at + 8 : at + 8 + length]
        if name == b"ds64" and sizes is None:
            sizes = struct.unpack_from("<Q", content, 8)[0]
        if name == b"fmt " and form is None:
            form = format_of(content, at + 8)
        at += 8 + length + length % 2
    start = at + 8
    if length == 0xFFFFFFFF and data[:4] in (b"RF64", b"BW64"):
        length = sizes
    end = len(data) if length in (None, 0, 0xFFFFFFFF, 2**64 - 1) else min(len(data), start + length)
    _, channels, rate, frame, bits, counting = form
    octets = frame // channels
    width = 8 if bits == 8 else counting
    found = [[] for _ in range(channels)]
    for begin in range(start, end - frame + 1, frame):
        for channel in range(channels):
            sample = data[begin + channel * octets : begin + (channel + 1) * octets]
            value = (sample[0] - 128) << 24 if octets == 1 else int.from_bytes(sample, "little", signed=True) << (32 - 8 * octets)
            # What is below the bits that count is 0.
            found[channel].append(value >> (32 - width) << (32 - width))
    return rate, width, found


def check_byte(status):
    """The check byte of AES3-2: x^8 + x^4 + x^3 + x^2 + 1, begun with ones."""
    register = 0xFF
    for octet in status[:23]:
        for i in range(8):
            carry = (register >> 7 ^ octet >> i) & 1
            register = (register << 1 & 0xFF) ^ (0x1D if carry else 0)
    return int(f"{register:08b}"[::-1], 2)


def status_of(rate, width, use):
    greatest, code = LENGTHS[width]
    status = bytearray(24)
    if use == "consumer":
        status[0], status[3], status[4] = 4, CONSUMER.get(rate, 1), greatest | code << 1
        return bytes(status)
    first, fourth = PROFESSIONAL.get(rate, (0, 0))
    status[0], status[1], status[2], status[4] = 5 | first << 6, 8, greatest << 2 | code << 3, fourth << 3
    status[23] = check_byte(status)
    return bytes(status)


# ---- the program


def ran(*words, data=b"", **how):
    return subprocess.run([PROGRAM, *words], input=data, stdout=subprocess.PIPE, stderr=subprocess.PIPE, **how)


def octets(samples):
    return struct.pack(f"<{len(samples)}i", *samples)


def blocks_of(rate, width, first, second, use="consumer"):
    """The block file of two channels, as from-pcm writes it with the status that is due."""
    frames = [it for pair in zip(first, second) for it in pair]
    status = status_of(rate, width, use).hex()
    return ran("from-pcm", "--status1", status, "--status2", status, data=octets(frames)).stdout


def is_read(path, *words, use="consumer"):
    """Whether from-wav writes the block file that the model makes of a file."""
    with open(path, "rb") as file:
        data = file.read()
    rate, width, channels = samples_of(data)
    first, second = channels[0], channels[1 if len(channels) > 1 else 0]
    got = ran("from-wav", *words, data=data)
    named = ran("from-wav", *words, path)
    return got.returncode == 0 and named.stdout == got.stdout == blocks_of(rate, width, first, second, use)


# ---- files that others write


def others_write(folder):
    path, raw = f"{folder}/it.wav", f"{folder}/it.s32"
    chance = random.Random(1)
    for channels in (1, 2, 3):
        with open(f"{raw}{channels}", "wb") as file:
            file.write(octets([chance.randrange(-(2**31), 2**31) for _ in range(200 * channels)]))
    tools = {"sox": shutil.which("sox"), "ffmpeg": shutil.which("ffmpeg"), "libsndfile": shutil.which("sndfile-convert")}
    for name, tool in tools.items():
        if not tool:
            print(f"left out: WAV files by {name} (it is not installed)")
    for channels in (1, 2, 3):
        for rate in (22050, 32000, 44100, 48000, 88200, 96000, 176400, 192000):
            if tools["sox"]:
                for bits, coding in ((8, "unsigned-integer"), (16, "signed-integer"), (24, "signed-integer"), (32, "signed-integer")):
                    words = ["sox", "-D", "-t", "raw", "-r", str(rate), "-e", "signed", "-b", "32", "-c", str(channels), f"{raw}{channels}"]
                    made = subprocess.run([*words, "-b", str(bits), "-e", coding, path], stderr=subprocess.DEVNULL)
                    judge(f"sox, {channels} channels, {rate} Hz, {bits} bits", made.returncode == 0 and is_read(path))
            if tools["ffmpeg"]:
                for coding in ("pcm_u8", "pcm_s16le", "pcm_s24le", "pcm_s32le"):
                    for container in ([], ["-rf64", "always"]):
                        words = ["ffmpeg", "-loglevel", "quiet", "-y", "-f", "s32le", "-ar", str(rate), "-ac", str(channels), "-i", f"{raw}{channels}"]
                        made = subprocess.run([*words, "-c:a", coding, *container, path])
                        judge(f"ffmpeg, {channels} channels, {rate} Hz, {coding} {' '.join(container)}", made.returncode == 0 and is_read(path))
    if tools["libsndfile"] and tools["sox"]:
        subprocess.run(["sox", "-D", "-t", "raw", "-r", "48000", "-e", "signed", "-b", "32", "-c", "2", f"{raw}2", "-b", "32", f"{folder}/from.wav"], stderr=subprocess.DEVNULL)
        for coding in ("-pcmu8", "-pcm16", "-pcm24", "-pcm32"):
            for kind in ("wav", "rf64"):
                target = f"{folder}/it.{kind}"
                made = subprocess.run(["sndfile-convert", coding, f"{folder}/from.wav", target], stdout=subprocess.DEVNULL, stderr=subprocess.DEVNULL)
                judge(f"libsndfile, {coding}, {kind}", made.returncode == 0 and is_read(target))
    for use in ("consumer", "professional"):
        for rate in (24000, 44100, 48000, 96000, 192000):
            write(path, made_by_hand(rate=rate))
            judge(f"--use {use}, {rate} Hz", is_read(path, "--use", use, use=use))
    if tools["sox"]:
        for coding in (["-e", "floating-point", "-b", "32"], ["-e", "a-law"], ["-e", "u-law"], ["-e", "ima-adpcm"]):
            subprocess.run(["sox", "-R", "-n", "-r", "48000", "-c", "2", *coding, path, "synth", "0.1", "sine", "997"], stderr=subprocess.DEVNULL)
            got = ran("from-wav", path)
            judge(f"sox, {' '.join(coding)} is refused", got.returncode == 3 and not got.stdout and b"aes3: refused 14 at 20" in got.stderr)


# ---- files that others read


def others_read(folder):
    chance = random.Random(2)
    frames = 192 * 3
    samples = [chance.randrange(-(2**23), 2**23) << 8 for _ in range(2 * frames)]
    line = ran("encode", "--packed-out", data=ran("from-pcm", "--preset", "consumer", "--rate", "96000", data=octets(samples)).stdout).stdout
    path = f"{folder}/line.wav"
    for bits, form in ((16, "s16"), (24, "s24"), (32, "s32")):
        got = ran("to-wav", "--packed-in", "--bits", str(bits), data=line)
        wanted = ran("to-pcm", "--packed-in", "--pcm", form, data=line).stdout
        judge(f"to-wav, {bits} bits", got.returncode == 0 and not got.stderr and got.stdout.endswith(wanted) and len(got.stdout) - len(wanted) in (80, 104))
        named = ran("to-wav", "--packed-in", "--bits", str(bits), "-o", path, data=line)
        kept = read(path)
        judge(f"to-wav -o, {bits} bits", named.returncode == 0 and not named.stdout and not named.stderr and kept.endswith(wanted) and len(kept) == len(got.stdout))
        judge(f"to-wav -o, {bits} bits, its lengths", struct.unpack_from("<I", kept, 4)[0] == len(kept) - 8 and kept[-len(wanted) - 8 : -len(wanted)] == b"data" + struct.pack("<I", len(wanted)))
        judge(f"to-wav -o, {bits} bits, read here", samples_of(kept) == samples_of(got.stdout))
        judge(f"from-wav of to-wav -o, {bits} bits", ran("from-wav", path).stdout == ran("from-wav", data=got.stdout).stdout)
        if shutil.which("soxi"):
            judge(f"soxi counts the frames of to-wav -o, {bits} bits", subprocess.run(["soxi", "-s", path], capture_output=True).stdout.split() == [str(frames).encode()])
        write(path, got.stdout)
        rate, width, channels = samples_of(got.stdout)
        keeps = (1 << 32) - (1 << (32 - min(bits, 24)))
        judge(f"to-wav, {bits} bits, read here", rate == 96000 and [it & 0xFFFFFFFF for it in channels[0]] == [it & keeps for it in samples[::2]])
        raw = f"{folder}/read.raw"
        signed = {16: "s16le", 24: "s24le", 32: "s32le"}[bits]
        if shutil.which("ffmpeg"):
            subprocess.run(["ffmpeg", "-loglevel", "quiet", "-y", "-i", path, "-f", signed, "-c:a", f"pcm_{signed}", raw])
            judge(f"ffmpeg reads to-wav, {bits} bits", read(raw) == wanted)
        if shutil.which("sox"):
            subprocess.run(["sox", "-D", path, "-t", "raw", "-e", "signed", "-b", str(bits), raw], stderr=subprocess.DEVNULL)
            judge(f"sox reads to-wav, {bits} bits", read(raw) == wanted)
        if shutil.which("sndfile-convert"):
            subprocess.run(["sndfile-convert", f"-pcm{bits}", path, f"{folder}/again.wav"], stdout=subprocess.DEVNULL, stderr=subprocess.DEVNULL)
            again = read(f"{folder}/again.wav")
            judge(f"libsndfile reads to-wav, {bits} bits", again and samples_of(again)[2] == channels)
        back = ran("to-wav", "--packed-in", "--bits", str(bits), data=ran("encode", "--packed-out", data=ran("from-wav", data=got.stdout).stdout).stdout)
        judge(f"from-wav of to-wav, {bits} bits", back.stdout == got.stdout)
    got = ran("to-wav", "--packed-in", "--rate", "44100", data=line)
    judge("to-wav --rate", struct.unpack_from("<I", got.stdout, 60)[0] == 44100)
    for words in (("--packed-in",), ("--packed-in", "--lsb-first")):
        refused = ran("to-wav", *words, "-o", f"{folder}/refused.wav", data=line[:-1] + b"\x09")
        judge(f"to-wav -o of a refused line {words}", refused.returncode == 3 and not os.path.exists(f"{folder}/refused.wav") and not os.path.exists(f"{folder}/refused.wav.part"))
    got = ran("to-wav", data=b"")
    judge("to-wav of nothing", got.returncode == 0 and b"48000 Hz" in got.stderr and struct.unpack_from("<I", got.stdout, 60)[0] == 48000)


# ---- the options of to-pcm

USUAL = b"aes3: no sampling frequency is known before the first sample: the WAV file says 48000 Hz\n"
LIKE_PCM = ((), ("--fill", "zero"), ("--fill", "hold"), ("--fill", "zero", "--marked"), ("--fill", "hold", "--marked"), ("--valid",), ("--exact",))


def header_of(bits, rate):
    """The header that to-wav writes while the lengths are not known."""
    fmt = struct.pack("<HHIIHH", PCM if bits == 16 else EXTENSIBLE, 2, rate, rate * bits // 4, bits // 4, bits)
    if bits != 16:
        fmt += struct.pack("<HHIH", 22, bits, 3, PCM) + SUBFORMAT
    return b"RIFF\xff\xff\xff\xffWAVE" + chunk(b"JUNK", bytes(28)) + chunk(b"fmt ", fmt) + b"data\xff\xff\xff\xff"


def with_odd_ones(cells, subframe):
    """Cells as text, of which one bit of this subframe is inverted: the parity is wrong, and all cells after it are inverted."""
    at = 65 * subframe + 33
    return cells[:at] + cells[at:].translate(bytes.maketrans(b"01", b"10"))


def like_pcm(folder):
    """With --fill, --marked, --valid and --exact a file is a header and what to-pcm writes with the same options."""
    chance = random.Random(5)
    path = f"{folder}/like.wav"
    samples = [chance.randrange(-(2**23), 2**23) << 8 for _ in range(2 * 192 * 4)]
    short = [chance.randrange(-(2**15), 2**15) << 16 for _ in range(2 * 192 * 4)]
    line, line_of_16 = (ran("encode", data=ran("from-pcm", "--preset", "consumer", "--rate", "96000", data=octets(it)).stdout).stdout for it in (samples, short))
    rows = line.splitlines(keepends=True)
    rows[500] = b"0\n"
    lost, not_valid = b"".join(rows), ran("rewrite", "--valid1", "1", data=line).stdout
    inputs = {
        "a whole line": line,
        "a line of 16 bits": line_of_16,
        "a block that is lost": lost,
        "a marked block first": with_odd_ones(line, 5),
        "a marked block": with_odd_ones(line, 384 + 5),
        "two marked blocks first": with_odd_ones(with_odd_ones(line, 5), 384 + 7),
        "samples that are not valid": not_valid,
        "no block": b"",
    }
    for name, data in inputs.items():
        begins_marked = name in ("a marked block first", "two marked blocks first")
        for bits, form in ((16, "s16"), (24, "s24"), (32, "s32")):
            for options in LIKE_PCM:
                case = f"to-wav {' '.join(options)}, {bits} bits, {name}"
                pcm = ran("to-pcm", "--pcm", form, *options, data=data)
                got = ran("to-wav", "--bits", str(bits), *options, data=data)
                # A marked block names no sampling frequency. It is the first block only with --marked.
                is_named = bool(data) and not (begins_marked and "--marked" in options)
                remark = b"" if is_named or pcm.returncode else USUAL
                judge(case, got.stdout == header_of(bits, 96000 if is_named else 48000) + pcm.stdout and got.returncode == pcm.returncode)
                judge(f"{case}, standard error", got.stderr == pcm.stderr + remark)
                got = ran("to-wav", "--bits", str(bits), "--rate", "32000", *options, data=data)
                judge(f"{case}, --rate", got.stdout == header_of(bits, 32000) + pcm.stdout and (got.returncode, got.stderr) == (pcm.returncode, pcm.stderr))
    for options in LIKE_PCM:
        pcm = ran("to-pcm", "--pcm", "s24", *options, data=lost)
        named = ran("to-wav", *options, "-o", path, data=lost)
        kept = read(path)
        judge(f"to-wav {' '.join(options)} -o", named.returncode == 0 and not named.stdout and named.stderr == pcm.stderr and kept[104:] == pcm.stdout)
        judge(f"to-wav {' '.join(options)} -o, its lengths", struct.unpack_from("<I", kept, 4)[0] == len(kept) - 8 and kept[96:104] == b"data" + struct.pack("<I", len(pcm.stdout)))
    got = ran("to-wav", "--bits", "16", "--exact", data=line)
    judge("to-wav --exact in 16 bits", got.returncode == 3 and got.stderr == b"aes3: refused 13 at 0\n" and got.stdout == header_of(16, 96000))
    got = ran("to-wav", "--bits", "16", "--exact", data=line_of_16)
    judge("to-wav --exact of 16 bits", got.returncode == 0 and not got.stderr and got.stdout == header_of(16, 96000) + struct.pack(f"<{len(short)}h", *(it >> 16 for it in short)))
    refused = ran("to-wav", "--bits", "16", "--exact", "-o", f"{folder}/inexact.wav", data=line)
    judge("to-wav --exact -o, refused", refused.returncode == 3 and not os.path.exists(f"{folder}/inexact.wav"))
    got = ran("to-wav", "--valid", data=not_valid)
    judge("to-wav --valid", got.returncode == 0 and samples_of(got.stdout)[2] == [[0] * (192 * 4), samples[1::2]])


# ---- headers by hand


def chunk(name, content, length=None):
    return name + struct.pack("<I", len(content) if length is None else length) + content + b"\0" * (len(content) % 2)


def made_by_hand(rate=48000, channels=2, bits=16, counting=None, code=PCM, before=b"", between=b"", behind=b"", length=None, data=None, frame=None, kind=b"RIFF"):
    octets_each = (bits + 7) // 8
    frame = channels * octets_each if frame is None else frame
    fmt = struct.pack("<HHIIHH", code if counting is None else EXTENSIBLE, channels, rate, rate * frame & 0xFFFFFFFF, frame, bits)
    if counting is not None:
        fmt += struct.pack("<HHI", 22, counting, 3) + struct.pack("<H", code) + SUBFORMAT
    data = bytes(range(1, 1 + 2 * frame)) if data is None else data
    return kind + struct.pack("<I", 0xFFFFFFFF) + b"WAVE" + before + chunk(b"fmt ", fmt) + between + chunk(b"data", data, length) + behind


def by_hand(folder):
    path = f"{folder}/hand.wav"
    files = {
        "20 bits in 24": made_by_hand(bits=24, counting=20),
        "24 bits in 32": made_by_hand(bits=32, counting=24),
        "16 bits, extensible": made_by_hand(bits=16, counting=16),
        "chunks before and after": made_by_hand(before=chunk(b"JUNK", b"x" * 28) + chunk(b"bext", b"y" * 603), between=chunk(b"fact", b"zzzz") + chunk(b"LIST", b""), behind=chunk(b"LIST", b"INFO")),
        "a thousand chunks": made_by_hand(before=b"".join(chunk(b"LIST", b"a" * (n % 7)) for n in range(1000))),
        "nested lists": made_by_hand(before=chunk(b"LIST", b"INFO" + chunk(b"LIST", b"INFO" + chunk(b"data", b"abc")))),
        "a second format, which does not count": made_by_hand(between=chunk(b"fmt ", struct.pack("<HHIIHH", 3, 9, 9, 9, 9, 9))),
        "a length of 0": made_by_hand(length=0),
        "a length of ones": made_by_hand(length=0xFFFFFFFF),
        "no samples": made_by_hand(data=b""),
        "eight channels": made_by_hand(channels=8),
        "RF64": made_by_hand(kind=b"RF64", before=chunk(b"ds64", struct.pack("<QQQI", 100, 8, 2, 0)), length=0xFFFFFFFF),
        "BW64, whose length is not known": made_by_hand(kind=b"BW64", before=chunk(b"ds64", struct.pack("<QQQI", 0, 2**64 - 1, 0, 0)), length=0xFFFFFFFF),
    }
    for name, data in files.items():
        write(path, data)
        judge(name, is_read(path))
    one = made_by_hand(channels=1, data=bytes(range(2, 22)))
    rate, width, (only,) = samples_of(one)
    judge("--mono first", ran("from-wav", "--mono", "first", data=one).stdout == blocks_of(rate, width, only, [0] * len(only)))
    three = made_by_hand(channels=3)
    rate, width, found = samples_of(three)
    judge("--channels 3,1", ran("from-wav", "--channels", "3,1", data=three).stdout == blocks_of(rate, width, found[2], found[0]))
    # With --exact all bits are read, also those that the header calls unused.
    of_20 = made_by_hand(bits=24, counting=20)
    rate, _, (first, second) = samples_of(made_by_hand(bits=24))
    judge("20 bits in 24, --exact", ran("from-wav", "--exact", data=of_20).stdout == blocks_of(rate, 20, first, second))
    judge("20 bits in 24", ran("from-wav", data=of_20).stdout != ran("from-wav", "--exact", data=of_20).stdout)
    # A file that is cut short is read as far as it goes. Programs that write to a pipe can't know the length.
    for name, data, missing in (
        ("a file cut short", made_by_hand()[:-4], 4),
        ("a file cut at its samples", made_by_hand(data=b"", length=8), 8),
        ("RF64 cut short", made_by_hand(kind=b"RF64", before=chunk(b"ds64", struct.pack("<QQQI", 100, 2**33, 2, 0)), length=0xFFFFFFFF), 2**33 - 8),
        ("a length as sox writes it to a pipe", made_by_hand(length=0x7FFFF000), 0),
        ("a length as arecord writes it to a pipe", made_by_hand(length=0x7FFFFF00), 0),
        ("a length below these", made_by_hand(length=0x7FFFEFFC), 0x7FFFEFFC - 8),
        ("a length above these", made_by_hand(length=0x80000000), 0x80000000 - 8),
        ("a chunk after the samples", made_by_hand(behind=chunk(b"LIST", b"INFO")), 0),
    ):
        write(path, data)
        got = ran("from-wav", data=data)
        said = f"aes3: the file is cut short: {missing} bytes of samples are missing\n".encode() if missing else b""
        judge(f"{name}: {got.stderr!r}", got.stderr == said and is_read(path))
    if shutil.which("sox"):
        piped = subprocess.run(["sox", "-R", "-n", "-r", "48000", "-c", "2", "-b", "16", "-t", "wav", "-", "synth", "0.1", "sine", "997"], capture_output=True).stdout
        got = ran("from-wav", data=piped)
        judge(f"sox in a pipe: {got.stderr!r}", got.returncode == 0 and not got.stderr)
    for data, number, place, words in (
        (made_by_hand(bits=32, counting=24, data=bytes(range(1, 9))), 11, 0, ("--exact",)),
        (made_by_hand(code=FLOAT, bits=32), 14, 20, ()),
        (made_by_hand(code=6, bits=8), 14, 20, ()),
        (b"FORM\0\0\0\0AIFF" + b"\0" * 100, 14, 0, ()),
        (b"RIFF\0\0\0\0AVI " + b"\0" * 100, 14, 8, ()),
        (b"RIFF\0\0\0\0WAVE" + chunk(b"data", b"abcd"), 14, 12, ()),
        (made_by_hand(channels=0, frame=4), 14, 22, ()),
        (made_by_hand(frame=5), 14, 32, ()),
        (made_by_hand()[:30], 14, 30, ()),
        (b"", 14, 0, ()),
        (made_by_hand(data=b"abcdefg"), 2, 3, ()),
        (made_by_hand(), 15, 2, ("--channels", "1,3")),
        (made_by_hand(bits=32, data=bytes(range(1, 9))), 11, 0, ("--exact",)),
    ):
        got = ran("from-wav", *words, data=data)
        judge(f"refusal {number} at {place}: {data[:60]!r} {got.stderr!r}", got.returncode == 3 and f"aes3: refused {number} at {place}\n".encode() == got.stderr and not got.stdout)
    got = ran("from-pcm", data=made_by_hand())
    judge("from-pcm refuses it", got.returncode == 3 and not got.stdout)


# ---- damaged headers


def model(data):
    """The block file, or the number of the refusal."""
    try:
        if data[:4] not in (b"RIFF", b"RF64", b"BW64") or data[8:12] != b"WAVE":
            raise Refused(14, 0)
        at, form = 12, None
        while True:
            if len(data) < at + 8:
                raise Refused(14, len(data))
            name, length = data[at : at + 4], struct.unpack_from("<I", data, at + 4)[0]
            if name == b"data":
                break
            if form is None and name == b"fmt ":
                if length < 16 or len(data) < at + 8 + min(length, 40):
                    raise Refused(14, at)
                form = format_of(data[at + 8 : at + 8 + length], at + 8)
                code, channels, _, frame, bits, counting = form
                width = bits + 7 & ~7
                if code != PCM or not channels or bits not in (8, 16, 20, 24, 32) or frame != channels * (width // 8):
                    raise Refused(14, at)
                if counting not in ((8,), (16,), (20,), (20, 24), (), (), (24, 32))[(8, 16, 20, 24, 28, 30, 32).index(bits)]:
                    raise Refused(14, at)
            if name == b"ds64" and data[:4] != b"RIFF" and length < 16:
                raise Refused(14, at)
            at += 8 + length + length % 2
        if form is None:
            raise Refused(14, at)
    except Refused as why:
        return why.args[0]
    return None


def damaged(folder):
    """Of 200 damaged headers each is refused with one line, or read as the reader here reads it; none ends otherwise or takes long."""
    chance = random.Random(3)
    agreed = 0
    for number in range(200):
        data = bytearray(chance.choice([made_by_hand(), made_by_hand(bits=24, counting=20), made_by_hand(kind=b"RF64", before=chunk(b"ds64", struct.pack("<QQQI", 100, 8, 2, 0)), length=0xFFFFFFFF), made_by_hand(before=chunk(b"LIST", b"INFOabc"))]))
        if number % 4 == 0:
            del data[chance.randrange(len(data)) :]
        for _ in range(1 if number % 4 == 0 else chance.choice((1, 1, 2, 4))):
            if data:
                data[chance.randrange(len(data))] = chance.choice((0, 1, 2, 16, 0x7F, 0x80, 0xFF, chance.randrange(256)))
        began = time.monotonic()
        got = ran("from-wav", data=bytes(data), timeout=60)
        is_quick = time.monotonic() - began < 20
        if got.returncode == 3:
            is_right = got.stderr.startswith(b"aes3: refused ") and got.stderr.count(b"\n") == 1 and len(got.stdout) % 1536 == 0
        else:
            is_right = got.returncode == 0 and model(bytes(data)) is None and len(got.stdout) % 1536 == 0
            rate, width, channels = samples_of(bytes(data))
            second = channels[1] if len(channels) > 1 else channels[0]
            is_right = is_right and got.stdout == blocks_of(rate, width, channels[0], second)
            agreed += is_right
        judge(f"damaged header {number}: {bytes(data)!r} {got.returncode} {got.stderr!r}", is_right and is_quick)
    judge("some damaged headers can be read", agreed > 20)


# ---- streams


def streams(folder):
    chance = random.Random(4)
    data = made_by_hand(bits=24, before=chunk(b"LIST", b"INFOabc"), data=bytes(chance.randrange(256) for _ in range(6 * 1000)))
    wanted = ran("from-wav", data=data).stdout
    for size in (1, 5, 7, 64, 1000):
        program = subprocess.Popen([PROGRAM, "from-wav"], stdin=subprocess.PIPE, stdout=subprocess.PIPE)
        with tempfile.TemporaryFile() as out:
            copier = subprocess.Popen(["cat"], stdin=program.stdout, stdout=out)
            program.stdout.close()
            for at in range(0, len(data), size):
                program.stdin.write(data[at : at + size])
                program.stdin.flush()
            program.stdin.close()
            copier.wait()
            out.seek(0)
            judge(f"pieces of {size} octets", program.wait() == 0 and out.read() == wanted)
    # A block leaves once its frames have come, while the stream goes on.
    program = subprocess.Popen([PROGRAM, "from-wav"], stdin=subprocess.PIPE, stdout=subprocess.PIPE)
    program.stdin.write(made_by_hand(data=b"", length=0xFFFFFFFF) + b"\1\2\3\4" * 192)
    program.stdin.flush()
    first = os.read(program.stdout.fileno(), 1536)
    judge("a live stream", len(first) == 1536)
    program.stdin.close()
    judge("it ends", program.wait() == 0)
    # More than 4 GiB of samples, and chunks behind them.
    frames = (2**32 + 2**28) // 6 // 192 * 192
    head = made_by_hand(bits=24, kind=b"RF64", before=chunk(b"ds64", struct.pack("<QQQI", 0, 6 * frames, frames, 0)), data=b"", length=0xFFFFFFFF)
    program = subprocess.Popen([PROGRAM, "from-wav"], stdin=subprocess.PIPE, stdout=subprocess.PIPE)
    counter = subprocess.Popen(["wc", "-c"], stdin=program.stdout, stdout=subprocess.PIPE)
    program.stdout.close()
    program.stdin.write(head)
    piece, left = bytes(1 << 20), 6 * frames
    while left:
        program.stdin.write(piece[: min(left, len(piece))])
        left -= min(left, len(piece))
    program.stdin.write(chunk(b"LIST", b"INFO"))
    program.stdin.close()
    judge("a file of more than 4 GiB", program.wait() == 0 and int(counter.stdout.read()) == 8 * frames)


def write(path, data):
    with open(path, "wb") as file:
        file.write(data)


def read(path):
    try:
        with open(path, "rb") as file:
            return file.read()
    except OSError:
        return b""


def main():
    with tempfile.TemporaryDirectory() as folder:
        for part in (others_write, others_read, like_pcm, by_hand, damaged, streams):
            part(folder)
    print(f"{passed} passed, {failed} failed")
    return 1 if failed else 0


if __name__ == "__main__":
    parser = argparse.ArgumentParser(description=__doc__, formatter_class=argparse.RawDescriptionHelpFormatter)
    parser.add_argument("program", nargs="?", metavar="PROGRAM", default=f"{ROOT}/crates/aes3/out/aes3")
    PROGRAM = os.path.realpath(parser.parse_args().program)
    sys.exit(main())
