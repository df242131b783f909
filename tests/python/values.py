"""values.py: the module aes3 as a caller gets it wrong, and right: each kind of array and each wrong one.

The lines that `encode` makes are compared with those of an encoder here, which shares nothing with it. Nothing may come back that is
not what was sent: what is wrong is an exception. Done with numpy where it is there. Prints what differs, and then `N passed, M failed`.
"""

import array
import copy
import ctypes
import inspect
import io
import os
import pickle
import random
import struct
import sys
import tempfile
import traceback
import warnings
import wave

import aes3

try:
    import numpy
except ImportError:
    numpy = None

FULL = 2**23
PREAMBLES = {"Z": "11101000", "X": "11100010", "Y": "11100100"}
LENGTHS = 0, 1, 2, 191, 192, 193, 384, 385
SECONDS = b"\x04\0\0\x02\x0b" + bytes(19)  # the status of consumer use at 48 kHz


# ---- another encoder


def line_of(frames, status=SECONDS):
    """The octets of the cells of frames of two samples of 24 bits, with zeros up to the end of a block."""
    frames = [*frames, *[(0, 0)] * (-len(frames) % 192)]
    cells, level = [], "0"
    for number, frame in enumerate(frames):
        place = number % 192
        for channel, sample in enumerate(frame):
            preamble = PREAMBLES["Y" if channel else "X" if place else "Z"]
            cells.append(preamble if level == "0" else preamble.translate({48: 49, 49: 48}))
            level = cells[-1][-1]
            bits = [sample >> i & 1 for i in range(24)] + [0, 0, status[place // 8] >> place % 8 & 1]
            for bit in [*bits, sum(bits) & 1]:
                first = "10"[int(level)]
                level = "10"[int(first)] if bit else first
                cells.append(first + level)
    text = "".join(cells)
    return bytes(int(text[at : at + 8], 2) for at in range(0, len(text), 8))


def frames_of(count, seed=1):
    """Frames of chance, with the least and the greatest sample among them."""
    chance = random.Random(seed)
    frames = [(chance.randrange(-FULL, FULL), chance.randrange(-FULL, FULL)) for _ in range(count)]
    return [(-FULL, FULL - 1), *frames[1:]] if count else []


def row_of(frames):
    return [sample for frame in frames for sample in frame]


def samples_of(found):
    """The frames of 24 bits of what decode gives; the lowest 8 bits are 0."""
    row = found.samples.reshape(-1).tolist() if numpy else found.samples.tolist()
    assert not any(it & 255 for it in row)
    return [(row[i] >> 8, row[i + 1] >> 8) for i in range(0, len(row), 2)]


def padded(frames):
    return [*frames, *[(0, 0)] * (-len(frames) % 192)]


# ---- judging


def refusal(call, *given, **named):
    """The exception of a call, which says in a sentence what is wrong; None where there is none."""
    try:
        call(*given, **named)
    except (TypeError, ValueError) as error:
        assert len(str(error).split()) > 3, error
        return type(error)
    return None


def is_refused(kind, call, *given, **named):
    got = refusal(call, *given, **named)
    assert got is kind, f"{getattr(call, '__name__', call)} of {str(given)[:200]} {named}: {got} for {kind}"


def check_lines():
    for count in LENGTHS:
        frames = frames_of(count, count)
        line = line_of(frames)
        wide = array.array("i", [it << 8 for it in row_of(frames)])
        assert aes3.encode(wide, channels=2) == line + b"\0", count
        found = aes3.decode(line + b"\0")
        assert samples_of(found) == padded(frames) and len(found.reports) == -(-count // 192)
        assert [it.at for it in found.reports] == [24576 * i for i in range(len(found.reports))]
        assert all(it.kind == aes3.WHOLE and it.before == 0 for it in found.reports)
        assert found.status == ((aes3.Status(SECONDS),) * 2 if count else None)


def check_many_blocks():
    for blocks in 31, 32, 33, 64, 65, 97:
        frames = frames_of(192 * blocks - 5)
        wide = array.array("i", [it << 8 for it in row_of(frames)])
        parts = [aes3.encode(wide[at : at + 384], channels=2, form="raw") for at in range(0, len(wide), 384)]
        line = aes3.encode(wide, channels=2, form="raw")
        assert line == b"".join(parts) and len(parts) == blocks
        assert samples_of(aes3.decode(line, form="raw")) == padded(frames)


def check_one_channel():
    for count in LENGTHS:
        frames = [(it, it) for it, _ in frames_of(count)]
        row = array.array("i", [it << 8 for it, _ in frames])
        assert aes3.encode(row, channels=1, form="raw") == line_of(frames)


def check_scales():
    frames = frames_of(193)
    row, line = row_of(frames), line_of(frames)
    narrow = [it >> 8 for it in row]
    narrow_line = line_of([(a >> 8 << 8, b >> 8 << 8) for a, b in frames])
    given = [
        (array.array("i", [it << 8 for it in row]), {}, line),
        (array.array("i", [it << 8 | 255 for it in row]), {"bits": 32}, line),
        (array.array("i", row), {"bits": 24}, line),
        (array.array("h", narrow), {}, narrow_line),
        (array.array("h", narrow), {"bits": 16}, narrow_line),
        (array.array("d", [it / FULL for it in row]), {}, line),
        (array.array("f", [it / FULL for it in row]), {}, line),
        (array.array("f", [it / 2**15 for it in narrow]), {}, narrow_line),
    ]
    for samples, named, want in given:
        assert aes3.encode(samples, channels=2, form="raw", **named) == want, (samples.typecode, named)
    # What lies between two samples goes to the nearer one, to the even one from the middle; 1 is the greatest.
    fine = array.array("d", [0.4, 0.5, 0.6, 1.5, -0.4, -0.5, -0.6, -1.5, FULL - 0.5, FULL, 2.5, -FULL])
    wants = [0, 0, 1, 2, 0, 0, -1, -2, FULL - 1, FULL - 1, 2, -FULL]
    found = aes3.decode(aes3.encode(array.array("d", [it / FULL for it in fine]), channels=2))
    assert row_of(samples_of(found))[: len(wants)] == wants


def check_memory():
    """Memory in other places and of other kinds is taken as its numbers, or not at all."""
    frames = frames_of(193)
    row, line = [it << 8 for it in row_of(frames)], line_of(frames)
    wide = array.array("i", row)
    pairs = memoryview(wide).cast("B").cast("i", (193, 2))
    twice = array.array("i", [it for it in row for _ in range(2)])
    ctypes_row = (ctypes.c_int32 * len(row))(*row)
    ctypes_pairs = ((ctypes.c_int32 * 2) * 193)(*frames_of(0))
    for i, frame in enumerate(frames):
        ctypes_pairs[i][:] = [it << 8 for it in frame]
    assert aes3.encode(pairs, form="raw") == line
    for samples in wide, memoryview(wide), memoryview(wide).toreadonly(), memoryview(twice)[::2], memoryview(wide[::-1])[::-1], ctypes_row:
        assert aes3.encode(samples, channels=2, form="raw") == line, samples
    assert aes3.encode(ctypes_pairs, form="raw") == line
    # In the other order each number is another, so it is taken in its order, or refused.
    other = (ctypes.c_int32.__ctype_be__ * len(row))(*row)
    got = refusal(aes3.encode, other, channels=2)
    assert got is TypeError or aes3.encode(other, channels=2, form="raw") == line
    assert list(wide) == row


def check_wrong_samples():
    row = array.array("i", 8 * [256])
    for wrong in (
        [1, 2], (1, 2), [[1, 2]], [0.5, 0.5], range(4), iter([1, 2]), {1: 2}, "text", "", 7, 0.5, None, True, object(), b"octets12", bytearray(8), memoryview(bytes(8)),
        array.array("b", 8 * [1]), array.array("B", 8 * [1]), array.array("H", 8 * [1]), array.array("I", 8 * [1]), array.array("q", 8 * [1]), array.array("Q", 8 * [1]),
        array.array("u", "text"), (ctypes.c_uint32 * 8)(), (ctypes.c_int64 * 8)(), (ctypes.c_bool * 8)(), (ctypes.c_char * 8)(),
    ):  # fmt: skip
        for channels in None, 1, 2:
            is_refused(TypeError, aes3.encode, wrong, channels=channels)
    for wrong in 1.0000001, -1.0000001, 2.0, 32767.0, float("nan"), float("inf"), -float("inf"), 1e300:
        for place in 0, 3:
            floats = array.array("d", 4 * [0.0])
            floats[place] = wrong
            is_refused(ValueError, aes3.encode, floats, channels=2)
            if abs(wrong) < 1e30:
                is_refused(ValueError, aes3.encode, array.array("f", [wrong + (1e-6 if wrong > 0 else -1e-6)]), channels=1)
    for wrong in FULL, -FULL - 1, 2**31 - 1, -(2**31):
        is_refused(ValueError, aes3.encode, array.array("i", [0, wrong]), channels=2, bits=24)
    for named in (
        {}, {"channels": 0}, {"channels": 3}, {"channels": "2"}, {"channels": 2, "bits": 16}, {"channels": 2, "bits": 20}, {"channels": 2, "bits": 0},
        {"channels": 2, "bits": "24"}, {"channels": 2, "use": "both"}, {"channels": 2, "use": None}, {"channels": 2, "form": "cells"},
        {"channels": 2, "form": None}, {"channels": 2, "rate": 47999}, {"channels": 2, "rate": "48000"}, {"channels": 2, "rate": 0},
        {"channels": 2, "status": b"short"}, {"channels": 2, "status": ()}, {"channels": 2, "status": (SECONDS, SECONDS[:23])},
    ):  # fmt: skip
        is_refused(ValueError, aes3.encode, row, **named)
    # 24 octets of zeros are what `bytes(24)` is, and no status that a caller wrote.
    for status in 24, 0, "professional", 24 * "0", array.array("I", 6 * [0]), 2.5, (24, 24), [SECONDS] * 3:
        is_refused(TypeError, aes3.encode, row, channels=2, status=status)
    is_refused(ValueError, aes3.encode, array.array("i", [1, 2, 3]), channels=2)
    is_refused(ValueError, aes3.encode, array.array("h", [1]), channels=1, bits=24)
    is_refused(ValueError, aes3.encode, array.array("f", [0.0]), channels=1, bits=24)
    for shape in (4, 1), (1, 4), (2, 4), (2, 2, 2), (8, 1):
        is_refused(ValueError, aes3.encode, memoryview(row[: shape[0] * shape[1] * (shape[2] if len(shape) == 3 else 1)]).cast("B").cast("i", shape))


def check_statuses():
    first, second = aes3.Status.professional(96000), aes3.Status.consumer(44100)
    row = array.array("i", 384 * [512])
    same = aes3.encode(row, channels=2, status=(first, second))
    for pair in [bytes(first), bytes(second)], (first, bytes(second)), [list(bytes(first)), bytearray(bytes(second))]:
        assert aes3.encode(row, channels=2, status=pair) == same
    assert aes3.decode(same).status == (first, second)
    assert aes3.encode(row, channels=2, status=first) == aes3.encode(row, 96000, channels=2, use="professional")
    assert aes3.encode(row, channels=2, status=list(bytes(first))) == aes3.encode(row, channels=2, status=(first, first))
    assert first == aes3.Status(bytes(first)) != second and first != bytes(first) and len({first, second, aes3.Status(bytes(first))}) == 2
    assert (first.use, first.rate, first["b4"], first.fields["word"]) == ("professional", 96000, "16", "24") and (second.use, second["rate"]) == ("consumer", "44100")
    assert repr(first) == f"Status({first})"


def check_settings():
    status = aes3.Status.consumer(48000)
    other = status.replace(rate=44100, emphasis="50/15", category="cd")
    assert (other.rate, other["emphasis"], other["category"]) == (44100, "50/15", "cd") and status == aes3.Status.consumer(48000)
    assert other.replace(rate="48000", emphasis="none", category=status["category"]) == status and status.replace() == status
    assert aes3.Status(bytes(24)).replace(rate=48000)["rate"] == "48000"
    first = aes3.Status.professional(96000)
    named = first.replace(origin="BBC", destination="A B", local=7, time=2**32 - 1, mode="stereophonic")
    assert (named["origin"], named["local"], named["time"], named["check"]) == ("BBC.", "7", str(2**32 - 1), "good") and first["check"] == "good"
    assert named.replace(use="consumer").use == "consumer" and status.replace(use="professional")["check"] == "good"
    # Each field by what is printed of it, but for what only the library sets.
    for each in status, other, first, named:
        for name, word in each.fields.items():
            if name not in ("rest", "check", "origin", "destination"):
                assert each.replace(**{name: word}) == each, (name, word)
    for fields in {"emphasis": "50/16"}, {"rate": 44101}, {"no": "1"}, {"origin": "five5"}, {"origin": ""}, {"rate": "\udcff"}, {"\xfc": "1"}, {"time": 2**32}:
        is_refused(ValueError, first.replace, **fields)
    for of, fields in (status, {"unlocked": "yes"}), (first, {"copyright": "asserted"}), (status, {"origin": "BBC"}):
        is_refused(ValueError, of.replace, **fields)
    for word in None, 4.5, True, b"48000", ["48000"]:
        is_refused(TypeError, status.replace, rate=word)
    # A word has a code under what is set before it.
    bare = aes3.Status(bytes([1]) + bytes(23))
    is_refused(ValueError, bare.replace, word="24")
    assert bare.replace(aux="audio", word="24")["word"] == "24"


def sound():
    """A WAV file's octets."""
    file = io.BytesIO()
    with wave.open(file, "wb") as to:
        to.setparams((2, 2, 48000, 0, "NONE", ""))
        to.writeframes(struct.pack("<1000h", *range(1000)))
    return file.getvalue()


def check_wrong_lines():
    line = line_of(frames_of(300))
    file = sound()
    for more in b"", b"\0", b"\0\0\0":
        for form in "packed", "raw":
            is_refused(ValueError, aes3.decode, file + more, form=form)
    text = aes3.encode(array.array("i", 4 * [256]), channels=2, form="text")
    for wrong in text, text[:8], text.replace(b"\n", b"\r\n"), text.replace(b"\n", b""), text + b"\0":
        for form in "packed", "raw":
            is_refused(ValueError, aes3.decode, wrong, form=form)
    for form in "packed", "raw":
        for wrong in text.decode(), "", 7, None, 0.5, True, object(), [0.5], ["1"], array.array("i", 8 * [1]), array.array("H", 8 * [1]), array.array("b", 8 * [1]), array.array("d", 8 * [0.0]):
            is_refused(TypeError, aes3.decode, wrong, form=form)
        for wrong in [256], [-1], memoryview(line[:64]).cast("B", (8, 8)):
            is_refused(ValueError, aes3.decode, wrong, form=form)
    for wrong in "012", b"0x", "\N{FULLWIDTH DIGIT ONE}", line:
        is_refused(ValueError, aes3.decode, wrong, form="text")
    for form in None, "cells", 1:
        is_refused(ValueError, aes3.decode, line, form=form)
    # Without the count of unused cells, and with one that can't be.
    for wrong in b"", line, line + b"\x08", line + b"\xff", b"\1", line[:-1] + b"\1\1":
        is_refused(ValueError, aes3.decode, wrong)


def check_cut_lines():
    """A line cut anywhere has the blocks that are whole in it, whatever memory it is in."""
    frames = frames_of(3 * 192)
    line = line_of(frames)
    chance = random.Random(5)
    cuts = [0, 1, 2, 3, 3071, 3072, 3073, 6143, 6144, 6145, 9215, 9216, *(chance.randrange(9216) for _ in range(40))]
    for cut in cuts:
        found = aes3.decode(line[:cut], form="raw")
        # A block is whole once the cell after it is there, or the line ends.
        blocks = cut // 3072
        assert samples_of(found) == frames[: 192 * blocks], cut
        assert [it.kind for it in found.reports if it.kind != aes3.UNFINISHED] == blocks * [aes3.WHOLE]
        found = aes3.decode(line[cut:], form="raw")
        assert samples_of(found) == frames[192 * -(-cut // 3072) :], cut
    want = aes3.decode(line[1000:-7], form="raw")
    data = line[1000:-7]
    twice = bytes(it for it in data for _ in range(2))
    for octets in bytearray(data), memoryview(data), memoryview(twice)[::2], array.array("B", data), list(data), iter(data), (ctypes.c_uint8 * len(data))(*data):
        found = aes3.decode(octets, form="raw")
        assert (samples_of(found), found.reports, found.status) == (samples_of(want), want.reports, want.status)
    for unused in range(8):
        octets = bytes([*data[:-1], data[-1] >> unused << unused & 255, unused])
        bits = "".join(f"{it:08b}" for it in octets[:-1])[: 8 * len(data) - unused]
        packed, by_text = aes3.decode(octets), aes3.decode(bits, form="text")
        assert (samples_of(packed), packed.reports) == (samples_of(by_text), by_text.reports)


def check_damage():
    """Of a line with a wrong cell each block that is whole has the samples that were sent."""
    frames = frames_of(4 * 192)
    line = line_of(frames)
    chance = random.Random(6)
    for _ in range(60):
        at = chance.randrange(len(line))
        damaged = bytearray(line)
        damaged[at] ^= 1 << chance.randrange(8)
        found = aes3.decode(damaged, form="raw")
        samples, whole = samples_of(found), [it for it in found.reports if it.kind == aes3.WHOLE]
        assert len(samples) == 192 * len(whole) < 192 * 4
        for i, report in enumerate(whole):
            first = report.at // 24576 * 192
            assert report.at % 24576 == 0 and samples[192 * i : 192 * i + 192] == frames[first : first + 192]


def check_reports():
    line = line_of(frames_of(3 * 192))
    damaged = bytearray(line[: 2 * 3072 + 100])
    damaged[4000] ^= 4
    whole, fault, unfinished = aes3.decode(damaged, form="raw").reports
    assert [it.kind for it in (whole, fault, unfinished)] == [aes3.WHOLE, aes3.FAULT, aes3.UNFINISHED]
    bits = "".join(f"{it:08b}" for it in line[:3072])
    # The last cell of the first subframe carries its parity.
    other = "".join("10"[int(it)] for it in bits[64:])
    marked = aes3.decode(bits[:63] + "10"[int(bits[63])] + other + "10"[int(other[-1])], form="text").reports[0]
    assert marked.kind == aes3.MARKED and marked.wrong == 1 and marked.words is None, marked
    assert (whole.at, whole.before, len(whole.words), whole.cell, whole.wrong, whole.why) == (0, 0, 384, 0, 0, 0)
    assert (unfinished.at, unfinished.cell, unfinished.words) == (49152, 800, None) and fault.words is None
    assert str(whole) == "whole at 0 before 0" and str(fault).startswith("fault at 24576 cell 3") and str(fault).endswith(aes3.WHYS[fault.why])
    reports = [whole, fault, unfinished, marked]
    again = [*aes3.decode(damaged, form="raw").reports, marked]
    for i, report in enumerate(reports):
        assert repr(report) == f"Report({report})" and report != str(report) and report is not None
        for j, it in enumerate(again):
            assert (report == it) == (i == j) and (report != it) == (i != j)
        for same in copy.copy(report), copy.deepcopy(report), pickle.loads(pickle.dumps(report)):
            assert same == report and hash(same) == hash(report)
    assert len(set(reports + again)) == 4
    # Blocks at the same place with other words are other blocks.
    others = aes3.decode(line_of(frames_of(192, 9)), form="raw").reports
    assert str(others[0]) == str(whole) and others[0] != whole
    # By words as by octets, and piece by piece.
    lock, by_words = aes3.Lock(), aes3.Lock()
    by_octets = [it for at in range(0, len(damaged), 777) for it in lock.take_octets(damaged[at : at + 777])] + lock.finish()
    words, rest = aes3.words_of_packed(bytes(damaged) + b"\0")
    assert by_octets == reports[:3] == by_words.take(words) + by_words.push(*rest) + by_words.finish()
    # A block is the caller's: other words in it change nothing else.
    whole.words[0] = 16
    assert aes3.decode(line, form="raw").reports[0].words[0] != 16


def check_gaps():
    def gaps():
        account = aes3.Account()
        return account.passed(2 * 24576) + account.end(2 * 24576 + 5)

    first, second, last = gaps()
    assert (first.at, first.cells, first.counts, last.cells, last.counts) == (0, 24576, True, 5, False)
    assert gaps() == [first, second, last] and first != second and len({*gaps(), first}) == 3
    assert repr(first) == "Gap(gap at 0 cells 24576)" and first != "gap at 0 cells 24576"


def check_events():
    samples = array.array("i", 6 * 384 * [256])
    line = aes3.encode(samples, 48000, channels=2, form="raw")
    other = aes3.encode(samples, 44100, channels=2, form="raw")
    block = len(line) // 6
    # Three blocks, eight cells too many, one block, three blocks without signal, and two blocks with another status.
    cells = line[: 3 * block] + b"\xcc" + line[:block] + 3 * block * b"\xff" + other[: 2 * block]
    for piece in (777, 4 * block):
        lock, watch = aes3.Lock(), aes3.Watch()
        events = []
        for at in range(0, len(cells), piece):
            events += [it for report in lock.take_octets(cells[at : at + piece]) for it in watch.report(report)] + watch.passed(lock.seen())
        events += [it for report in lock.finish() for it in watch.report(report)]
        assert watch.end(lock.seen()) == watch.end(lock.seen())
        events += watch.end(lock.seen())
        kinds = [it.kind for it in events]
        assert kinds == ["locked", "slipped", "lost", "back", "status", "status", "end"], events
        locked, slipped, lost, back, first, second, end = events
        assert str(locked) == "locked at 0 before 0" and repr(slipped) == f"Event(slipped at {24 * block + 8} cells 8)"
        assert (lost.at, back.at - lost.at, back.cells) == (32 * block + 8, 24 * block, 24 * block)
        assert first.channel == 1 and second.channel == 2 and first.status == bytes(aes3.decode(other, form="raw").status[0])
        assert str(first) == f"status at {back.at} channel 1 {first.status.hex()}" and first != second and len({first, second, lost}) == 3
        assert str(end) == f"end at {lock.seen()} locked" and end.locked and not lost.locked
    lost = aes3.Watch().passed(2 * 24576)
    assert str(lost) == "[Event(lost at 0)]" and lost[0] != "lost at 0"


def check_levels():
    samples = array.array("i", [1 << 30, 0] * 192)
    lock, levels = aes3.Lock(), aes3.Levels()
    assert levels.blocks() == 0 and levels.peak(1) is None and levels.rms(2) is None
    for report in lock.take_octets(aes3.encode(samples, 48000, channels=2, form="raw")) + lock.finish():
        levels.report(report)
    assert levels.blocks() == 1 and levels.greatest(1) == 1 << 22 and levels.greatest(2) == 0
    assert levels.peak(1) == -6.0 and levels.rms(1) == -6.0 and levels.peak(2) is None and levels.rms(2) is None
    for channel in 0, 3:
        try:
            levels.peak(channel)
            assert False, channel
        except ValueError as error:
            assert "a channel is 1 or 2" in str(error)


def check_sums():
    samples = array.array("i", 6 * 384 * [256])
    line = aes3.encode(samples, 48000, channels=2, form="raw")
    other = aes3.encode(samples, 44100, channels=2, form="raw")
    block = len(line) // 6
    # Three blocks, eight cells too many, one block, three blocks without signal, and two blocks with another status.
    cells = line[: 3 * block] + b"\xcc" + line[:block] + 3 * block * b"\xff" + other[: 2 * block]
    for piece in (777, 4 * block):
        lock, sums = aes3.Lock(), aes3.Sums(2 * 24576)
        told = []
        for at in range(0, len(cells), piece):
            told += [it for report in lock.take_octets(cells[at : at + piece]) for it in sums.report(report)] + sums.passed(lock.seen())
        told += [it for report in lock.finish() for it in sums.report(report)] + sums.end(lock.seen())
        assert sums.end(lock.seen()) == []
        assert [(it.start, it.stop) for it in told] == [(i * 49152, min((i + 1) * 49152, lock.seen())) for i in range(5)]
        assert [it.whole for it in told] == [2, 2, 0, 1, 1] and sum(it.lost for it in told) == 8 + 3 * 24576
        assert [it.changes for it in told] == [0, 0, 0, 2, 0] and {it.invalid_first + it.invalid_second for it in told} == {0}
        assert str(told[0]) == "sum from 0 to 49152 whole 2 marked 0 fault 0 preamble 0 biphase 0 unclosed 0 lost 0 invalid1 0 invalid2 0 changes 0"
    for every in 0, -1, 2**40 + 1:
        try:
            aes3.Sums(every)
            assert False, every
        except ValueError as error:
            assert "from 1 to 1,099,511,627,776" in str(error)
    long = aes3.Sums(2**40).end(2**41 + 1)
    assert [it.stop for it in long] == [2**40, 2**41, 2**41 + 1]


def wav_of(form, container, bits, channels, octets, before=b"", after=b"", length=None):
    """A WAV file, extensible where not all bits of a sample count."""
    frame = channels * container
    fmt = struct.pack("<HHIIHH", 1 if bits == 8 * container else 0xFFFE, channels, 44100, 44100 * frame, frame, 8 * container)
    if bits != 8 * container:
        fmt += struct.pack("<HHI", 22, bits, 0) + bytes.fromhex("0100000000001000800000aa00389b71")
    chunks = before + b"fmt " + struct.pack("<I", len(fmt)) + fmt
    data = b"data" + struct.pack("<I", len(octets) if length is None else length) + octets + after
    return form + struct.pack("<I", 4 + len(chunks) + len(data)) + b"WAVE" + chunks + data


def wide_of(octets, container, bits):
    """The samples of octets as numbers of 32 bits."""
    row = []
    for at in range(0, len(octets), container):
        number = int.from_bytes(octets[at : at + container], "little")
        number = number - 128 if container == 1 else number - (number >> 8 * container - 1 << 8 * container)
        row.append((number >> 8 * container - bits) << 32 - bits)
    return row


def flat(samples):
    return samples.reshape(-1).tolist() if numpy else samples.tolist()


def check_read_wav():
    octets = random.Random(8).randbytes(720) if hasattr(random.Random, "randbytes") else bytes(i * i % 251 for i in range(720))
    widths = [(1, 8), (2, 16), (3, 24), (3, 20), (4, 32), (4, 24), (2, 8)]
    sizes = b"ds64" + struct.pack("<IQQQI", 28, 0, 720, 0, 0)
    odd = b"LIST\x03\0\0\0abc\0"
    for container, bits in widths:
        for channels in 1, 2, 3, 6:
            row = wide_of(octets, container, bits)
            for first, second in (None, None), (1, channels), (channels, 1), (1, 0):
                want = []
                for at in range(0, len(row), channels):
                    frame = [*row[at : at + channels], 0]
                    want += [frame[first - 1], frame[second - 1]] if first else [frame[0], frame[min(1, channels - 1)]]
                pair = None if first is None else (first, second)
                for file in (
                    wav_of(b"RIFF", container, bits, channels, octets),
                    wav_of(b"RIFF", container, bits, channels, octets, odd, odd),
                    wav_of(b"RIFF", container, bits, channels, octets, length=0),
                    wav_of(b"RF64", container, bits, channels, octets, sizes + odd, odd, 2**32 - 1),
                    wav_of(b"BW64", container, bits, channels, octets, sizes, b"", 2**32 - 1),
                ):
                    found = aes3.read_wav(io.BytesIO(file), pair)
                    assert flat(found.samples) == want and found[1:] == (44100, bits, channels), (container, bits, channels, pair)
    empty = aes3.read_wav(io.BytesIO(wav_of(b"RIFF", 2, 16, 2, b"")))
    assert flat(empty.samples) == [] and empty.rate == 44100
    if numpy:
        assert empty.samples.shape == (0, 2) and found.samples.dtype == numpy.int32 and found.samples.flags.writeable


def check_written_wav():
    """What is written is what the standard library reads, and is read again."""
    frames = frames_of(385)
    wide = array.array("i", [it << 8 for it in row_of(frames)])
    for bits in 16, 24, 32:
        file = io.BytesIO()
        assert aes3.write_wav(file, wide, 96000, bits=bits, channels=2) is None
        narrow = b"".join(it.to_bytes(4, "little", signed=True)[4 - bits // 8 :] for it in wide)
        assert file.getvalue()[-len(narrow) :] == narrow
        header = file.getvalue()[: -len(narrow)]
        assert header[:4] == b"RIFF" and len(header) + len(narrow) == int.from_bytes(header[4:8], "little") + 8
        if bits == 16 or sys.version_info >= (3, 12):
            with wave.open(io.BytesIO(file.getvalue())) as it:
                assert it.getparams()[:4] == (2, bits // 8, 96000, 385) and it.readframes(385) == narrow
        found = aes3.read_wav(io.BytesIO(file.getvalue()))
        assert flat(found.samples) == [it >> 32 - bits << 32 - bits for it in wide] and found[1:] == (96000, bits, 2)
    # By a name, of other samples, and of blocks.
    name = os.path.join(tempfile.mkdtemp(), "a.wav")
    for samples, channels, want in (
        (array.array("h", [-32768, 5]), 1, [-(2**31), -(2**31), 5 << 16, 5 << 16]),
        (array.array("d", [-1.0, 1.0]), 2, [-(2**31), (2**23 - 1) << 8]),
        (memoryview(array.array("i", [512, 1])), 2, [512, 0]),
        (array.array("i"), 2, []),
    ):
        aes3.write_wav(name, samples, channels=channels)
        found = aes3.read_wav(name)
        assert flat(found.samples) == want and found[1:] == (48000, 24, 2)
    reports = aes3.decode(line_of(frames) + b"\0").reports
    for blocks in reports, iter(reports), [it.words for it in reports], [list(it.words) for it in reports]:
        aes3.write_wav(name, blocks)
        assert flat(aes3.read_wav(name).samples) == [it << 8 for it in row_of(padded(frames))]
    aes3.write_wav(name, aes3.decode(line_of(frames)[100:4000], form="raw").reports, bits=16)
    assert flat(aes3.read_wav(name).samples) == []
    os.remove(name)
    os.rmdir(os.path.dirname(name))


def check_short_wavs():
    """A file that is cut short is read as far as it goes, with a warning; one that was written to a pipe without one."""
    file = sound()
    size = file.index(b"data") + 4
    for octets, want in (
        (file, []),
        (file[:-4], ["the file is cut short: 4 octets of samples are missing"]),
        (file[: size + 4], ["the file is cut short: 2,000 octets of samples are missing"]),
        (file[:size] + struct.pack("<I", 0x7FFFF000) + file[size + 4 :], []),
        (file[:size] + struct.pack("<I", 0x80000000) + file[size + 4 :], ["the file is cut short: 2,147,481,648 octets of samples are missing"]),
        (file + b"LIST", []),
    ):
        with warnings.catch_warnings(record=True) as told:
            warnings.simplefilter("always")
            found = aes3.read_wav(io.BytesIO(octets))
        assert [str(it.message) for it in told] == want and all(it.filename == __file__ for it in told), (told, want)
        assert flat(found.samples) == [it << 16 for it in range(1000)][: (len(octets) - size - 4) // 2][:1000]


def check_wrong_wavs():
    file = sound()
    fmt = file.index(b"fmt ")
    for cut in range(44):
        is_refused(ValueError, aes3.read_wav, io.BytesIO(file[:cut]))
    for cut in 1, 2, 3:
        is_refused(ValueError, aes3.read_wav, io.BytesIO(file[:-cut]))
    for at, octets in (
        (0, b"RIFX"), (0, b"FORM"), (8, b"AVI "), (fmt, b"gmt "), (fmt + 4, b"\x0e"), (fmt + 8, b"\3"), (fmt + 8, b"\6"), (fmt + 10, b"\0"), (fmt + 20, b"\5"),
        (fmt + 22, b"\x0c"),
    ):
        is_refused(ValueError, aes3.read_wav, io.BytesIO(file[:at] + octets + file[at + len(octets) :]))
    floats = io.BytesIO(wav_of(b"RIFF", 4, 32, 2, bytes(8)).replace(b"fmt \x10\0\0\0\1\0", b"fmt \x10\0\0\0\3\0"))
    try:
        aes3.read_wav(floats)
        raise AssertionError("floats are no PCM")
    except ValueError as error:
        assert str(error) == "octet 20: the samples are floating point, format 3, and not PCM"
    for wrong in file, bytearray(file), 7, None, [file], object(), io.StringIO("RIFF"):
        is_refused(TypeError, aes3.read_wav, wrong)
    for wrong in 1, (1,), (1, 2, 3), "one", (1.5, 2), ("1", "2"), (None, 1):
        is_refused(TypeError, aes3.read_wav, io.BytesIO(file), wrong)
    for wrong in (0, 1), (3, 1), (1, 3), (-1, 1), (1, 2**16):
        is_refused(ValueError, aes3.read_wav, io.BytesIO(file), wrong)
    row = array.array("i", [0, 256])
    for named in {"rate": -1}, {"rate": 2**32}, {"bits": 8}, {"bits": 20}, {"bits": 0}, {"bits": 2**70}, {"channels": 3}, {"channels": None}:
        is_refused(ValueError, aes3.write_wav, io.BytesIO(), row, **{"channels": 2, **named})
    for named in {"rate": None}, {"rate": 48000.0}, {"bits": "16"}, {"bits": None}:
        is_refused(TypeError, aes3.write_wav, io.BytesIO(), row, **{"channels": 2, **named})
    for wrong in "text", 7, None, b"octets", array.array("b", [1]), array.array("Q", [1]), [1, 2], [None], object():
        is_refused(TypeError, aes3.write_wav, io.BytesIO(), wrong)
    for wrong in [[1, 2]], [384 * [16]], [384 * [-1]]:
        is_refused(ValueError, aes3.write_wav, io.BytesIO(), wrong)
    is_refused(ValueError, aes3.write_wav, io.BytesIO(), [384 * [0]], channels=2)
    for wrong in b"name", 7, None, io.StringIO():
        is_refused(TypeError, aes3.write_wav, wrong, row, channels=2)


def check_wavs_of_numpy():
    frames = numpy.array(row_of(frames_of(193)), numpy.int32).reshape(-1, 2) << 8
    for samples, bits in (frames, 24), (frames[::-1].copy()[::-1], 24), (frames.astype(">i4"), 24), ((frames >> 16).astype("i2"), 16), (frames / 2.0**31, 24):
        file = io.BytesIO()
        aes3.write_wav(file, samples, 32000, bits=bits)
        found = aes3.read_wav(io.BytesIO(file.getvalue()))
        assert found.rate == 32000 and (found.samples == (frames if bits == 24 else frames >> 16 << 16)).all()
        line = aes3.encode(found.samples, found.rate)
        assert (aes3.decode(line).samples[:193] == found.samples).all()
    for wrong in numpy.zeros((4, 2), "u4"), numpy.zeros((4, 2), "i8"), numpy.zeros((4, 2), "O"), numpy.ma.masked_equal(frames, 0):
        is_refused(TypeError, aes3.write_wav, io.BytesIO(), wrong)
    for wrong in numpy.zeros((4, 3), "i4"), numpy.zeros(4, "i4"), numpy.full((4, 2), 2.0):
        is_refused(ValueError, aes3.write_wav, io.BytesIO(), wrong)


def capture_of(line, bit, unit, cell, seed):
    """A capture of a line in a bit of samples: cells of about so many samples, after no signal and before it, and other bits beside it."""
    chance = random.Random(seed)
    levels = [0] * chance.randrange(1, 9000)
    for it in line:
        for i in range(7, -1, -1):
            levels += [it >> i & 1] * (cell + chance.randrange(2) * (chance.randrange(40) == 0))
    levels += [levels[-1]] * 7000
    beside = chance.randrange(1, 256) & ~(1 << bit % 8)
    octets = bytes(beside | level << bit % 8 for level in levels)
    if unit == 1:
        return octets
    pairs = bytearray(2 * len(octets))
    pairs[bit // 8 :: 2] = octets
    pairs[1 - bit // 8 :: 2] = bytes(chance.randrange(256) for _ in octets)
    return bytes(pairs)


def in_pieces(capture, size, **options):
    """The cells of a capture of which so many octets come at once, and the figures."""
    recovery, cells = aes3.Recovery(**options), b""
    for at in range(0, len(capture), size):
        piece = recovery.take(capture[at : at + size])
        assert type(piece) is bytes
        cells += piece
    cells += recovery.finish()
    assert recovery.finish() == b""
    return cells, recovery.figures


def check_recovery():
    """Pieces of any size give what one call gives."""
    line = line_of(frames_of(192))
    for bit, unit, cell, period in (0, 1, 5, 0), (7, 1, 3, 0), (11, 2, 4, 0), (2, 2, 6, 0), (3, 1, 4, 4 * 65536), (1, 1, 2, 2**17 + 2**10):
        options = {"bit": bit, "unit": unit, "period": period}
        capture = capture_of(line, bit, unit, cell, bit)[: 150_001 if unit == 2 else None]
        want = aes3.cells_of_samples(capture, bit, unit, period)
        assert want[1]["measured"] or period == 2**17 + 2**10, options
        for size in 1000, 4032, 4033, 65536, len(capture):
            assert in_pieces(capture, size, **options) == want, (options, size)
        short = capture[:40_001]
        want = aes3.cells_of_samples(short, bit, unit, period)
        for size in 1, 2, 3, 7, 64:
            assert in_pieces(short, size, **options) == want, (options, size)
    # The cells are those that were sent.
    recovery = aes3.Recovery(bit=3)
    capture = bytes((it >> i & 1) << 3 for it in 2 * line for i in range(7, -1, -1) for _ in range(4))
    pieces = [recovery.take(capture[at : at + 3000]) for at in range(0, len(capture), 3000)]
    found = aes3.decode(b"".join(pieces) + recovery.finish())
    assert samples_of(found) == 2 * frames_of(192)


def check_recovery_of_other_pieces():
    line = line_of(frames_of(192))
    for unit in 1, 2:
        capture = capture_of(line, 1, unit, 4, unit)[:60_001]
        want = aes3.cells_of_samples(capture, 1, unit)
        data = [capture[at : at + 2001] for at in range(0, len(capture), 2001)]
        twice = [bytes(it for it in piece for _ in range(2)) for piece in data]
        for pieces in (
            [*map(bytearray, data)], [*map(memoryview, data)], [memoryview(it)[::2] for it in twice], [array.array("B", it) for it in data], [*map(list, data)],
            [*map(iter, data)], [(ctypes.c_uint8 * len(it))(*it) for it in data], [piece for it in data for piece in (b"", it, bytearray(), [])],
            [numpy.frombuffer(it, numpy.uint8) for it in data] if numpy else data, [numpy.frombuffer(it, numpy.uint8)[::2] for it in twice] if numpy else data,
            [numpy.zeros(0, numpy.uint8), *data, numpy.zeros(0, numpy.uint8)] if numpy else data,
        ):
            recovery = aes3.Recovery(1, unit)
            assert b"".join([*map(recovery.take, pieces), recovery.finish()]) == want[0] and recovery.figures == want[1]
    # A line that is found after a long time without one: its cells come at once, and are more than those of a piece.
    capture = bytes(3_000_000) + capture_of(line, 0, 1, 3, 4)
    assert in_pieces(capture, 10_000) == aes3.cells_of_samples(capture)


def check_wrong_pieces():
    for wrong in "", "text", 7, None, 0.5, True, object(), [0.5], ["1"], array.array("i", 8 * [1]), array.array("H", 8 * [1]), array.array("b", 8 * [1]), (ctypes.c_int16 * 4)():
        recovery = aes3.Recovery()
        is_refused(TypeError, recovery.take, wrong)
        assert recovery.figures["samples"] == 0
    for wrong in [256], [-1], memoryview(bytes(64)).cast("B", (8, 8)):
        is_refused(ValueError, aes3.Recovery().take, wrong)
    for options in {"bit": 8}, {"bit": -1}, {"bit": 16, "unit": 2}, {"unit": 0}, {"unit": 3}, {"period": -1}, {"period": 2**64}:
        is_refused(ValueError, aes3.Recovery, **options)
    for options in {"bit": "0"}, {"bit": None}, {"unit": 1.0}, {"period": None}, {"period": 4.5}:
        is_refused(TypeError, aes3.Recovery, **options)
    recovery = aes3.Recovery(unit=2)
    assert recovery.take(b"\1") == b"" and recovery.figures["samples"] == 0
    assert recovery.take(b"\1\0") == b"" and recovery.figures["samples"] == 1
    assert recovery.finish() == aes3.cells_of_samples(b"\1\1\0", unit=2)[0] and recovery.finish() == b""
    for late in b"", b"\1", bytes(100):
        is_refused(ValueError, recovery.take, late)
    figures = recovery.figures
    figures["samples"] = 99
    assert recovery.figures == {**figures, "samples": 1} and [*figures] == [*aes3.FOUND]
    first, second = aes3.Recovery(), aes3.Recovery()
    first.take(bytes(100))
    assert second.figures["samples"] == 0


MATCH = """
def named(it):
    match it:
        case aes3.Report(aes3.WHOLE, at):
            return "whole", at
        case aes3.Report(kind=aes3.FAULT, at=at, cell=cell, why=why):
            return "fault", at, cell, aes3.WHYS[why]
        case aes3.Report(aes3.UNFINISHED, at, cells):
            return "unfinished", at, cells
        case aes3.Gap(at, cells, True):
            return "gap", at, cells
        case aes3.Status(use="professional"):
            return "professional"
        case _:
            return None
"""


def check_marks():
    """The sample of each cell, by marks after pieces of a capture without jitter."""
    line = line_of(frames_of(192))
    recovery, marks = aes3.Recovery(bit=3), [aes3.Mark()]
    capture = bytes((it >> i & 1) << 3 for it in 2 * line for i in range(7, -1, -1) for _ in range(4))
    assert recovery.mark is None
    for at in range(0, len(capture), 640):
        recovery.take(capture[at : at + 640])
        if recovery.mark:
            assert recovery.mark.samples <= at + 640
            marks.append(recovery.mark)
    recovery.finish()
    assert recovery.mark is None and len(marks) > 200 and marks[-1].cells > 2 * 24576 - 64
    for before, after in zip(marks, marks[1:]):
        for cell in {before.cells, after.cells - 1}:
            assert aes3.sample_between(before, after, cell) == 4 * cell
    assert aes3.sample_between(aes3.Mark(), aes3.Mark(2**32, 2**64 - 1), 2**31) == 2**63 - 1
    assert aes3.sample_between(aes3.Mark(5, 7), aes3.Mark(8, 9), 4) == 7 and aes3.sample_between((5, 7), (8, 9), 8) == 9
    for wrong in -1, 2**64:
        is_refused(ValueError, aes3.sample_between, aes3.Mark(), aes3.Mark(1, 1), wrong)
        is_refused(ValueError, aes3.sample_between, aes3.Mark(), aes3.Mark(1, wrong), 0)
    is_refused(TypeError, aes3.sample_between, aes3.Mark(), None, 0)


def check_other_octets():
    """Octets with the first cell in the lowest bit, and frames that are missing."""
    line = line_of(frames_of(192))
    every = bytes(range(256))
    want = bytes(int(f"{it:08b}"[::-1], 2) for it in every)
    for given in every, bytearray(every), memoryview(every), array.array("B", every), list(every):
        assert aes3.reverse_octets(given) == want and bytes(given) == every
    for count in 0, 1, 7, 8, 9, 63, 64, 65:
        assert aes3.reverse_octets(every[:count]) == want[:count]
    low = aes3.reverse_octets(line)
    assert low[0] == 0x17 and aes3.reverse_octets(low) == line
    assert samples_of(aes3.decode(aes3.reverse_octets(low), form="raw")) == frames_of(192)
    for wrong in "", 7, None, [256], [-1]:
        assert refusal(aes3.reverse_octets, wrong) in (TypeError, ValueError)
    assert aes3.frames_between(100, 100, 100 + 24576) == 0 and aes3.frames_between(100, 100, 100 + 2 * 24576) == 192
    assert aes3.frames_between(0, 24576 + 64, 2 * 24576 + 128) == 0 and aes3.frames_between(0, 0, 2**64 - 1) == 2**57 - 192
    is_refused(ValueError, aes3.frames_between, -1, 0, 0)
    is_refused(TypeError, aes3.frames_between, 0, 0.5, 0)


def check_lost_bits():
    """The first word and the first octet of a sample that would lose bits."""
    words = [0x1234 << 12] * 800
    octets = bytes([0, 1, 2, 3]) * 100
    for form in "s32", "s24", "s24in32", "s16":
        assert aes3.blocks_fit([], form) == 0 and aes3.samples_fit(b"", form) == 0
        assert aes3.blocks_fit(array.array("I", words), form) == 800 and aes3.samples_fit(octets, form) == 400
        for wrong in 0, 383, 384, 799:
            other = words[:wrong] + [16] * (800 - wrong)
            assert aes3.blocks_fit(other, form) == (wrong if form == "s16" else 800)
        for wrong in 0, 4, 396:
            other = octets[:wrong] + b"\x80" + octets[wrong + 1 :]
            assert aes3.samples_fit(other, form) == (wrong if form == "s32" else 400)
    assert aes3.samples_fit(octets[1:], "s32") == 0 and aes3.samples_fit(bytearray(b"\1"), "s32") == 0
    for wrong in [-1], [2**32], [0.5], None:
        assert refusal(aes3.blocks_fit, wrong, "s16") in (TypeError, ValueError)
    for call in aes3.blocks_fit, aes3.samples_fit:
        for form in "s8", "", None, 3, ["s16"]:
            is_refused(ValueError, call, [], form)


def check_match():
    if sys.version_info < (3, 10):
        return
    names = {"aes3": aes3}
    exec(MATCH, names)
    damaged = bytearray(line_of(frames_of(3 * 192))[: 2 * 3072 + 100])
    damaged[4000] ^= 4
    found = [names["named"](it) for it in aes3.decode(damaged, form="raw").reports]
    assert found[0] == ("whole", 0) and found[1][:2] == ("fault", 24576) and found[2] == ("unfinished", 49152, 800)
    assert " ".join(map(str, ("fault at", found[1][1], "cell", *found[1][2:]))) == str(aes3.decode(damaged, form="raw").reports[1])
    assert [names["named"](it) for it in aes3.Account().passed(3 * 24576)] == [("gap", 0, 24576), ("gap", 24576, 24576)]
    assert names["named"](aes3.Status.professional()) == "professional" and names["named"](aes3.Status.consumer()) is None


def check_names():
    """Each public name is in __all__, and says what it is; so does what a class has."""
    assert aes3.__version__ == aes3.VERSION == aes3.library_version()
    assert sorted(aes3.__all__) == sorted(it for it in vars(aes3) if not it.startswith("_") and not inspect.ismodule(getattr(aes3, it)))
    starred = {}
    exec("from aes3 import *", starred)
    assert sorted(it for it in starred if it != "__builtins__") == sorted(aes3.__all__)
    assert os.path.exists(os.path.join(os.path.dirname(aes3.__file__), "py.typed"))
    for name in aes3.__all__:
        it = getattr(aes3, name)
        if not inspect.isclass(it) and not inspect.isfunction(it):
            continue
        assert len(inspect.getdoc(it).split()) > 3, name
        for part, value in vars(it).items() if inspect.isclass(it) else ():
            function = value.fget if isinstance(value, property) else getattr(value, "__func__", value)
            if not part.startswith("_") and inspect.isfunction(function):
                assert function.__doc__, (name, part)
        functions = [it] if inspect.isfunction(it) else [value for value in vars(it).values() if inspect.isfunction(value) and value.__module__.startswith("aes3")]
        for function in functions:
            wanted = {*inspect.signature(function).parameters, "return"} - {"self"}
            assert wanted <= {*function.__annotations__}, (name, function)


def check_arrays_of_numpy():
    frames = frames_of(193)
    line = line_of(frames)
    wide = numpy.array(row_of(frames), numpy.int32).reshape(-1, 2) << 8
    kept = wide.copy()
    read_only = wide.copy()
    read_only.setflags(write=False)
    unaligned = numpy.ndarray(wide.shape, numpy.int32, b"\0" + wide.tobytes(), 1)
    spread = numpy.zeros((386, 4), numpy.int32)
    spread[::2, 1:3] = wide
    alike = [wide, wide.astype(">i4"), numpy.asfortranarray(wide), wide[::-1].copy()[::-1], wide[:, ::-1].copy()[:, ::-1], read_only, unaligned, spread[::2, 1:3]]
    for samples in alike + [memoryview(it) for it in alike if it.dtype.isnative]:
        assert aes3.encode(samples, form="raw") == line, samples
    for samples in (it.reshape(-1) for it in alike):
        assert aes3.encode(samples, channels=2, form="raw") == line
    # Whole blocks, of which no copy is made.
    whole = numpy.concatenate([wide, wide])[:384]
    want = line_of([*frames, *frames][:384])
    for samples in whole, whole.astype(">i4"), numpy.asfortranarray(whole), whole.reshape(-1).view(">i4").byteswap().reshape(-1, 2), whole[::-1].copy()[::-1]:
        assert aes3.encode(samples, form="raw") == want
    for kind in "f4", "f8", ">f4", ">f8":
        assert aes3.encode((wide / 2.0**31).astype(kind), form="raw") == line
    narrow = (wide >> 16).astype("i2")
    for kind in "i2", ">i2":
        assert aes3.encode(narrow.astype(kind), form="raw") == line_of([(a >> 8 << 8, b >> 8 << 8) for a, b in frames])
    for kind in "i4", ">i4":
        assert aes3.encode((wide >> 8).astype(kind), bits=24, form="raw") == line
    for kind in "b1 i1 u1 u2 u4 i8 u8 f2 f16 c8 c16 O S4 U4 M8[s] m8[s] V4".split():
        for samples in numpy.zeros((4, 2), kind), numpy.zeros(8, kind):
            for channels in None, 1, 2:
                is_refused(TypeError, aes3.encode, samples, channels=channels)
    is_refused(TypeError, aes3.encode, numpy.zeros(4, [("left", "i4"), ("right", "i4")]))
    for masked in numpy.ma.masked_equal(wide, 0), numpy.ma.masked_array(wide / 2.0**31):
        is_refused(TypeError, aes3.encode, masked)
    masked = numpy.ma.masked_equal(numpy.frombuffer(line, numpy.uint8), 0)
    for call, kind in (aes3.decode, "u1"), (aes3.Lock().take_octets, "u1"), (aes3.Lock().take, "u8"), (aes3.encode_block, "u4"), (aes3.cells_of_samples, "u1"):
        is_refused(TypeError, call, masked.astype(kind))
    for shape in (), (2, 4), (4, 1), (4, 3), (4, 2, 1), (1, 4, 2), (0, 3), (2, 0):
        is_refused(ValueError, aes3.encode, numpy.zeros(shape, numpy.int32))
    assert aes3.encode(numpy.zeros((0, 2), numpy.int16)) == aes3.encode(numpy.zeros(0), channels=1) == aes3.encode(numpy.zeros(0), channels=2) == b"\0"
    for wrong in numpy.nan, numpy.inf, -numpy.inf, 1.001, -32768.0:
        for kind in "f4", ">f8":
            is_refused(ValueError, aes3.encode, numpy.array([[0, wrong]], kind))
    assert aes3.encode(numpy.int32(5) * numpy.ones((1, 2), numpy.int32) * 256, form="raw") == line_of([(5, 5)])
    assert (wide == kept).all()
    # Octets of a line.
    octets = numpy.frombuffer(line, numpy.uint8)
    twice = numpy.repeat(octets, 2)
    for given in octets, twice[::2], octets[::-1].copy()[::-1]:
        found = aes3.decode(given, form="raw")
        assert found.samples.dtype == numpy.int32 and found.samples.shape == (384, 2) and (found.samples[:193] == wide).all() and not found.samples[193:].any()
    assert found.samples.flags.writeable and found.samples.flags.c_contiguous
    empty = aes3.decode(b"\0").samples
    assert empty.dtype == numpy.int32 and empty.shape == (0, 2)
    for kind in "b1 i1 i2 u2 i4 u4 i8 u8 f4 f8 c8 O U1".split():
        is_refused(TypeError, aes3.decode, numpy.zeros(64, kind), form="raw")
    for shape in (), (8, 8), (64, 1):
        is_refused(ValueError, aes3.decode, numpy.zeros(shape, numpy.uint8), form="raw")
    for wrong in numpy.float64(1), numpy.int32(1), numpy.datetime64("2026-01-01"):
        assert refusal(aes3.decode, wrong) in (TypeError, ValueError) and refusal(aes3.encode, wrong, channels=1) in (TypeError, ValueError)


def main():
    passed = failed = 0
    for name, check in [*globals().items()]:
        if not name.startswith("check_") or (name.endswith("_of_numpy") and numpy is None):
            continue
        try:
            check()
            passed += 1
        except Exception:
            failed += 1
            print(f"{name}:", file=sys.stderr)
            traceback.print_exc(limit=-2)
    print(f"{passed} passed, {failed} failed")
    return 1 if failed else 0


if __name__ == "__main__":
    sys.exit(main())
