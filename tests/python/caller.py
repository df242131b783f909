"""caller.py: code of a caller, with types of its own, as `mypy --strict` has to take it. It runs too, with numpy and without."""

from __future__ import annotations

import array
import io
import pathlib
import tempfile
from typing import TYPE_CHECKING, Dict, List, Optional, Tuple

import aes3

if TYPE_CHECKING:
    import numpy
    import numpy.typing


def texts(reports: List[aes3.Report]) -> List[str]:
    return [str(it) for it in reports]


def faults(reports: List[aes3.Report]) -> List[Tuple[int, int, str]]:
    return [(it.at, it.cell, aes3.WHYS[it.why]) for it in reports if it.kind == aes3.FAULT]


def first_word(report: aes3.Report) -> Optional[int]:
    return None if report.words is None else int(report.words[0])


def rates(found: aes3.Decoded) -> Optional[Tuple[Optional[int], Optional[int]]]:
    if found.status is None:
        return None
    first, second = found.status
    return first.rate, second.rate


def main() -> None:
    samples = array.array("i", 384 * [256])
    line: bytes = aes3.encode(samples, 44100, channels=2)
    again: bytes = aes3.encode(array.array("f", 384 * [0.5]), None, channels=1, use="professional", form="raw")
    view: bytes = aes3.encode(memoryview(samples), channels=2, status=(aes3.Status.consumer(44100), bytes(aes3.Status.consumer(44100))))
    assert line == view and len(again) == 2 * len(line) - 2
    found: aes3.Decoded = aes3.decode(line)
    reports: List[aes3.Report] = found.reports
    decoded: numpy.typing.NDArray[numpy.int32] = found.samples
    assert bytes(decoded) == bytes(samples)
    unpacked, the_reports, status = aes3.decode(bytearray(line))
    assert texts(reports) == texts(the_reports) == ["whole at 0 before 0"] and not faults(reports)
    assert rates(found) == (44100, 44100) and first_word(reports[0]) == 16 + 2**31
    if status is not None:
        fields: Dict[str, str] = status[0].fields
        changed_status: aes3.Status = status[0].replace(rate=48000, emphasis="50/15")
        assert changed_status.rate == 48000
        use: str = status[0].use
        assert fields["rate"] == status[1]["rate"] == "44100" and use == "consumer"
    by_text = aes3.decode("01" * 64, form="text")
    assert by_text.status is None and by_text.reports == [] and len(unpacked) > 0

    words, rest = aes3.words_of_packed(line)
    count: int = rest[1]
    lock, account = aes3.Lock(), aes3.Account()
    told: List[aes3.Report] = lock.take(words) + lock.push(*rest) + lock.finish()
    gaps: List[aes3.Gap] = [gap for report in told for gap in account.before(report)] + account.end(lock.seen())
    assert told == reports and gaps == [] and count == 0
    watch = aes3.Watch()
    events: List[aes3.Event] = [event for report in told for event in watch.report(report)]
    events += watch.passed(lock.seen()) + watch.end(lock.seen())
    assert [event.kind for event in events] == ["locked", "end"] and events[1].locked and events[0].status == b""
    levels = aes3.Levels()
    for it in told:
        levels.report(it)
    peak: Optional[float] = levels.peak(1)
    assert levels.blocks() == len(reports) and (peak is None) == (levels.greatest(1) == 0) and (levels.rms(2) is None) == (levels.peak(2) is None)
    sums = aes3.Sums(1 << 20)
    counted: List[aes3.Sum] = [it for report in told for it in sums.report(report)] + sums.passed(lock.seen()) + sums.end(lock.seen())
    start, stop, whole, *others = counted[0]
    assert len(counted) == 1 and (start, stop, whole) == (0, lock.seen(), len(reports)) and counted[0].lost == 0 and others[-1] == 0
    block = told[0].words
    assert block is not None
    changed: numpy.typing.NDArray[numpy.uint32] = aes3.with_user(aes3.with_validity(block, 1, bytes(24)), 2, bytes(24))
    cells: numpy.typing.NDArray[numpy.uint64] = aes3.encode_block(changed, before=1)
    octets: bytes = aes3.block_status(changed, 1) + aes3.block_user(changed, 1) + aes3.block_validity(changed, 1)
    assert len(cells) == 384 and len(octets) == 72
    text: str = aes3.status_text(octets[:24])
    check: int = aes3.check_byte(aes3.Status.professional().__bytes__())
    figures: Tuple[bytes, Dict[str, int]] = aes3.cells_of_samples(bytes(100), bit=2, unit=1)
    recovery = aes3.Recovery(bit=2, unit=1, period=0)
    cells_so_far: bytes = recovery.take(array.array("B", [4, 0, 4])) + recovery.take(bytearray(97))
    cells_so_far += recovery.finish()
    so_far: Dict[str, int] = recovery.figures
    mark = recovery.mark
    sample: int = aes3.sample_between(aes3.Mark(), aes3.Mark(cells=8, samples=20), 2) + aes3.frames_between(0, 0, 24576)
    turned: bytes = aes3.reverse_octets(bytearray(b"\x17"))
    assert mark is None and sample == 5 and turned == b"\xe8"
    assert so_far["samples"] == 100 and len(cells_so_far) < 100
    version: str = aes3.__version__
    assert text.startswith("consumer ") and 0 <= check < 256 and figures[1]["cells"] == 0 and version == aes3.library_version()
    again_block: numpy.typing.NDArray[numpy.uint32] = aes3.block_of_samples(aes3.block_samples(block))
    assert len(again_block) == 384

    file = io.BytesIO()
    aes3.write_wav(file, samples, 44100, bits=16, channels=2)
    file.seek(0)
    wav: aes3.Wav = aes3.read_wav(file, (2, 1))
    read: numpy.typing.NDArray[numpy.int32] = wav.samples
    rate, bits, channels = wav.rate, wav.bits, wav.channels
    assert bytes(read) == bytes(4 * 384) and (rate + 1, bits, channels) == (44101, 16, 2)
    with tempfile.TemporaryDirectory() as folder:
        path = pathlib.Path(folder, "line.wav")
        aes3.write_wav(path, reports)
        aes3.write_wav(str(path), [block, again_block])
        assert len(bytes(aes3.read_wav(path).samples)) == 2 * 4 * 384


if __name__ == "__main__":
    main()
