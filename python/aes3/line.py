"""Whole lines: samples to the octets of a line, and back."""

from __future__ import annotations

import array
import ctypes as c
from typing import TYPE_CHECKING, Any, Callable, Iterator, List, NamedTuple, Optional, Tuple, Union

from aes3 import calls
from aes3.status import Status

try:
    import numpy
except ImportError:
    numpy = None  # type: ignore[assignment]

if TYPE_CHECKING:
    import numpy.typing as npt

    from aes3.calls import Octets, Report

    # What encode takes, and what decode gives: without numpy that is an `array.array("i")`.
    Samples = Union["npt.NDArray[numpy.signedinteger[Any]]", "npt.NDArray[numpy.floating[Any]]", "array.array[int]", "array.array[float]", memoryview]
    DecodedSamples = npt.NDArray[numpy.int32]

_FRAMES = 192  # of a block
_SAMPLES = 2 * _FRAMES
_CELLS = 24576  # of a block
_OCTETS = _CELLS // 8
_S32 = 0  # samples in the highest 24 of 32 bits
_FEW = 32  # blocks that a processor has at hand with their cells

# The octet with the bits of each octet in the other order.
_REVERSED = bytes(int(f"{i:08b}"[::-1], 2) for i in range(256))

_FORMS = "packed", "raw", "text"


class Decoded(NamedTuple):
    """What a line has.

    samples   of its whole blocks, one after the other, as int32 with the audio in the highest 24 bits: an array of numpy (frames, 2),
              or without numpy an `array.array("i")` of channel 1 and channel 2 in turn
    reports   the list of its Reports: whole, marked and unfinished blocks, and faults
    status    the channel Status of channel 1 and of channel 2 in the first whole block; None where there is none
    """

    samples: DecodedSamples
    reports: List[Report]
    status: Optional[Tuple[Status, Status]]


# ---- samples as they are given


def _wanted(samples: object) -> TypeError:
    return TypeError(
        "samples are an array of int16 or int32, of int32 with bits=24, or of float32 or float64 from -1 to 1, "
        f"of shape (frames, 2), or one row with channels=1 or 2: not {calls._named(samples)}"
    )


def _check_bits(bits: Optional[int], of_type: int, samples: object) -> int:
    """How many bits the samples have by their type, and by `bits` where that is given."""
    if bits is None or bits == of_type:
        return of_type
    if of_type == 32 and bits == 24:
        return 24
    raise ValueError(f"bits={bits!r} does not fit {calls._named(samples)}: 24 or 32 of int32, 16 of int16")


def _check_floats(bits: Optional[int]) -> None:
    if bits is not None:
        raise ValueError("bits is for whole numbers: floats have full scale at 1")


def _check_24_bits(least: int, greatest: int) -> None:
    if not -(2**23) <= least <= greatest < 2**23:
        raise ValueError(f"samples of 24 bits are from {-2**23:,} to {2**23 - 1:,}, not from {least:,} to {greatest:,}")


def _check_shape(shape: Tuple[int, ...], channels: Optional[int]) -> int:
    """How many channels an array has."""
    if len(shape) == 2 and shape[1] == 2 and channels in (None, 2):
        return 2
    if len(shape) == 1 and channels in (1, 2):
        if channels == 2 and shape[0] % 2:
            raise ValueError("a row of two channels has the same number of samples of both: this one ends inside a frame")
        return 1 if channels == 1 else 2
    if len(shape) == 1 and channels is None:
        raise ValueError("one row of samples is one channel (channels=1) or channel 1 and channel 2 in turn (channels=2)")
    raise ValueError(f"samples have the shape (frames, 2), or are one row with channels=1 or 2: not {tuple(shape)} with channels={channels!r}")


def _wide_numpy(samples: Any, bits: Optional[int], channels: Optional[int], whole: int = _FRAMES) -> npt.NDArray[numpy.int32]:
    """The samples as int32 in whole blocks of so many frames, zeros after them."""
    if isinstance(samples, numpy.ma.MaskedArray) or calls._memory(samples) is None and not isinstance(samples, numpy.ndarray):
        raise _wanted(samples)
    given = numpy.asarray(samples)
    kind, itemsize = given.dtype.kind, given.dtype.itemsize
    if (kind, itemsize) not in (("i", 2), ("i", 4), ("f", 4), ("f", 8)):
        raise _wanted(samples)
    pairs = given.reshape(-1, _check_shape(given.shape, channels))
    count = -(-len(pairs) // whole) * whole
    if kind == "f":
        _check_floats(bits)
        # The least and the greatest are NaN where one is.
        if pairs.size and not -1 <= pairs.min() <= pairs.max() <= 1:
            raise ValueError("floats are from -1 to 1: numpy.clip limits them, and NaN is none")
        pairs = pairs * pairs.dtype.type(2**23)
        numpy.minimum(numpy.rint(pairs, out=pairs), 2**23 - 1, out=pairs)
        bits = 24
    else:
        bits = _check_bits(bits, 8 * itemsize, samples)
        if bits == 24 and pairs.size:
            _check_24_bits(int(pairs.min()), int(pairs.max()))
    if bits == 32 and pairs.shape == (count, 2) and pairs.dtype.isnative and pairs.flags.c_contiguous and pairs.flags.aligned:
        return pairs
    wide = numpy.zeros((count, 2), numpy.int32)
    wide[: len(pairs)] = pairs
    wide <<= 32 - bits
    return wide


def _wide_plain(samples: Any, bits: Optional[int], channels: Optional[int], whole: int = _FRAMES) -> array.array[int]:
    """The same without numpy, as an `array.array` of channel 1 and channel 2 in turn."""
    view = calls._memory(samples)
    # Memory of ctypes has `<` before the kind of its items, which is the order of the processors that the library is for.
    kind = view.format.lstrip("@<=") if view is not None else ""
    if view is None or (kind, view.itemsize) not in (("h", 2), ("i", 4), ("l", 4), ("f", 4), ("d", 8)):
        raise _wanted(samples)
    count = _check_shape(view.shape or (), channels)
    row: Any = array.array("i" if kind == "l" else kind, view.tobytes())
    if kind in "fd":
        _check_floats(bits)
        if not all(-1 <= it <= 1 for it in row):
            raise ValueError("floats are from -1 to 1, and NaN is none")
        row = array.array("i", [min(round(it * 2**23), 2**23 - 1) for it in row])
        bits = 24
    else:
        bits = _check_bits(bits, 8 * view.itemsize, samples)
        if bits == 24 and row:
            _check_24_bits(min(row), max(row))
    if bits < 32:
        octets, up = row.tobytes(), 4 - bits // 8
        shifted = bytearray(4 * len(row))
        for i in range(up, 4):
            # The lowest octet of each number is the first.
            shifted[i::4] = octets[i - up :: row.itemsize]
        row = array.array("i", shifted)
    wide: array.array[int] = row
    if count == 1:
        wide = array.array("i", bytes(8 * len(row)))
        wide[0::2] = wide[1::2] = row
    wide.frombytes(bytes(4 * (-len(wide) % (2 * whole))))
    return wide


# ---- samples to a line


def encode(
    samples: Samples,
    rate: Optional[int] = 48000,
    *,
    bits: Optional[int] = None,
    channels: Optional[int] = None,
    use: str = "consumer",
    status: Union[Status, bytes, Tuple[Union[Status, bytes], Union[Status, bytes]], None] = None,
    form: str = "packed",
) -> bytes:
    """The octets of a line with these samples, whole blocks of it: zeros follow the last sample up to the end of its block.

    samples    an array of shape (frames, 2): int32 (the audio in the highest 24 bits), int32 with `bits=24`, int16, or float32 and
               float64 with full scale at 1. One row is one channel, sent in both, with `channels=1`, and channel 1 and channel 2 in
               turn with `channels=2`.
    rate, use  what the channel status says: the sampling frequency in hertz, or None; `consumer` or `professional` use
    status     a Status (or 24 bytes) for both channels, or a pair of them, in place of that
    form       `packed`, as `aes3 --packed-in` reads it; `raw`, without its last octet; `text`
    """
    _check_form(form)
    first, second = _statuses(rate, use, status)
    wide: Any
    if numpy is not None:
        wide = _wide_numpy(samples, bits, channels)
        count, at = wide.size, wide.ctypes.data
    else:
        wide = _wide_plain(samples, bits, channels)
        count, at = len(wide), wide.buffer_info()[0]
    pieces = [*_pieces(at, count // _SAMPLES, first, second)]
    del wide
    if form == "packed":
        pieces.append(b"\0")
    line = b"".join(pieces)
    return _text(line) if form == "text" else line


def _statuses(rate: Optional[int], use: str, status: Any) -> Tuple[bytes, bytes]:
    """The 24 bytes of the channel status of channel 1 and of channel 2."""
    if status is None:
        if use not in ("consumer", "professional"):
            raise ValueError(f"use is 'consumer' or 'professional', not {use!r}")
        status = Status.professional(rate) if use == "professional" else Status.consumer(rate)
    first, second = status if isinstance(status, (tuple, list)) and len(status) == 2 else (status, status)
    return bytes(calls._status_in(first)), bytes(calls._status_in(second))


def _pieces(at: int, blocks: int, first: bytes, second: bytes) -> Iterator[bytes]:
    """The octets of the cells of blocks, a few blocks each, of the samples at an address."""
    few = min(blocks, _FEW)
    words, cells = bytearray(few * 4 * _SAMPLES), bytearray(few * _OCTETS)
    word_at, cell_at = (c.addressof((c.c_char * len(it)).from_buffer(it)) for it in (words, cells))
    set_status = _status_setter(words, word_at, first, second)
    for begin in range(0, blocks, _FEW):
        count = _SAMPLES * min(blocks - begin, _FEW)
        calls._blocks_of_samples(at + 4 * _SAMPLES * begin, 4 * count, _S32, word_at, count)
        set_status()
        _check_all(calls._encode_blocks(word_at, count, 0, cell_at, len(cells)), count)
        yield cells[: count // _SAMPLES * _OCTETS]


def _check_all(answer: int, count: int) -> None:
    """All words of blocks were valid."""
    if answer != count:
        calls._check_valid(answer % _SAMPLES)


def _status_setter(words: bytearray, at: int, first: bytes, second: bytes) -> Callable[[], object]:
    """What sets the status of both channels in the words of blocks of samples, which are at this address and have no C bits yet."""
    if numpy is not None:
        # Each word changes as that of a block of zeros does: by its C bit and its parity bit.
        blocks = numpy.frombuffer(words, numpy.uint32).reshape(-1, _SAMPLES)
        zeros = calls.with_status(calls.with_status([0] * _SAMPLES, 1, first), 2, second)
        return lambda: numpy.bitwise_xor(blocks, zeros, out=blocks)
    set_status = calls._bits["status", True]

    def set_each() -> None:
        for block in range(at, at + len(words), 4 * _SAMPLES):
            calls._check_valid(set_status(block, 1, first))
            calls._check_valid(set_status(block, 2, second))

    return set_each


def _text(octets: bytes) -> bytes:
    """Cells as lines of 64 characters."""
    cells = "".join(map("{:08b}".format, octets))
    return "".join(f"{cells[at : at + 64]}\n" for at in range(0, len(cells), 64)).encode()


# ---- a line to samples


def decode(line: Union[str, Octets], *, form: str = "packed") -> Decoded:
    """The samples of a line, with the reports on its blocks and its channel status, as a Decoded.

    line   octets of cells, eight an octet, the first in its highest bit: `packed`, with a last octet that counts unused cells, as
           `aes3 --packed-out` writes them; or `raw`, without one. Or `text`, of `0` and `1`.

    Of damaged blocks there are reports and no samples, so what follows them moves forward in time.
    """
    _check_form(form)
    octets, cells = _octets_of(line, form)
    lock = calls.Lock()
    reports = lock._take(octets, cells // 8)
    if cells % 8:
        reports += lock.push(int(_REVERSED[octets[cells // 8]]), cells % 8)
    reports += lock.finish()
    blocks = [it._block for it in reports if it._block is not None]
    status = None
    if blocks:
        status = Status(calls.block_status(blocks[0], 1)), Status(calls.block_status(blocks[0], 2))
    return Decoded(_samples_in(blocks), reports, status)


def _samples_in(blocks: List[c.Array[c.c_uint32]]) -> DecodedSamples:
    samples: Any
    if numpy is not None:
        samples = numpy.empty((_FRAMES * len(blocks), 2), numpy.int32)
        to = samples.ctypes.data
    else:
        samples = array.array("i", bytes(4 * _SAMPLES * len(blocks)))
        to = samples.buffer_info()[0]
    words = b"".join(blocks)
    count = len(words) // 4
    if count:
        _check_all(calls._samples_of_blocks(words, count, _S32, to, len(words)), count)
    found: DecodedSamples = samples
    return found


def _check_form(form: str) -> None:
    if form not in _FORMS:
        raise ValueError(f"form is 'packed', 'raw' or 'text', not {form!r}")


def _octets_of(line: Union[str, Octets], form: str) -> Tuple[bytes, int]:
    """The octets of a line, and how many cells of a line are the first in them."""
    if form == "text":
        text = calls._cells_of_text(line)
        cells = len(text)
        padded = text.decode().ljust(-(-cells // 8) * 8, "0")
        return int("1" + padded, 2).to_bytes(1 + len(padded) // 8, "big")[1:], cells
    octets = calls._bytes_in(line, "the octets of a line")
    _check_line(octets)
    if form == "raw":
        return octets, 8 * len(octets)
    calls._check_packed(octets)
    return octets, 8 * (len(octets) - 1) - octets[-1]


def _check_line(octets: bytes) -> None:
    """What begins as a file of another kind is no line: none has so many cells of one level in a row as these have."""
    front = octets[:64]
    if front[:4] in (b"RIFF", b"RF64") and front[8:12] == b"WAVE":
        raise ValueError("this is a WAV file, and not the cells of a line: read_wav has its samples")
    if len(front) >= 8 and not front.strip(b"01\r\n "):
        raise ValueError("this is text of 0 and 1, and not octets of cells: form='text' takes it")
