"""The calls of aes3.h, by ctypes over the shared library libaes3.so.1."""

from __future__ import annotations

import ctypes as c
import operator
import os
import struct
import sys
from typing import TYPE_CHECKING, Any, Callable, Dict, Iterable, List, NamedTuple, Optional, Tuple, Union

try:
    import numpy
except ImportError:
    numpy = None  # type: ignore[assignment]

if TYPE_CHECKING:
    import array

    import numpy.typing as npt

    # What calls take, and what they give: without numpy a list is given for each array of words or samples.
    Octets = Union[bytes, bytearray, memoryview, "array.array[int]", "npt.NDArray[numpy.uint8]", Iterable[int]]
    Numbers = Union["array.array[int]", "npt.NDArray[Any]", memoryview, Iterable[int]]
    CellWords = npt.NDArray[numpy.uint64]
    BlockWords = npt.NDArray[numpy.uint32]
    BlockSamples = npt.NDArray[numpy.int32]
    Rest = Tuple[int, int]

NONE, WHOLE, MARKED, FAULT, UNFINISHED = range(5)
WHYS = "preamble", "biphase", "unclosed"
EVENTS = "locked", "lost", "back", "slipped", "status", "validity", "end"
VALIDITIES = "clear", "set", "mixed"
FOUND = "samples", "cells", "period", "edges", "greatest", "squares", "dead", "dead_at", "measured"

_SAMPLE_FORMS = "s32", "s24", "s24in32", "s16"  # by their numbers in aes3.h

_Words = c.c_uint32 * 384
_Cells = c.c_uint64 * 384
_Samples = c.c_int32 * 384
_Status = c.c_uint8 * 24

_ROOM = 4096  # octets of cells that a recovery puts in one call


def _library() -> c.CDLL:
    name = "libaes3.so.1"
    places = [os.path.join(os.path.dirname(os.path.abspath(__file__)), name), name, os.path.join(sys.prefix, "lib", name)]
    if os.environ.get("AES3_LIB"):
        places = [os.environ["AES3_LIB"]]
    for place in places:
        try:
            return c.CDLL(place)
        except OSError as error:
            last = error
    raise ImportError(f"no {name} ({last}): bin/install of the sources brings it, and AES3_LIB can say where it is")


_lib = _library()


class _Lock(c.Structure):
    _fields_ = [("state", c.c_uint64 * 388)]


class _Report(c.Structure):
    _fields_ = [("at", c.c_uint64), ("cell", c.c_uint64), ("words", _Words), ("wrong", c.c_uint16),
                ("kind", c.c_uint8), ("before", c.c_uint8), ("why", c.c_uint8)]


_REPORT = struct.Struct("=QQ1536xHBBB")  # of all but its words


class _Account(c.Structure):
    _fields_ = [("state", c.c_uint64 * 2)]


class _Gap(c.Structure):
    _fields_ = [("at", c.c_uint64), ("cells", c.c_uint64), ("counts", c.c_uint8)]


class _Watch(c.Structure):
    _fields_ = [("state", c.c_uint64 * 10)]


class _Event(c.Structure):
    _fields_ = [("at", c.c_uint64), ("cells", c.c_uint64), ("status", _Status), ("kind", c.c_uint8), ("channel", c.c_uint8),
                ("before", c.c_uint8), ("validity", c.c_uint8), ("locked", c.c_uint8)]


_Events = _Event * 6


class _ChannelLevels(c.Structure):
    _fields_ = [("energy_low", c.c_uint64), ("energy_high", c.c_uint64), ("peak", c.c_uint32)]


class _Levels(c.Structure):
    _fields_ = [("blocks", c.c_uint64), ("first", _ChannelLevels), ("second", _ChannelLevels)]


class _Sums(c.Structure):
    _fields_ = [("state", c.c_uint64 * 24)]


class _Sum(c.Structure):
    _fields_ = [(name, c.c_uint64) for name in ("start", "stop", "whole", "marked", "fault", "preamble", "biphase", "unclosed", "lost",
                                                "invalid_first", "invalid_second", "changes")]


class _Capture(c.Structure):
    _fields_ = [(name, c.c_uint64) for name in ("octets", *FOUND)]


class _Recovery(c.Structure):
    _fields_ = [("state", c.c_uint64 * 813)]


class _Mark(c.Structure):
    _fields_ = [("cells", c.c_uint64), ("samples", c.c_uint64)]


class _Wav(c.Structure):
    _fields_ = [("start", c.c_uint64), ("len", c.c_uint64), ("rate", c.c_uint32), ("channels", c.c_uint16), ("octets", c.c_uint8),
                ("bits", c.c_uint8)]


def _declare(name: str, result: Any, *arguments: Any) -> Callable[..., int]:
    function: Any = getattr(_lib, name)
    function.restype, function.argtypes = result, arguments
    call: Callable[..., int] = function
    return call


_at = c.c_void_p  # a pointer: an address, what byref gives, or an array

_version = _declare("aes3_version", c.c_uint32)
_init = _declare("aes3_lock_init", None, _at)
_seen = _declare("aes3_lock_seen", c.c_uint64, _at)
_take_words = _declare("aes3_lock_take_words", c.c_size_t, _at, _at, c.c_size_t)
_push = _declare("aes3_lock_push", c.c_uint32, _at, c.c_uint64, c.c_uint32, _at)
_take_octets = _declare("aes3_lock_take_octets", c.c_size_t, _at, _at, c.c_size_t, c.c_size_t, _at)
_block = _declare("aes3_lock_block", None, _at, _at)
_finish = _declare("aes3_lock_finish", None, _at, _at)
_account_init = _declare("aes3_account_init", None, _at)
_before = _declare("aes3_account_before", c.c_bool, _at, _at, _at)
_passed = _declare("aes3_account_passed", c.c_bool, _at, c.c_uint64, _at)
_end = _declare("aes3_account_end", c.c_bool, _at, c.c_uint64, _at)
_watch_init = _declare("aes3_watch_init", None, _at)
_watch_report = _declare("aes3_watch_report", c.c_uint32, _at, _at, _at)
_watch_passed = _declare("aes3_watch_passed", c.c_uint32, _at, c.c_uint64, _at)
_watch_end = _declare("aes3_watch_end", c.c_uint32, _at, c.c_uint64, _at)
_levels_init = _declare("aes3_levels_init", None, _at)
_levels_add = _declare("aes3_levels_add", None, _at, _at)
_levels_peak = _declare("aes3_levels_peak", c.c_uint32, _at, c.c_uint8)
_levels_rms = _declare("aes3_levels_rms", c.c_uint32, _at, c.c_uint8)
_sums_init = _declare("aes3_sums_init", c.c_bool, _at, c.c_uint64)
_sums_before = _declare("aes3_sums_before", c.c_bool, _at, _at, _at)
_sums_passed = _declare("aes3_sums_passed", c.c_bool, _at, c.c_uint64, _at)
_sums_end = _declare("aes3_sums_end", c.c_bool, _at, c.c_uint64, _at)
_frames_between = _declare("aes3_frames_between", c.c_uint64, c.c_uint64, c.c_uint64, c.c_uint64)
_encode_block = _declare("aes3_encode_block", c.c_uint32, _at, c.c_uint8, _at)
_encode_blocks = _declare("aes3_encode_blocks", c.c_size_t, _at, c.c_size_t, c.c_uint8, _at, c.c_size_t)
_samples_of_blocks = _declare("aes3_samples_of_blocks", c.c_size_t, _at, c.c_size_t, c.c_uint8, _at, c.c_size_t)
_blocks_of_samples = _declare("aes3_blocks_of_samples", c.c_size_t, _at, c.c_size_t, c.c_uint8, _at, c.c_size_t)
_blocks_fit = _declare("aes3_blocks_fit", c.c_size_t, _at, c.c_size_t, c.c_uint8)
_samples_fit = _declare("aes3_samples_fit", c.c_size_t, _at, c.c_size_t, c.c_uint8)
_block_samples = _declare("aes3_block_samples", c.c_uint32, _at, _at)
_block_of_samples = _declare("aes3_block_of_samples", None, _at, _at)
_bits = {
    (name, sets): _declare(f"aes3_block_{'set_' * sets}{name}", c.c_uint32, _at, c.c_uint8, _at)
    for name in ("status", "validity", "user")
    for sets in (False, True)
}
_reverse_octets = _declare("aes3_reverse_octets", None, _at, c.c_size_t)
_check_byte = _declare("aes3_status_check_byte", c.c_uint8, _at)
_status_set = _declare("aes3_status_set", c.c_uint8, _at, _at, c.c_size_t)
_status_text = _declare("aes3_status_text", c.c_uint32, _at, _at)
_capture_cells = _declare(
    "aes3_capture_cells", c.c_bool, _at, c.c_size_t, c.c_uint8, c.c_uint8, c.c_uint64, _at, c.c_size_t, _at
)
_recovery_init = _declare("aes3_recovery_init", None, _at, c.c_uint64)
_recovery_take = _declare("aes3_recovery_take", c.c_bool, _at, _at, c.c_size_t, c.c_uint8, c.c_uint8, _at, _at, c.c_size_t, _at)
_recovery_finish = _declare("aes3_recovery_finish", c.c_bool, _at, _at, c.c_size_t, _at)
_recovery_figures = _declare("aes3_recovery_figures", None, _at, _at)
_recovery_mark = _declare("aes3_recovery_mark", c.c_bool, _at, _at)
_sample_between = _declare("aes3_sample_between", c.c_uint64, _at, _at, c.c_uint64)
_wav_read = _declare("aes3_wav_read", c.c_uint8, _at, c.c_size_t, _at, _at)
_wav_samples = _declare("aes3_wav_samples", c.c_size_t, _at, c.c_uint16, c.c_uint16, _at, c.c_size_t, _at, c.c_size_t)
_wav_write = _declare("aes3_wav_write", c.c_uint32, c.c_uint8, c.c_uint32, c.c_uint64, _at)


# ---- what calls are given


class _Kind:
    """Numbers in a row: what they are and one of them, the least and the greatest, how many octets an item of an array has at least."""

    def __init__(self, what: str, name: str, least: int, greatest: int, octets: int, means: str) -> None:
        self.what, self.name, self.least, self.greatest, self.octets = what, name, least, greatest, octets
        self.wanted = f"{what} are whole numbers from {least:,} to {greatest:,} ({means})"


_SAMPLES = _Kind("samples", "samples", -(2**31), 2**31 - 1, 4, "int32, the audio in the highest 24 bits: shift 16-bit samples left by 16")
_BLOCK = _Kind("the words of a block", "words", 0, 2**32 - 1, 4, "uint32")
_ROW = _Kind("words of cells", "words", 0, 2**64 - 1, 8, "uint64, 64 cells a word: take_octets takes octets")


def _out(array: c.Array[Any]) -> Any:
    """A ctypes array as what the caller is given, with memory of its own."""
    return numpy.array(array) if numpy else list(array)


def _named(value: object) -> str:
    """What a message calls a value: its type, and that of the items of an array."""
    items = getattr(value, "dtype", None) or getattr(value, "typecode", None)
    name = type(value).__name__
    return f"{name} of {items}" if items else name


def _number(value: Any, what: str, least: int, greatest: int, means: str = "") -> int:
    """A whole number within bounds."""
    wanted = f"{what} is {least} or {greatest}" if greatest == least + 1 else f"{what} is a whole number from {least:,} to {greatest:,}{means}"
    try:
        number = operator.index(value)
    except TypeError:
        raise TypeError(f"{wanted}, not {_named(value)}") from None
    if not least <= number <= greatest:
        raise ValueError(f"{wanted}, not {number:,}")
    return number


def _memory(values: Any) -> Optional[memoryview]:
    """The view of an array or other memory, or None of what is a plain sequence. What is masked in an array of numpy is no number."""
    if numpy and isinstance(values, numpy.ma.MaskedArray):
        return None
    try:
        return memoryview(values)
    except (TypeError, ValueError, BufferError):
        return None


def _check_items(values: Any, kind: _Kind) -> None:
    """Memory has whole numbers of the size in one row, whatever they are."""
    view = _memory(values)
    if view is None and not hasattr(values, "dtype"):
        return
    if view is None or view.format[-1] not in "bBhHiIlLqQnN" or view.itemsize < kind.octets:
        raise TypeError(f"{kind.wanted}, not {_named(values)}")
    if view.ndim != 1:
        raise ValueError(f"{kind.what} are one row, not {view.ndim} dimensions")


def _numbers(values: Any, kind: _Kind) -> List[int]:
    """The list of the whole numbers of a sequence or an array, each of a kind."""
    _check_items(values, kind)
    numbers: List[int] = []
    value = None
    try:
        for value in values:
            numbers.append(operator.index(value))
    except TypeError:
        wrong = value if hasattr(values, "__iter__") else values
        raise TypeError(f"{kind.wanted}, not {_named(wrong)}") from None
    for each in (min(numbers, default=0), max(numbers, default=0)):
        if not kind.least <= each <= kind.greatest:
            raise ValueError(f"{kind.wanted}, not {each:,}")
    return numbers


def _block_of(values: Any, kind: _Kind) -> List[int]:
    """The same where they are those of a block."""
    numbers = _numbers(values, kind)
    if len(numbers) != 384:
        raise ValueError(f"a block has 384 {kind.name}, not {len(numbers):,}")
    return numbers


def _cells_in(words: Any) -> Tuple[Any, c.Array[c.c_uint64]]:
    """Words of cells in one piece of memory: that memory, and a ctypes array over it."""
    _check_items(words, _ROW)
    if not numpy or _memory(words) is None:
        numbers = _numbers(words, _ROW)
        cells = (c.c_uint64 * len(numbers))(*numbers)
        return cells, cells
    given = numpy.asarray(words)
    if given.dtype.kind == "i" and len(given) and given.min() < 0:
        raise ValueError(f"{_ROW.wanted}, not {given.min():,}")
    row = numpy.ascontiguousarray(given, dtype=numpy.uint64)
    return row, (c.c_uint64 * len(row)).from_address(row.ctypes.data) if len(row) else (c.c_uint64 * 0)()


def _octets_in(octets: Any, what: str = "octets") -> Tuple[Any, Any, int]:
    """Octets in one piece of memory: that memory, where it is, and how many they are."""
    wanted = f"{what} are bytes, an array of uint8, or whole numbers from 0 to 255"
    view = _memory(octets)
    if view is None:
        is_wrong = isinstance(octets, (int, str)) or hasattr(octets, "dtype")
    else:
        # A date of numpy shows itself as octets.
        is_wrong = view.format[-1] not in "Bc" or getattr(getattr(octets, "dtype", None), "kind", "u") not in "uS"
    if is_wrong:
        raise TypeError(f"{wanted}, not {_named(octets)}")
    if view is not None and view.ndim != 1:
        raise ValueError(f"{what} are one row, not {view.ndim} dimensions")
    if numpy and isinstance(octets, numpy.ndarray):
        row = numpy.ascontiguousarray(octets)
        return row, row.ctypes.data, row.size
    try:
        octets = bytes(octets)
    except (TypeError, ValueError) as error:
        raise type(error)(f"{wanted}: {error}") from None
    return octets, octets, len(octets)


def _bytes_in(octets: Any, what: str) -> bytes:
    return bytes(_octets_in(octets, what)[0])


def _block_in(words: Any) -> c.Array[c.c_uint32]:
    return _Words(*_block_of(words, _BLOCK))


def _status_in(status: Any, what: str = "a channel status") -> c.Array[c.c_uint8]:
    octets = _bytes_in(status, f"the 24 bytes of {what}")
    if len(octets) != 24:
        raise ValueError(f"{what} has 24 bytes, not {len(octets):,}")
    return _Status(*octets)


# ---- cells in other forms


def _words(cells: str, count: int) -> Tuple[CellWords, Rest]:
    """Of `count` cells, a text of `0` and `1`: the words of 64, and the word and number of those left."""
    whole = count // 64 * 64
    # The first character of a number is its highest bit, and the first cell of a word its lowest.
    words = (c.c_uint64 * (whole // 64))(*(int(cells[i : i + 64][::-1], 2) for i in range(0, whole, 64)))
    return _out(words), (int(cells[whole:count][::-1] or "0", 2), count - whole)


def words_of_text(text: Union[str, Octets]) -> Tuple[CellWords, Rest]:
    """The words of 64 cells of a text of `0` and `1`, and the word and number of the cells left, as push takes them."""
    cells = _cells_of_text(text)
    if not numpy:
        return _words(cells.decode(), len(cells))
    return _packed(numpy.frombuffer(cells, numpy.uint8) & numpy.uint8(1))


def _cells_of_text(text: Union[str, Octets]) -> bytes:
    """The characters `0` and `1` of a text of cells."""
    octets = text.encode() if isinstance(text, str) else _bytes_in(text, "cells as text")
    octets = octets.translate(None, delete=b"\n\r ")
    if octets.strip(b"01"):
        raise ValueError("a character that is no cell")
    return octets


def _check_packed(octets: bytes) -> None:
    """Packed cells end with how many cells of the octet before are unused."""
    if not octets or octets[-1] > 7 or (octets[-1] and len(octets) == 1):
        raise ValueError("packed cells end with the number of unused cells, 0 to 7")
    if octets[-1] and octets[-2] % (1 << octets[-1]):
        raise ValueError("unused cells are 0")


def words_of_packed(octets: Octets) -> Tuple[CellWords, Rest]:
    """The same of packed cells, eight an octet, of which the last octet counts the unused ones."""
    packed = _bytes_in(octets, "packed cells")
    _check_packed(packed)
    count = 8 * (len(packed) - 1) - packed[-1]
    if not numpy:
        cells = bin(int.from_bytes(b"\1" + packed[:-1], "big"))[3:]
        return _words(cells, count)
    return _packed(numpy.unpackbits(numpy.frombuffer(packed, numpy.uint8))[:count])


def _packed(cells: npt.NDArray[numpy.uint8]) -> Tuple[CellWords, Rest]:
    """The same of an array of cells, one an element."""
    whole = len(cells) // 64 * 64
    words = numpy.packbits(cells[:whole], bitorder="little").view("<u8").astype(numpy.uint64)
    return words, (sum(int(it) << i for i, it in enumerate(cells[whole:])), len(cells) - whole)


def reverse_octets(octets: Octets) -> bytes:
    """The octets with the bits of each reversed: the first cell of eight is then in the highest bit, if it was in the lowest.

    So `decode(reverse_octets(octets), form="raw")` reads raw octets with the first cell in the lowest bit. Of packed cells leave out
    the last octet: it is a number.
    """
    reversed_octets = bytearray(_bytes_in(octets, "octets of cells"))
    if reversed_octets:
        _reverse_octets((c.c_char * len(reversed_octets)).from_buffer(reversed_octets), len(reversed_octets))
    return bytes(reversed_octets)


# ---- blocks and status


def _check_valid(answer: int) -> None:
    if answer != 384:
        raise ValueError(f"word {answer} is not valid")


def library_version() -> str:
    """The version of the library that runs, as VERSION is that of this module: a text."""
    number = _version()
    return f"{number >> 16}.{number >> 8 & 255}.{number & 255}"


def encode_block(words: Numbers, before: int = 0) -> CellWords:
    """The 384 words of cells of a block of 384 words, after a cell of the level 0 or 1; ValueError if a word is not valid."""
    block, before, cells = _block_in(words), _number(before, "the level before a block", 0, 1), _Cells()
    _check_valid(_encode_block(block, before, cells))
    found: CellWords = _out(cells)
    return found


def block_samples(words: Numbers) -> BlockSamples:
    """The 384 samples of a block, channel 1 and 2 of each frame, 24 bits in the highest of 32; ValueError where a word is not valid."""
    samples = _Samples()
    _check_valid(_block_samples(_block_in(words), samples))
    found: BlockSamples = _out(samples)
    return found


def block_of_samples(samples: Numbers) -> BlockWords:
    """The words of the block of such samples, int32, whose lowest 8 bits don't count, with V, U and C 0."""
    words = _Words()
    _block_of_samples(_Samples(*_block_of(samples, _SAMPLES)), words)
    found: BlockWords = _out(words)
    return found


def blocks_fit(words: Numbers, form: str) -> int:
    """The number of the first word of blocks whose sample would lose bits in a form, or how many words there are.

    The form is `s32`, `s24`, `s24in32` or `s16`. Only `s16` loses bits: the lowest 8 of 24, if one of them is set. `aes3 to-pcm --exact`
    rejects the block of that word.
    """
    numbers = _numbers(words, _BLOCK)
    return _blocks_fit((c.c_uint32 * len(numbers))(*numbers), len(numbers), _sample_form(form))


def samples_fit(octets: Octets, form: str) -> int:
    """The number of the lowest octet of the first sample that has more than 24 bits, or how many octets there are.

    The octets are samples in a form, as `blocks_fit` has it, the lowest octet first. Only samples in `s32` can have more bits.
    `aes3 from-pcm --exact` rejects that sample.
    """
    owner, at, count = _octets_in(octets, "the octets of samples")
    return _samples_fit(at, count, _sample_form(form))


def _sample_form(form: str) -> int:
    if form not in _SAMPLE_FORMS:
        raise ValueError(f"form is one of {', '.join(_SAMPLE_FORMS)}, not {form!r}")
    return _SAMPLE_FORMS.index(form)


def block_status(words: Numbers, channel: int) -> bytes:
    """The channel status of channel 1 or 2 of a block; ValueError where a word is not valid."""
    return _bits_of("status", words, channel)


def block_validity(words: Numbers, channel: int) -> bytes:
    """The V bits of a channel as 24 bytes, that of frame 0 the lowest of the first; likewise."""
    return _bits_of("validity", words, channel)


def block_user(words: Numbers, channel: int) -> bytes:
    """The U bits of a channel; likewise."""
    return _bits_of("user", words, channel)


def with_status(words: Numbers, channel: int, status: Octets) -> BlockWords:
    """The words of the block with another channel status in channel 1 or 2, and the parity bits that follow."""
    return _with_bits("status", words, channel, status)


def with_validity(words: Numbers, channel: int, bits: Octets) -> BlockWords:
    """The words of the block with other V bits, 24 bytes, in a channel; likewise."""
    return _with_bits("validity", words, channel, bits)


def with_user(words: Numbers, channel: int, bits: Octets) -> BlockWords:
    """The words of the block with other U bits, 24 bytes, in a channel; likewise."""
    return _with_bits("user", words, channel, bits)


def _bits_of(name: str, words: Any, channel: Any) -> bytes:
    block, channel, bits = _block_in(words), _number(channel, "a channel", 1, 2), _Status()
    _check_valid(_bits[name, False](block, channel, bits))
    return bytes(bits)


def _with_bits(name: str, words: Any, channel: Any, bits: Any) -> BlockWords:
    block, channel = _block_in(words), _number(channel, "a channel", 1, 2)
    bits = _status_in(bits, "a channel status" if name == "status" else f"a channel's {name}")
    _check_valid(_bits[name, True](block, channel, bits))
    found: BlockWords = _out(block)
    return found


def check_byte(status: Octets) -> int:
    """The check byte of a professional channel status of 24 bytes."""
    return _check_byte(_status_in(status))


def status_text(status: Octets) -> str:
    """The use and the fields of a channel status of 24 bytes as `aes3 show` writes them."""
    text = c.create_string_buffer(800)
    count = _status_text(_status_in(status), text)
    return text.raw[1:count].decode("ascii")


def frames_between(first: int, before: int, at: int) -> int:
    """How many frames are missing between a whole block at the cell `before` and the next one, at the cell `at`, if the first is at `first`.

    `aes3 to-pcm --fill` writes that many frames, so that each block keeps its time.
    """
    first, before, at = (_number(place, "the place of a block", 0, 2**64 - 1) for place in (first, before, at))
    return _frames_between(first, before, at)


# ---- captures


def cells_of_samples(samples: Octets, bit: int = 0, unit: int = 1, period: int = 0) -> Tuple[bytes, Dict[str, int]]:
    """The packed cells of the line in a bit of samples, as `aes3-cells --packed-out` writes them, and what was found of it.

    A sample has `unit` octets, 1 or 2, the lower first; a cell is `period` 65,536ths of a sample, or is measured. What was found is a
    dict by the names of aes3.h: `measured` is 0 where no line was. The cells are then by `period` alone, if it was given, and unconfirmed.
    """
    bit, unit, period = _line_in(bit, unit, period)
    owner, at, count = _octets_in(samples, "the octets of samples")
    room, found = (c.c_uint8 * (count // 4 + 64))(), _Capture()
    if not _capture_cells(at, count, unit, bit, period, room, len(room), c.byref(found)):
        raise ValueError("the cells are more than samples can have")
    del owner
    return bytes(memoryview(room)[: found.octets]), _figures_of(found)


def _line_in(bit: Any, unit: Any, period: Any) -> Tuple[int, int, int]:
    """The bit that is the line, the octets of a sample, and the period of a cell."""
    unit = _number(unit, "the number of octets of a sample", 1, 2)
    bit = _number(bit, "the bit of a sample", 0, 8 * unit - 1)
    return bit, unit, _number(period, "the period of a cell", 0, 2**64 - 1, ", in 65,536ths of a sample")


def _figures_of(found: _Capture) -> Dict[str, int]:
    return {name: getattr(found, name) for name in FOUND}


class Mark(NamedTuple):
    """The first `cells` cells of a line are those of the first `samples` samples of its capture."""

    cells: int = 0
    samples: int = 0


def sample_between(before: Mark, after: Mark, cell: int) -> int:
    """The sample at which a cell between two marks of a capture, at most 2^32 cells apart, begins. `Mark()` is before the first cell."""
    marks = [_Mark(*(_number(it, "a number of a mark", 0, 2**64 - 1) for it in mark)) for mark in (before, after)]
    return _sample_between(c.byref(marks[0]), c.byref(marks[1]), _number(cell, "a cell", 0, 2**64 - 1))


class Recovery:
    """Recovers the cells of a line from a capture that comes in pieces.

        recovery, line = aes3.Recovery(bit=3), b""
        for samples in pieces:
            line += recovery.take(samples)
        samples, reports, status = aes3.decode(line + recovery.finish())

    The options are those of `cells_of_samples`, and the octets of all calls, one after the other, are those that it gives of all samples
    at once. A piece may have any length, and may end inside a sample of two octets.
    """

    def __init__(self, bit: int = 0, unit: int = 1, period: int = 0) -> None:
        self._bit, self._unit, period = _line_in(bit, unit, period)
        self._recovery, self._cut, self._is_ended = _Recovery(), b"", False
        _recovery_init(c.byref(self._recovery), period)

    def take(self, samples: Octets) -> bytes:
        """The octets of the cells that these samples decide, eight cells each. Until a line is found there are none."""
        if self._is_ended:
            raise ValueError("a recovery takes no samples after finish: a new Recovery takes those of another capture")
        octets, at, count = _octets_in(samples, "the octets of samples")
        if self._cut:
            at = octets = self._cut + bytes(octets)
            count += 1
        whole = count - count % self._unit
        self._cut = bytes(octets[whole:])
        if not isinstance(at, int):
            at = c.cast(c.c_char_p(at), c.c_void_p).value or 0
        taken, done = c.c_size_t(), 0

        def put_cells(room: Any, put: Any) -> bool:
            nonlocal done
            is_all = _recovery_take(
                c.byref(self._recovery), at + done, whole - done, self._unit, self._bit, c.byref(taken), room, _ROOM, c.byref(put)
            )
            done += taken.value
            if not taken.value and not is_all and put.value < _ROOM:
                raise OverflowError("the cells of one sample are more than a recovery keeps")
            return bool(is_all) and put.value < _ROOM

        return _all_put(put_cells) if whole else b""

    def finish(self) -> bytes:
        """The octets of the last cells, and the last octet, which counts the unused cells. A second call gives none."""
        self._is_ended = True

        def put_cells(room: Any, put: Any) -> bool:
            is_all = _recovery_finish(c.byref(self._recovery), room, _ROOM, c.byref(put))
            if not is_all and put.value < _ROOM:
                raise OverflowError("the last cells are more than a recovery keeps")
            return bool(is_all)

        return _all_put(put_cells)

    @property
    def mark(self) -> Optional[Mark]:
        """The mark after the cells that the samples so far decide. Before a line is found and after `finish` there is none."""
        mark = _Mark()
        return Mark(mark.cells, mark.samples) if _recovery_mark(c.byref(self._recovery), c.byref(mark)) else None

    @property
    def figures(self) -> Dict[str, int]:
        """What was found of the line in the samples so far: a dict as `cells_of_samples` gives it."""
        found = _Capture()
        _recovery_figures(c.byref(self._recovery), c.byref(found))
        return _figures_of(found)


def _all_put(put_cells: Callable[[Any, Any], bool]) -> bytes:
    """The octets that calls put, one after the other, until a call says that it put the last ones."""
    room, put = bytearray(_ROOM), c.c_size_t()
    memory = (c.c_char * _ROOM).from_buffer(room)
    pieces: List[bytearray] = []
    is_all = False
    while not is_all:
        is_all = put_cells(memory, put)
        pieces.append(room[: put.value])
    return b"".join(pieces)


# ---- the lock


class Report:
    """What is reported of a place where the preamble of a block is; the fields are those of aes3.h.

    kind     WHOLE, MARKED, FAULT or UNFINISHED
    at       the cell at which the preamble begins
    cell     of a fault the first wrong cell; of an unfinished block how many cells of it there are
    before   the level of the cell before a whole or a marked block
    wrong    of a marked block how many subframes have the wrong parity
    why      of a fault the number of its cause in WHYS
    words    the 384 words of a whole block, else None

    Fields that its kind does not name are 0. Reports are equal where all of this is. `match` takes the fields in this order:

        match report:
            case aes3.Report(aes3.WHOLE, at): ...
            case aes3.Report(kind=aes3.FAULT, cell=cell, why=why): ...
    """

    __slots__ = ("kind", "at", "cell", "before", "wrong", "why", "_block", "_words")
    __match_args__ = ("kind", "at", "cell", "before", "wrong", "why")

    kind: int
    at: int
    cell: int
    before: int
    wrong: int
    why: int
    _block: Optional[c.Array[c.c_uint32]]
    _words: Optional[BlockWords]

    def __init__(self, told: _Report, block: Optional[c.Array[c.c_uint32]] = None) -> None:
        self.at, cell, wrong, kind, before, why = _REPORT.unpack_from(told)
        self.kind, self._block, self._words = kind, block, None
        # The library leaves what a kind does not name as it was.
        is_block = kind in (WHOLE, MARKED)
        self.cell = 0 if is_block else cell
        self.before = before if is_block else 0
        self.wrong = wrong if kind == MARKED else 0
        self.why = why if kind == FAULT else 0

    @property
    def words(self) -> Optional[BlockWords]:
        """The words of a whole block, made when they are first asked for."""
        if self._words is None and self._block is not None:
            self._words = _out(self._block)
        return self._words

    def _fields(self) -> Tuple[int, ...]:
        return self.kind, self.at, self.cell, self.before, self.wrong, self.why

    def __eq__(self, other: object) -> bool:
        if not isinstance(other, Report):
            return NotImplemented
        return self._fields() == other._fields() and bytes(self._block or b"") == bytes(other._block or b"")

    def __hash__(self) -> int:
        return hash(self._fields())

    def __reduce__(self) -> Tuple[Any, ...]:
        return _report_again, (self._fields(), None if self._block is None else bytes(self._block))

    def __repr__(self) -> str:
        return f"Report({self})"

    def __str__(self) -> str:
        """Its line, as `aes3 check` writes it."""
        if self.kind == WHOLE:
            return f"whole at {self.at} before {self.before}"
        if self.kind == MARKED:
            return f"marked at {self.at} before {self.before} wrong {self.wrong}"
        if self.kind == FAULT:
            return f"fault at {self.at} cell {self.cell} {WHYS[self.why]}"
        return f"unfinished at {self.at} cells {self.cell}"


class Lock:
    """Finds the blocks in words of 64 cells, the earliest cell in bit 0."""

    def __init__(self) -> None:
        self._lock = _Lock()
        _init(c.byref(self._lock))

    def seen(self) -> int:
        """How many cells it has seen."""
        return _seen(c.byref(self._lock))

    def take(self, words: Numbers) -> List[Report]:
        """The list of the reports that these words of cells decide."""
        owner, cells = _cells_in(words)
        reports: List[Report] = []
        lock, at = c.byref(self._lock), 0
        while at < len(cells):
            at += _take_words(lock, c.byref(cells, 8 * at), len(cells) - at)
            if at < len(cells):
                reports += self.push(cells[at], 64)
                at += 1
        del owner
        return reports

    def take_octets(self, octets: Octets) -> List[Report]:
        """The list of the reports that the cells of octets decide, eight an octet, the first in its highest bit."""
        owner, memory, count = _octets_in(octets)
        reports = self._take(memory, count)
        del owner
        return reports

    def _take(self, memory: Any, count: int) -> List[Report]:
        """The same of so many octets at a place in memory."""
        reports: List[Report] = []
        told, at = _Report(), 0
        lock, to = c.byref(self._lock), c.byref(told)
        while True:
            at += _take_octets(lock, memory, count, at, to)
            kind = told.kind
            if kind == NONE:
                break
            block = None
            if kind == WHOLE:
                block = _Words()
                _block(lock, block)
            reports.append(Report(told, block))
        if at < 8 * count:
            raise OverflowError("a lock takes 2^43 cells")
        return reports

    def push(self, word: int, count: int) -> List[Report]:
        """The list of the reports that the first `count` cells of a word decide."""
        word, count = _number(word, "a word of cells", 0, 2**64 - 1), _number(count, "the number of cells of a word", 0, 64)
        reports: List[Report] = []
        while count:
            told = _Report()
            taken = _push(c.byref(self._lock), word, count, c.byref(told))
            if not taken:
                raise OverflowError("a lock takes 2^43 cells")
            word, count = word >> taken, count - taken
            if told.kind != NONE:
                reports.append(_report_of(told))
        return reports

    def finish(self) -> List[Report]:
        """The list of the one report that the end of the cells decides, or of none."""
        told = _Report()
        _finish(c.byref(self._lock), c.byref(told))
        return [] if told.kind == NONE else [_report_of(told)]


def _report_of(told: _Report) -> Report:
    """The report that a call put, with the words of a whole block."""
    return Report(told, _Words.from_buffer_copy(told.words) if told.kind == WHOLE else None)


def _report_again(fields: Tuple[int, ...], block: Optional[bytes]) -> Report:
    """A report that was copied or pickled."""
    kind, at, cell, before, wrong, why = fields
    told = _Report(kind=kind, at=at, cell=cell, before=before, wrong=wrong, why=why)
    return Report(told, None if block is None else _Words.from_buffer_copy(block))


# ---- the account


class Gap:
    """Cells in a row that lie in no whole block: the place of the first, how many, and whether it counts among the faults."""

    __slots__ = ("at", "cells", "counts")
    __match_args__ = ("at", "cells", "counts")

    def __init__(self, told: _Gap) -> None:
        self.at: int = told.at
        self.cells: int = told.cells
        self.counts = bool(told.counts)

    def __eq__(self, other: object) -> bool:
        if not isinstance(other, Gap):
            return NotImplemented
        return (self.at, self.cells, self.counts) == (other.at, other.cells, other.counts)

    def __hash__(self) -> int:
        return hash((self.at, self.cells, self.counts))

    def __repr__(self) -> str:
        return f"Gap({self})"

    def __str__(self) -> str:
        """Its line, as `aes3 check --gaps` writes it."""
        return f"gap at {self.at} cells {self.cells}"


def _told_of(report: Report) -> _Report:
    """A report as the library puts it, without the words of a block."""
    place, cell = (_number(it, "a place", 0, 2**64 - 1) for it in (report.at, report.cell))
    return _Report(at=place, cell=cell, wrong=report.wrong, kind=report.kind, before=report.before, why=report.why)


class Account:
    """Gives the gaps between the whole blocks of a lock's cells."""

    def __init__(self) -> None:
        self._account = _Account()
        _account_init(c.byref(self._account))

    def before(self, report: Report) -> List[Gap]:
        """The list of the gaps before a report. Each report of the lock goes here in turn, and is counted then."""
        if not isinstance(report, Report):
            raise TypeError(f"a gap is before a Report of a lock, not before {_named(report)}")
        told = _told_of(report)
        return self._gaps(lambda gap: _before(c.byref(self._account), c.byref(told), gap))

    def passed(self, seen: int) -> List[Gap]:
        """The list of the gaps that no cell after the `seen` ones changes. All reports on these were given."""
        seen = _number(seen, "the number of cells", 0, 2**64 - 1)
        return self._gaps(lambda gap: _passed(c.byref(self._account), seen, gap))

    def end(self, seen: int) -> List[Gap]:
        """The list of all gaps that are left at the end of the `seen` cells. All reports on them were given."""
        seen = _number(seen, "the number of cells", 0, 2**64 - 1)
        return self._gaps(lambda gap: _end(c.byref(self._account), seen, gap))

    @staticmethod
    def _gaps(put: Callable[[Any], int]) -> List[Gap]:
        gaps: List[Gap] = []
        gap = _Gap()
        while put(c.byref(gap)):
            gaps.append(Gap(gap))
        return gaps


# ---- a line that is watched


class Event:
    """What changes on a line, and where; the fields are those of aes3.h.

    kind      "locked", "lost", "back", "slipped", "status", "validity" or "end"
    at        the cell where it happens: of "lost" the first lost cell, of "end" the number of cells, else a block's first cell
    cells     of "back" how many cells were lost; of "slipped" how many cells are between the block and the one before it
    channel   of "status" and "validity" 1 or 2
    status    of "status" the new channel status, 24 octets
    validity  of "validity" "clear", "set" or "mixed"
    before    of "locked" the level of the cell before the block
    locked    of "end" whether the last whole block is followed by fewer than 24,576 cells

    Fields that its kind does not name are 0, empty or False. Events are equal where all of this is. `match` takes the first three
    fields by their place, as `case aes3.Event("slipped", at, cells): ...` does.
    """

    __slots__ = ("kind", "at", "cells", "channel", "status", "validity", "before", "locked")
    __match_args__ = ("kind", "at", "cells")

    def __init__(self, told: _Event) -> None:
        self.kind = EVENTS[told.kind - 1]
        self.at: int = told.at
        self.cells: int = told.cells
        self.channel: int = told.channel
        self.status = bytes(told.status) if self.kind == "status" else b""
        self.validity = VALIDITIES[told.validity] if self.kind == "validity" else ""
        self.before: int = told.before
        self.locked = bool(told.locked)

    def _fields(self) -> Tuple[object, ...]:
        return self.kind, self.at, self.cells, self.channel, self.status, self.validity, self.before, self.locked

    def __eq__(self, other: object) -> bool:
        if not isinstance(other, Event):
            return NotImplemented
        return self._fields() == other._fields()

    def __hash__(self) -> int:
        return hash(self._fields())

    def __repr__(self) -> str:
        return f"Event({self})"

    def __str__(self) -> str:
        """Its line, as `aes3 watch` writes it."""
        rest = {
            "locked": f" before {self.before}",
            "lost": "",
            "back": f" lost {self.cells}",
            "slipped": f" cells {self.cells}",
            "status": f" channel {self.channel} {self.status.hex()}",
            "validity": f" channel {self.channel} {self.validity}",
            "end": " locked" if self.locked else " lost",
        }
        return f"{self.kind} at {self.at}{rest[self.kind]}"


class Watch:
    """Gives the events of a line: where it locks, is lost, comes back or slips, and where its status or validity bits change."""

    def __init__(self) -> None:
        self._watch = _Watch()
        _watch_init(c.byref(self._watch))

    def report(self, report: Report) -> List[Event]:
        """The list of the events of a report. Each report of the lock goes here once, in turn."""
        if not isinstance(report, Report):
            raise TypeError(f"an event is of a Report of a lock, not of {_named(report)}")
        told = _told_of(report)
        if report._block is not None:
            told.words = report._block
        return self._events(lambda events: _watch_report(c.byref(self._watch), c.byref(told), events))

    def passed(self, seen: int) -> List[Event]:
        """The list of the loss that no cell after the `seen` ones changes, or of none. All reports on these were given."""
        seen = _number(seen, "the number of cells", 0, 2**64 - 1)
        return self._events(lambda events: _watch_passed(c.byref(self._watch), seen, events))

    def end(self, seen: int) -> List[Event]:
        """The list of the events of the end of the `seen` cells. All reports on them were given. The state is unchanged."""
        seen = _number(seen, "the number of cells", 0, 2**64 - 1)
        return self._events(lambda events: _watch_end(c.byref(self._watch), seen, events))

    @staticmethod
    def _events(put: Callable[[Any], int]) -> List[Event]:
        events = _Events()
        count = put(events)
        return [Event(events[i]) for i in range(count)]


class Sum(NamedTuple):
    """What is counted in a period of a line. Its first cell is `start`, and `stop` is the cell after its last one.

    A block is counted where it begins. A gap of 24,576 cells is counted where its last cell is, a shorter one where the whole block
    after it begins.
    """

    start: int
    stop: int
    whole: int  # whole blocks
    marked: int  # marked blocks
    fault: int  # faults of all three causes
    preamble: int  # faults of each cause
    biphase: int
    unclosed: int
    lost: int  # cells in gaps that count as faults
    invalid_first: int  # validity bits of 1 of channel 1 in whole blocks
    invalid_second: int  # those of channel 2
    changes: int  # events of another status or other validity bits

    def __str__(self) -> str:
        """Its line, as `aes3 watch --every` writes it."""
        names = "from", "to", *self._fields[2:9], "invalid1", "invalid2", "changes"
        return " ".join(["sum", *(f"{name} {number}" for name, number in zip(names, self))])


class Levels:
    """Counts the samples of each channel of whole blocks. Their levels are those that `aes3 info` prints."""

    def __init__(self) -> None:
        self._levels = _Levels()
        _levels_init(c.byref(self._levels))

    def report(self, report: Report) -> None:
        """Counts the samples of a report's block, if it is a whole one."""
        if not isinstance(report, Report):
            raise TypeError(f"levels are of a Report of a lock, not of {_named(report)}")
        if report.kind == WHOLE and report._block is not None:
            _levels_add(c.byref(self._levels), report._block)

    def blocks(self) -> int:
        """How many blocks were counted."""
        return int(self._levels.blocks)

    def greatest(self, channel: int) -> int:
        """The greatest magnitude of a sample of a channel, 1 or 2."""
        return int((self._levels.first if _number(channel, "a channel", 1, 2) == 1 else self._levels.second).peak)

    def peak(self, channel: int) -> Optional[float]:
        """The peak of a channel, 1 or 2, in decibels, as -6.0; None if all its samples are 0."""
        return self._decibels(_levels_peak(c.byref(self._levels), _number(channel, "a channel", 1, 2)))

    def rms(self, channel: int) -> Optional[float]:
        """The RMS of a channel likewise, below that of full scale in each sample."""
        return self._decibels(_levels_rms(c.byref(self._levels), _number(channel, "a channel", 1, 2)))

    @staticmethod
    def _decibels(tenths: int) -> Optional[float]:
        return None if tenths == 2**32 - 1 else 0 - tenths / 10


class Sums:
    """Gives the sums of a line by periods of `every` cells, 1 to 2**40: its first cells, the next ones, and so on."""

    def __init__(self, every: int) -> None:
        self._sums = _Sums()
        _sums_init(c.byref(self._sums), _number(every, "the number of cells of a period", 1, 2**40))

    def report(self, report: Report) -> List[Sum]:
        """The list of the sums of the periods that end before a report. Each report of the lock goes here once, in turn."""
        if not isinstance(report, Report):
            raise TypeError(f"a sum is before a Report of a lock, not before {_named(report)}")
        told = _told_of(report)
        if report._block is not None:
            told.words = report._block
        return self._told(lambda sum_: _sums_before(c.byref(self._sums), c.byref(told), sum_))

    def passed(self, seen: int) -> List[Sum]:
        """The list of the sums that no cell after the `seen` ones changes. All reports on these were given."""
        seen = _number(seen, "the number of cells", 0, 2**64 - 1)
        return self._told(lambda sum_: _sums_passed(c.byref(self._sums), seen, sum_))

    def end(self, seen: int) -> List[Sum]:
        """The list of all sums that are left at the end of the `seen` cells. All reports on them were given."""
        seen = _number(seen, "the number of cells", 0, 2**64 - 1)
        return self._told(lambda sum_: _sums_end(c.byref(self._sums), seen, sum_))

    @staticmethod
    def _told(put: Callable[[Any], int]) -> List[Sum]:
        sums: List[Sum] = []
        told = _Sum()
        while put(c.byref(told)):
            sums.append(Sum(*(getattr(told, name) for name in Sum._fields)))
        return sums
