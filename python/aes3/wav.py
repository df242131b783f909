"""WAV files: their samples, and files of samples or blocks."""

from __future__ import annotations

import array
import ctypes as c
import os
import warnings
from typing import IO, TYPE_CHECKING, Any, Iterable, List, NamedTuple, Optional, Tuple, Union

from aes3 import calls
from aes3.line import _samples_in, _wide_numpy, _wide_plain

try:
    import numpy
except ImportError:
    numpy = None  # type: ignore[assignment]

if TYPE_CHECKING:
    from aes3.calls import Numbers, Report
    from aes3.line import DecodedSamples, Samples

    # A file by its name, or one that is open in binary mode.
    File = Union[str, "os.PathLike[str]", IO[bytes]]

_UNKNOWN = 2**64 - 1
_MORE, _HEADER, _NOT_PCM = 0, 1, 6
# Why a header is rejected, by the codes of aes3.h.
_WHYS = {
    2: "this is no WAV file: it begins with none of RIFF, RF64 and BW64",
    3: "this RIFF file is no WAV file",
    4: "the chunk `ds64` is too short",
    5: "the chunk `fmt ` is too short",
    7: "the samples have no channels",
    8: "the samples have another number of bits than 8, 16, 20, 24 or 32",
    9: "the frames have another number of octets than the samples of their channels",
    10: "the samples come before their format",
}
_FORMATS = {2: "ADPCM", 3: "floating point", 6: "A-law", 7: "mu-law", 17: "ADPCM", 80: "MPEG audio", 85: "MP3"}
_EXTENSIBLE = 0xFFFE
# Lengths that programs give which write a WAV file to a pipe, as they can't know the right one yet.
_PLACEHOLDERS = range(0x7FFFF000, 0x80000000)


class Wav(NamedTuple):
    """What a WAV file has.

    samples   of two of its channels, as int32 with the highest bit of a sample in the highest of 32: an array of numpy (frames, 2), or
              without numpy an `array.array("i")` of one channel and the other in turn. `encode` takes them.
    rate      the sampling frequency in hertz
    bits      how many bits of a sample count: 8, 16, 20, 24 or 32
    channels  how many channels the file has
    """

    samples: DecodedSamples
    rate: int
    bits: int
    channels: int


# ---- a file that is read


def read_wav(file: File, channels: Optional[Tuple[int, int]] = None) -> Wav:
    """The samples of two channels of a WAV file, with its sampling frequency, as a Wav.

    file       the name of a file, or one that is open for reading in binary mode: RIFF, RF64 or BW64, of PCM samples with 8, 16, 20, 24
               or 32 bits
    channels   the numbers of two channels, from 1 on; with 0 for the second its samples are zero. Without them they are the first two,
               or the only one twice.

    ValueError where the header is wrong or the samples are not PCM, where they end inside a frame, and where a channel is not there.
    A warning where the file has fewer samples than its header says.
    """
    octets = _octets_of(file)
    header = _header_of(octets)
    first, second = _channels_of(channels, header.channels)
    frame = header.channels * header.octets
    count = min(header.len, len(octets) - header.start)
    if count % frame:
        raise ValueError(f"octet {header.start + count}: the samples end inside a frame of {frame:,} octets")
    if header.len not in (count, _UNKNOWN) and header.len not in _PLACEHOLDERS:
        warnings.warn(f"the file is cut short: {header.len - count:,} octets of samples are missing", stacklevel=2)
    samples: Any
    if numpy is not None:
        samples = numpy.empty((count // frame, 2), numpy.int32)
        to = samples.ctypes.data
    else:
        samples = array.array("i", bytes(8 * (count // frame)))
        to = samples.buffer_info()[0]
    at = (c.cast(c.c_char_p(octets), c.c_void_p).value or 0) + header.start
    calls._wav_samples(c.byref(header), first, second, at, count, to, 2 * (count // frame))
    found: DecodedSamples = samples
    return Wav(found, header.rate, header.bits, header.channels)


def _octets_of(file: Any) -> bytes:
    """All octets of a file."""
    if isinstance(file, (bytes, bytearray, memoryview)):
        raise TypeError(f"a WAV file is a name or an open file, not {calls._named(file)}: io.BytesIO makes a file of octets")
    if hasattr(file, "read"):
        octets = file.read()
    else:
        with open(_name_of(file), "rb") as opened:
            octets = opened.read()
    if not isinstance(octets, (bytes, bytearray, memoryview)):
        raise TypeError(f"a WAV file is read in binary mode: read() gave {calls._named(octets)}")
    return bytes(octets)


def _name_of(file: Any) -> str:
    try:
        name = os.fspath(file)
    except TypeError:
        name = None
    if not isinstance(name, str):
        raise TypeError(f"a WAV file is a name, or a file that is open in binary mode, not {calls._named(file)}")
    return name


def _header_of(octets: bytes) -> calls._Wav:
    header, at = calls._Wav(), c.c_uint64()
    answer = calls._wav_read(octets, len(octets), c.byref(header), c.byref(at))
    if answer == _MORE:
        raise ValueError(f"octet {len(octets)}: the file ends before its samples")
    if answer != _HEADER:
        why = _format_of(octets, at.value) if answer == _NOT_PCM else _WHYS[answer]
        raise ValueError(f"octet {at.value}: {why}")
    return header


def _format_of(octets: bytes, at: int) -> str:
    """What the number at an octet says of samples that are not PCM; an extensible format has its own number in its GUID."""
    number = int.from_bytes(octets[at : at + 2], "little")
    if number == _EXTENSIBLE:
        number = int.from_bytes(octets[at + 24 : at + 26], "little")
    return f"the samples are {_FORMATS.get(number, 'of another kind')}, format {number}, and not PCM"


def _channels_of(channels: Any, count: int) -> Tuple[int, int]:
    """The numbers of the two channels of a file of so many."""
    if channels is None:
        return 1, min(2, count)
    try:
        first, second = channels
    except (TypeError, ValueError):
        raise TypeError(f"channels are the numbers of two channels, from 1 on, not {channels!r}") from None
    first = calls._number(first, "the first channel", 1, 2**16 - 1)
    second = calls._number(second, "the second channel", 0, 2**16 - 1)
    if max(first, second) > count:
        raise ValueError(f"the file has {count:,} {'channel' if count == 1 else 'channels'}, and no channel {max(first, second):,}")
    return first, second


# ---- a file that is written


def write_wav(
    file: File,
    samples: Union[Samples, Iterable[Union[Report, Numbers]]],
    rate: int = 48000,
    *,
    bits: int = 24,
    channels: Optional[int] = None,
) -> None:
    """Writes a WAV file of two channels, as `aes3 to-wav -o` does: from 4 GiB on it is RF64.

    file       the name of a file, or one that is open for writing in binary mode
    samples    an array of samples as `encode` takes it: int32 with the highest bit of a sample in the highest of 32, int16, or floats
               with full scale at 1. The shape is (frames, 2), or one row with `channels` as in `encode`. Or a list or an iterator of
               blocks: Reports, of which those of whole blocks count, or 384 words each.
    rate       the sampling frequency in hertz
    bits       how many bits a sample has in the file: 16, 24 or 32. The lower ones of each are left out.
    """
    rate = calls._number(rate, "the sampling frequency", 0, 2**32 - 1, " hertz")
    bits = calls._number(bits, "the number of bits of a sample", 16, 32, ": 16, 24 or 32")
    header = (c.c_uint8 * 104)()
    octets = _narrow(_wide(samples, channels), bits)
    length = calls._wav_write(bits, rate, 4 * len(octets) // bits, header)
    if length == 0:
        raise ValueError(f"a sample of a WAV file has 16, 24 or 32 bits, not {bits}")
    if hasattr(file, "write"):
        _write(file, bytes(header)[:length], octets)
    else:
        with open(_name_of(file), "wb") as opened:
            _write(opened, bytes(header)[:length], octets)


def _write(file: Any, header: bytes, octets: bytes) -> None:
    for part in header, octets:
        try:
            file.write(part)
        except TypeError:
            raise TypeError(f"a WAV file is written in binary mode, not to {calls._named(file)}") from None


def _wide(samples: Any, channels: Optional[int]) -> Any:
    """The samples as int32, those of two channels in turn."""
    if _is_array(samples):
        wide = _wide_numpy if numpy is not None else _wide_plain
        try:
            return wide(samples, None, channels, 1)
        except TypeError:
            raise TypeError(
                "samples are an array of int16 or int32, or of float32 or float64 from -1 to 1, of shape (frames, 2), or one row with "
                f"channels=1 or 2; or a list of blocks: not {calls._named(samples)}"
            ) from None
    if channels is not None:
        raise ValueError("channels is for an array of samples: a block has two")
    return _samples_in(_blocks_in(samples))


def _is_array(samples: Any) -> bool:
    """Whether they are samples, or what is no blocks either."""
    is_memory = calls._memory(samples) is not None or hasattr(samples, "dtype")
    return is_memory or isinstance(samples, str) or not hasattr(samples, "__iter__")


def _blocks_in(given: Any) -> List[c.Array[c.c_uint32]]:
    """The blocks of Reports, of those that are of whole ones, and of words."""
    blocks: List[c.Array[c.c_uint32]] = []
    for it in given:
        if not isinstance(it, calls.Report):
            blocks.append(calls._block_in(it))
        elif it._block is not None:
            blocks.append(it._block)
    return blocks


def _narrow(wide: Any, bits: int) -> bytes:
    """The highest bits of samples of 32, the lowest octet of each first."""
    octets = wide.tobytes()
    if bits == 32:
        return bytes(octets)
    count = bits // 8
    if numpy is not None:
        return numpy.frombuffer(octets, numpy.uint8).reshape(-1, 4)[:, 4 - count :].tobytes()
    narrow = bytearray(len(octets) // 4 * count)
    for i in range(count):
        narrow[i::count] = octets[4 - count + i :: 4]
    return bytes(narrow)
