"""AES3 / IEC 60958 lines: samples to a line and back, its blocks and faults, its channel status, and captures of it.

    import aes3

    line = aes3.encode(samples, rate=48000)          # an array of samples, (frames, 2), to the octets of a line
    samples, reports, status = aes3.decode(line)     # and back, with what was found in it
    wav = aes3.read_wav("sound.wav")                 # such samples, of a WAV file, with their rate
    aes3.write_wav("line.wav", samples, 48000)       # and a WAV file of them

The module is over the shared library libaes3.so.1. It takes the file that AES3_LIB names, or else the one that a wheel brought,
that the system has, or that this Python's prefix has (`bin/install` of the sources puts it there).

Whole numbers come as any sequence, or without a copy as an array of numpy. Where numpy is there, arrays are given back: of uint64
for words of cells, uint32 for a block's words and int32 for samples. Otherwise they are lists, and `decode` gives an array of
`array`. What is of another type is a TypeError, and a number out of range, or the wrong number of them, a ValueError.

A line that never ends goes to a `Lock`, piece by piece:

    lock = aes3.Lock()
    for octets in pieces:
        for report in lock.take_octets(octets):
            print(report)

The samples of a logic analyser go to a `Recovery` likewise, which gives the cells of the line in them.
"""

from aes3.calls import (
    EVENTS, FAULT, FOUND, MARKED, NONE, UNFINISHED, VALIDITIES, WHOLE, WHYS, Account, Event, Gap, Levels, Lock, Mark, Recovery, Report, Sum,
    Sums, Watch, block_of_samples, block_samples, block_status, block_user, block_validity, blocks_fit, cells_of_samples, check_byte, encode_block,
    frames_between, library_version, reverse_octets, sample_between, samples_fit, status_text, with_status, with_user, with_validity,
    words_of_packed, words_of_text,
)
from aes3.line import Decoded, decode, encode
from aes3.status import Status
from aes3.wav import Wav, read_wav, write_wav

VERSION = "0.1.0"  # of the program aes3 and of aes3.h
__version__ = VERSION

__all__ = [
    "EVENTS", "FAULT", "FOUND", "MARKED", "NONE", "UNFINISHED", "VALIDITIES", "VERSION", "WHOLE", "WHYS", "Account", "Decoded", "Event",
    "Gap", "Levels", "Lock", "Mark", "Recovery", "Report", "Status", "Sum", "Sums", "Watch", "Wav", "block_of_samples", "block_samples", "block_status",
    "block_user", "block_validity", "blocks_fit", "cells_of_samples", "check_byte", "decode", "encode", "encode_block", "frames_between",
    "library_version", "read_wav", "reverse_octets", "sample_between", "samples_fit", "status_text", "with_status", "with_user",
    "with_validity", "words_of_packed", "words_of_text", "write_wav",
]
