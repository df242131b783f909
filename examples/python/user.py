#!/usr/bin/env python3
"""The block file on standard input, with the octets of FILE as the U bits of channel 1, 24 octets a block, and zeros
behind their end. So a WAV goes out as a line with a stream of user bits beside it:

    sox SOUND.wav -t s32 - | aes3 from-pcm | python3 user.py FILE | aes3 encode --packed-out > LINE

`aes3 to-bits user 1` gives the octets back."""

import argparse
import struct
import sys

import aes3

BLOCK = struct.Struct("<384I")  # each word lowest byte first

parser = argparse.ArgumentParser(description=__doc__, formatter_class=argparse.RawDescriptionHelpFormatter)
parser.add_argument("file", metavar="FILE", type=argparse.FileType("rb"))
with parser.parse_args().file as user:
    while block := sys.stdin.buffer.read(BLOCK.size):
        if len(block) < BLOCK.size:
            sys.exit("user.py: the input ends within a block of 1,536 bytes")
        octets = user.read(24).ljust(24, b"\0")
        sys.stdout.buffer.write(BLOCK.pack(*aes3.with_user(BLOCK.unpack(block), 1, octets)))
