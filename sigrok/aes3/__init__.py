'''
AES3 and IEC 60958 (AES/EBU, S/PDIF) carry two channels of audio, with a
status of each channel, on one line.

This decoder recovers the cells of the line from the samples, through jitter
and drift, with four samples a cell or more. It finds every whole block, says
of every other one which cell is wrong and why, and shows the audio samples,
the V, U, C and P bits and the channel status in words.

It needs numpy and the library libaes3.so.1.
'''

from .pd import Decoder
