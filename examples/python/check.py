#!/usr/bin/env python3
"""Cells on standard input, as text or with --packed-in, the lines of `aes3 check` on standard output, status 1 for faults."""

import argparse
import sys

import aes3

parser = argparse.ArgumentParser(description=__doc__)
parser.add_argument("--packed-in", action="store_true")
read = aes3.words_of_packed if parser.parse_args().packed_in else aes3.words_of_text
try:
    words, rest = read(sys.stdin.buffer.read())
except ValueError as error:
    sys.exit(f"check.py: {error}")
lock = aes3.Lock()
reports = lock.take(words) + lock.push(*rest) + lock.finish()
for report in reports:
    print(report)
sys.exit(any(report.kind in (aes3.MARKED, aes3.FAULT) for report in reports))
