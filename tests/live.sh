#!/bin/sh
# tests/live.sh PROGRAM [SECONDS]: a 48 kHz line as it comes, 6,144,000 cells a second, through a pipe, as text and packed.
#
# `check` reads it, and for each report this prints how long its line comes behind the write of the cells in which the one
# that decides it stands: the median, the 99th of 100 and the longest delay, in milliseconds. Cells are written each
# millisecond. The status is 0 where each report comes within 50 ms, in order and none is missing. It takes twice SECONDS, 3
# where none are given, and is no part of tests/all.sh. A machine that is busy with other work shows its own delays here.

root=$(dirname "$(dirname "$(realpath "$0")")")
# shellcheck source=examples/words.sh
. "$root/examples/words.sh"
take_words 1 2 "$@"
program=$(realpath "$1") || exit 2
exec python3 - "$program" "${2:-3}" <<'PYTHON'
import subprocess
import sys
import threading
import time

program, seconds = sys.argv[1], float(sys.argv[2])
BLOCK = 24576  # cells of a block
RATE = 128 * 48_000  # cells a second
STEP = RATE // 1000  # cells a millisecond
MOST = 0.050  # seconds

SLOTS = "1100" * 14
SUBFRAMES = ["11101000" + SLOTS] + [("11100100", "11100010")[k % 2] + SLOTS for k in range(383)]
ZERO = "".join(SUBFRAMES)
assert len(ZERO) == BLOCK


def pieces(form):
    """What is written each millisecond, over and over: blocks of zeros, the same place of a block again after four of them."""
    cells = ZERO * 16
    for at in range(0, len(cells), STEP):
        part = cells[at : at + STEP]
        if form == "text":
            yield "".join(part[k : k + 64] + "\n" for k in range(0, STEP, 64)).encode()
        else:
            yield int(part, 2).to_bytes(STEP // 8, "big")


def run(form):
    words = [program, "check"] + ["--packed-in"] * (form == "packed")
    child = subprocess.Popen(words, stdin=subprocess.PIPE, stdout=subprocess.PIPE, bufsize=0)
    came = []

    def hear():
        rest = b""
        while read := child.stdout.read(65536):
            now = time.monotonic()
            *lines, rest = (rest + read).split(b"\n")
            came.extend((now, line) for line in lines)

    reader = threading.Thread(target=hear)
    reader.start()
    parts = list(pieces(form))
    written = []
    start = time.monotonic()
    for step in range(int(seconds * 1000)):
        wait = start + step / 1000 - time.monotonic()
        if wait > 0:
            time.sleep(wait)
        written.append(time.monotonic())
        child.stdin.write(parts[step % len(parts)])
    late = time.monotonic() - start - seconds
    blocks = (len(written) * STEP - 1 - 16) // BLOCK  # those that a later cell closes; packed cells wait for two octets more
    time.sleep(2 * MOST)
    heard = list(came)
    child.stdin.write(b"\0" * (form == "packed"))
    child.stdin.close()
    reader.join()
    child.wait()
    delays = []
    for number, (now, line) in enumerate(heard):
        assert line.split()[:3] == [b"whole", b"at", str(number * BLOCK).encode()], line
        delays.append(now - written[(number + 1) * BLOCK // STEP])
    delays.sort()
    if len(delays) < blocks:
        print(f"{form}: {blocks - len(delays)} of {blocks} reports did not come")
        return False
    middle, near, most = (1000 * delays[min(len(delays) - 1, int(len(delays) * part))] for part in (0.5, 0.99, 1))
    print(f"{form}: {len(delays)} reports, median {middle:.1f} ms, 99 of 100 within {near:.1f} ms, longest {most:.1f} ms; writer {1000 * late:.1f} ms late")
    return most <= 1000 * MOST


held = [run(form) for form in ("text", "packed")]
sys.exit(0 if all(held) else 1)
PYTHON
