"""What is expected of the page: the lines that it is given, what the program tells of them, and the count of what is the same."""

import os
import random
import re
import subprocess

ROOT = os.path.dirname(os.path.dirname(os.path.dirname(os.path.realpath(__file__))))


def text_cells(data):
    return re.sub(rb"[\n\r ]", b"", data).translate(bytes.maketrans(b"01", b"\0\1"))


def packed(cells):
    """Cells packed, eight an octet, and the octet that counts the unused ones."""
    unused = -len(cells) % 8
    cells = bytes(cells) + bytes(unused)
    octets = bytes(sum(cell << 7 - i for i, cell in enumerate(cells[at:at + 8])) for at in range(0, len(cells), 8))
    return octets + bytes([unused])


class Program:
    def __init__(self, path):
        self.path = path

    def __call__(self, command, data, *options):
        ran = subprocess.run([self.path, command, *options], input=data, stdout=subprocess.PIPE, stderr=subprocess.DEVNULL)
        return ran.stdout


def inputs(program):
    """Each input as its name, its bytes, and its form."""
    with open(f"{ROOT}/examples/speech.block", "rb") as file:
        speech = file.read()
    line = program("encode", speech)
    rows = line.split(b"\n")
    turned = lambda cell: rows[48199][:cell] + bytes([rows[48199][cell] ^ 1]) + rows[48199][cell + 1:]
    damaged = b"\n".join(rows[:48199] + [turned(0)] + rows[48200:])[12537:]
    professional = "85022c0000004a4154480000000000000000000000000000"
    some = program("rewrite", b"\n".join(rows[:384 * 20]), "--status1", professional, "--mend-check")
    some += program("rewrite", b"\n".join(rows[:384 * 3]), "--status1", "83" * 24, "--status2", "f" * 48)
    some += program("rewrite", b"\n".join(rows[:384 * 2]), "--status1", "5a" * 24, "--status2", "06" + "a5" * 23)
    marked = rows[:1152]
    marked[1151] = marked[1151][:63] + bytes([marked[1151][63] ^ 1])
    noise = random.Random(60958)
    noisy = bytes(noise.choice(b"01") for _ in range(150_000))
    yield "line", line, "text"
    yield "damaged", damaged, "text"
    yield "one cell lost", b"\n".join(rows[:48199] + [rows[48199][1:]] + rows[48200:]), "text"
    yield "unclosed", b"\n".join(rows[:48000] + [bytes([rows[48000][0] ^ 1]) + rows[48000][1:]] + rows[48001:]), "text"
    odd = rows[500][:20] + bytes([rows[500][20] ^ 1]) + rows[500][21:]
    yield "biphase", b"\n".join(rows[:500] + [odd] + rows[501:900]), "text"
    yield "other polarity, cut", line[:3_200_000].translate(bytes.maketrans(b"01", b"10")), "text"
    yield "marked", b"\n".join(marked), "text"
    yield "statuses", some, "text"
    yield "spaces", b" 0\r\n".join(rows[:2000]), "text"
    yield "noise", noisy, "text"
    yield "noise behind a block", b"\n".join(rows[:400]) + noisy, "text"
    yield "zero", program("encode", bytes(1536)), "text"
    yield "dead", b"0" * 100_000, "text"
    yield "empty", b"", "text"
    yield "line, packed", program("encode", speech, "--packed-out"), "packed"
    for cut in (0, 3, 8):
        cells = text_cells(damaged)
        yield f"damaged, packed, {cut} cells fewer", packed(cells[:len(cells) - cut]), "packed"
    # Of the size of a piece of the page, so that its last octet stands alone, with and without unused cells.
    cells = text_cells(damaged) * 2
    yield "a piece, packed", packed(cells[:8 << 20]), "packed"
    yield "a piece but three cells, packed", packed(cells[:(8 << 20) - 3]), "packed"


class Compared:
    def __init__(self):
        self.passed = self.failed = 0

    def same(self, what, shown, wanted):
        if shown == wanted:
            self.passed += 1
        else:
            print(f"NOT the same: {what}\n  shown:  {str(shown)[:300]}\n  wanted: {str(wanted)[:300]}")
            self.failed += 1

    def result(self):
        print(f"{self.passed} passed, {self.failed} failed")
        return self.failed > 0
