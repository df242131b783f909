"""Each call of the module beside the same call of the native library."""

import ctypes
import json
import os
import random
import shutil
import subprocess

from checks.expected import ROOT

CALLS = """(blocks, statuses) => {
    const codec = page.codec, told = [];
    const { status, text, cells, buffer } = codec;
    const octets = (from, count) => [...codec.bytes.slice(from, from + count)];
    for (const words of blocks) {
        new Uint32Array(codec.view.buffer, codec.block, 384).set(words);
        for (const channel of [1, 2]) {
            codec.bytes.fill(0, cells, cells + 3072);
            const answer = codec.call("encode_block", BigInt(codec.block), channel - 1, BigInt(cells));
            told.push([answer, octets(cells, 3072)]);
            codec.bytes.fill(0, status, status + 24);
            told.push([codec.call("block_status", BigInt(codec.block), channel, BigInt(status)), octets(status, 24)]);
        }
    }
    for (const given of statuses) {
        codec.bytes.fill(0, text, text + 64);
        codec.bytes.set(given, status);
        told.push([codec.call("status_professional", BigInt(status), BigInt(text)), octets(text, 30)]);
        codec.bytes.fill(0, text, text + 64);
        told.push([codec.call("status_consumer", BigInt(status), BigInt(text)), octets(text, 33)]);
        const length = codec.call("status_text", BigInt(status), BigInt(text));
        told.push([length, octets(text, length)]);
        told.push([codec.call("status_check_byte", BigInt(status)), codec.call("status_check_state", BigInt(status))]);
        codec.bytes.set(given.slice(0, 8), buffer);
        const word = codec.call("word_of_octets", BigInt(buffer));
        codec.call("line_of_word", word, BigInt(buffer));
        told.push([BigInt.asUintN(64, word).toString(), octets(buffer, 65)]);
        told.push([codec.call("word_of_text", BigInt(buffer), BigInt(cells)), octets(cells, 8)]);
        codec.call("octets_of_word", word, BigInt(buffer));
        told.push(octets(buffer, 8));
        codec.bytes.fill(given[0], buffer, buffer + 64);
        told.push(codec.call("word_of_text", BigInt(buffer), BigInt(cells)));
    }
    return told;
}"""


def native_calls(library, blocks, statuses):
    """What the same calls of the native library answer, in the same order."""
    c = ctypes
    library.aes3_word_of_octets.restype = c.c_uint64
    library.aes3_word_of_text.restype = library.aes3_status_professional.restype = c.c_bool
    library.aes3_status_consumer.restype = c.c_bool
    library.aes3_status_check_byte.restype = library.aes3_status_check_state.restype = c.c_uint8
    library.aes3_encode_block.restype = library.aes3_block_status.restype = library.aes3_status_text.restype = c.c_uint32
    told = []
    for words in blocks:
        words = (c.c_uint32 * 384)(*words)
        for channel in (1, 2):
            cells, status = (c.c_uint8 * 3072)(), (c.c_uint8 * 24)()
            answer = library.aes3_encode_block(words, c.c_uint8(channel - 1), c.cast(cells, c.POINTER(c.c_uint64)))
            told.append([answer, list(cells)])
            told.append([library.aes3_block_status(words, c.c_uint8(channel), status), list(status)])
    for given in statuses:
        status, fields = (c.c_uint8 * 24)(*given), (c.c_uint8 * 64)()
        told.append([library.aes3_status_professional(status, fields), list(fields)[:30]])
        fields = (c.c_uint8 * 64)()
        told.append([library.aes3_status_consumer(status, fields), list(fields)[:33]])
        text = (c.c_uint8 * 800)()
        length = library.aes3_status_text(status, text)
        told.append([length, list(text)[:length]])
        told.append([library.aes3_status_check_byte(status), library.aes3_status_check_state(status)])
        line, cells = (c.c_uint8 * 65)(), (c.c_uint64 * 1)()
        word = library.aes3_word_of_octets((c.c_uint8 * 8)(*given[:8]))
        library.aes3_line_of_word(c.c_uint64(word), line)
        told.append([str(word), list(line)])
        told.append([library.aes3_word_of_text(line, cells), list(bytes(cells))])
        library.aes3_octets_of_word(c.c_uint64(word), line)
        told.append(list(line)[:8])
        told.append(library.aes3_word_of_text((c.c_uint8 * 64)(*[given[0]] * 64), cells))
    return told


def compare_calls(compare, browser, folder, archive):
    """Whether the calls were compared: the fourteen but those of the lock, which the page's own lines are."""
    compiler = shutil.which("cc")
    if not compiler or not os.path.isfile(archive):
        print(f"left out: the calls beside the native library ({'no C compiler' if not compiler else f'no {archive}'})")
        return False
    shared = f"{folder}/libaes3.so"
    whole = ["-Wl,--whole-archive", archive, "-Wl,--no-whole-archive"]
    subprocess.run([compiler, "-shared", "-o", shared, *whole], check=True)
    with open(f"{ROOT}/examples/speech.block", "rb") as file:
        speech = file.read()
    words = [int.from_bytes(speech[i:i + 4], "little") for i in range(0, len(speech), 4)]
    blocks = [words[384 * i:384 * (i + 1)] for i in (0, 60, 125, 249)]
    blocks += [words[:7] + [wrong] + words[8:384] for wrong in (1, 1 << 31)] + [words[:383] + [16]]
    number = random.Random(3)
    statuses = [[4, 0, 0, 2, 11] + [0] * 19, [0x85, 2, 0x2c] + [0] * 21, [0] * 24, [255] * 24, [48] * 24, [49] * 24]
    statuses += [[number.randrange(256) for _ in range(24)] for _ in range(200)]
    told = browser.ask(f"({CALLS})({json.dumps(blocks)}, {json.dumps(statuses)})")
    wanted = native_calls(ctypes.CDLL(shared), blocks, statuses)
    compare.same("how many calls", len(told), len(wanted))
    for i, (one, other) in enumerate(zip(told, wanted)):
        normal = lambda it: [int(it[0])] + it[1:] if isinstance(it, list) and isinstance(it[0], bool) else it
        compare.same(f"call {i}", normal(one), normal(other if not isinstance(other, bool) else int(other)))
    print(f"same: {len(told)} calls of the module and of {os.path.relpath(archive, ROOT)}")
    return True
