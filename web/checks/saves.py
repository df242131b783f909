"""What the page saves, beside what the program writes."""

import os

from checks.expected import ROOT, packed, text_cells


def saved(browser, folder, button, name):
    """The bytes of what a button saves."""
    os.makedirs(f"{folder}/saved", exist_ok=True)
    browser.press_to_save(button, f"{folder}/saved")
    with open(f"{folder}/saved/{name}", "rb") as file:
        return file.read()


def compare_saves(compare, browser, program, folder):
    with open(f"{ROOT}/examples/speech.block", "rb") as file:
        line = program("encode", file.read())
    rows = line.split(b"\n")
    rows[48199] = bytes([rows[48199][0] ^ 1]) + rows[48199][1:]
    damaged = b"\n".join(rows)[12537:]
    for name, data, option in (("text", damaged, []), ("packed", packed(text_cells(damaged)), ["--packed-in"])):
        with open(f"{folder}/{name}", "wb") as file:
            file.write(data)
        browser.give(f"{folder}/{name}")
        blocks = program("decode", data, *option)
        compare.same(f"{name}: the block file", saved(browser, folder, "save-blocks", f"{name}.block") == blocks, True)
        program("to-wav", data, *option, "-o", f"{folder}/{name}.wanted")
        with open(f"{folder}/{name}.wanted", "rb") as file:
            compare.same(f"{name}: the WAV file", saved(browser, folder, "save-wav", f"{name}.wav") == file.read(), True)
        account = saved(browser, folder, "save-account", f"{name}.account.txt").decode()
        check = program("check", data, *option).decode()
        show = program("show", data, *option).decode().splitlines()
        compare.same(f"{name}: lines of the account", account.split("lines of aes3 check:\n")[1], check)
        compare.same(f"{name}: status in the account", "\n".join(show[-2:]) in account, True)
        compare.same(f"{name}: summary in the account", browser.ask("at('summary').textContent") in account, True)
        compare.same(f"{name}: its first line", account.split("\n")[0], f"file: {name}, {len(data):,} bytes, as {name}")
