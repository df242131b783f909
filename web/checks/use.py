"""The page in use: by keys alone, by a screen reader, on a narrow screen, in the dark, and with times by the right frequency."""

from checks.expected import ROOT
from checks.lines import SHOWN

KEYS = {"ArrowLeft": 37, "ArrowRight": 39, "PageUp": 33, "PageDown": 34, "Home": 36, "End": 35}


def open_example(browser):
    browser.ask("document.body.dataset.state = 'given'; page.open(exampleFile(page.codec))")
    browser.wait("shown", "failed")


def press(browser, key):
    for kind in ("keyDown", "keyUp"):
        browser.send("Input.dispatchKeyEvent", type=kind, key=key, code=key, windowsVirtualKeyCode=KEYS[key])
    browser.ask("new Promise(done => setTimeout(done, 20))")


def compare_keys(compare, browser):
    """The strip and the wave by keys; what the strip says of the place."""
    open_example(browser)
    browser.ask("at('strip').focus()")
    total, shown = 110535, browser.ask("page.shown()")
    last = total - shown
    for key, first in (("Home", 0), ("ArrowRight", 24576), ("ArrowRight", 49152), ("ArrowLeft", 24576), ("PageUp", 49152),
                       ("PageDown", 24576), ("End", last)):
        press(browser, key)
        compare.same(f"the strip, {key}", browser.ask("page.first"), first)
    compare.same("what the strip says", browser.ask("at('strip').getAttribute('aria-valuetext')"),
                 f"cell {last:,} of {total:,}: whole at 85959 before 0")
    compare.same("its number", browser.ask("Number(at('strip').getAttribute('aria-valuenow'))"), last)
    browser.ask("at('wave').focus()")
    for key, first in (("Home", 0), ("ArrowRight", 8), ("PageDown", 8 + shown), ("ArrowLeft", shown), ("PageUp", 0), ("End", last)):
        press(browser, key)
        compare.same(f"the wave, {key}", browser.ask("page.first"), first)


def compare_names(compare, browser):
    """Each thing that takes a key or shows a picture has a name for a screen reader, and the levels are told in words."""
    open_example(browser)
    tree = browser.send("Accessibility.getFullAXTree")["nodes"]
    roles = ("button", "slider", "combobox", "spinbutton", "image", "img", "progressbar", "region", "link", "textbox")
    seen = [(it["role"]["value"], it.get("name", {}).get("value", "")) for it in tree if it.get("role") and not it["ignored"]]
    nameless = [role for role, name in seen if role in roles and not name]
    compare.same("things without a name", nameless, [])
    compare.same("how many have one", sum(role in roles for role, _ in seen) > 20, True)
    compare.same("the strip has a name", ("slider", "place in the whole input") in seen, True)
    described = [it.get("description", {}).get("value", "") for it in tree if it.get("name", {}).get("value") == "the levels of some cells"]
    compare.same("the wave is told in words", "Fault: fault at 36807 cell 49543 preamble." in described[0], True)
    browser.ask("page.levels(12231)")
    browser.ask("new Promise(done => setTimeout(done, 50))")
    wanted = "Cell 12,231: channel 1, frame 0, preamble Z, sample -0.007532716 (ff092b), V U C P 0 0 0 0."
    compare.same("a subframe in words", browser.ask(SHOWN)["seen"][0], wanted)


# Of each text that is shown its contrast with what lies behind it, the least first.
CONTRASTS = """(() => {
    const light = text => {
        const [r, g, b] = text.match(/[\\d.]+/g).map(Number).map(it => it / 255).map(it => it <= 0.03928 ? it / 12.92 : ((it + 0.055) / 1.055) ** 2.4);
        return 0.2126 * r + 0.7152 * g + 0.0722 * b;
    };
    const ground = node => {
        for (let it = node; it; it = it.parentElement) {
            const { backgroundColor } = getComputedStyle(it);
            if (!/, 0\\)$|transparent/.test(backgroundColor)) {
                return backgroundColor;
            }
        }
    };
    const found = [];
    for (const node of document.querySelectorAll("h1, h2, p, td, th, caption, li, label, summary, footer, code, .time")) {
        if (node.textContent.trim() && node.getClientRects().length > 0) {
            const [one, other] = [light(getComputedStyle(node).color), light(ground(node))].sort((a, b) => b - a);
            found.push([Math.round((one + 0.05) / (other + 0.05) * 100) / 100, node.textContent.slice(0, 30)]);
        }
    }
    return found.sort(([one], [other]) => one - other).slice(0, 3);
})()"""


def compare_colours(compare, browser):
    """Light or dark as the system wishes, and to be read in both: 4.5 to 1 at least."""
    open_example(browser)
    for scheme, ground in (("light", "rgb(255, 255, 255)"), ("dark", "rgb(20, 23, 26)")):
        browser.send("Emulation.setEmulatedMedia", features=[{"name": "prefers-color-scheme", "value": scheme}])
        compare.same(f"{scheme}: ground", browser.ask("getComputedStyle(document.body).backgroundColor"), ground)
        least, text = browser.ask(CONTRASTS)[0]
        compare.same(f"{scheme}: contrast {least} of {text!r}", least >= 4.5, True)
        corner = "[...at('strip').getContext('2d').getImageData(2, 2, 1, 1).data].slice(0, 3).join(', ')"
        browser.ask("new Promise(done => setTimeout(done, 50))")
        compare.same(f"{scheme}: the strip is drawn in it", f"rgb({browser.ask(corner)})", ground)
    browser.send("Emulation.setEmulatedMedia", features=[])


# The words that are broken over two lines, but for long rows of digits, which may break between eight of them.
BROKEN = """(() => {
    const broken = [];
    const walk = document.createTreeWalker(document.body, NodeFilter.SHOW_TEXT);
    for (let node = walk.nextNode(); node; node = walk.nextNode()) {
        for (const { 0: word, index } of node.textContent.matchAll(/[^\\s\\/-]+/g)) {
            const range = document.createRange();
            range.setStart(node, index);
            range.setEnd(node, index + word.length);
            const tops = new Set([...range.getClientRects()].map(({ top }) => Math.round(top)));
            if (tops.size > 1 && !node.parentElement.closest("script, style, details")) {
                broken.push(word);
            }
        }
    }
    return broken;
})()"""


# Texts of the levels that lie over each other, but for the lines of faults, which have a row each.
CROSSED = """(() => {
    const boxes = [...at("wave").querySelectorAll("text:not(.fault)")].filter(it => it.textContent).map(it => [it.getBBox(), it.textContent]);
    return boxes.flatMap(([one, text], i) => boxes.slice(i + 1).filter(([other]) => one.x < other.x + other.width - 1
        && other.x < one.x + one.width - 1 && one.y < other.y + other.height - 4 && other.y < one.y + one.height - 4)
        .map(([, other]) => `${text} and ${other}`));
})()"""


def compare_narrow(compare, browser):
    """On a narrow screen nothing is wider than it, and no word is broken; where the fault is stays in view."""
    open_example(browser)
    for width in (320, 390, 640, 1240):
        browser.send("Emulation.setDeviceMetricsOverride", width=width, height=800, deviceScaleFactor=1, mobile=width < 640)
        browser.ask("new Promise(done => setTimeout(done, 100))")
        compare.same(f"{width} wide", browser.ask("document.documentElement.scrollWidth <= innerWidth"), True)
        compare.same(f"{width} wide: broken words", browser.ask(BROKEN), [])
        compare.same(f"{width} wide: texts of the levels over each other", browser.ask(CROSSED), [])
        browser.ask("page.levels(49540)")
        browser.ask("new Promise(done => setTimeout(done, 50))")
        compare.same(f"{width} wide: three cells of a subframe", browser.ask(CROSSED), [])
        compare.same(f"{width} wide: the fault is in view", browser.ask("page.first <= 49543 && 49543 < page.first + page.count"), True)
    browser.send("Emulation.clearDeviceMetricsOverride")
    browser.ask("new Promise(done => setTimeout(done, 100))")


def compare_rates(compare, browser, program, folder):
    """Times by the channel status, by the menu, and by the usual frequency where the status says none."""
    with open(f"{ROOT}/examples/speech.block", "rb") as file:
        line = program("encode", file.read(1536 * 10))
    cases = [("consumer, 96000", ["--set1", "rate=96000"], 96000, "by its channel status"),
             ("consumer, none", ["--set1", "rate=not-indicated"], 48000, "because its channel status names none"),
             ("professional, 44100", ["--status1", "41" + "00" * 23], 44100, "by its channel status"),
             ("consumer, payload", ["--set1", "payload=other"], 48000, "by its channel status"),
             ("professional, none", ["--status1", "01" + "00" * 23], 48000, "because its channel status names none")]
    for name, options, hertz, by in cases:
        with open(f"{folder}/{name}", "wb") as file:
            file.write(program("rewrite", line, *options))
        browser.give(f"{folder}/{name}")
        shown = browser.ask(SHOWN)
        compare.same(f"{name}: rate", shown["rate"], f"Times are counted from the first cell, at {hertz:,} Hz, {by}.")
        compare.same(f"{name}: PCM", browser.ask("at('no-pcm').hidden"), "payload" not in name)
        compare.same(f"{name}: time", f"({1920 / hertz:.6f} s)" in shown["summary"], True)
    browser.ask("at('rate').value = '192000'; at('rate').dispatchEvent(new Event('change'))")
    shown = browser.ask(SHOWN)
    compare.same("chosen: rate", shown["rate"], "Times are counted from the first cell, at 192,000 Hz, as chosen.")
    compare.same("chosen: time", "(0.010000 s)" in shown["summary"], True)
    browser.ask("at('rate').value = 'status'; at('rate').dispatchEvent(new Event('change'))")


def compare_more(compare, browser, program, folder):
    """The button below the table shows 20 faults more."""
    with open(f"{ROOT}/examples/speech.block", "rb") as file:
        rows = program("encode", file.read(1536 * 120)).split(b"\n")
    for row in range(700, len(rows) - 1, 1536):
        rows[row] = bytes([rows[row][0] ^ 1]) + rows[row][1:]
    with open(f"{folder}/many faults", "wb") as file:
        file.write(b"\n".join(rows))
    browser.give(f"{folder}/many faults")
    faults = "[...at('rows').tBodies[0].rows].filter(row => row.cells[1].className === 'fault').length"
    compare.same("faults at first", browser.ask(faults), 20)
    compare.same("and a count", browser.ask("at('left').textContent"), ".. and 31 more rows, with 10 faults. ")
    browser.ask("at('more').click()")
    compare.same("faults then", (browser.ask(faults), browser.ask("at('more').hidden")), (30, True))


def compare_turns(compare, browser, program, folder):
    """A file that is opened while another is read is read as if alone, also where a piece of that one comes late."""
    with open(f"{ROOT}/examples/speech.block", "rb") as file:
        line = program("encode", file.read())[:3_000_000]
    with open(f"{folder}/in turn", "wb") as file:
        file.write(line)
    told = program("check", line).decode().rstrip("\n")
    browser.give(f"{folder}/in turn")
    browser.ask("document.body.dataset.state = 'given'")
    # Files from a slow disk: of the first a piece comes when the second has read some of its own.
    browser.ask("""(async () => {
        const kept = page.file;
        const sleep = time => new Promise(done => setTimeout(done, time));
        const slow = (name, time) => ({ name, size: kept.size, slice: (from, to) => ({
            arrayBuffer: async () => (await sleep(time), kept.slice(from, to).arrayBuffer()),
        }) });
        page.open(slow("first", 300));
        await sleep(350);
        page.open(slow("second", 100));
    })()""")
    browser.wait("shown", "failed")
    shown = browser.ask(SHOWN)
    compare.same("a file opened while another is read", shown["state"].split(":")[0], "second")
    compare.same("its reports", shown["lines"], told)
