#!/usr/bin/env python3
"""Types at bash, zsh and fish what their completions of aes3 complete, and compares what then stands on the line.

    tests/completions.py PROGRAM

bash and zsh run in a terminal of their own; fish is asked for what it would offer. Each field that PROGRAM says can be set,
each word of it and each refusal that it explains has to be completed, and a file's name with spaces has to stay one word.
A shell that is not installed is left out, and told. The last line is `N passed, M failed`, and the status 1 where one failed.
"""

import argparse
import importlib.machinery
import importlib.util
import os
import pty
import re
import select
import shutil
import subprocess
import sys
import tempfile
import time

ROOT = os.path.dirname(os.path.dirname(os.path.realpath(__file__)))
FILE = "a line, damaged.txt"

# How each shell is begun and told of the completions; Control-X p writes the line that was typed to the file `lines` and
# empties it.
STARTS = {
    "bash": (
        ["bash", "--norc", "--noprofile", "-i"],
        f"source {ROOT}/completions/aes3.bash\n"
        "tell() { printf '%s\\n' \"$READLINE_LINE\" >>../lines; READLINE_LINE=; }\n"
        "bind -x '\"\\C-xp\": tell'\n",
    ),
    "zsh": (
        ["zsh", "-f", "-i"],
        f"fpath=({ROOT}/completions $fpath); autoload -U compinit; compinit -u -D\n"
        "tell() { print -r -- \"$BUFFER\" >>../lines; BUFFER=; }\n"
        "zle -N tell; bindkey '^Xp' tell; unsetopt beep auto_menu\n",
    ),
}
# Where a user has bash part no words at `=`.
STARTS["bash, whole words"] = STARTS["bash"][0], "COMP_WORDBREAKS=${COMP_WORDBREAKS//=}\n" + STARTS["bash"][1]


def make_manual():
    sys.dont_write_bytecode = True
    loader = importlib.machinery.SourceFileLoader("make_manual", f"{ROOT}/bin/make-manual")
    made = importlib.util.module_from_spec(importlib.util.spec_from_loader(loader.name, loader))
    loader.exec_module(made)
    return made


def settled(words):
    """Those that begin no other, so that they are completed by themselves."""
    return [it for it in words if not any(other != it and other.startswith(it) for other in words)]


def cases(program):
    """What is typed, and what stands there behind it once it is completed."""
    made = make_manual()
    fields = made.choices(program, "rewrite", "set1")
    numbers = re.findall(r"^(\d+):", made.ask(program, "--explain"), re.M)
    found = [("aes3 che", "aes3 check "), ("aes3 check --ga", "aes3 check --gaps "), ("aes3 cut --packed-o", "aes3 cut --packed-out ")]
    found += [(f"aes3 --explain {it}", f"aes3 --explain {it} ") for it in settled(numbers)]
    found += [("aes3 --explain 16", "aes3 --explain 16"), ("aes3 rewrite --set1 rate=4", "aes3 rewrite --set1 rate=4")]
    found += [("aes3 rewrite --set1 nothing", "aes3 rewrite --set1 nothing"), ("aes3 rewrite --set1 b3=256", "aes3 rewrite --set1 b3=256")]
    found += [("aes3 rewrite --set1 rate=44", "aes3 rewrite --set1 rate=44100 ")]
    found += [("aes3 from-pcm --set1 rate=48000 --set2 cop", "aes3 from-pcm --set1 rate=48000 --set2 copyright=")]
    found += [("aes3 to-bits va", "aes3 to-bits validity "), ("aes3 to-bits user --lsb", "aes3 to-bits user --lsb-first ")]
    found += [(f"aes3 rewrite --set2 {it}", f"aes3 rewrite --set2 {it}=") for it in settled(list(fields))]
    # Behind the option and `=`.
    found += [("aes3 rewrite --set1=cop", "aes3 rewrite --set1=copyright="), ("aes3 rewrite --set2=rate=44", "aes3 rewrite --set2=rate=44100 ")]
    found += [("aes3 --explain=9", "aes3 --explain=9 "), ("aes3 check --packed-in=", "aes3 check --packed-in=")]
    for name, words in fields.items():
        found += [(f"aes3 rewrite --set1 {name}={it}", f"aes3 rewrite --set1 {name}={it} ") for it in settled(list(words))]
    # A shell may escape the comma too.
    escaped, whole = FILE.replace(" ", "\\ "), re.sub(r"([ ,])", r"\\\1", FILE)
    for before in ("aes3 check < ", "aes3 check <", "aes3 encode < /dev/null > ", "aes3 rewrite --set1 rate=44100 < ", "aes3 check ", "aes3 show --changes "):
        found += [(f"{before}a\\ l", (f"{before}{escaped} ", f"{before}{whole} "))]
    return found


class Typed:
    """A shell in a terminal of its own."""

    def __init__(self, command, folder, begin):
        os.makedirs(f"{folder}/here")
        open(f"{folder}/here/{FILE}", "w", encoding="utf-8").close()
        self.lines = f"{folder}/lines"
        self.child, self.terminal = pty.fork()
        if self.child == 0:
            os.chdir(f"{folder}/here")
            kept = {it: os.environ[it] for it in ("PATH", "HOME") if it in os.environ}
            os.execvpe(command[0], command, {**kept, "TERM": "dumb", "LC_ALL": "C.UTF-8", "HISTFILE": "/dev/null"})
        self.write(begin)

    def write(self, text):
        os.write(self.terminal, text.encode())

    def told(self):
        try:
            with open(self.lines, encoding="utf-8") as file:
                return file.read().split("\n")[:-1]
        except FileNotFoundError:
            return []

    def complete(self, text):
        """The line after a tab behind the text, or None where the shell is silent for a minute."""
        count = len(self.told())
        self.write(text + "\t\x18p")
        end = time.monotonic() + 60
        while len(self.told()) == count:
            if time.monotonic() > end:
                return None
            # What the shell shows is taken from it, so that it goes on.
            if select.select([self.terminal], [], [], 0.002)[0]:
                os.read(self.terminal, 65536)
        return self.told()[count]

    def end(self):
        os.close(self.terminal)
        os.waitpid(self.child, 0)


def typed_at(shell, wanted):
    command, begin = STARTS[shell]
    with tempfile.TemporaryDirectory() as folder:
        typed = Typed(command, folder, begin)
        try:
            for text, want in wanted:
                yield text, typed.complete(text), want
        finally:
            typed.end()


def asked_of_fish(wanted):
    """The same of fish, which tells what it would offer for a line: one offer is what would stand there."""
    asks = "source $argv[1]; for it in $argv[2..]; complete -C $it | string replace -r '\\t.*' ''; echo == ; end"
    with tempfile.TemporaryDirectory() as folder:
        open(f"{folder}/{FILE}", "w", encoding="utf-8").close()
        words = ["fish", "--no-config", "-c", asks, "--", f"{ROOT}/completions/aes3.fish", *(it for it, _ in wanted)]
        environment = {**os.environ, "HOME": folder, "LC_ALL": "C.UTF-8"}
        said = subprocess.run(words, cwd=folder, env=environment, stdout=subprocess.PIPE, text=True, check=True).stdout
    for (text, want), offers in zip(wanted, said.split("==\n")):
        offers = offers.split("\n")[:-1]
        got = text
        if len(offers) == 1:
            space = "" if offers[0].endswith("=") else " "
            got = re.sub(r"(\\ |[^ <])*$", "", text) + offers[0].replace(" ", "\\ ") + space
        yield text, got, want


def main():
    parser = argparse.ArgumentParser(description=__doc__, formatter_class=argparse.RawDescriptionHelpFormatter)
    parser.add_argument("program", metavar="PROGRAM")
    wanted = cases(os.path.realpath(parser.parse_args().program))
    passed = failed = 0
    for shell in [*STARTS, "fish"]:
        if not shutil.which(shell.split(",")[0]):
            print(f"left out: the completion of {shell} (it is not installed)")
            continue
        for text, got, want in asked_of_fish(wanted) if shell == "fish" else typed_at(shell, wanted):
            if got == want or (isinstance(want, tuple) and got in want):
                passed += 1
            else:
                failed += 1
                print(f"{shell}: {text!r} gives {got!r}, not {want!r}", file=sys.stderr)
    print(f"{passed} passed, {failed} failed")
    return int(failed > 0)


if __name__ == "__main__":
    sys.exit(main())
