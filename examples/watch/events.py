"""The events of watched lines, as `rack` writes them."""

import json


class NoEvents(Exception):
    """The input has no event, or something that is none."""


def is_event(told):
    """Whether it is an event of `watch --json`, with what is read of it."""
    if not isinstance(told, dict) or not isinstance(told.get("event"), str):
        return False
    numbers = {"sum": ("whole", "marked", "preamble", "biphase", "unclosed", "lost", "invalid1", "invalid2")}.get(told["event"], ("at",))
    return all(isinstance(told.get(it), int) for it in numbers) and (told["event"] != "end" or isinstance(told.get("state"), str))


def events(lines):
    """Each event as the name of its line and its object."""
    number = 0
    for number, line in enumerate(lines, 1):
        name, tab, text = line.partition("\t")
        try:
            told = json.loads(text) if tab else None
        except ValueError:
            told = None
        if not is_event(told):
            raise NoEvents(f"line {number} of the input is no event as `rack` writes it: {line.rstrip()[:60]!r}")
        yield name, told
    if number == 0:
        raise NoEvents("the input has no event; `rack`, which writes them, may have failed")
