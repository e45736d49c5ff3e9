"""The lines of a log, as events and answers (tests/model/transcripts.py has the format).

An answer may stand without its `= `, as the desk program prints it, or be missing, as in what is typed at the desk.
"""

import re
from dataclasses import dataclass

from model.events import Call, Load, Reply, Save
from model.rules import ANSWER, REQUEST

HEX = r"((?:[0-9a-f]{2})*)"
FORMS = {
    "f": re.compile(r"f(?: (.*))?"), "o": re.compile(r"o(?: (.*))?"),
    "b": re.compile(r"b (\d{1,9}) (\d{1,9})"), "c": re.compile(f"c {HEX}"),
    "r": re.compile(f"r {HEX}"), "s": re.compile(r"s (\d{1,9})"), "l": re.compile(f"l {HEX} {HEX}"),
    "=": re.compile(r"= ((?:done|ask|refused|stopped)(?: .*)?|bad line)"), "p": re.compile("p .*"),
}
BARE = re.compile("(?:done|ask|refused|stopped) .*|bad line")


class BadLine(Exception):
    pass


@dataclass
class Fresh:
    """A fresh guard, with what the log calls it; the letter says which."""

    name: str
    letter: str


def fields_of(number, line):
    form = FORMS.get(line[:1])
    match = form.fullmatch(line) if form else None
    if not match:
        raise BadLine(f"line {number} is no line of a log: {line[:60]!r}")
    return match.groups()


def read(lines):
    """Each thing with its line's number: Fresh, or an event with its answer, which is None where there is none."""
    buffers, event, at = (ANSWER, REQUEST), None, 0
    for number, raw in enumerate(lines, 1):
        line = raw.decode(errors="replace").rstrip("\n")
        line = f"= {line}" if BARE.fullmatch(line) else line
        letter, fields = line[:1], fields_of(number, line)
        if letter in "focrsl" and event is not None:
            yield at, (event, None)
            event = None
        match letter:
            case "f" | "o":
                buffers = ANSWER, REQUEST
                yield number, (Fresh(fields[0] or "", letter), None)
            case "b":
                buffers = tuple(map(int, fields))
            case "=":
                if event is None:
                    raise BadLine(f"line {number} answers nothing")
                yield at, (event, fields[0])
                event = None
            case "c" | "r" | "s" | "l":
                event, at = event_of(letter, fields, buffers), number
    if event is not None:
        yield at, (event, None)


def event_of(letter, fields, buffers):
    match letter:
        case "c":
            return Call(bytes.fromhex(fields[0]), *buffers)
        case "r":
            return Reply(bytes.fromhex(fields[0]), *buffers)
        case "s":
            return Save(int(fields[0]))
        case "l":
            return Load(*map(bytes.fromhex, fields))
