"""The program deskrun on top of the reference tree: one line in, one line out (SPECIFICATION 12).

    python3 -m model.desk < lines

A line is bytes of any content and ends with a line feed; a last one without it is a line if it has a byte.
"""

import re
import sys

from .events import Call, Reply
from .rules import ANSWER
from .tree import tree

MAX_BYTES = ANSWER  # of a call or reply: as many as the longest listing
LINE = re.compile(rb"([cr]) ((?:[0-9a-f]{2}){0,%d})" % MAX_BYTES)
EVENTS = {b"c": Call, b"r": Reply}


def answer(machine, line):
    """The line that is printed for one that is read."""
    parts = LINE.fullmatch(line)
    if parts is None:
        return "bad line"
    letter, digits = parts.groups()
    return str(machine.step(EVENTS[letter](bytes.fromhex(digits.decode()))))


def answers(lines):
    """The answers of a fresh guard."""
    machine = tree()
    return [answer(machine, line) for line in lines]


def main():
    machine = tree()
    for line in sys.stdin.buffer:
        print(answer(machine, line.removesuffix(b"\n")), flush=True)


if __name__ == "__main__":
    main()
