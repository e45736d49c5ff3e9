"""Events and answers in words, with the model beside: it knows which file a handle and a descriptor are of."""

import re
from dataclasses import dataclass
from pathlib import Path

from conform.client import Do
from conform.words import (
    bytes_words, call_words, digits, entries_words, entry_words, map_words, path_of, request_words, stat_words,
)
from model.events import Call, Load, Reply, Save
from model.generate import BY_HANDLE
from model.recording import FULL_DISK
from model.rules import (
    ADDRESS, CREATE, MAP, MKDIR, NO_SPACE, OPEN, PAGE, READ, READDIR, RENAME, SEEK, STAT, TRUNCATE, UNMAP, WRITE,
    signed, split_listing, split_paths, unsigned,
)
from model.tree import GUARDS, guard

from .lines import Fresh

HEADER = Path(__file__).resolve().parents[2] / "include/guard_client.h"


def texts(function):
    """The words that guard_client.h has for a number."""
    body = HEADER.read_text().split(f"*{function}(")[1].split("default:")[0]
    names = dict(re.findall(r"\b(GUARD_\w+) = (\d+)", (HEADER.parent / "guard.h").read_text()))
    return {int(names[name]): text for name, text in re.findall(r'case (GUARD_\w+): return "([^"]*)"', body)}


MAP_CALLS = {MAP: 5, UNMAP: 1 + ADDRESS}  # how long each is
MAY_BE_FULL = (CREATE, MKDIR, WRITE, TRUNCATE)  # the requests that may find the disk full
KINDS = {"f": "guard", "o": "read-only guard"}
NUMBERS, REASONS = texts("guard_number_text"), texts("guard_stop_text")


@dataclass
class Seen:
    """What conform's words ask of a request."""

    request: bytes
    nodes: list
    open_files: dict


class Teller:
    def __init__(self):
        self.guard, self.call, self.request = guard(), b"", b""
        self.is_right = True

    def tell(self, entry):
        """The lines of one event and its answer."""
        event, answer = entry
        if isinstance(event, Fresh):
            self.guard = GUARDS[event.letter]()
            yield f"a fresh {KINDS[event.letter]}{f' ({event.name})' if event.name else ''}"
            return
        yield self.event_words(event)
        right = str(self.guard.step(event))
        yield f"    {self.answer_words(event, answer or right)}"
        if answer and right != answer:
            self.is_right = False
            yield f"    !! by the rules: {self.answer_words(event, right)}"

    # events

    def event_words(self, event):
        match event:
            case Call():
                if not self.guard.pending:
                    self.call = event.data
                return self.called(event.data)
            case Reply():
                return f"  reply: {self.reply_words(event.data)}"
            case Save():
                return f"save, with room for {bytes_words(event.buffer_len)}"
            case Load():
                return f"load of an image of {bytes_words(len(event.image))}, digest {digits(event.digest, 4)}"

    def called(self, data):
        """A call whose form is wrong has no words."""
        try:
            if len(data) != MAP_CALLS.get(data[0], len(data)) or data[0] == RENAME and b"" in split_paths(data[1:]):
                return f"a call that is none: {digits(data)}"
            if data[0] not in BY_HANDLE:
                return call_words(Do(data))
            handle = unsigned(data[1:5])
            path = path_of(self.guard.nodes, handle) if handle in self.guard.open_files else None
            return call_words(Do(data[:1] + data[5:], path or b"handle %d, which is not open" % handle))
        except (KeyError, IndexError):
            return f"a call that is none: {digits(data)}"

    def reply_words(self, data):
        kind = self.request[0] if self.guard.pending and self.request else 0
        if data == FULL_DISK and kind in MAY_BE_FULL:
            return f"{NO_SPACE}, the disk is full"
        if kind in (CREATE, MKDIR) and len(data) == 4:
            return f"id {unsigned(data)}"
        if kind == READDIR:
            entries = split_listing(data)
            return f"{entries_words(len(entries))}: {', '.join(entry_words(entry) for entry in entries[:8]) or '-'}"
        if kind == STAT and len(data) == 10:
            return stat_words(data)
        if kind == READ and len(data) == PAGE:
            return f"a page: {digits(data, 16)}"
        if kind == MAP and len(data) > ADDRESS:
            return map_words(data)
        return f"{signed(data)}" if len(data) == 4 else f"{bytes_words(len(data))}: {digits(data, 16)}"

    # answers

    def answer_words(self, event, answer):
        word, *rest = answer.split(" ")
        if answer == "bad line":
            return answer
        if word == "ask":
            self.request = bytes.fromhex("".join(rest))
            return f"asks the host: {self.requested()}"
        number = int(rest[0]) if rest and rest[0].isdigit() else 0
        if word == "refused" and isinstance(event, Reply) and number == -NO_SPACE:
            return f"refused {number}: full: the host's disk; nothing of the call is done"
        if word == "refused":
            return f"refused {number}: {NUMBERS.get(number, 'no number of the guard')}"
        if word == "stopped":
            return f"STOPPED {number}: {REASONS.get(number, 'no reason of the guard')}"
        return f"done{self.done_words(event, number, rest[1:])}"

    def requested(self):
        try:
            return request_words(Seen(self.request, self.guard.nodes, self.guard.open_files))
        except (KeyError, IndexError, StopIteration):
            return digits(self.request)

    def done_words(self, event, number, data):
        if isinstance(event, Save):
            return f": an image of {bytes_words(number)}, digest {data[1][:8] if len(data) > 1 else '-'}…"
        if isinstance(event, Load):
            return ""
        kind = self.call[0] if self.call else 0
        if kind in (CREATE, MKDIR, OPEN):
            return f": {'handle' if kind == OPEN else 'id'} {number}"
        if kind in (READ, WRITE):
            return f": {bytes_words(number)}" + (f": {digits(bytes.fromhex(data[0]), 16)}" if data else "")
        others = {
            SEEK: f": at {number:,}", READDIR: f": {entries_words(number)}", STAT: f": {bytes_words(number)}",
            MAP: f": address {number:#x}",
        }
        return others.get(kind, "")
