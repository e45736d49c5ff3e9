"""Calls, requests and replies in words, and the paragraphs of docs/SPECIFICATION.md that they go by, in its own
words.
"""

import re
from itertools import groupby
from pathlib import Path

from model import rules
from model.rules import (
    ADDRESS, CHMOD, CREATE, DIRECTORY, ID, MAP, MKDIR, OPEN, PAGE, READ, READDIR, RENAME, SEEK, SPACE, STAT, TRUNCATE,
    UNIT, UNMAP, WRITE, overlap, signed, split_paths, unsigned,
)

from .client import Do, Restart
from .covered import NAMES, REQUESTS

SPECIFICATION = Path(__file__).resolve().parents[2] / "docs/SPECIFICATION.md"
RIGHTS = {1: "reading", 2: "writing", 3: "reading and writing"}
LONG = 12  # a list of calls of one kind
KINDS = {rules.FILE: "file", DIRECTORY: "directory"}


# things that a client does

def list_words(things):
    """A line for each, and of calls of one kind that go on for long the first and the last."""
    for _, run in groupby(things or [None], key=lambda thing: thing.call[0] if isinstance(thing, Do) else thing):
        lines = [thing_words(thing) if thing else "a start" for thing in run]
        yield from lines if len(lines) <= LONG else [*lines[:2], f"… and {len(lines) - 3} more of them", lines[-1]]


def thing_words(thing):
    if isinstance(thing, Do):
        return call_words(thing)
    if isinstance(thing, Restart):
        return restart_words(thing)
    return "every file closed, a save, a sync"


def call_words(do):
    kind, fields, name = do.call[0], do.call[1:], NAMES[do.call[0]]
    if do.file is not None:
        return f"{name} {shown(do.file)}{FIELDS.get(kind, lambda fields: '')(fields)}"
    if kind in (MAP, UNMAP):
        return map_call_words(do)
    if kind == RENAME:
        return f"rename {' to '.join(map(shown, split_paths(fields)))}"
    if kind == OPEN:
        return f"open {shown(fields[1:])} for {RIGHTS[fields[0]]}"
    if kind in (CREATE, MKDIR, CHMOD):
        return f"{name} {shown(fields[1:])} with mode {fields[0]}"
    return f"{name} {shown(fields)}"


def map_call_words(do):
    if do.call[0] == UNMAP:
        return f"unmap map {do.map}" if do.map else f"unmap {unsigned(do.call[1:]):#x}"
    return f"map {bytes_words(unsigned(do.call[1:]))}" + (f", map {do.map}" if do.map else "")


FIELDS = {
    SEEK: lambda fields: f" to {unsigned(fields):,}",
    READ: lambda fields: f", {bytes_words(unsigned(fields))}",
    WRITE: lambda fields: f", {bytes_words(len(fields))}: {front(fields, 8)}",
    TRUNCATE: lambda fields: f" to {unsigned(fields):,}",
}


def restart_words(thing):
    after = f", {1000 * thing.delay:.1f} ms after its frame" if thing.delay else ""
    within = f" (number {thing.which + 1} of: {call_words(thing.do)})" if thing.do else ""
    from_before = ", so from the save before" if "sync" in thing.how else ""
    return f"{thing.how}{within}{after}; a start{from_before}"


def shown(path):
    """A path with every byte that is not plain as digits, and a letter that goes on for long told once: n{32}."""
    plain = repr(path)[2:-1].replace(" ", "\\x20")
    return re.sub(r"(\w)\1{7,}", lambda run: f"{run[1]}{{{len(run[0])}}}", plain) or "(no file)"


def digits(data, most=48):
    return data.hex() if len(data) <= most else f"{front(data, most)} ({bytes_words(len(data))})"


def front(data, most):
    return data[:most].hex() + "…" * (len(data) > most)


def bytes_words(count):
    return f"{count:,} byte{'s' * (count != 1)}"


def entries_words(count):
    return f"{count or 'no'} {'entry' if count == 1 else 'entries'}"


# requests

def request_words(wrong):
    kind, fields = wrong.request[0], wrong.request[1:]
    if kind not in (rules.CLOSE, READ, WRITE, TRUNCATE):
        return call_words(Do(wrong.request))
    file = f"of {shown(opened_path(wrong, unsigned(fields[:4])))} (descriptor {unsigned(fields[:4])})"
    if kind in (READ, WRITE):
        size = f", which then has {bytes_words(unsigned(fields[8:12]))}" if kind == WRITE else ""
        return f"{REQUESTS[kind]} page {unsigned(fields[4:8])} {file}{size}"
    return f"close {file[3:]}" if kind == rules.CLOSE else f"cut {file[3:]} to {bytes_words(unsigned(fields[4:]))}"


def opened_path(wrong, descriptor):
    handle = next(handle for handle, file in wrong.open_files.items() if file.descriptor == descriptor)
    return path_of(wrong.nodes, handle)


def path_of(nodes, id):
    path, node = b"", by_id(nodes, id)
    while node.parent:
        path, node = b"/" + node.name + path, by_id(nodes, node.parent)
    return path or b"/"


def by_id(nodes, id):
    return next(node for node in nodes if node.id == id)


# replies

def compared(wrong):
    """What is right, and what came."""
    if wrong.request[0] == READDIR:
        return listings(wrong)
    if wrong.reason == 1:
        return tuple(f"{bytes_words(len(reply))}: {front(reply, 16)}" for reply in (wrong.right, wrong.reply))
    return VALUES[wrong.reason](wrong)


def statuses(wrong):
    return f"the status {signed(wrong.right):,}", f"{signed(wrong.reply):,}"


def ids(wrong):
    id = unsigned(wrong.reply)
    holder = f", which {shown(path_of(wrong.nodes, id))} has" if id else ""
    return "an id that is not 0 and that no node has", f"{id}{holder}"


def descriptors(wrong):
    descriptor = signed(wrong.reply)
    held = descriptor in (file.descriptor for file in wrong.open_files.values())
    right = f"0 to {rules.MAX_DESCRIPTOR:,}, and of no open file"
    return right, f"{descriptor}" + (f", which {shown(opened_path(wrong, descriptor))} has" if held else "")


def pages(wrong):
    differ = [at for at in range(PAGE) if wrong.right[at] != wrong.reply[at]]
    at, last = differ[0], differ[-1]
    right, came = (front(page[at:], 16) for page in (wrong.right, wrong.reply))
    return f"from byte {at:,} of the page on: {right}", f"{came}; {bytes_words(len(differ))} wrong, up to byte {last:,}"


def stats(wrong):
    return stat_words(wrong.right), stat_words(wrong.reply)


def stat_words(reply):
    kind = KINDS.get(reply[ID], f"kind {reply[ID]}")
    return f"id {unsigned(reply[:ID])}, {kind}, mode {reply[ID + 1]}, size {unsigned(reply[ID + 2 :]):,}"


def listings(wrong):
    right, came = rules.split_listing(wrong.right), rules.split_listing(wrong.reply)
    said = [f"no {entry_words(entry)}" for entry in right if entry not in came]
    said += [f"{entry_words(entry)}, {came.count(entry)} times" for entry in right if came.count(entry) > 1]
    said += [f"{entry_words(entry)}, which is not there" for entry in came if entry not in right]
    return f"{entries_words(len(right))}: {digits(wrong.right)}", f"{entries_words(len(came))}: {'; '.join(said[:5])}"


def entry_words(entry):
    if len(entry) < ID + 2 or len(entry) != ID + 2 + entry[ID + 1]:
        return f"entry that is cut short ({digits(entry)})"
    return f"{KINDS.get(entry[ID], 'node')} {shown(entry[ID + 2 :])} with id {unsigned(entry[:ID])}"


def maps(wrong):
    """What came, and what is wrong with the address where something is."""
    address, length = unsigned(wrong.reply[:ADDRESS]), unsigned(wrong.request[1:])
    right = f"{bytes_words(length)} of zeros, at a multiple of {UNIT:,}, over no map and not beyond the end"
    over = [f"over the map of {bytes_words(room)} at {at:#x}" for at, room in wrong.maps.items()
            if overlap(address, length, at, room)]
    beyond = ["which goes beyond the end"] * (address + length > SPACE)
    return right, ", ".join([map_words(wrong.reply), *beyond, *over[:1]])


def map_words(reply):
    """Where a map is, and its first byte that is not zero."""
    data = reply[ADDRESS:]
    first = len(data) - len(data.lstrip(b"\0"))
    bytes_ = "zeros" if first == len(data) else f"byte {first:,} is {data[first]:#04x}"
    return f"address {unsigned(reply[:ADDRESS]):#x}, {bytes_words(len(data))}, {bytes_}"


VALUES = {2: statuses, 3: ids, 4: descriptors, 5: pages, 6: stats, 8: maps}


# paragraphs

PARAGRAPHS = {2: "5.4", 3: "2.1", 4: "2.5", 7: "5.11"}  # by the reason of 5.10, beside 5.5
AFTER_POWER_UP = "10.9"
CAUSES = {WRITE: "5.7", TRUNCATE: "4.6", CHMOD: "4.7"}  # by the last call that has changed a page or a stat


def paragraphs(wrong, things):
    """5.5, what the reason goes by, and what the shortest list shows to matter: each thing in it does."""
    cited = [PARAGRAPHS[wrong.reason]] if wrong.reason in PARAGRAPHS else []
    if wrong.request[0] == READ and is_behind_the_end(wrong):
        cited.append("2.4")
    if has_given_up(wrong):
        cited.append("5.13")
    changes = [CAUSES[thing.call[0]] for thing in things if isinstance(thing, Do) and thing.call[0] in CAUSES]
    if wrong.request[0] in (READ, STAT) and changes:
        cited.append(changes[-1])
    if any(isinstance(thing, Restart) for thing in things):
        cited.append(AFTER_POWER_UP)
    return ["5.5", *cited]


def has_given_up(wrong):
    """Whether the host says that it could not: the id 0, a number below 0."""
    is_id = wrong.request[0] in (CREATE, MKDIR)
    return len(wrong.reply) == 4 and (unsigned(wrong.reply) == 0 if is_id else signed(wrong.reply) < 0)


def is_behind_the_end(wrong):
    """Whether a page is right as far as the file reaches."""
    path, page = opened_path(wrong, unsigned(wrong.request[1:5])), unsigned(wrong.request[5:9])
    size = next(node.size for node in wrong.nodes if path_of(wrong.nodes, node.id) == path)
    end = min(PAGE, size - page * PAGE)
    return wrong.reply[:end] == wrong.right[:end]


def quoted(paragraph, request):
    """A paragraph's own text; where that is a table, its row."""
    text = SPECIFICATION.read_text()
    text = re.search(rf"^{re.escape(paragraph)} .*?(?=\n\n(\d+\.\d|#))", text, re.M | re.S)[0]
    row = {"5.5": REQUESTS[request[0]], "2.1": "id"}.get(paragraph)
    return f"{paragraph} {row}: {row_of(text, row)}" if row else " ".join(text.split("\n\n")[0].split())


def row_of(text, name):
    rows = [line.strip("| ").split(" | ") for line in text.splitlines() if line.startswith("| ")]
    return next(row[-1] for row in rows if name in row[0].split(", "))
