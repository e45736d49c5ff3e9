"""Hosts that lie: wrong replies of every sort, the traps (SPECIFICATION 11.2) among them.

A lying host is an honest one that remembers: the pages that were overwritten or cut off, the sizes of before a cut, and
the replies it gave. `lies` gives every wrong reply that it knows to the pending request, each under a name. Each is
wrong for certain: a guard must stop.
"""

from . import rules
from .host import Host
from .rules import ADDRESS, DIRECTORY, FILE, ID, MAX_DESCRIPTOR, NO_SPACE, PAGE, SPACE, UNIT, put, unsigned

OVER = "over the map"  # so begin the names of lies about a map that lives


class LyingHost(Host):
    def __init__(self, random):
        super().__init__(random)
        self.old_pages = []
        self.old_sizes = {}
        self.old_replies = []
        self.may_be_full = False  # whether the request may find the disk full; who knows the call knows it better

    def reply(self, request):
        self.may_be_full = False
        truth = super().reply(request)
        self.old_replies = [truth, *self.old_replies[:2]]
        return truth

    def store(self, fields):
        descriptor, page = unsigned(fields[:4]), unsigned(fields[4:8])
        self.remember(self.open_files[descriptor], [page])
        self.may_be_full = True
        return super().store(fields)

    def cut(self, fields):
        file, size = self.open_files[unsigned(fields[:4])], unsigned(fields[4:])
        self.remember(file, range(rules.pages_of(size), rules.pages_of(len(file.data))))
        self.old_sizes[file.id] = len(file.data)
        self.may_be_full = size > len(file.data)
        return super().cut(fields)

    def remember(self, file, pages):
        """Pages of before this request."""
        self.old_pages = [*((file.id, page, file.page(page)) for page in pages), *self.old_pages][:21]

    def lies(self, request, truth):
        """Wrong replies by name; the host has obeyed the request and has the truth already."""
        kind = request[0]
        wrong = dict(WRONG[kind](self, request, truth))
        if kind != rules.READDIR:
            wrong.update(wrong_lengths(truth))
        wrong.update(self.replies_to_others(kind, truth))
        return {name: reply for name, reply in wrong.items() if reply != truth}

    def replies_to_others(self, kind, truth):
        """Another request's right reply, where it cannot be right for this one as well."""
        chosen_by_host = kind in (rules.CREATE, rules.MKDIR, rules.OPEN, rules.READDIR, rules.MAP)
        for age, reply in enumerate(self.old_replies):
            if len(reply) != len(truth) or not chosen_by_host:
                yield f"another reply, {age} before", reply


def wrong_lengths(truth):
    yield "empty", b""
    yield "short", truth[:-1]
    yield "long", truth + b"\0"
    yield "long and wrong", b"\xff" + truth


def wrong_ids(host, request, truth):
    yield "id 0", put(0, ID)
    yield "the root's id", put(1, ID)
    for i, entry in enumerate(host.root.everything()):
        yield f"held id {i}", put(entry.id, ID)


def wrong_descriptors(host, request, truth):
    for name, descriptor in (
        ("descriptor too large", MAX_DESCRIPTOR + 1),
        ("largest number", 2**31 - 1),
        ("descriptor -1", -1),
        ("an error number", -2),
        ("smallest number", -(2**31)),
    ):
        yield name, put(descriptor, 4)
    for descriptor in host.open_files:
        yield f"held descriptor {descriptor}", put(descriptor, 4)


def wrong_statuses(host, request, truth):
    """That the disk is full is wrong only where no call may end so; else the number below."""
    full = NO_SPACE - 1 if host.may_be_full else NO_SPACE
    for status in (0, 1, -1, -2, full, PAGE, PAGE - 1, 2 * PAGE, -PAGE, 2**31 - 1, -(2**31), 256, 1 << 16, 1 << 24):
        yield f"status {status}", put(status, 4)


def wrong_pages(host, request, truth):
    file, page = host.open_files[unsigned(request[1:5])], unsigned(request[5:9])
    yield "zeros", bytes(PAGE)
    yield "a changed bit", flipped(truth, host.random.randrange(PAGE))
    yield "first byte changed", flipped(truth, 0)
    yield "last byte changed", flipped(truth, PAGE - 1)
    yield "shifted", truth[1:] + truth[:1]
    end = len(file.data) - page * PAGE
    if end < PAGE:
        yield "a byte past the end", flipped(truth, end)
    old_page, old_end = divmod(host.old_sizes.get(file.id, 0), PAGE)
    if old_page == page and old_end:
        yield "a byte past the old end", flipped(truth, old_end)
    for other in range(rules.pages_of(len(file.data))):
        yield f"page {other}", file.page(other)
    for other in host.root.everything():
        if other.data and other is not file:
            yield f"page of file {other.id}", other.page(page)
    for age, (id, other, data) in enumerate(host.old_pages):
        if (id, other) == (file.id, page):
            yield f"stale page, {age} before", data


def flipped(data, at):
    return data[:at] + bytes([data[at] ^ 1]) + data[at + 1 :]


def wrong_maps(host, request, truth):
    """Addresses first, then bytes that are not zero, then lengths that are one field's or another map's."""
    address, length, bytes_ = unsigned(truth[:ADDRESS]), unsigned(request[1:]), truth[ADDRESS:]
    for name, wrong in wrong_addresses(host, address, length):
        yield name, put(wrong, ADDRESS) + bytes_
    places = {0, UNIT - 1, UNIT, length // 2, length - 1, host.random.randrange(length)}
    for at in sorted(places & set(range(length))):
        yield f"byte {at} not zero", truth[:ADDRESS] + flipped(bytes_, at)
    yield "the last bit not zero", truth[:-1] + b"\x80"
    yield "ones", truth[:ADDRESS] + b"\xff" * length
    yield "the address twice", truth[:ADDRESS] + truth[:ADDRESS] + bytes(length - ADDRESS)
    yield "the address behind", bytes_ + truth[:ADDRESS]
    yield "the address alone", truth[:ADDRESS]
    yield "a unit short", truth[:-UNIT]
    yield "no address", bytes_
    yield "a status", put(0, 4)


def wrong_addresses(host, address, length):
    yield "address 0", 0
    yield "a byte above", address + 1
    yield "half a unit above", address + UNIT // 2
    yield "the last address", SPACE - 1
    for beyond in {UNIT, length - UNIT} - {0, length}:
        yield f"{beyond} beyond the space", SPACE - length + beyond
    for live, room in host.maps.items():
        if live != address:
            yield from overlaps(live, room, length)


def overlaps(live, room, length):
    """The ways to have a byte of a map that lives: a unit of it at each side, from its start, inside it, around it."""
    for at in sorted({live - length + UNIT, live - UNIT, live, live + UNIT, live + room - UNIT}):
        if UNIT <= at <= SPACE - length and rules.overlap(at, length, live, room):
            yield f"{OVER} at {live:x}, from {at - live}", at


def wrong_stats(host, request, truth):
    id, kind, mode, size = unsigned(truth[:ID]), truth[ID], truth[ID + 1], unsigned(truth[ID + 2 :])

    def reply(id=id, kind=kind, mode=mode, size=size):
        return put(id, ID) + bytes([kind, mode]) + put(size, 4)

    yield "another id", reply(id=id ^ 1)
    yield "another kind", reply(kind=FILE + DIRECTORY - kind)
    yield "another mode", reply(mode=mode ^ 1)
    yield "a larger size", reply(size=size + 1)
    yield "size 0", reply(size=0)
    yield "the size of before a cut", reply(size=host.old_sizes.get(id, size))
    for entry in host.root.everything():
        yield f"node {entry.id}'s", reply(entry.id, entry.kind, entry.mode, len(entry.data))


def wrong_listings(host, request, truth):
    entries = rules.split_listing(truth)
    invented = put(0x00AB_CDEF, ID) + bytes([FILE, 1]) + b"~"
    yield "an invented entry", truth + invented
    yield "a byte goes on", truth + b"\0"
    yield "an empty entry goes on", truth + bytes(ID + 2)
    yield "goes on past every buffer", truth + invented * (rules.ANSWER // len(invented) + 1)
    for directory in host.root.everything():
        if directory.entries and len(host.readdir_of(directory)) != len(truth):
            yield f"directory {directory.id}'s", host.readdir_of(directory)
    if not entries:
        return
    first, rest = entries[0], b"".join(entries[1:])
    yield "nothing", b""
    yield "an entry is missing", rest
    yield "an entry twice", truth + first
    yield "cut short", truth[:-1]
    yield "an entry replaced", rest + invented
    yield "another id", flipped(first, 0) + rest
    yield "another kind", flipped_kind(first) + rest
    yield "another name", first[:-1] + bytes([first[-1] ^ 1]) + rest
    yield "a longer name", first[: ID + 1] + bytes([first[ID + 1] + 1]) + first[ID + 2 :] + rest
    if len(entries) > 1:
        second, others = entries[1], b"".join(entries[2:])
        yield "first twice, second missing", first + first + others
        yield "second twice, first missing", second + second + others
        yield "two names exchanged", exchanged(first, second) + others


def flipped_kind(entry):
    return entry[:ID] + bytes([FILE + DIRECTORY - entry[ID]]) + entry[ID + 1 :]


def exchanged(one, other):
    """Two entries, each with the other's id."""
    return other[:ID] + one[ID:] + one[:ID] + other[ID:]


WRONG = {
    rules.CREATE: wrong_ids, rules.MKDIR: wrong_ids, rules.OPEN: wrong_descriptors, rules.READ: wrong_pages,
    rules.READDIR: wrong_listings, rules.STAT: wrong_stats, rules.CLOSE: wrong_statuses,
    rules.WRITE: wrong_statuses, rules.TRUNCATE: wrong_statuses, rules.REMOVE: wrong_statuses,
    rules.RMDIR: wrong_statuses, rules.CHMOD: wrong_statuses, rules.MAP: wrong_maps, rules.UNMAP: wrong_statuses,
    rules.RENAME: wrong_statuses,
}
