"""The reference tree (SPECIFICATION 9) and the guard, from one text of the rules.

The two differ in what they keep of a page and in what a load brings back, and only there; a `Store` says both:

    ByteStore     the reference tree keeps the page itself, and the nodes and bytes of each save under its digest;
                  a load goes back to them, and changes nothing where no save gave the digest
    DigestStore   the guard keeps the page's SHA-256 and takes every sound image

So a reply to a fetch is judged on actual bytes in the tree and on digests in the guard. Lists in which every done load
is of a save must give both the same outcomes and the same tables; to be held beside a real guard, other lists need the
guard.

Each call is a coroutine: its refusals in their order (SPECIFICATION 7), then its requests, each answered by a reply,
then the change of the tables. The pending call is the coroutine, and how far it has come is where it stands. A full
disk ends it early: refused, or a write done with the pages that are finished.

The read-only guard is the guard but for the calls that it does not take, which it refuses by their bytes alone.
"""

from dataclasses import dataclass, replace
from hashlib import sha256

from . import rules
from .events import Ask, Call, Done, Load, Refused, Reply, Save, Stopped
from .image import DIGEST, read_image, write_image
from .rules import (
    ADDRESS, ANSWER, DIRECTORY, FILE, ID, MAX_DESCRIPTOR, MAX_MAPS, MAX_NODES, MAX_OPEN, MAX_PAGES, MAX_SIZE, NO_SPACE,
    MAX_PATH, PAGE, READ_BIT, READ_RIGHT, REQUEST, SEARCH_BIT, SPACE, UNIT, WRITE_BIT, WRITE_RIGHT, Node, pages_between,
    pages_of,
)


def digest(data):
    return sha256(data).digest()


def copied(nodes):
    return [replace(node, pages=list(node.pages)) for node in nodes]


class ByteStore:
    """What the reference tree keeps."""

    def __init__(self):
        self.saves = {}

    def keep(self, page):
        return page

    def digest(self, page):
        return digest(page)

    def saved(self, key, nodes):
        self.saves[key] = copied(nodes)

    def loaded(self, key, image_nodes, nodes):
        return copied(self.saves.get(key, nodes))


class DigestStore:
    """What the guard keeps."""

    def keep(self, page):
        return digest(page)

    def digest(self, page_digest):
        return page_digest

    def saved(self, key, nodes):
        """A guard keeps no save."""

    def loaded(self, key, image_nodes, nodes):
        return image_nodes


@dataclass
class OpenFile:
    """An open file; its handle is its node's id."""

    descriptor: int
    rights: int
    cursor: int = 0


class Refusal(Exception):
    """A number of the table (SPECIFICATION 7.1)."""


class Stop(Exception):
    """A reason to stop (SPECIFICATION 5.10)."""


def refuse(number, condition):
    if condition:
        raise Refusal(number)


def stop(reason, condition):
    if condition:
        raise Stop(reason)


class Machine:
    """Nodes in order of creation, open files by handle, the pending call, whether it stopped; what the store keeps.
    Beside them the maps that live, each length by its address, which no save, load or image knows of.
    """

    def __init__(self, store):
        self.store = store
        self.nodes = [rules.root()]
        self.open_files = {}
        self.maps = {}
        self.pending = None
        self.stopped = False

    def tables(self):
        """What is compared after a list: nodes in order, open files by handle, each page's digest, the maps."""
        nodes = [{**vars(node), "pages": self.digests_of(node)} for node in self.nodes]
        return nodes, {handle: dict(vars(file)) for handle, file in self.open_files.items()}, dict(self.maps)

    # events

    def step(self, event):
        """One event and its outcome."""
        handlers = {Call: self.on_call, Reply: self.on_reply, Save: self.on_save, Load: self.on_load}
        try:
            return handlers[type(event)](event)
        except Refusal as refusal:
            return Refused(*refusal.args)

    def on_call(self, event):
        refuse(5, self.stopped)
        refuse(114, self.pending is not None)
        refuse(34, event.answer_len < ANSWER or event.request_len < REQUEST)
        call = rules.read_call(event.data)
        refuse(22, call is None)
        refuse(36, any(map(rules.is_long, call.paths)))
        refuse(30, not self.takes(call))
        return self.advance(getattr(self, CALLS[call.kind])(call))

    def takes(self, call):
        """Whether a call of the right form is one for this machine."""
        return True

    def on_reply(self, event):
        refuse(5, self.stopped)
        refuse(61, self.pending is None)
        refuse(34, event.answer_len < ANSWER or event.request_len < REQUEST)
        return self.advance(self.pending, event.data)

    def advance(self, call, reply=None):
        """Carries a call on to its next request, its end or a stop."""
        self.pending = None
        try:
            request = call.send(reply)
        except StopIteration as end:
            return end.value
        except Stop as wrong:
            self.stopped = True
            return Stopped(*wrong.args)
        self.pending = call
        return Ask(request)

    def on_save(self, event):
        refuse(5, self.stopped)
        refuse(114, self.pending is not None)
        refuse(16, self.open_files)
        image = write_image(self.nodes, [page for node in self.nodes for page in self.digests_of(node)])
        refuse(34, len(image) > event.buffer_len)
        self.store.saved(digest(image), self.nodes)
        return Done(len(image), image, digest(image))

    def on_load(self, event):
        refuse(5, self.stopped)
        refuse(114, self.pending is not None)
        refuse(16, self.open_files)
        refuse(74, len(event.digest) != DIGEST or digest(event.image) != event.digest)
        nodes = read_image(event.image)
        refuse(84, nodes is None)
        self.nodes = self.store.loaded(event.digest, nodes, self.nodes)
        return Done(0)

    # tables

    def digests_of(self, node):
        return [self.store.digest(page) for page in node.pages]

    def children(self, directory):
        return [node for node in self.nodes if node.parent == directory.id]

    def walk(self, names, last_may_be_absent=False):
        """The parent and the node of a path; the node is None where the last component may be absent and is."""
        parent, node = None, self.nodes[0]
        for left, name in zip(reversed(range(len(names))), names):
            refuse(20, node.kind != DIRECTORY)
            refuse(13, not node.mode & SEARCH_BIT)
            child = next((child for child in self.children(node) if child.name == name), None)
            refuse(2, child is None and not (last_may_be_absent and left == 0))
            parent, node = node, child
        return parent, node

    def subtree(self, node):
        """A node and all that is beneath it."""
        return [node, *(below for child in self.children(node) for below in self.subtree(child))]

    def length_beneath(self, node):
        """How much longer the longest path beneath a node is than the node's own."""
        return max((1 + len(child.name) + self.length_beneath(child) for child in self.children(node)), default=0)

    def opened(self, handle, right=0):
        """The open file of a handle and its node; close and seek need no right."""
        file = self.open_files.get(handle)
        refuse(9, file is None or file.rights & right != right)
        return file, next(node for node in self.nodes if node.id == handle)

    def page_total(self):
        return sum(pages_of(node.size) for node in self.nodes)

    def pages_with(self, node, size):
        """The pages of all files, once this one has this size."""
        return self.page_total() - pages_of(node.size) + pages_of(size)

    # calls by path

    def create(self, call):
        """Create and mkdir."""
        parent, node = self.walk(call.names, last_may_be_absent=True)
        refuse(17, node is not None)
        refuse(13, not parent.mode & WRITE_BIT)
        refuse(28, len(self.nodes) == MAX_NODES)
        id = yield from self.ask_id(call.raw)
        kind = FILE if call.kind == rules.CREATE else DIRECTORY
        self.nodes.append(Node(id, parent.id, kind, call.mode, size=0, name=call.names[-1]))
        return Done(id)

    def open(self, call):
        _, node = self.walk(call.names)
        refuse(21, node.kind == DIRECTORY)
        refuse(13, not rules.covers(node.mode, call.rights))
        refuse(16, node.id in self.open_files)
        refuse(24, len(self.open_files) == MAX_OPEN)
        descriptor = yield from self.ask_descriptor(call.raw)
        self.open_files[node.id] = OpenFile(descriptor, call.rights)
        return Done(node.id)

    def remove(self, call):
        parent, node = self.walk(call.names)
        refuse(21, node.kind == DIRECTORY)
        refuse(13, not parent.mode & WRITE_BIT)
        refuse(16, node.id in self.open_files)
        yield from self.ask_status(call.raw)
        self.nodes.remove(node)
        return Done(0)

    def rmdir(self, call):
        parent, node = self.walk(call.names)
        refuse(16, parent is None)
        refuse(20, node.kind != DIRECTORY)
        refuse(13, not parent.mode & WRITE_BIT)
        refuse(39, self.children(node))
        yield from self.ask_status(call.raw)
        self.nodes.remove(node)
        return Done(0)

    def chmod(self, call):
        _, node = self.walk(call.names)
        yield from self.ask_status(call.raw)
        node.mode = call.mode
        return Done(0)

    def readdir(self, call):
        _, node = self.walk(call.names)
        refuse(20, node.kind != DIRECTORY)
        refuse(13, not node.mode & READ_BIT)
        reply = yield call.raw
        entries = rules.split_listing(reply)
        stop(7, sorted(entries) != sorted(map(rules.entry, self.children(node))))
        return Done(len(entries), reply)

    def stat(self, call):
        _, node = self.walk(call.names)
        reply = yield call.raw
        stop(1, len(reply) != ID + 6)
        stop(6, reply != rules.stat_reply(node))
        return Done(node.size, reply)

    def rename(self, call):
        """The node keeps its place, its id and all that is beneath it."""
        first, second = call.paths
        parent, node = self.walk(rules.read_path(first))
        new_parent, there = self.walk(rules.read_path(second), last_may_be_absent=True)
        refuse(16, parent is None)
        if there is node:
            return Done(0)  # nothing is sent
        refuse(17, there is not None)
        refuse(22, new_parent in self.subtree(node))
        refuse(13, not parent.mode & WRITE_BIT)
        refuse(13, not new_parent.mode & WRITE_BIT)
        refuse(36, len(second) + self.length_beneath(node) > MAX_PATH)
        yield from self.ask_status(call.raw)
        node.parent, node.name = new_parent.id, rules.read_path(second)[-1]
        return Done(0)

    # calls by handle

    def close(self, call):
        file, _ = self.opened(call.handle)
        yield from self.ask_status(rules.close_request(file.descriptor))
        del self.open_files[call.handle]
        return Done(0)

    def seek(self, call):
        file, node = self.opened(call.handle)
        refuse(22, call.position > node.size)
        yield from ()  # nothing is sent
        file.cursor = call.position
        return Done(call.position)

    def read(self, call):
        file, node = self.opened(call.handle, READ_RIGHT)
        start, end = file.cursor, min(file.cursor + call.count, node.size)
        pages = []
        for page in pages_between(start, end):
            pages.append((yield from self.fetch(file, node, page)))
        file.cursor = end
        skipped = start % PAGE
        return Done(end - start, b"".join(pages)[skipped : skipped + end - start])

    def write(self, call):
        file, node = self.opened(call.handle, WRITE_RIGHT)
        start, end = file.cursor, file.cursor + len(call.data)
        refuse(27, end > MAX_SIZE)
        refuse(28, self.pages_with(node, max(node.size, end)) > MAX_PAGES)
        stored = []
        for page in pages_between(start, end):
            data = bytes(PAGE)
            if not rules.is_overwritten(page, node.size, start, end):
                data = yield from self.fetch(file, node, page)
            data = rules.overlay(data, start - page * PAGE, call.data)
            written_so_far = min(end, (page + 1) * PAGE)
            size = max(node.size, written_so_far)
            if (yield from self.store_page(file, page, size, data, may_be_full=True)):
                refuse(28, not stored)
                end = page * PAGE  # done with the pages that are finished
                break
            stored.append(self.store.keep(data))
        first = start // PAGE
        node.pages[first : first + len(stored)] = stored
        node.size = max(node.size, end)
        file.cursor = end
        return Done(end - start)

    def truncate(self, call):
        file, node = self.opened(call.handle, WRITE_RIGHT)
        refuse(27, call.size > MAX_SIZE)
        refuse(28, self.pages_with(node, call.size) > MAX_PAGES)
        page, inside = divmod(call.size, PAGE)
        pages = node.pages[: pages_of(call.size)]
        if call.size < node.size and inside:
            data = yield from self.fetch(file, node, page)
            data = data[:inside] + bytes(PAGE - inside)
            yield from self.store_page(file, page, node.size, data)
            pages[page] = self.store.keep(data)
        if call.size != node.size:
            request, grows = rules.cut_request(file.descriptor, call.size), call.size > node.size
            refuse(28, (yield from self.ask_status(request, may_be_full=grows)))
        added = pages_of(call.size) - len(pages)
        node.pages = pages + [self.store.keep(bytes(PAGE))] * added
        file.cursor = min(file.cursor, call.size)
        node.size = call.size
        return Done(0)

    # maps

    def map(self, call):
        refuse(12, len(self.maps) == MAX_MAPS)
        address = yield from self.ask_map(call.raw, call.length)
        self.maps[address] = call.length
        return Done(address)

    def unmap(self, call):
        refuse(22, call.address not in self.maps)
        yield from self.ask_status(call.raw)
        del self.maps[call.address]
        return Done(0)

    # requests with their replies

    def ask_status(self, request, expected=0, may_be_full=False):
        """Whether the disk is full, where a call may end so; elsewhere that is a wrong status as any other."""
        reply = yield request
        stop(1, len(reply) != 4)
        is_full = may_be_full and rules.signed(reply) == NO_SPACE
        stop(2, not is_full and rules.signed(reply) != expected)
        return is_full

    def ask_id(self, request):
        reply = yield request
        stop(1, len(reply) != ID)
        refuse(28, rules.signed(reply) == NO_SPACE)
        id = rules.unsigned(reply)
        stop(3, id == 0 or any(node.id == id for node in self.nodes))
        return id

    def ask_descriptor(self, request):
        reply = yield request
        stop(1, len(reply) != 4)
        descriptor = rules.signed(reply)
        stop(4, not 0 <= descriptor <= MAX_DESCRIPTOR)
        stop(4, any(file.descriptor == descriptor for file in self.open_files.values()))
        return descriptor

    def ask_map(self, request, length):
        reply = yield request
        stop(1, len(reply) != ADDRESS + length)
        address = rules.unsigned(reply[:ADDRESS])
        stop(8, address == 0 or address % UNIT)
        stop(8, address + length > SPACE)
        stop(8, any(rules.overlap(address, length, *live) for live in self.maps.items()))
        stop(8, reply[ADDRESS:] != bytes(length))
        return address

    def fetch(self, file, node, page):
        reply = yield rules.fetch_request(file.descriptor, page)
        stop(1, len(reply) != PAGE)
        stop(5, self.store.keep(reply) != node.pages[page])
        return reply

    def store_page(self, file, page, size, data, may_be_full=False):
        return self.ask_status(rules.store_request(file.descriptor, page, size, data), PAGE, may_be_full)


CALLS = {
    rules.CREATE: "create", rules.MKDIR: "create", rules.OPEN: "open", rules.CLOSE: "close", rules.SEEK: "seek",
    rules.READ: "read", rules.WRITE: "write", rules.TRUNCATE: "truncate", rules.REMOVE: "remove",
    rules.RMDIR: "rmdir", rules.CHMOD: "chmod", rules.READDIR: "readdir", rules.STAT: "stat", rules.MAP: "map",
    rules.UNMAP: "unmap", rules.RENAME: "rename",
}


class ReadOnly(Machine):
    """A machine that takes the calls which change nothing, and is the machine in all else."""

    def takes(self, call):
        return rules.is_read_only(call)


def tree():
    return Machine(ByteStore())


def guard():
    return Machine(DigestStore())


def read_only_guard():
    return ReadOnly(DigestStore())


GUARDS = {"f": guard, "o": read_only_guard}  # by the letter that a stored list begins with
