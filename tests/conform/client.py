"""An honest client of a program, with the model's tree beside it: the tree makes the requests and judges each reply.

Ids, descriptors and addresses are the program's choice and taken over into the model. What is done is kept as a list of
things that can be done again, in whole or in part: a call by handle is kept with the file's path, a map and its unmap
with a number, since the next time the program may choose another id or address.
"""

import time
from dataclasses import dataclass

from model import calls
from model.events import Ask, Call, Load, Refused, Reply, Save, Stopped
from model.generate import BY_HANDLE, Generator
from model.host import Entry, Host
from model.image import LONGEST
from model.recording import Recording
from model.rules import ADDRESS, CREATE, DIRECTORY, ID, MAP, MKDIR, OPEN, UNMAP, put, signed, unsigned
from model.script import Unrandom
from model.tree import tree

from . import wire
from .covered import Covered, has_late_parent

POWER_LOSS, WITHIN_REQUEST = "power loss", "killed within a request"
FULL = -28  # the status of a full disk


@dataclass(frozen=True)
class Do:
    """A call; one by handle has the file's path, and no handle in its bytes. A map has a number, and its unmap the same
    and no address.
    """

    call: bytes
    file: bytes = None
    map: int = None


@dataclass(frozen=True)
class Saved:
    """Every file closed, a save, and a sync of the host."""


@dataclass(frozen=True)
class Restart:
    """Power loss at one of the moments of RESTARTS, so long after the last frame; within a request of a call, the call
    and which.
    """

    how: str
    delay: float = 0
    do: Do = None
    which: int = 0


class Wrong(Exception):
    """A wrong reply: the request, what came, a right one, the reason of SPECIFICATION 5.10, the tree and the maps
    before it.
    """

    def __init__(self, request, reply, right, reason, nodes, open_files, maps):
        super().__init__(reason)
        self.request, self.reply, self.right, self.reason = request, reply, right, reason
        self.nodes, self.open_files, self.maps = nodes, open_files, maps


class AlikeHost(Host):
    """The model's host with the ids, descriptors and addresses of the program."""

    chosen = None

    def new_id(self):
        return super().new_id() if self.chosen is None else self.chosen

    def new_descriptor(self):
        return super().new_descriptor() if self.chosen is None else self.chosen

    def new_address(self, length):
        return super().new_address(length) if self.chosen is None else self.chosen


class Client(Recording):
    path_of = Generator.path_of

    def __init__(self, program):
        super().__init__(Unrandom())
        self.program, self.guard, self.host = program, tree(), AlikeHost(Unrandom())
        self.things, self.saved, self.covered = [], None, Covered()
        self.made, self.addresses = 0, {}  # maps that were asked for; their addresses by number, since the start

    def begin(self):
        """A host that has saved nothing, whatever it had before."""
        self.start(None)

    # calls

    def send(self, event):
        """A call of the generator, to its end. One that is refused never reaches the host."""
        return self.perform(self.kept(event.data))

    def kept(self, call):
        """A call as it is kept."""
        if call[:1] and call[0] in BY_HANDLE and len(call) > ID:
            node = next((node for node in self.guard.nodes if node.id == unsigned(call[1 : 1 + ID])), None)
            return Do(call[:1] + call[1 + ID :], self.path_of(node) if node else b"")
        if call[:1] == bytes([MAP]):
            self.made += 1
            return Do(call, map=self.made)
        if call[:1] == bytes([UNMAP]):
            return Do(call[:1], map=self.number_of(unsigned(call[1:])))
        return Do(call)

    def number_of(self, address):
        """The last map that was there, or 0."""
        return max((number for number, at in self.addresses.items() if at == address), default=0)

    def bytes_of(self, do):
        """A call as it is now; a file that is not there has the handle 0, which is refused, and a map the address 0."""
        if do.call[:1] == bytes([UNMAP]):
            return do.call + put(self.addresses.get(do.map, 0), ADDRESS)
        if do.file is None:
            return do.call
        handle = next((node.id for node in self.guard.nodes if self.path_of(node) == do.file), 0)
        return do.call[:1] + put(handle, ID) + do.call[1:]

    def perform(self, thing):
        """One thing, new or once more."""
        self.things.append(thing)
        if isinstance(thing, Do):
            return self.carried(thing)
        return self.save() if isinstance(thing, Saved) else self.restart(thing)

    def carried(self, do):
        call = self.bytes_of(do)
        before = self.covered.look(self.guard, call)
        outcome = self.guard.step(Call(call))
        if isinstance(outcome, Refused):
            self.things.pop()
            return outcome
        while isinstance(outcome, Ask):
            outcome = self.judged(outcome.data, self.program.request(outcome.data))
        if isinstance(outcome, Refused):  # by a full disk
            return outcome
        if do.call[0] == MAP:
            self.addresses[do.map] = outcome.number
        self.covered.call(self.guard, call, before)
        return outcome

    def would_ask(self, call):
        """Whether a call sends a request; nothing changes before its reply."""
        outcome = self.guard.step(Call(call))
        self.guard.pending = None
        return isinstance(outcome, Ask)

    def judged(self, request, reply):
        """The tree's outcome; a reply that stops it is wrong."""
        open_files, maps = dict(self.guard.open_files), dict(self.guard.maps)
        outcome = self.guard.step(Reply(reply))
        if isinstance(outcome, Stopped):
            self.host.chosen = None
            right = self.host.reply(request)
            raise Wrong(request, reply, right, outcome.reason, self.guard.nodes, open_files, maps)
        if is_full(reply):
            self.covered.full_disk(request, outcome)
            return outcome
        self.host.chosen = unsigned(reply[:ADDRESS]) if request[0] in (CREATE, MKDIR, OPEN, MAP) else None
        self.host.reply(request)
        self.covered.request(request)
        return outcome

    # saves and restarts

    def save(self):
        self.program.sync(self.ready().digest)

    def ready(self):
        """All of a save but the host's part."""
        for handle in list(self.guard.open_files):
            outcome = self.guard.step(Call(calls.close(handle)))
            self.judged(outcome.data, self.program.request(outcome.data))
        self.saved = self.guard.step(Save(LONGEST))
        self.host.saved(self.saved.digest)
        self.covered.met("restarts", "saves")
        self.covered.met("maps", "a save with maps", self.guard.maps)
        self.covered.met("renames", "a save with a node before its parent", has_late_parent(self.guard.nodes))
        return self.saved

    def restart(self, thing):
        self.covered.met("restarts", thing.how, thing.how != WITHIN_REQUEST)
        if self.saved is None:
            self.covered.met("restarts", "from no save")
        self.covered.met("maps", "a restart with maps", self.guard.maps)
        RESTARTS[thing.how](self, thing)

    def start(self, saved):
        """The host goes back to a save; the model too. A guard forgets open files and maps."""
        self.program.start(saved.digest if saved else b"")
        self.saved = saved
        self.guard.__init__(self.guard.store)  # still the one that the generator looks at
        self.host.open_files, self.host.maps = {}, {}
        self.addresses = {}
        if saved:
            self.guard.step(Load(saved.data, saved.digest))
            is_late = has_late_parent(self.guard.nodes)
            self.covered.met("renames", "a restart with a node before its parent", is_late)
            self.host.loaded(saved.digest, None)
        else:
            self.host.root = Entry(id=1, kind=DIRECTORY, mode=7)

    def again(self, saved, delay=0):
        """The process killed, a new one started on what it left."""
        time.sleep(delay)
        self.program.kill()
        self.program.run()
        self.start(saved)

    def start_alive(self, thing):
        self.start(self.saved)

    def killed(self, thing):
        self.again(self.saved)

    def killed_in_start(self, thing):
        self.program.send(wire.START, self.saved.digest if self.saved else b"")
        self.again(self.saved, thing.delay)

    def killed_in_sync(self, thing):
        """The client has no word of the new save, so it goes on from the one before."""
        before = self.saved
        self.program.send(wire.SYNC, self.ready().digest)
        self.again(before, thing.delay)

    def killed_after_sync(self, thing):
        """The sync is answered, but the client has not yet put the new digest in the place of the old one."""
        before = self.saved
        self.save()
        self.again(before)

    def killed_in_request(self, thing):
        """A call up to one of its requests, to which no reply comes; where it has not so many, after it."""
        outcome = self.guard.step(Call(self.bytes_of(thing.do)))
        for _ in range(thing.which):
            if isinstance(outcome, Ask):
                outcome = self.judged(outcome.data, self.program.request(outcome.data))
        if isinstance(outcome, Ask):
            self.program.send(wire.REQUEST, outcome.data)
            self.covered.met("restarts", thing.how)
        self.again(self.saved, thing.delay)


def is_full(reply):
    """Of a reply that was taken: the disk is full, and the host has done nothing for the request."""
    return len(reply) == 4 and signed(reply) == FULL


RESTARTS = {
    POWER_LOSS: Client.start_alive,
    "killed between two requests": Client.killed,
    WITHIN_REQUEST: Client.killed_in_request,
    "killed within a sync": Client.killed_in_sync,
    "killed after a sync": Client.killed_after_sync,
    "killed within a start": Client.killed_in_start,
}
