"""A list of events in the making: each goes to a guard, each request to a lying host, which is honest unless asked.

The model computes the requests itself, so a list can be made once and fed to any guard.
"""

from .events import Ask, Call, Done, Load, Refused, Reply, Save
from .image import read_image
from .lies import LyingHost
from .rules import CREATE, MKDIR, NO_SPACE, TRUNCATE, WRITE, put, read_call
from .tree import ReadOnly, guard

FULL_DISK = put(NO_SPACE, 4)


class Recording:
    def __init__(self, random, make_guard=guard):
        self.guard = make_guard()
        self.host = LyingHost(random)
        self.steps = []
        self.asking = self.request = self.truth = b""
        self.has_obeyed = False  # whether the host says that its disk is full and lies

    @property
    def events(self):
        return [event for event, _ in self.steps]

    @property
    def letter(self):
        """Which guard a stored list begins with."""
        return "o" if isinstance(self.guard, ReadOnly) else "f"

    def send(self, event):
        """One event; the host obeys a request, or has done nothing where its disk is full, and hears of saves and
        loads.
        """
        outcome = self.guard.step(event)
        self.steps.append((event, outcome))
        if isinstance(outcome, Ask):
            self.asking = event.data if isinstance(event, Call) else self.asking
            self.request, self.truth = outcome.data, self.host.reply(outcome.data)
            self.host.may_be_full = self.may_be_full()
        elif is_ended_by_full_disk(event, outcome) and not self.has_obeyed:
            self.host.undo()
        elif isinstance(event, Save) and isinstance(outcome, Done):
            self.host.saved(outcome.digest)
        elif isinstance(event, Load) and isinstance(outcome, Done):
            self.host.loaded(event.digest, read_image(event.image))
        return outcome

    def call(self, data):
        return self.send(Call(data))

    def reply(self, data):
        return self.send(Reply(data))

    def finish(self):
        """True replies until no request is pending; the last outcome."""
        while self.guard.pending:
            outcome = self.reply(self.truth)
        return outcome

    def do(self, data):
        """A call and the true replies to its requests; its last outcome."""
        outcome = self.call(data)
        return self.finish() if isinstance(outcome, Ask) else outcome

    def may_be_full(self):
        """Whether the host may say to the pending request that its disk is full: a node, a write's page, a growth."""
        kind, call = self.request[0], read_call(self.asking)
        if kind == TRUNCATE:
            return call.size > next(node.size for node in self.guard.nodes if node.id == call.handle)
        return kind in (CREATE, MKDIR) or kind == call.kind == WRITE

    def lies(self):
        """The wrong replies to the pending request, by name."""
        return self.host.lies(self.request, self.truth)


def is_ended_by_full_disk(event, outcome):
    """Whether a call was refused for a full disk, or done with what was finished before."""
    ended = isinstance(outcome, Done) or outcome == Refused(28)
    return isinstance(event, Reply) and event.data == FULL_DISK and ended
