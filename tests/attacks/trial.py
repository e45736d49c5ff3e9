"""One row: a setup with an honest host, then the client's calls while the host is what the row says."""

from dataclasses import dataclass, field

from conform.client import Do
from conform.covered import REQUESTS
from conform.words import call_words, shown
from model import calls
from model.generate import BY_HANDLE
from model.rules import CLOSE, READ, TRUNCATE, WRITE, unsigned

from guard import ASK, DONE, REFUSED, STOPPED, Guard, text

from .host import Dishonest

A, B, D, C, NEW = range(2, 7)  # ids, which an honest host gives in order
PATHS = {A: b"/a", B: b"/b", D: b"/d", C: b"/d/c", NEW: b"/n"}
SETUP = [  # /a has three pages and /b two, both are open; /d has one empty file
    calls.create(7, b"/a"), calls.create(7, b"/b"), calls.mkdir(7, b"/d"), calls.create(6, b"/d/c"),
    calls.open_(3, b"/a"), calls.write(A, bytes(range(250)) * 10), calls.seek(A, 0),
    calls.open_(3, b"/b"), calls.write(B, b"b" * 2048), calls.seek(B, 0),
]


@dataclass
class Row:
    source: str  # the paper and the place
    does: str  # what the host does
    calls: list
    deviation: object
    expected: str  # "now 5", "later 5", "harmless", "not caught", "refused 61", "done 2048"
    is_repeated: bool = False
    is_free: bool = False  # the host has made a choice of its own: numbers may differ
    run: type = None  # where it is not a guard that runs
    came: str = field(default="", init=False)


class Differs(Exception):
    pass


def words_of(call):
    kind = call[0]
    return call_words(Do(call[:1] + call[5:], PATHS[unsigned(call[1:5])]) if kind in BY_HANDLE else Do(call))


def request_words(request, files):
    kind, fields = request[0], request[1:]
    if kind not in (CLOSE, READ, WRITE, TRUNCATE):
        return REQUESTS[kind]
    page = f" page {unsigned(fields[4:8])}" if kind in (READ, WRITE) else ""
    return f"{REQUESTS[kind]}{page} of {shown(files.get(unsigned(fields[:4]), b'?'))}"


class Run:
    """A guard and a host, from the setup on."""

    def __init__(self, deviation=None, is_repeated=False, setup=SETUP):
        self.guard, self.host = Guard(), Dishonest(deviation, is_repeated)
        self.files = {}  # the guard's descriptors, by path
        self.outcomes = []
        for call in setup:
            if self.do(call)[0] != DONE:
                raise Differs(f"the setup's {words_of(call)}")
        self.host.is_armed = True

    def do(self, call):
        """Kind, number and bytes; what was asked last is kept."""
        outcome = self.guard.call(call)
        while outcome[0] == ASK:
            request = self.request = outcome[2]
            outcome = self.guard.reply(reply := self.host.reply(request))
            if request[0] == 3 and outcome[0] == DONE:
                self.files[unsigned(reply)] = request[2:]
        return outcome

    def calls(self, some):
        """Up to a stop."""
        for call in some:
            self.outcomes.append((call, *self.do(call)))
            if self.outcomes[-1][1] == STOPPED:
                break
        return self


def come_to(row):
    """The row's result, in words; an honest host in the same place must do no harm."""
    of = row.run or Run
    right = of().calls(row.calls)
    if any(kind == STOPPED for _, kind, _, _ in right.outcomes):
        raise Differs(f"{row.does}: an honest host is stopped")
    run = of(row.deviation, row.is_repeated).calls(row.calls)
    if run.host.first is None and not row.expected.startswith("refused"):
        raise Differs(f"{row.does}: the host does no such thing")
    came, row.came = judged(row, run, right)
    if came != row.expected:
        raise Differs(f"{row.does}: {came} ({row.came}), not {row.expected}")
    return row.came


def judged(row, run, right):
    call, kind, number, _ = run.outcomes[-1]
    if kind == STOPPED:
        is_now = run.host.first == run.host.asked
        at = request_words(run.request, run.files)
        where = f"at once, at the {at}" if is_now else f"later, at the {at}, when the client comes to {words_of(call)}"
        return f"{'now' if is_now else 'later'} {number}", f"stop {number} {where}"
    if kind == REFUSED and row.expected.startswith("refused"):
        asked = "the host is not asked" if run.host.first is None else "nothing has changed, and the guard goes on"
        return f"refused {number}", f"refused {number}: {text('number', number).split(':')[0]}; {asked}"
    if kind == DONE and row.expected.startswith("done"):
        return f"done {number}", f"done {number}: the bytes of the pages that were stored, and the guard goes on"
    same = row.is_free or run.outcomes == right.outcomes
    if same and all(kind == DONE for _, kind, _, _ in run.outcomes):
        return "harmless", "harmless: every answer is as with an honest host"
    return "not caught", "**not caught**"

