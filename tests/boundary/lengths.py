"""Calls, replies and images of every length: empty, up to 1,100 bytes, and about each length that the specification
names.

What is handed in is of one byte, mostly 0 or 0xff, behind the first few. A list keeps a guard (`k`) in some state, and
goes back to it (`a`) wherever the guard did not refuse, or refused a reply for a full disk, which ends the call.
"""

from functools import partial

from model import calls, readonly
from model.dishonest import QUESTIONS, asked
from model.events import Call, Load, Refused, Reply
from model.rules import (
    ADDRESS, ANSWER, CREATE, MAP, MAX_COUNT, MAX_MAP, NO_SPACE, PAGE, RENAME, REPLY, UNIT, UNMAP, WRITE, put,
)
from model.transcripts import write_list
from model.tree import digest

MANY = range(1101)
EDGES = [MAX_COUNT + 5, ADDRESS + UNIT, ANSWER, 44_776, 65_536, REPLY]
LARGE = [edge + near for edge in EDGES for near in (-1, 0, 1)]
LARGEST = [(1 << 20) + near for near in (-1, 0, 1)]
KINDS = [*range(RENAME + 3), 255]
FILLS = [b"\0", b"\xff"]
ENDED = [Refused(28)]  # what ends a call, where it answers a reply


def filled(head, fill, length):
    return (head + fill * (length // len(fill) + 1))[:length]


def fills(length, near):
    """Both bytes at lengths that fit something, either at others."""
    return FILLS if length in near else [FILLS[length % 2]]


# calls

def fresh(s):
    pass


def open_file(s):
    """Handle 2, three pages, the cursor within the second."""
    s.do(calls.seek(s.file(b"/a", b"x" * (2 * PAGE + 5)), PAGE + 1))


def some_maps(s):
    """Of one unit and of two, the first at 4,096."""
    for length in (UNIT, 2 * UNIT):
        s.do(calls.map_(length))


def pending(s):
    s.expect("ask", calls.stat(b"/"))


def stopped(s):
    s.stop()


def some_calls():
    """Calls of every length, each kind of byte first; the handle of a file behind it; paths."""
    near = {*range(65), *LARGE}
    for kind in KINDS:
        for n in [*MANY, *LARGE, *LARGEST]:
            yield from (filled(bytes([kind]), fill, n) for fill in fills(n, near))
    for kind in range(256):
        for fill in FILLS:
            yield from (filled(bytes([kind]), fill, n) for n in [1, 2, 3, 5, 9, 13, 14, 300, 1100, *LARGE])
    for kind in (MAP, UNMAP):
        yield from (filled(bytes([kind]) + put(UNIT, 4), b"\0", n) for n in range(65))
    for kind in range(CREATE, RENAME + 1):
        yield from (filled(bytes([kind]) + put(2, 4), b"\0", n) for n in [*MANY, *LARGE])
        for head in (bytes([kind]), bytes([kind, 3])):
            yield from (filled(head, b"/aaa", n) for n in range(300))
            yield from (filled(head + b"/", b"n", n) for n in range(300))
    for first in (1, 2, 4, 8, 32, 33, 34, 128, 252, 254, 255):
        for name in (b"/aaa", b"/a"):
            lengths = [*range(first, first + 40), 257, 258, 509, 510, 514]
            yield from (filled(bytes([RENAME, first]), name, n) for n in lengths)


def call_events():
    return map(Call, some_calls())


def few_call_events():
    return [Call(filled(bytes([WRITE]), b"\0", n)) for n in [*MANY, *LARGE, *LARGEST]]


# replies

def reply_events(truth):
    """Replies of every length; each first byte of one that has the right length; a full disk in many; that one."""
    near = {*range(65), *range(len(truth) - 20, len(truth) + 20), *LARGE, *LARGEST}
    for n in [*MANY, *LARGE, *LARGEST]:
        yield from (Reply(filled(b"", fill, n)) for fill in fills(n, near))
    yield from (Reply(bytes([first]) + truth[1:]) for first in range(256))
    yield from (Reply(put(NO_SPACE, width)) for width in range(1, 13))
    yield Reply(truth)


def unasked_events():
    return reply_events(bytes(4))


def question_events(question, begin=asked):
    return reply_events(begin(question).truth)


def largest_map(s):
    """Whose right reply is the longest there is."""
    s.expect("ask", calls.map_(MAX_MAP))


# a read-only guard

def read_only_open(s):
    """Handle 3, two pages, the cursor within the first."""
    s.take(readonly.small())
    s.do(calls.seek(s.open(b"/a/x"), 7))


# images

def load_events():
    for fill in FILLS:
        for n in [*MANY, *LARGE, *LARGEST]:
            data = filled(b"", fill, n)
            yield Load(data, digest(data))
        for n in [*range(65), *LARGE, *LARGEST]:
            yield Load(b"", filled(digest(b""), fill, n))


# lists

STATES = [
    (fresh, call_events), (open_file, call_events), (some_maps, call_events), (pending, few_call_events),
    (stopped, few_call_events),
    (fresh, unasked_events), (stopped, unasked_events), (fresh, load_events), (open_file, load_events),
]


READ_ONLY_STATES = [
    (fresh, call_events), (read_only_open, call_events), (pending, few_call_events), (stopped, few_call_events),
    (fresh, load_events),
]


def lists():
    """Each list's name, state, what makes its events, and what brings a guard to the state."""
    asking = [(question, partial(question_events, question)) for question in (*QUESTIONS, largest_map)]
    looking = [(question, partial(question_events, question, readonly.asked)) for question in readonly.QUESTIONS]
    states = [(*each, asked) for each in STATES + asking]
    states += [(*each, readonly.asked) for each in READ_ONLY_STATES + looking]
    return [(f"lengths {i}: {each[0].__name__}", *each) for i, each in enumerate(states)]


def lines_of(name, state, events, begin):
    """The driver's lines for each of the events in this state."""
    s = begin(state)
    yield "g 0"
    yield from write_list(name, s.steps, letter=s.letter)
    yield "k"
    for event in events():
        outcome = s.guard.step(event)
        yield packed_line(event)
        yield f"= {outcome}"
        if not isinstance(outcome, Refused) or outcome in ENDED:
            s = begin(state)
            yield "a"


def packed_line(event):
    match event:
        case Call():
            return f"c {packed(event.data)}"
        case Reply():
            return f"r {packed(event.data)}"
        case Load():
            return f"l {packed(event.image)} {packed(event.digest)}"


def packed(data):
    """The driver's form of bytes: of a run at the end one byte and its length."""
    end = data[-1:]
    head = data.rstrip(end)
    times = len(data) - len(head)
    return data.hex() if times < 8 else f"{head.hex()}{end.hex()}*{times}"
