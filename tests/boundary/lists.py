"""Lists of events for the driver: those of model.generate, ended so that the tables are seen, two of them side by side.

A turn is the number of a guard, an event and its outcome.
"""

from random import Random

from model import calls
from model.events import Call, Reply, Save
from model.generate import (
    generate, generate_filling, generate_growing, generate_mapping, generate_read_only, generate_renaming,
)
from model.image import LONGEST
from model.longer import longer
from model.rules import ANSWER, REQUEST
from model.transcripts import event_line
from model.tree import GUARDS

MAKERS = {0: generate_growing, 1: generate_filling, 3: generate_mapping, 4: generate_renaming, 5: generate_read_only}


def pair(seed):
    """The lists of two seeds in turns."""
    steps = generated(seed), generated(seed + 1)
    turns = []
    for i in range(max(map(len, steps))):
        for number in 0, 1:
            turns += [(number, event, outcome) for event, outcome in steps[number][i : i + 1]]
    return turns


def letters(seed):
    """Which guards the two lists begin with."""
    return ["o" if maker_of(each) is generate_read_only else "f" for each in (seed, seed + 1)]


def maker_of(seed):
    return MAKERS.get(seed % 6, generate)


def generated(seed):
    """A list from a seed, with its outcomes, one of six of growing files, one of maps, one of a full disk, one of
    renames, one of a read-only guard; now and then buffers are longer.
    """
    recording = maker_of(seed)(seed)
    if not recording.guard.stopped:
        settle(recording)
    random = Random(seed)
    return [
        (longer(random, event, outcome) if random.random() < 0.2 else event, outcome)
        for event, outcome in recording.steps
    ]


def settle(recording):
    """The pending call ended, every file closed, all tables saved, every map ended."""
    recording.finish() if recording.guard.pending else None
    for handle in list(recording.guard.open_files):
        recording.do(calls.close(handle))
    recording.send(Save(LONGEST))
    for address in list(recording.guard.maps):
        recording.do(calls.unmap(address))


def lent(event):
    return event.answer_len, event.request_len


def answered(events, letters):
    """Turns of these pairs of a guard's number and an event: the outcomes are the model's, from fresh guards."""
    guards = [GUARDS[letter]() for letter in letters]
    return [(number, event, guards[number].step(event)) for number, event in events]


def lines_of(name, turns, letters):
    """The driver's lines."""
    buffers = [(ANSWER, REQUEST)] * 2
    yield from ("g 1", f"{letters[1]} {name}", "g 0", f"{letters[0]} {name}")
    for number, event, outcome in turns:
        yield f"g {number}"
        if isinstance(event, (Call, Reply)) and buffers[number] != lent(event):
            buffers[number] = lent(event)
            yield "b {} {}".format(*lent(event))
        yield event_line(event)
        yield f"= {outcome}"
