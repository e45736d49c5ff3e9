"""Buffers that are longer than they must be: every answer stays as it is."""

from dataclasses import replace

from .events import Call, Refused, Reply, Save

MAX_SAVE = 60_000  # the most that a save is lent by whoever replays a list


def longer_steps(random, steps):
    """The same events and outcomes, most of the buffers longer."""
    return [(longer(random, event, outcome), outcome) for event, outcome in steps]


def longer(random, event, outcome):
    """An event in longer buffers; one that was refused for short ones keeps them."""
    if outcome == Refused(34):
        return event
    match event:
        case Call() | Reply():
            lengths = [more(random, length) for length in (event.answer_len, event.request_len)]
            return replace(event, answer_len=lengths[0], request_len=lengths[1])
        case Save():
            return replace(event, buffer_len=min(more(random, event.buffer_len), MAX_SAVE))
    return event


def more(random, length):
    return random.choice([length, length + 1, length + random.randrange(100), 2 * length])
