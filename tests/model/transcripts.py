"""Lists of events with their answers as a file, for a program that replays them.

    python3 -m model.transcripts > FILE          the same each time: every script, every dishonest reply, fixed seeds
    python3 -m model.transcripts trials > FILE   the trials (SPECIFICATION 11.1) alone, each with its words

One line is one thing; its first character says which. Fields stand one blank apart, numbers are decimal, bytes are
lower-case hexadecimal, and no bytes are no digits (`c `, `l  `). No line has more than 131,200 characters,
and no event more than 65,552 bytes.

    f NAME              a fresh guard, and buffers of 9,690 and 1,037 bytes; a list of this name begins
    o NAME              the same with a fresh read-only guard, which the calls go to up to the next f or o
    b ANSWER REQUEST    settings: the lengths of both buffers for the calls and replies that follow
    c CALL              a call
    r REPLY             a reply
    s LENGTH            a save into a buffer of this length
    l IMAGE DIGEST      a load
    = ANSWER            below each c, r, s and l: what comes back, in deskrun's words; for a save that is done
                        `done LENGTH IMAGE DIGEST`
    p WORDS             the answer above is printed behind these words

A later kind of event or setting takes a letter of its own, so stored lines stay as they are.
"""

import sys

from . import dishonest, full, maps, numbers, pages, readonly, renames, trials
from .events import Call, Load, Reply, Save
from .generate import (
    generate, generate_filling, generate_growing, generate_longer, generate_mapping, generate_read_only,
    generate_read_only_renaming, generate_renaming,
)
from .rules import ANSWER, REQUEST
from .script import Script

SCRIPTS = [
    *trials.TRIALS, *numbers.NUMBERS, *numbers.NEIGHBOURS, *pages.PAGES, *maps.MAPS, *full.SCRIPTS, *renames.RENAMES,
]
SEEDS = range(100)
LONGER_SEEDS = range(100, 120)
GROWING_SEEDS = range(120, 150)
MAPPING_SEEDS = range(150, 161)
FILLING_SEEDS = range(161, 181)
READ_ONLY_SEEDS = range(181, 197)
RENAMING_SEEDS = range(197, 237)
READ_ONLY_RENAMING_SEEDS = range(237, 243)


def recordings():
    """Every list of a guard, with its name."""
    for script in SCRIPTS:
        recording = Script()
        script(recording)
        yield script.__name__, recording
    yield from dishonest.dishonest_lists()
    yield from full.full_lists()
    yield from full.neighbour_lists()
    for seed in SEEDS:
        yield f"seed {seed}", generate(seed)
    for seed in LONGER_SEEDS:
        yield f"seed {seed}, longer buffers", generate_longer(seed)
    for seed in GROWING_SEEDS:
        yield f"seed {seed}, growing files", generate_growing(seed)
    for seed in MAPPING_SEEDS:
        yield f"seed {seed}, maps", generate_mapping(seed)
    for seed in FILLING_SEEDS:
        yield f"seed {seed}, a full disk", generate_filling(seed)
    for seed in RENAMING_SEEDS:
        yield f"seed {seed}, renames", generate_renaming(seed)


def read_only_recordings():
    """Every list of a read-only guard."""
    yield from readonly.scripted_lists()
    yield from readonly.dishonest_lists()
    for seed in READ_ONLY_SEEDS:
        yield f"seed {seed}, read-only", generate_read_only(seed)
    for seed in READ_ONLY_RENAMING_SEEDS:
        yield f"seed {seed}, read-only, renames", generate_read_only_renaming(seed)


def write_list(name, steps, shown={}, letter="f"):
    """The lines of one list."""
    yield f"{letter} {name}"
    buffers = ANSWER, REQUEST
    for i, (event, outcome) in enumerate(steps):
        if isinstance(event, (Call, Reply)) and buffers != (event.answer_len, event.request_len):
            buffers = event.answer_len, event.request_len
            yield "b {} {}".format(*buffers)
        yield event_line(event)
        yield f"= {outcome}"
        if i in shown:
            yield f"p {shown[i]}"


def event_line(event):
    match event:
        case Call():
            return f"c {event.data.hex()}"
        case Reply():
            return f"r {event.data.hex()}"
        case Save():
            return f"s {event.buffer_len}"
        case Load():
            return f"l {event.image.hex()} {event.digest.hex()}"


def replay(lines, make_guards):
    """The answers of guards, each made by its letter, to the lines of a file, beside those that stand there."""
    guard, buffers, event = None, (ANSWER, REQUEST), None
    for line in lines:
        letter, fields = line[0], line[2:].split(" ")
        match letter:
            case "f" | "o":
                guard, buffers = make_guards[letter](), (ANSWER, REQUEST)
            case "b":
                buffers = tuple(map(int, fields))
            case "c":
                event = Call(bytes.fromhex(fields[0]), *buffers)
            case "r":
                event = Reply(bytes.fromhex(fields[0]), *buffers)
            case "s":
                event = Save(int(fields[0]))
            case "l":
                event = Load(*map(bytes.fromhex, fields))
            case "=":
                yield str(guard.step(event)), line[2:]


def all_lines():
    for name, recording in (*recordings(), *read_only_recordings()):
        yield from write_list(name, recording.steps, letter=recording.letter)


def trial_lines():
    """The trials, their answers shown."""
    for trial in trials.TRIALS:
        recording = Script()
        trial(recording)
        yield from write_list(trial.__name__, recording.steps, recording.shown)


def main():
    for line in trial_lines() if sys.argv[1:] == ["trials"] else all_lines():
        print(line)


if __name__ == "__main__":
    main()
