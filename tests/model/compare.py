"""The model beside a program that speaks deskrun's line protocol on its standard input and output.

    python3 -m model.compare [--first SEED] [--count LISTS] PROGRAM [ARGUMENT ...]

Every script that needs calls and replies alone goes first, then lists from fresh seeds, or from those that are named.
Bad lines stand among them. At the first difference the list is shortened as long as it still differs, and printed with
the command that repeats it; the status is then 1.
"""

import argparse
import shlex
import subprocess
import sys
from functools import partial
from random import Random, SystemRandom

from .desk import MAX_BYTES, answers
from .events import Call, Reply
from .generate import generate_for_desk
from .rules import ANSWER, REQUEST
from .script import Script
from .transcripts import SCRIPTS, event_line


def is_for_desk(event):
    if not isinstance(event, (Call, Reply)) or len(event.data) > MAX_BYTES:
        return False
    return (event.answer_len, event.request_len) == (ANSWER, REQUEST)


def all_lists(seeds):
    """The options that repeat a list, and its lines."""
    for lines in scripted_lists():
        yield "--count 0", lines
    for seed in seeds:
        yield f"--first {seed} --count 1", generated_lines(seed)


def scripted_lists():
    """The scripts that deskrun can be fed."""
    for script in SCRIPTS:
        recording = Script()
        script(recording)
        if all(map(is_for_desk, recording.events)):
            yield lines_of(recording)


def generated_lines(seed):
    """A generated list, with bad lines in between."""
    random = Random(seed)
    lines = []
    for line in lines_of(generate_for_desk(seed)):
        if random.random() < 0.03:
            lines.append(damaged(random, line))
        lines.append(line)
    return lines


def lines_of(recording):
    return [event_line(event).encode() for event in recording.events]


def damaged(random, line):
    return random.choice([
        b"", line[:1], line[:-1], line + b"0", line + b" ", b" " + line, line + b"\r", line + b"\0",
        line.replace(b" ", b"\t"), line.replace(b" ", b""), line.replace(b" ", b"  "),
        b"a" + line[1:], line.upper(), line[:2] + b"A" + line[3:],
        b"c " + b"00" * (MAX_BYTES + 1), b"r " + b"00" * MAX_BYTES, b"\xff" * 10,
    ])


def program_answers(command, lines):
    """What a program prints for these lines; one that breaks has printed less."""
    text = b"".join(line + b"\n" for line in lines)
    printed = subprocess.run(command, input=text, stdout=subprocess.PIPE, timeout=600).stdout
    return printed.decode("latin-1").split("\n")[:-1]


def differs(command, lines):
    return answers(lines) != program_answers(command, lines)


def shortened(differs, things):
    """A list that still differs, and no longer does with any one thing left out."""
    before, size = None, len(things)
    while before != things or size > 1:
        before, size = things, max(size // 2, 1)
        things = without_parts(differs, things, size)
    return things


def without_parts(differs, things, size):
    """The list without those parts of this size that a difference does not need."""
    at = 0
    while at < len(things):
        shorter = things[:at] + things[at + size :]
        if differs(shorter):
            things = shorter
        else:
            at += size
    return things


def report(command, lines, repeat):
    lines = shortened(partial(differs, command), lines)
    ours, theirs = answers(lines), program_answers(command, lines)
    print(f"compare: a list of {len(lines)} lines differs")
    for i, line in enumerate(lines):
        print(line.decode("ascii", "backslashreplace"))
        our, their = ours[i], theirs[i] if i < len(theirs) else "(nothing)"
        print(f"    {our}" if our == their else f"    model: {our}\n    program: {their}")
    print(f"repeat: python3 -m model.compare {repeat} {shlex.join(command)}")


def main():
    parser = argparse.ArgumentParser(prog="python3 -m model.compare")
    parser.add_argument("--first", type=int, default=SystemRandom().randrange(1 << 32))
    parser.add_argument("--count", type=int, default=200)
    parser.add_argument("command", nargs=argparse.REMAINDER)
    options = parser.parse_args()
    total = 0
    for repeat, lines in all_lists(range(options.first, options.first + options.count)):
        total += len(lines)
        if differs(options.command, lines):
            report(options.command, lines, repeat)
            sys.exit(1)
    print(f"compare: {total} lines, no difference; seeds from {options.first}")


if __name__ == "__main__":
    main()
