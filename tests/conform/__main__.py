"""Tries whether a program is an honest host.

    python3 -m conform [--first SEED] [--count LISTS] [--patience SECONDS] -- PROGRAM [ARGUMENT ...]       from tests/

At the first fault the list is shortened as long as it still shows it, and told with the command that repeats it; the
status is then 1. A run without a fault says what it has met.
"""

import argparse
import shlex
import shutil
import sys
import textwrap
import time
from random import SystemRandom

from model.compare import shortened

from .client import POWER_LOSS, Client, Restart, Wrong
from .covered import Covered
from .lists import TURNS, List
from .wire import FRAMES, Broken, Program
from .words import AFTER_POWER_UP, compared, digits, list_words, paragraphs, quoted, request_words

SHORTENING = 30  # seconds at the most
SHORT = 20  # a list that is short enough
SHORT_PATIENCE = 0.2  # while a list is shortened, or ten times what the slowest reply has taken


class Fault:
    """What a list has come to: a wrong reply, or a program that breaks off."""

    def __init__(self, what, things):
        self.what, self.things, self.is_shortest = what, things, False

    def looks(self):
        """What a shorter list must come to as well."""
        if isinstance(self.what, Wrong):
            return self.what.request[0], self.what.reason
        return str(self.what).split(":")[0]


def tried(program, work):
    """The fault that some work with a program comes to, or none; and its client."""
    client = Client(program)
    try:
        work(client)
    except (Wrong, Broken) as what:
        return Fault(what, client.things), client
    return None, client


def redone(things):
    def work(client):
        client.begin()
        for thing in things:
            client.perform(thing)

    return work


class Trial:
    def __init__(self, command, patience):
        self.command, self.patience, self.slowest = command, patience, 0

    def in_new_process(self, work):
        """Some work in a process of its own, over a new directory, and its end."""
        program = Program(self.command, self.patience)
        try:
            fault, client = tried(program, work)
            return fault or self.fault_of_end(program), client
        finally:
            self.slowest = max(self.slowest, program.slowest)
            program.remove()

    def fault_of_end(self, program):
        try:
            program.end()
        except Broken as what:
            return Fault(what, [])

    def shortest(self, fault):
        """The shortest list that was found; in one process for all attempts, or, where that shows something else or is
        not short, in one for each: a host may carry over what it had. A kill that does not matter is plain power loss.
        """
        found = fault
        for in_one in (True, False):
            until = time.monotonic() + SHORTENING
            things = self.shortened(found, in_one, until)
            in_time = time.monotonic() < until
            again, _ = self.in_new_process(redone(things))
            if again and again.looks() == fault.looks() and (found is fault or len(things) < len(found.things)):
                again.is_shortest = in_time
                found = again
            if found is not fault and len(found.things) <= SHORT:
                break
        return found

    def shortened(self, fault, in_one, until):
        patience = min(self.patience, max(SHORT_PATIENCE, 10 * self.slowest))
        programs = []

        def shows(things):
            if time.monotonic() > until:
                return False
            if not programs:
                programs.append(Program(self.command, patience))
            found, _ = tried(programs[0], redone(things))
            if not in_one or (found and isinstance(found.what, Broken)):
                programs.pop().remove()
            return found is not None and found.looks() == fault.looks()

        try:
            plain = [Restart(POWER_LOSS) if isinstance(thing, Restart) else thing for thing in fault.things]
            return shortened(shows, plain if shows(plain) else fault.things)
        finally:
            for program in programs:
                program.remove()


def report(fault, seed, command):
    wrong = isinstance(fault.what, Wrong)
    length = "the shortest" if fault.is_shortest else "a"
    print(f"conform: {'a wrong reply' if wrong else fault.what}; seed {seed}, {length} list that shows it:")
    for line in list_words(fault.things):
        show("    ", line)
    if wrong:
        explain(fault.what, fault.things)
    else:
        frame = fault.what.frame
        show("frame:   ", f"{FRAMES[frame[0]]}, {digits(frame)}" if frame else "none yet")
        show("why:     ", "docs/INTEGRATION.md, 9, the wire form")
    print(f"repeat:  ./run conform --first {seed} --count 1 -- {shlex.join(command)}")


def explain(wrong, things):
    right, came = compared(wrong)
    show("request: ", request_words(wrong))
    show("         ", digits(wrong.request))
    show("right:   ", right)
    show("came:    ", came)
    cited = paragraphs(wrong, things)
    life = "; docs/INTEGRATION.md, 9, what a start is" if AFTER_POWER_UP in cited else ""
    show("why:     ", f"docs/SPECIFICATION.md, {', '.join(cited)}{life}")
    for paragraph in cited:
        show("         ", quoted(paragraph, wrong.request))


def show(head, text):
    """A line behind its head, folded where it is long."""
    print("\n".join(textwrap.wrap(text, 120, initial_indent=head, subsequent_indent=" " * (len(head) + 2))))


def options():
    parser = argparse.ArgumentParser(prog="./run conform")
    anew = TURNS * SystemRandom().randrange(1 << 24)
    parser.add_argument("--first", type=int, default=anew, help="the first list's seed")
    parser.add_argument("--count", type=int, default=2 * TURNS, help="how many lists")
    parser.add_argument("--patience", type=float, default=10, help="how many seconds a reply may take")
    parser.add_argument("command", nargs=argparse.REMAINDER, metavar="-- PROGRAM")
    chosen = parser.parse_args()
    chosen.command = chosen.command[chosen.command[:1] == ["--"] :]
    if not chosen.command:
        parser.error("no program is named")
    if not shutil.which(chosen.command[0]):
        parser.error(f"there is no program {chosen.command[0]}")
    return chosen


def main():
    chosen = options()
    trial, covered = Trial(chosen.command, chosen.patience), Covered()
    for seed in range(chosen.first, chosen.first + chosen.count):
        fault, client = trial.in_new_process(lambda client: List(client, seed).run())
        if fault:
            report(trial.shortest(fault), seed, chosen.command)
            sys.exit(1)
        covered.add(client.covered)
    print(f"conform: {chosen.count} lists from seed {chosen.first}, {covered.total():,} requests, every reply right")
    for line in covered.text():
        show("  ", line)


if __name__ == "__main__":
    main()
