"""The model beside the archive, through the driver.

    python3 -m boundary.compare [--first SEED] [--count LISTS] [--lengths] DRIVER

Lists from fixed seeds, two side by side, or those that are named; with --lengths also what is handed in at every
length. Each goes through the driver twice, everything that is lent at the low ends and at the high ends of its places.
A pair of lists that differs is shortened and printed with the command that repeats it; the status is then 1.
"""

import argparse
import subprocess
import sys
from collections import Counter
from concurrent.futures import ProcessPoolExecutor
from functools import partial

from model.compare import shortened
from model.events import Call, Done, Load, Refused, Reply, Save, Stopped

from . import lengths, lists

AT_ONCE = 20  # pairs of lists that one driver gets
ENDS = "low", "high"

# the numbers that each event may be refused with, in their order, and the stop reasons (SPECIFICATION 7, 5.10)
EVENTS = Call, Reply, Save, Load
NUMBERS = {
    Call: [5, 114, 34, 22, 36, 30, 20, 13, 2, 17, 21, 16, 39, 24, 9, 27, 28, 12],
    Reply: [5, 61, 34, 28],
    Save: [5, 114, 16, 34],
    Load: [5, 114, 16, 74, 84],
}
STOPS = range(1, 9)


def difference(driver, lines):
    """What the driver says of the first difference, or None."""
    text = "".join(line + "\n" for line in lines)
    for end in ENDS:
        done = subprocess.run([driver, end], input=text, stdout=subprocess.PIPE, text=True)
        if done.returncode == 1:
            return f"{done.stdout.strip()} (things at the {end} end)"
        done.check_returncode()
    return None


def pair_difference(driver, turns, letters, name="shortened"):
    return difference(driver, lists.lines_of(name, turns, letters))


def seeds_differ(driver, seeds):
    """Of some pairs of lists: what they have, and the first pair that differs with what the driver says."""
    pairs = {seed: lists.pair(seed) for seed in seeds}
    lines = [line for seed, turns in pairs.items() for line in pair_lines(seed, turns)]
    had = Counter(what(event, outcome) for turns in pairs.values() for _, event, outcome in turns)
    whole = difference(driver, lines)
    if not whole:
        return had, None
    alone = (seed for seed, turns in pairs.items() if pair_difference(driver, turns, lists.letters(seed)))
    return had, (next(alone, None), whole)


def pair_lines(seed, turns):
    return lists.lines_of(f"seeds {seed} and {seed + 1}", turns, lists.letters(seed))


def what(event, outcome):
    """What happened, in three words."""
    number = {Refused: "number", Stopped: "reason"}.get(type(outcome))
    return type(event), type(outcome), getattr(outcome, number) if number else None


def lengths_differ(driver, number):
    """The same of one state of lengths."""
    lines = list(lengths.lines_of(*lengths.lists()[number]))
    return sum(line[0] == "=" for line in lines), difference(driver, lines)


def report(driver, seed):
    """The shortest pair of lists that still differs."""
    events = [(number, event) for number, event, _ in lists.pair(seed)]
    letters = lists.letters(seed)
    still = lambda shorter: pair_difference(driver, lists.answered(shorter, letters), letters) is not None
    turns = lists.answered(shortened(still, events), letters)
    print(*lists.lines_of("shortened", turns, letters), sep="\n")
    print(pair_difference(driver, turns, letters))
    print(f"repeat, in tests: python3 -m boundary.compare --first {seed} --count 2 {driver}")


def compare_seeds(pool, driver, first, count):
    chunks = [range(at, min(at + 2 * AT_ONCE, first + count), 2) for at in range(first, first + count, 2 * AT_ONCE)]
    had = Counter()
    for some, differing in pool.map(partial(seeds_differ, driver), chunks):
        had += some
        if differing:
            seed, said = differing
            print(said)
            report(driver, seed) if seed is not None else print("no pair differs alone")
            sys.exit(1)
    print(
        f"boundary: {count} lists, {had.total()} events, each as by the model; seeds from {first}; "
        f"{had[Save, Done, None]} saves, {had[Load, Done, None]} loads, {of(had, Refused, 34)} short buffers, "
        f"{sum(of(had, Stopped, reason) for reason in STOPS)} wrong replies, {of(had, Refused, 5)} events after a stop"
    )
    return had


def of(had, outcome, number):
    """How often anything came to this."""
    return sum(had[event, outcome, number] for event in EVENTS)


def check_all_came(had):
    """Every number and every reason, each with all events that it is for."""
    lacking = [
        (event.__name__, number) for event in EVENTS for number in NUMBERS[event] if not had[event, Refused, number]
    ]
    lacking += [("stop", reason) for reason in STOPS if not had[Reply, Stopped, reason]]
    if lacking:
        sys.exit(f"boundary: these never came: {lacking}")


def compare_lengths(pool, driver):
    total = 0
    for events, said in pool.map(partial(lengths_differ, driver), range(len(lengths.lists()))):
        total += events
        if said:
            print(said)
            print(f"repeat, in tests: python3 -m boundary.compare --count 0 --lengths {driver}")
            sys.exit(1)
    print(f"boundary: {total} calls, replies and images of every length, each as by the model")


def main():
    parser = argparse.ArgumentParser(prog="python3 -m boundary.compare")
    parser.add_argument("--first", type=int, default=0)
    parser.add_argument("--count", type=int, default=2500)
    parser.add_argument("--lengths", action="store_true")
    parser.add_argument("driver")
    options = parser.parse_args()
    with ProcessPoolExecutor() as pool:
        had = compare_seeds(pool, options.driver, options.first, options.count)
        if options.count >= 1000:
            check_all_came(had)
        if options.lengths:
            compare_lengths(pool, options.driver)


if __name__ == "__main__":
    main()
