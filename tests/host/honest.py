"""Random lists of calls through the archive and the real host: every outcome is the model's, none is a stop, and the
directory is the model's tree at the end.

    python3 -m host.honest PROGRAM PLACE LISTS      from tests/; PROGRAM is drive.c's, PLACE a directory to fill

In every other list the system calls fail for a moment now and then, or do a part of what they are asked; in every third
the host's disk is small, and is made smaller or larger as the list goes on.
"""

import shutil
import sys
from pathlib import Path
from random import Random

from model import calls
from model.events import Reply, Stopped
from model.generate import Generator, MappingGenerator
from model.rules import MAP, RENAME, UNMAP

from .beside import FULL, Beside, Driver, Different, in_model, on_disk

CALLS = 120
BUDGETS = [1, 2000, 10_000, 40_000, 0]  # bytes of the host's disk; 1 is less than it has already, 0 is no bound


class HonestGenerator(MappingGenerator):
    """The model's lists for the desk, with a few maps and renames, without lies and without replies that nobody asked
    for.
    """

    start = Generator.start

    def __init__(self, random, recording):
        super().__init__(random, desk=True)
        self.recording, self.guard = recording, recording.guard
        self.lie = self.bad_time = 0
        self.weights[MAP] = self.weights[UNMAP] = 2
        self.weights[RENAME] = 3

    def all_makers(self):
        return {**super().all_makers(), RENAME: HonestGenerator.rename_call}

    def rename_call(self, kind):
        """Any node, with its tree and open or not, to a name in some directory: mostly one that is free."""
        return calls.rename(self.path_of(self.some_node(self.guard.nodes)), self.child_path())


def is_ended(event, outcome):
    """Whether a full disk has ended a call: the answer to a reply is 28, or that of a write has fewer bytes."""
    return isinstance(event, Reply) and event.data == FULL and not isinstance(outcome, Stopped)


def run_list(program, place, seed):
    """How many calls were compared, and how many ended by a full disk."""
    random = Random(seed)
    driver = Driver(program, place)
    if seed % 2:
        driver.send(f"e {random.randrange(3, 20)}")
    beside = Beside(driver)
    generator = HonestGenerator(random, beside)
    generator.start()
    for number in range(CALLS):
        if seed % 3 == 0 and number % (CALLS // 6) == 0:
            driver.send(f"b {random.choice(BUDGETS)}")
        generator.event()
        if random.random() < 0.02:
            beside.save()
            beside.load() if random.random() < 0.3 else beside.start_again(driver)
    if in_model(beside.host) != on_disk(place):
        raise Different("the directory is not the model's tree")
    if driver.end() != 0:
        raise Different("the program's status is not 0")
    return (
        sum(1 for event, _ in beside.steps if hasattr(event, "answer_len")),
        sum(1 for event, outcome in beside.steps if is_ended(event, outcome)),
    )


def main():
    program, place, lists = sys.argv[1], Path(sys.argv[2]), int(sys.argv[3])
    total = full = 0
    for seed in range(lists):
        shutil.rmtree(place, ignore_errors=True)
        place.mkdir(parents=True)
        try:
            compared, ended = run_list(program, place, seed)
            total, full = total + compared, full + ended
        except Exception:
            print(f"host: seed {seed}")
            raise
    if full == 0:
        raise Different("no list has met a full disk")
    print(
        f"host: {lists} lists, {total} calls and replies, {full} calls ended by a full disk, no stop, every outcome "
        "and each directory the model's"
    )


if __name__ == "__main__":
    main()
