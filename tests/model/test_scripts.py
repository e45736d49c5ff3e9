"""Every script as a test: the trials, each number and its neighbours, the page rules, maps, a full disk, each dishonest
reply.
"""

import unittest

from .dishonest import QUESTIONS, asked, dishonest_lists
from .events import Refused, Reply, Stopped
from .full import PLACES, full_lists, neighbour_lists
from .recording import FULL_DISK
from .rules import TRUNCATE, WRITE
from .script import Script
from .transcripts import SCRIPTS

# those that differ from another only in what is kept of a page
SAME_REQUESTS = {
    "read_over_the_old_end", "read_added_page", "read_last_added_page", "write_to_an_added_page",
    "cut_of_an_added_page", "stat_of_a_grown_file", "map_beside_a_smaller_one",
}
NUMBERS = {5, 114, 61, 34, 22, 36, 20, 13, 2, 17, 21, 16, 39, 24, 9, 27, 28, 12, 74, 84}


class Scripts(unittest.TestCase):
    def test_every_number_comes(self):
        numbers = set()
        for script in SCRIPTS:
            recording = Script()
            script(recording)
            numbers |= {outcome.number for _, outcome in recording.steps if isinstance(outcome, Refused)}
        self.assertEqual(numbers, NUMBERS)

    def test_dishonest_replies(self):
        """Each stops the guard, as `dishonest_lists` asserts; every reason comes, and every kind of request is met."""
        reasons, questions = set(), set()
        for name, recording in dishonest_lists():
            reasons |= {outcome.reason for _, outcome in recording.steps if isinstance(outcome, Stopped)}
            questions.add(name.partition(":")[0])
        self.assertEqual(reasons, set(range(1, 9)))
        self.assertEqual(questions, {question.__name__ for question in QUESTIONS})

    def test_full_disk(self):
        """Each has its answer, as `full_lists` asserts; every request is met, at its width and at others."""
        names = [name.partition(":")[0] for name, _ in full_lists()]
        self.assertEqual(set(names), {place.__name__ for place in PLACES})
        self.assertEqual({place.__name__ for place in QUESTIONS} - set(names), SAME_REQUESTS)
        self.assertEqual(len(list(neighbour_lists())), 3 * len([place for place in PLACES if is_status(place)]))

    def test_a_reply_is_refused_28(self):
        """And by no other four bytes."""
        recordings = [recording for _, recording in (*full_lists(), *neighbour_lists(), *dishonest_lists())]
        refused = [event.data for s in recordings for event, outcome in s.steps
                   if isinstance(event, Reply) and outcome == Refused(28)]
        self.assertEqual(set(refused), {FULL_DISK})


def is_status(place):
    """Whether a full disk ends a store or a cut here."""
    return not PLACES[place].startswith("stopped") and asked(place).request[0] in (WRITE, TRUNCATE)


def test_of(script):
    return lambda self: script(Script())


for script in SCRIPTS:
    setattr(Scripts, f"test_{script.__name__}", test_of(script))
