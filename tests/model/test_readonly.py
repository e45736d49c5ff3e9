"""The read-only guard on all its lists: it saves what it last loaded, and is the guard in all that it takes."""

import unittest
from random import Random

from . import calls, rules
from .edges import image
from .events import Call, Done, Load, Refused, Save
from .generate import ReadOnlyGenerator, generate_read_only, generate_read_only_renaming
from .image import LONGEST
from .readonly import QUESTIONS, REFUSED, TAKEN, dishonest_lists, is_taken, scripted_lists
from .rules import RENAME, read_call, root
from .transcripts import read_only_recordings
from .tree import DigestStore, ReadOnly, guard

SEEDS = range(20_000, 20_300)
RENAMING_SEEDS = range(20_300, 20_350)
FRESH = image([root()])


def wrong_saves(steps):
    """The saves that do not give the image that was loaded last, or a fresh guard's where none was."""
    last, wrong = FRESH, []
    for event, outcome in steps:
        if isinstance(event, Load) and isinstance(outcome, Done):
            last = event.image
        if isinstance(event, Save) and isinstance(outcome, Done) and outcome.data != last:
            wrong.append(outcome)
    return wrong


def differs_from_a_guard(recording):
    """Whether a guard that gets all that was not refused 30 has another outcome or other tables."""
    other = guard()
    taken = [(event, outcome) for event, outcome in recording.steps if outcome != Refused(30)]
    same = all(other.step(event) == outcome for event, outcome in taken)
    return not same or other.tables() != recording.guard.tables()


def ended(recording):
    """The same list with its call and its files ended and a save behind; a stopped guard saves nothing more."""
    if not recording.guard.stopped:
        recording.finish() if recording.guard.pending else None
        for handle in list(recording.guard.open_files):
            recording.do(calls.close(handle))
        recording.send(Save(LONGEST))
    return recording


def wrong_guard(**methods):
    """A read-only guard that is wrong in a method."""
    kind = type("Wrong", (ReadOnly,), methods)
    return lambda: kind(DigestStore())


def generated(make_guard, seed):
    kind = type("Wrong", (ReadOnlyGenerator,), {"make_guard": staticmethod(make_guard)})
    return ended(kind(Random(seed)).run(80))


def takes_chmod(self, call):
    return rules.is_read_only(call) or call.kind == rules.CHMOD


def changes_what_it_refuses(self, call):
    if call.kind == rules.CHMOD:
        self.nodes[0].mode = 5
    return rules.is_read_only(call)


class ReadOnlyGuard(unittest.TestCase):
    @classmethod
    def setUpClass(cls):
        stored = [recording for _, recording in read_only_recordings()]
        made = (*map(generate_read_only, SEEDS), *map(generate_read_only_renaming, RENAMING_SEEDS))
        cls.recordings = [ended(recording) for recording in (*stored, *made)]

    def test_saves_what_it_loaded(self):
        saves = 0
        for recording in self.recordings:
            self.assertEqual(wrong_saves(recording.steps), [])
            saves += sum(isinstance(event, Save) and isinstance(out, Done) for event, out in recording.steps)
        self.assertGreaterEqual(saves, 200)

    def test_agrees_with_the_guard(self):
        for recording in self.recordings:
            self.assertFalse(differs_from_a_guard(recording))

    def test_a_guard_that_changes_something_is_seen(self):
        """By its saves and beside the guard."""
        for takes in (takes_chmod, changes_what_it_refuses):
            wrong = [generated(wrong_guard(takes=takes), seed) for seed in range(40)]
            self.assertTrue(any(wrong_saves(recording.steps) for recording in wrong))
        self.assertTrue(any(map(differs_from_a_guard, wrong)))

    def test_what_is_refused_30(self):
        """Calls that are right in form and not taken, and all of them but for what comes before."""
        for recording in self.recordings:
            for event, outcome in recording.steps:
                if outcome == Refused(30):
                    self.assertIsInstance(event, Call)
                    self.assertFalse(is_taken(event.data))
                    self.assertIsNotNone(read_call(event.data))
                elif isinstance(event, Call) and not is_taken(event.data[:2] or b"\0"):
                    self.assertIn(outcome, map(Refused, (5, 114, 34, 22, 36)))

    def test_every_kind(self):
        """The scripts have each kind among what is taken or refused, and each number of the order."""
        self.assertEqual({call[0] for call in (*REFUSED, *TAKEN)}, set(range(1, RENAME + 1)))
        steps = [step for _, recording in scripted_lists() for step in recording.steps]
        numbers = {outcome.number for _, outcome in steps if isinstance(outcome, Refused)}
        self.assertEqual(numbers, {5, 114, 61, 34, 22, 36, 30, 20, 13, 2, 21, 16, 24, 9, 74, 84})
        for call in REFUSED:
            came = {outcome.number for event, outcome in steps if isinstance(event, Call) and event.data == call}
            self.assertEqual(came, {5, 114, 34, 30})

    def test_dishonest_replies(self):
        names = {name.partition(":")[0] for name, _ in dishonest_lists()}
        self.assertEqual(names, {f"read-only, {question.__name__}" for question in QUESTIONS})

    def test_a_guard_may_go_on_with_its_image(self):
        """What it saves is a guard's image: a guard loads it and writes."""
        recording = self.recordings[1]
        _, outcome = recording.steps[-1]
        other = guard()
        self.assertEqual(other.step(Load(outcome.data, outcome.digest)), Done(0))
        self.assertEqual(len(other.nodes), len(recording.guard.nodes))
