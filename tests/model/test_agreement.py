"""The claim (SPECIFICATION 10) on samples: the guard answers as the reference tree does, and never stops under an
honest host.
"""

import unittest
from functools import partial
from random import Random

from . import calls
from .edges import image, sample
from .events import Ask, Call, Done, Load, Refused, Reply, Save, Stopped
from .full import full_lists, neighbour_lists
from .generate import FillingGenerator, Generator, GrowingGenerator, MappingGenerator, RenamingGenerator
from .host import Host
from .image import read_image, write_image
from .recording import FULL_DISK
from .rules import DIRECTORY, MAX_COUNT, MAX_MAPS, RENAME, SPACE, UNIT, put, split_paths, unsigned
from .script import Script, load_of
from .transcripts import SCRIPTS
from .tree import guard, tree

SEEDS = range(10_000, 10_200)


def generator(seed):
    """In turn of all calls of files, of growing files, of maps, of a full disk, of renames."""
    kinds = Generator, GrowingGenerator, MappingGenerator, FillingGenerator, RenamingGenerator
    return kinds[seed % len(kinds)](Random(seed))


def of_saves(steps):
    """The events up to the first load of an image that no save of the list gave."""
    saved, events = set(), []
    for event, outcome in steps:
        if isinstance(event, Save) and isinstance(outcome, Done):
            saved.add(outcome.digest)
        if isinstance(event, Load) and isinstance(outcome, Done) and event.digest not in saved:
            break
        events.append(event)
    return events


def stops_with(grown, seed):
    """Whether an honest list stops with a host whose growing cuts leave this of the bytes that were there."""
    honest = GrowingGenerator(Random(seed))
    honest.lie = 0
    host = honest.recording.host
    right = host.cut

    def cut(fields):
        file, size = host.open_files[unsigned(fields[:4])], unsigned(fields[4:])
        after = grown(file.data, size) if size > len(file.data) else None
        status = right(fields)
        file.data = file.data if after is None else after
        return status

    host.cut = cut
    return any(isinstance(outcome, Stopped) for _, outcome in honest.run(80).steps)


def left_children(host, fields):
    """A directory is renamed without what is in it."""
    status = Host.rename(host, fields)
    _, second = split_paths(fields)
    host.find(second).entries = {}
    return status


def stops_with_renames(wrong, seed):
    """Whether an honest list stops with a host that renames in this way, and says so where it finds no such name."""
    honest = RenamingGenerator(Random(seed))
    honest.lie = 0
    host = honest.recording.host
    right = host.reply

    def reply(request):
        try:
            return right(request)
        except KeyError:
            return put(-2, 4)

    host.rename, host.reply = partial(wrong, host), reply
    return any(isinstance(outcome, Stopped) for _, outcome in honest.run(80).steps)


class Agreement(unittest.TestCase):
    def agree(self, events):
        one, other = guard(), tree()
        for event in events:
            self.assertEqual(one.step(event), other.step(event))
        self.assertEqual(one.tables(), other.tables())

    def test_generated(self):
        for seed in SEEDS:
            with self.subTest(seed):
                self.agree(of_saves(generator(seed).run(80).steps))

    def test_scripted(self):
        for script in SCRIPTS:
            with self.subTest(script.__name__):
                recording = Script()
                script(recording)
                self.agree(of_saves(recording.steps))

    def test_full_disk(self):
        """At every request, at every width."""
        for name, recording in (*full_lists(), *neighbour_lists()):
            with self.subTest(name):
                self.agree(recording.events)

    def test_full_disk_leaves_host_and_guard_alike(self):
        """After an honest list a call of each file and directory shows what the host has; nothing stops."""
        ended = 0
        for seed in SEEDS:
            honest = FillingGenerator(Random(seed))
            honest.lie = 0
            recording = honest.run(80)
            ended += sum(event == Reply(FULL_DISK) and outcome != Refused(61) for event, outcome in recording.steps)
            recording.finish() if recording.guard.pending else None
            self.assertFalse(recording.guard.stopped, seed)
            self.see_all(honest, recording)
        self.assertGreaterEqual(ended, 500)

    def see_all(self, made, recording):
        """Every node's stat and every file's bytes, asked of the host."""
        for handle in list(recording.guard.open_files):
            recording.do(calls.close(handle))
        for path in [made.path_of(node) for node in recording.guard.nodes]:
            recording.do(calls.chmod(7, path))
        for node in recording.guard.nodes:
            path = made.path_of(node)
            self.assertIsInstance(recording.do(calls.stat(path)), Done)
            if node.kind == DIRECTORY:
                self.assertIsInstance(recording.do(calls.readdir(path)), Done)
                continue
            recording.do(calls.open_(1, path))
            for _ in range(0, node.size, MAX_COUNT):
                self.assertIsInstance(recording.do(calls.read(node.id, MAX_COUNT)), Done)
            recording.do(calls.close(node.id))

    def test_a_full_disk_that_was_none_is_seen(self):
        """A host that has obeyed and says that it could not is stopped by what it has too much."""
        stops = 0
        for seed in SEEDS:
            lying = FillingGenerator(Random(seed))
            lying.lie = 0
            lying.has_obeyed = lambda: True
            stops += any(isinstance(outcome, Stopped) for _, outcome in lying.run(80).steps)
        self.assertGreaterEqual(stops, 20)

    def test_honest_host_never_stops(self):
        for seed in SEEDS:
            honest = generator(seed)
            honest.lie = 0
            outcomes = [outcome for _, outcome in honest.run(80).steps]
            self.assertFalse([outcome for outcome in outcomes if isinstance(outcome, Stopped)], seed)

    def test_a_host_that_grows_files_otherwise_is_stopped(self):
        """The honest lists show what a growing cut must leave: they would not stay honest with such a host."""
        for grown in (
            lambda data, size: data,
            lambda data, size: data.ljust(size, b" "),
            lambda data, size: bytearray(size),
            lambda data, size: data.ljust(size + 1, b"\0"),
        ):
            self.assertTrue(any(stops_with(grown, seed) for seed in range(100)))

    def test_renames_leave_host_and_guard_alike(self):
        """After an honest list of renames all is found where the host has it; nothing stops."""
        moved = 0
        for seed in SEEDS:
            honest = RenamingGenerator(Random(seed))
            honest.lie = 0
            recording = honest.run(80)
            moved += sum(isinstance(outcome, Ask) and outcome.data[0] == RENAME for _, outcome in recording.steps)
            recording.finish() if recording.guard.pending else None
            self.assertFalse(recording.guard.stopped, seed)
            self.see_all(honest, recording)
        self.assertGreaterEqual(moved, 500)

    def test_a_rename_that_was_none_is_seen(self):
        """A host that says that it has renamed, and has not, or has left the children behind, is stopped."""
        for wrong in (lambda host, fields: put(0, 4), left_children):
            self.assertTrue(any(stops_with_renames(wrong, seed) for seed in range(100)))

    def test_tables_stay_a_tree(self):
        """Whatever the host replies, a save of the nodes is sound: each reaches the root, no path is too long."""
        for seed in SEEDS:
            nodes = RenamingGenerator(Random(seed)).run(80).guard.nodes
            data = write_image(nodes, [page for node in nodes for page in node.pages])
            self.assertIsNotNone(read_image(data))

    def test_maps_keep_apart(self):
        """Whatever the host replies: sixteen at most, within the space, none over another."""
        for seed in SEEDS:
            maps = sorted(MappingGenerator(Random(seed)).run(80).guard.maps.items())
            ends = [0, *(address + length for address, length in maps)]
            self.assertLessEqual(len(maps), MAX_MAPS)
            self.assertLessEqual(ends[-1], SPACE)
            for (address, _), end in zip(maps, ends):
                self.assertEqual((address % UNIT, address >= max(end, UNIT)), (0, True))

    def test_power_up_forgets_maps(self):
        """A guard that takes the image of one with maps has none."""
        s = Script()
        s.do(calls.map_(UNIT))
        saved = s.send(Save(100))
        after = guard()
        self.assertEqual(after.step(Load(saved.data, saved.digest)), Done(0))
        self.assertEqual(after.maps, {})
        self.assertEqual(after.step(Call(calls.unmap(UNIT))), Refused(22))

    def test_a_load_of_no_save_parts_them(self):
        """It is done in both, changes nothing in the tree, and is taken by the guard."""
        load = load_of(image(sample()))
        one, other = guard(), tree()
        self.assertEqual((one.step(load), other.step(load)), (Done(0), Done(0)))
        self.assertEqual(other.tables(), tree().tables())
        self.assertEqual(len(one.nodes), len(sample()))
