"""Lists of events from a seed.

A list starts fresh, with a few open files, with maps or in a tree that stands at a limit, then goes on with calls that
mostly fit what the guard holds, with numbers near the edges that the requirements name. How often something goes wrong
(a form, a buffer, a reply, an image, an event at the wrong time) is drawn once for each list, and so is the request
about which the host lies: some lists are long and honest, others end soon. A stop is followed by a few more events.
"""

from random import Random

from . import calls
from .desk import MAX_BYTES
from .edges import EDGES, FULL, ORDER_EDGES, ZEROS, chain, deep, deepest_first, files, image
from .events import Call, Done, Load, Reply, Save
from .image import LONGEST, write_image
from .lies import OVER, WRONG
from .longer import longer_steps
from .recording import FULL_DISK, Recording
from .rules import (
    ADDRESS, ANSWER, CHMOD, CLOSE, CREATE, DIRECTORY, FILE, MAP, MAX_COUNT, MAX_MAP, MAX_MAPS, MAX_MODE, MAX_NAME,
    MAX_NODES, MAX_OPEN, MAX_PATH, MAX_SIZE, MKDIR, NO_SPACE, OPEN, PAGE, READ, READDIR, READ_ONLY_KINDS, READ_RIGHT,
    REMOVE, RENAME, REQUEST, RMDIR, SEEK, SPACE, STAT, TRUNCATE, UNIT, UNMAP, WRITE, WRITE_RIGHT, Node, put, root,
    unsigned,
)
from .tree import digest, guard, read_only_guard

NAMES = [b"a", b"b", b"c", b"...", b"\xff\n ", b"n" * MAX_NAME]

# a tree at a limit, how many of its last files are opened, and the calls that the list then leans to
WORLDS = [
    (files(*[0] * (MAX_NODES - 2)), 2, [CREATE, MKDIR, CHMOD]),
    (files(*[3] * (MAX_OPEN + 1)), MAX_OPEN - 1, [OPEN]),
    (files(MAX_SIZE - 1, 3), 2, [WRITE, READ]),
    (files(*FULL[1:], MAX_SIZE - PAGE, 0), 2, [WRITE, SEEK, TRUNCATE]),
    (files(*FULL[1:], MAX_SIZE - 1, 0), 2, [WRITE, TRUNCATE]),
    (deep(222), 0, [CREATE, MKDIR]),
]


def wide(count):
    """A directory of so many files, and three to go to."""
    directories = [Node(id, 1, DIRECTORY, 7, 0, b"%c" % letter) for id, letter in enumerate(b"abcd", start=2)]
    return [root(), *directories, *(Node(id, 2, FILE, 7, 0, b"%d" % id) for id in range(6, 6 + count))]


# the same for renames: deep trees, a full table, files that are open in a tree
RENAME_WORLDS = [
    ([*deep(222), Node(90, 1, DIRECTORY, 7, 0, b"a"), Node(91, 90, FILE, 7, 3, b"b")], 1, [MKDIR, STAT]),
    (chain(115), 0, [STAT]),
    (wide(MAX_NODES - 6), 3, [READDIR, CREATE]),
    (wide(5), 5, [READ, WRITE, CLOSE]),
]


def generate(seed, length=50):
    """A recording of at least this many events, unless a stop ends it."""
    return Generator(Random(seed)).run(length)


def generate_longer(seed, length=50):
    """The same list in longer buffers."""
    recording = generate(seed, length)
    recording.steps = longer_steps(Random(seed), recording.steps)
    return recording


def generate_growing(seed, length=50):
    """A list of truncations before all."""
    return GrowingGenerator(Random(seed)).run(length)


def generate_mapping(seed, length=50):
    """A list of maps before all."""
    return MappingGenerator(Random(seed)).run(length)


def generate_filling(seed, length=50):
    """A list with a disk that is often full."""
    return FillingGenerator(Random(seed)).run(length)


def generate_renaming(seed, length=50):
    """A list of renames before all."""
    return RenamingGenerator(Random(seed)).run(length)


def generate_read_only_renaming(seed, length=50):
    """A list for a read-only guard that is asked to rename, and loads what another has renamed."""
    return ReadOnlyRenamingGenerator(Random(seed)).run(length)


def generate_read_only(seed, length=50):
    """A list for a read-only guard."""
    return ReadOnlyGenerator(Random(seed)).run(length)


def generate_for_desk(seed, length=50):
    """The same with calls and replies alone, and buffers that are long enough; of four, one is of maps, one of a full
    disk and one of renames.
    """
    return DESK_GENERATORS.get(seed % 4, Generator)(Random(seed), desk=True).run(length)


class Generator:
    """Calls of files, and no maps, whose replies are long."""

    make_guard = staticmethod(guard)
    entry_rights = READ_RIGHT | WRITE_RIGHT
    first_kinds = CREATE, OPEN  # what comes where a call by handle would find no open file

    def __init__(self, random, desk=False):
        self.random = random
        self.desk = desk
        self.makers = self.all_makers()
        self.recording = Recording(random, self.make_guard)
        self.guard = self.recording.guard
        self.saves = []
        self.bad_form = self.pick(0, 0.05, 0.2)
        self.bad_time = self.pick(0, 0.02, 0.1)
        self.lie = self.pick(0, 0.2, 0.5)
        about = [kind for kind in WRONG if kind in self.makers]
        self.lies_about = self.pick(*about, *[CREATE, OPEN, WRITE, STAT] * 2, *[READ, READDIR] * 5)
        self.bad_buffer = 0 if desk else self.pick(0, 0.02, 0.1)
        self.images = 0 if desk else self.pick(0, 0.05, 0.3)
        self.weights = {kind: self.pick(1, 1, 2, 6) for kind in self.makers}
        self.weights[self.lies_about] += 50 * self.lie

    def all_makers(self):
        return MAKERS

    def chance(self, rate):
        return self.random.random() < rate

    def pick(self, *choices):
        return self.random.choice(choices)

    def run(self, length):
        self.start()
        length += len(self.recording.steps)
        while not self.guard.stopped and len(self.recording.steps) < length:
            self.event()
        if self.guard.stopped:
            for _ in range(self.pick(1, 4)):
                self.event()
        return self.recording

    def run_on(self, length):
        """So many events more, and the pending call to its end."""
        for _ in range(length):
            self.event()
        self.recording.finish() if self.guard.pending else None

    def save_all(self):
        """Every file closed, then a save."""
        for handle in list(self.guard.open_files):
            self.recording.do(calls.close(handle))
        outcome = self.recording.send(Save(LONGEST))
        self.saves.append((outcome.data, outcome.digest))

    def start(self):
        self.pick(self.stay_fresh, *[self.make_files] * 4, self.enter_world, self.enter_world)()

    def stay_fresh(self):
        pass

    def make_files(self):
        """A few directories, and files in one of them, written up to about a page's edge, most of them left open."""
        for path in (b"/a", b"/a/d", b"/b"):
            self.recording.do(calls.mkdir(7, path))
        self.recording.do(calls.create(7, b"/a/d/x"))
        for name in NAMES[: self.pick(1, 2, 3)]:
            path = b"/a/" + name
            handle = self.recording.do(calls.create(6, path)).number
            self.recording.do(calls.open_(READ_RIGHT | WRITE_RIGHT, path))
            size = self.pick(5, PAGE - 1, PAGE, PAGE + 1, 2 * PAGE + 5)
            self.recording.do(calls.write(handle, self.random.randbytes(size)))
            self.recording.do(calls.close(handle) if self.chance(0.3) else calls.seek(handle, self.place(handle)))
        self.recording.do(calls.chmod(self.pick(7, 7, 5, 3), b"/a"))

    def enter_world(self):
        self.enter(*self.pick(*WORLDS))

    def enter(self, nodes, opened, leaning):
        """A tree at a limit: by one load, or at the desk by calls."""
        if self.desk:
            build(self.recording, nodes)
        else:
            self.load_sound(image(nodes))
        for node in self.guard.nodes[len(nodes) - opened :]:
            self.recording.do(calls.open_(self.entry_rights, self.path_of(node)))
            self.recording.do(calls.seek(node.id, node.size))
        self.lean(leaning)

    def lean(self, kinds):
        for kind in kinds:
            self.weights[kind] += 10

    def event(self):
        at_a_bad_time = self.chance(self.bad_time)
        if bool(self.guard.pending) != at_a_bad_time:
            self.reply()
        elif self.chance(self.images):
            self.save_or_load()
        else:
            self.call()

    # replies

    def reply(self):
        reply = self.recording.truth
        if self.guard.pending and self.recording.request[0] == self.lies_about and self.chance(self.lie):
            reply = self.wrong_reply()
        if self.desk:
            reply = reply[:MAX_BYTES]  # a line holds no more: the right reply to a large map is cut, which stops
        self.recording.send(Reply(reply, *self.buffers()))

    def wrong_reply(self):
        """Mostly of the right length, where another stops the guard whatever it says."""
        lies = list(self.recording.lies().values())
        right_length = [lie for lie in lies if len(lie) == len(self.recording.truth)]
        return self.pick(*(right_length if self.lies_about != READDIR and self.chance(0.7) else lies))

    def buffers(self):
        short = self.pick((ANSWER - 1, REQUEST), (ANSWER, REQUEST - 1), (0, 0))
        return short if self.chance(self.bad_buffer) else (ANSWER, REQUEST)

    # images

    def save_or_load(self):
        if self.chance(0.8) and not self.guard.pending:
            for handle in list(self.guard.open_files):
                self.recording.do(calls.close(handle))
        self.pick(self.save, self.save, self.load_saved, self.load_edge, self.load_edge, self.load_damaged)()

    def save(self):
        exact = len(write_image(self.guard.nodes, [page for node in self.guard.nodes for page in node.pages]))
        outcome = self.recording.send(Save(self.pick(exact, exact - 1, LONGEST, 0)))
        if isinstance(outcome, Done):
            self.saves.append((outcome.data, outcome.digest))

    def load_saved(self):
        if self.saves:
            self.recording.send(Load(*self.pick(*self.saves)))

    def load_sound(self, data):
        self.recording.send(Load(data, digest(data)))

    def load_edge(self):
        sound, broken = self.pick(*EDGES.values())
        self.load_sound(self.pick(sound, broken, broken, broken))

    def load_damaged(self):
        """A digest that differs or has another length, of an image that is sound or not."""
        data = self.pick(*(data for data, _ in self.saves), image(files(1)), b"")
        right = digest(data)
        wrong = self.pick(right[:-1], right + b"\0", b"", bytes([right[0] ^ 1]) + right[1:], ZEROS)
        self.recording.send(Load(data, wrong))

    # calls

    def call(self):
        kind = self.random.choices(list(self.weights), self.weights.values())[0]
        if kind in BY_HANDLE and not self.guard.open_files and self.chance(0.9):
            kind = self.pick(*self.first_kinds)
        data = self.makers[kind](self, kind)
        if self.chance(self.bad_form):
            data = self.damaged(data)
        self.recording.send(Call(data, *self.buffers()))

    def damaged(self, data):
        """A call with one fault; some are still right, and some have two."""
        other_kind = bytes([self.pick(0, max(self.makers) + 1, 255, *self.makers)]) + data[1:]
        other_mode = data[:1] + bytes([self.pick(0, 4, MAX_MODE + 1, 255)]) + data[2:]
        long = data + b"n" * (MAX_NAME + 1)
        return self.pick(
            b"", other_kind, other_mode, other_mode, data[:-1], data[:2] + data[3:], data + b"\0", data + b"/",
            data + b"/.", data + b"//a", long, long + b"/",
        )

    def path_call(self, kind):
        return bytes([kind]) + self.path(kind)

    def mode_call(self, kind):
        return bytes([kind, self.pick(7, 7, 7, 5, 3, self.random.randrange(8))]) + self.path(kind)

    def open_call(self, kind):
        return calls.open_(self.pick(1, 2, 3, 3), self.path(kind))

    def close_call(self, kind):
        return calls.close(self.handle())

    def seek_call(self, kind):
        handle = self.handle()
        return calls.seek(handle, self.place(handle))

    def read_call(self, kind):
        handle = self.handle()
        if self.cursor(handle) == self.size(handle):
            self.recording.call(calls.seek(handle, self.place(handle)))
        left = self.size(handle) - self.cursor(handle)
        counts = [0, 1, left, left + 1, PAGE, MAX_COUNT, MAX_COUNT + 1, self.random.randrange(2 * PAGE)]
        return calls.read(handle, self.pick(*counts))

    def write_call(self, kind):
        handle = self.handle()
        size, cursor = self.size(handle), self.cursor(handle)
        in_page = PAGE - cursor % PAGE
        lengths = [0, 1, 5, in_page, in_page + 1, size - cursor, size - cursor - 1, self.random.randrange(2 * PAGE)]
        if MAX_SIZE - cursor < MAX_COUNT:
            lengths += [MAX_SIZE - cursor, MAX_SIZE - cursor + 1]
        if self.chance(0.1):
            lengths = [MAX_COUNT, MAX_COUNT + 1]
        return calls.write(handle, self.random.randbytes(min(max(0, self.pick(*lengths)), MAX_COUNT + 1)))

    def truncate_call(self, kind):
        handle = self.handle()
        return calls.truncate(handle, self.place(handle) if self.chance(0.4) else self.longer_size(handle))

    # what calls name

    def handle(self):
        held = list(self.guard.open_files)
        others = [0, 1, self.random.randrange(1 << 32), self.pick(*self.guard.nodes).id]
        return self.pick(*held) if held and self.chance(0.9) else self.pick(*others)

    def size(self, handle):
        return next((node.size for node in self.guard.nodes if node.id == handle), 0)

    def cursor(self, handle):
        return self.guard.open_files[handle].cursor if handle in self.guard.open_files else 0

    def place(self, handle):
        """A position or size near an edge, at the most one byte beyond the size or far beyond it."""
        size = self.size(handle)
        edge = PAGE * self.random.randrange(size // PAGE + 1)
        anywhere = self.random.randrange(size + 1)
        beyond = (1 << 32) + anywhere
        return max(0, self.pick(0, size, size, size + 1, size - 1, edge, edge - 1, edge + 1, anywhere, beyond))

    def longer_size(self, handle):
        """More than the size, or too much: near an edge, as many bytes as a file may have, far beyond."""
        size = self.size(handle)
        edge = PAGE * (size // PAGE + self.random.randrange(1, 4))
        far = [MAX_SIZE + 1, (1 << 32) + size + 1, (1 << 64) - 1]
        near = [size + 1, edge - 1, edge, edge + 1, size + self.random.randrange(1, 2 * PAGE)]
        return self.pick(*near, *near, MAX_SIZE - 1, MAX_SIZE, MAX_SIZE, self.pick(*far))

    def path_of(self, node):
        path = b""
        while node.parent:
            path = b"/" + node.name + path
            node = next(parent for parent in self.guard.nodes if parent.id == node.parent)
        return path or b"/"

    def path(self, kind):
        """A path that mostly fits the call."""
        if self.chance(0.05):
            long_name = b"/a/" + b"n" * (MAX_NAME + 1)
            return self.pick(b"/", self.edge_path(MAX_PATH), self.edge_path(MAX_PATH + 1), long_name)
        if kind in (CREATE, MKDIR) and self.chance(0.9) or self.chance(0.1):
            return self.child_path()
        wanted = {OPEN: FILE, REMOVE: FILE, RMDIR: DIRECTORY, READDIR: DIRECTORY}
        other = kind not in wanted or self.chance(0.3)
        nodes = [node for node in self.guard.nodes if other or node.kind == wanted[kind]]
        closed = [node for node in nodes if node.id not in self.guard.open_files]
        return self.path_of(self.some_node(self.pick(closed, nodes) or self.guard.nodes))

    def some_node(self, nodes):
        """The first and the last more often than others: limits are met there."""
        return self.pick(nodes[0], nodes[-1], self.pick(*nodes), self.pick(*nodes))

    def child_path(self):
        directories = [node for node in self.guard.nodes if node.kind == DIRECTORY]
        parent = self.some_node(directories if self.chance(0.9) else self.guard.nodes)
        path = self.path_of(parent).rstrip(b"/") + b"/" + self.pick(*NAMES)
        return path + b"/" + self.pick(*NAMES) if self.chance(0.05) else path

    def edge_path(self, length):
        """A path of this length with right components, below the deepest directory where that is long."""
        start = max((self.path_of(node) for node in self.guard.nodes), key=len).rstrip(b"/")
        while length - len(start) > MAX_NAME + 1:
            start += b"/" + b"n" * min(MAX_NAME, length - len(start) - 3)
        return start + b"/" + b"m" * (length - len(start) - 1)


class GrowingGenerator(Generator):
    """Files are open, from the start and for long; truncations come most, then what shows the bytes that they leave,
    and lies are about these.
    """

    def __init__(self, random):
        super().__init__(random)
        self.lean([*[TRUNCATE] * 4, SEEK, READ, READ, WRITE, STAT])
        self.lies_about = self.pick(TRUNCATE, READ, READ, STAT)
        self.images /= 5

    def start(self):
        self.pick(*[self.make_files] * 5, self.enter_world)()


class MappingGenerator(Generator):
    """Maps come and go among the calls of files; some lists begin with nearly as many as may live, and lies are about
    them.
    """

    def __init__(self, random, desk=False):
        super().__init__(random, desk)
        self.weights[MAP] = self.pick(10, 20)
        self.weights[UNMAP] = self.pick(10, 20)
        self.lies_about = self.pick(MAP, MAP, MAP, UNMAP)
        self.images /= 2
        self.ended = []

    def all_makers(self):
        return {**MAKERS, **MAP_MAKERS}

    def start(self):
        self.pick(self.stay_fresh, self.stay_fresh, self.make_files)()
        count = self.pick(0, 1, 2, 4, MAX_MAPS - 1)
        for _ in range(count):
            self.recording.do(calls.map_(UNIT))
        self.lean([MAP] * (count // 5))

    def wrong_reply(self):
        """Over the highest map or one that came last, at another wrong address, with other bytes, of another length:
        each as often.
        """
        if self.lies_about != MAP:
            return super().wrong_reply()
        lies, truth = self.recording.lies(), self.recording.truth
        over = [lie for name, lie in lies.items() if name.startswith(OVER)]
        last = over and [*over[-2:], max(over, key=lambda lie: unsigned(lie[:ADDRESS]))]
        placed = [lie for lie in lies.values() if lie[ADDRESS:] == truth[ADDRESS:] and lie not in over]
        dirty = [lie for lie in lies.values() if lie[:ADDRESS] == truth[:ADDRESS] and len(lie) == len(truth)]
        lengths = [lie for lie in lies.values() if len(lie) != len(truth)]
        return self.pick(*self.pick(*filter(None, [last, placed, dirty, lengths])))

    def map_call(self, kind):
        return calls.map_(self.wrong_length() if self.chance(0.15) else self.length())

    def length(self):
        """Short as a rule, for the list's sake."""
        if self.chance(0.01):
            return self.pick(MAX_MAP, MAX_MAP - UNIT)
        return UNIT * self.pick(1, 1, 1, 1, 1, 2, 2, 2 if self.desk else 3)

    def wrong_length(self):
        whole = UNIT * self.pick(1, 2, 16)
        return self.pick(
            0, 1, whole - 1, whole + 1, whole - UNIT // 2, MAX_MAP + 1, MAX_MAP + UNIT, 2 * MAX_MAP, 1 << 31,
            (1 << 32) - UNIT, (1 << 24) + UNIT,
        )

    def unmap_call(self, kind):
        address = self.address()
        self.ended = [address, *self.ended][:4]
        return calls.unmap(address)

    def address(self):
        """A map's first address; now and then one inside it, beside it, of a map that has ended, or nobody's."""
        live, room = self.pick(*self.guard.maps.items() or [(UNIT, UNIT)])
        if self.chance(0.75):
            return live
        others = [
            live + UNIT, live + room - UNIT, live + 1, live - UNIT, live + room, live ^ 1 << 32, live ^ 1 << 63, 0,
            UNIT, SPACE - UNIT, SPACE - 1,
        ]
        return self.pick(*self.ended, *others) % SPACE


class FillingGenerator(Generator):
    """The disk is full now and then, for a new node, a write's page or a growth. A host that lies has done what was
    asked, or says it where no call may end so, or at another width.
    """

    def __init__(self, random, desk=False):
        super().__init__(random, desk)
        self.full = self.pick(0.1, 0.3, 0.6)
        self.lean([CREATE, MKDIR, *[WRITE] * 5, TRUNCATE, TRUNCATE, READ, READ, SEEK, STAT])
        self.lies_about = self.pick(*(kind for kind in WRONG if kind in self.makers), *[CREATE, WRITE, TRUNCATE] * 3)
        self.is_patient = self.lies_about in (WRITE, TRUNCATE) and self.chance(0.5)  # no lie where a call may end so
        self.weights[self.lies_about] += 20 * self.lie
        self.weights[TRUNCATE] += 10 * self.is_patient
        self.images /= 2
        self.recording.host.strange_ids = [0xFFFF_FFE5, 0xFFFF_FFE3, 0x7FFF_FFE4, 0xE4FF_FFFF, 0xE4]

    def all_makers(self):
        return {**MAKERS, **FILLING_MAKERS}

    def start(self):
        self.pick(*[self.make_files] * 5, self.stay_fresh, self.enter_world, self.enter_taken)()

    def enter_taken(self):
        """A tree with a node whose id has the bytes of a full disk."""
        kind, size = self.pick((FILE, 0), (FILE, PAGE + 5), (DIRECTORY, 0))
        nodes = [*files(3, PAGE), Node(unsigned(FULL_DISK), 1, kind, 7, size, b"a")]
        self.enter(nodes, 1 if kind == FILE else 0, [STAT, READDIR, CLOSE, REMOVE, RMDIR])

    def reply(self):
        if not self.guard.pending and self.chance(0.5):
            self.recording.send(Reply(FULL_DISK, *self.buffers()))
        elif self.guard.pending and self.recording.may_be_full() and self.chance(self.full):
            self.recording.has_obeyed = self.has_obeyed()
            self.recording.send(Reply(FULL_DISK, *self.buffers()))
        elif self.guard.pending and self.recording.may_be_full() and self.is_patient:
            self.recording.send(Reply(self.recording.truth, *self.buffers()))
        else:
            super().reply()

    def has_obeyed(self):
        return self.chance(self.lie / 2)

    def wrong_reply(self):
        """Mostly a full disk: where that stops the guard, at a width that no reply has, by a number beside it."""
        if self.chance(0.2):
            return super().wrong_reply()
        widths = [put(NO_SPACE, width) for width in (1, 2, 3, 5, 8)]
        others = [FULL_DISK + bytes(4), *(put(status, 4) for status in (NO_SPACE + 1, NO_SPACE - 1, -NO_SPACE))]
        wrong = widths if self.lies_about in (CREATE, MKDIR) else [*widths, *others]
        return self.pick(*wrong) if self.recording.may_be_full() or self.chance(0.2) else FULL_DISK

    def longer_write_call(self, kind):
        """Mostly over several pages, some of them there already."""
        if self.chance(0.3):
            return self.write_call(kind)
        handle = self.handle()
        if self.chance(0.4):
            self.recording.call(calls.seek(handle, self.place(handle)))
        longest = min(MAX_COUNT, MAX_SIZE - self.cursor(handle))
        length = self.pick(2 * PAGE, 3 * PAGE, 3 * PAGE + 7, MAX_COUNT, self.random.randrange(PAGE, MAX_COUNT))
        return calls.write(handle, self.random.randbytes(min(length, longest)))

    def growth_call(self, kind):
        """Growths mostly, and cuts within a page, which store."""
        handle = self.handle()
        return calls.truncate(handle, self.longer_size(handle) if self.chance(0.6) else self.place(handle))

    def small_map_call(self, kind):
        return calls.map_(UNIT)


class RenamingGenerator(Generator):
    """Renames among the calls by path, most of them taken, others refused by each number; a tree to move in, files open
    in it. Images are loaded in any order of nodes, and lies are about renames and what shows them.
    """

    def __init__(self, random, desk=False):
        super().__init__(random, desk)
        self.lean([MKDIR, STAT, READDIR])
        self.weights[RENAME] = self.pick(30, 60)
        self.lies_about = self.pick(RENAME, RENAME, STAT, READDIR)
        self.lie /= 2
        self.images /= 2

    def all_makers(self):
        return {**MAKERS, RENAME: RenamingGenerator.rename_call}

    def start(self):
        self.pick(self.make_files, self.make_tree, self.make_tree, self.enter_world, self.enter_world)()

    def make_tree(self):
        """Directories, one of them barred on the way or for changes, and a file in each."""
        for path in (b"/a", b"/a/b", b"/a/b/c", b"/c", b"/..."):
            self.recording.do(calls.mkdir(7, path))
            self.recording.do(calls.create(7, path + b"/" + self.pick(*NAMES)))
        self.recording.do(calls.chmod(self.pick(7, 6, 5, 5), self.pick(b"/a", b"/a/b", b"/c", b"/")))

    def enter_world(self):
        nodes, opened, leaning = self.pick(*RENAME_WORLDS)
        if not opened and not self.desk and self.chance(0.5):
            nodes = deepest_first(nodes)
        self.enter(nodes, opened, leaning)

    def load_edge(self):
        sound, broken = self.pick(*self.pick(EDGES, ORDER_EDGES, ORDER_EDGES).values())
        self.load_sound(self.pick(sound, sound, broken))

    def rename_call(self, kind):
        node = self.some_node(self.guard.nodes[1:] or self.guard.nodes)
        first = self.path_of(node)
        if self.chance(0.1):
            first = self.pick(b"/", self.child_path(), self.path(STAT))
        length = None
        if self.chance(0.03):
            length = self.pick(0, 1, *(min(len(first) + n, 255) for n in (-1, 1)), 255)
        return calls.rename(first[:255], self.second_path(node, first), length)

    def second_path(self, node, first):
        """In some directory as a rule; else its own, one that exists, one beneath it, one at the limit of paths."""
        beneath = self.path_of(self.pick(*self.guard.subtree(node)))
        name = b"/" + self.pick(*NAMES)
        usual = [self.child_path(), self.child_path(), self.new_path(), self.new_path(), self.new_path()]
        others = [first, self.path_of(self.pick(*self.guard.nodes)), beneath + name, first + name]
        if self.chance(0.25):
            return self.pick(*others, self.path(CREATE))
        return self.chance(0.3) and self.limit_path(node) or self.pick(*usual)

    def new_path(self):
        """A name that is hardly there yet."""
        directories = [node for node in self.guard.nodes if node.kind == DIRECTORY]
        return self.path_of(self.some_node(directories)).rstrip(b"/") + b"/%d" % self.random.randrange(100)

    def limit_path(self, node):
        """A path at which the longest one beneath the node would have 255 bytes or 256; none where no name makes it so.
        """
        wanted = self.pick(MAX_PATH, MAX_PATH + 1) - self.guard.length_beneath(node)
        starts = [self.path_of(parent).rstrip(b"/") + b"/" for parent in self.guard.nodes if parent.kind == DIRECTORY]
        fitting = [start for start in starts if 1 <= wanted - len(start) <= MAX_NAME]
        start = self.pick(*fitting or [b""])
        return start and start + self.pick(b"l", b"m") * (wanted - len(start))


class ReadOnlyGenerator(Generator):
    """A read-only guard that loads what another has made. Mostly calls that look; every fourth or so does not, some of
    those with a fault of form. Lies are about what is looked at.
    """

    make_guard = staticmethod(read_only_guard)
    made_by = Generator
    entry_rights = READ_RIGHT
    first_kinds = OPEN, OPEN, READDIR

    def __init__(self, random):
        super().__init__(random)
        for kind in self.makers:
            self.weights[kind] = self.pick(0.2, 0.5, 1) if kind not in READ_ONLY_KINDS else self.pick(2, 4, 8)
        self.weights[OPEN] = 3
        self.lies_about = self.pick(OPEN, CLOSE, READ, READ, READ, READDIR, READDIR, STAT)
        self.weights[self.lies_about] += 20 * self.lie
        self.images = self.pick(0.03, 0.1)

    def all_makers(self):
        return {**MAKERS, **READ_ONLY_MAKERS}

    def start(self):
        self.pick(self.stay_fresh, *[self.load_made] * 5, self.enter_world, self.enter_world)()

    def load_made(self):
        """The images of a few moments of another guard, whose host is this one's from now on; the last is loaded."""
        made = self.made_by(self.random)
        made.lie = made.bad_form = made.bad_time = made.bad_buffer = made.images = 0
        made.make_files()
        for length in (0, self.pick(0, 5), self.pick(5, 20)):
            made.run_on(length)
            made.save_all()
        self.recording.host, self.saves = made.recording.host, made.saves
        self.recording.send(Load(*self.saves[-1]))

    def enter(self, nodes, opened, leaning):
        super().enter(nodes, opened, [kind for kind in leaning if kind in (OPEN, *READ_ONLY_KINDS)])

    def reading_open_call(self, kind):
        return calls.open_(self.pick(1, 1, 1, 1, 1, 2, 3), self.path(kind))

    def any_map_call(self, kind):
        return calls.map_(self.pick(UNIT, UNIT, 2 * UNIT, MAX_MAP, 0, UNIT - 1, MAX_MAP + UNIT))

    def any_unmap_call(self, kind):
        return calls.unmap(self.pick(0, UNIT, SPACE - UNIT))


class ReadOnlyRenamingGenerator(ReadOnlyGenerator):
    made_by = RenamingGenerator
    second_path, new_path, limit_path = (
        RenamingGenerator.second_path, RenamingGenerator.new_path, RenamingGenerator.limit_path,
    )

    def __init__(self, random):
        super().__init__(random)
        self.weights[RENAME] = self.pick(2, 8)

    def all_makers(self):
        return {**super().all_makers(), RENAME: RenamingGenerator.rename_call}


DESK_GENERATORS = {1: FillingGenerator, 2: RenamingGenerator, 3: MappingGenerator}
MAKERS = {
    CREATE: Generator.mode_call, MKDIR: Generator.mode_call, OPEN: Generator.open_call, CLOSE: Generator.close_call,
    SEEK: Generator.seek_call, READ: Generator.read_call, WRITE: Generator.write_call,
    TRUNCATE: Generator.truncate_call, REMOVE: Generator.path_call, RMDIR: Generator.path_call,
    CHMOD: Generator.mode_call, READDIR: Generator.path_call, STAT: Generator.path_call,
}
MAP_MAKERS = {MAP: MappingGenerator.map_call, UNMAP: MappingGenerator.unmap_call}
FILLING_MAKERS = {
    WRITE: FillingGenerator.longer_write_call, TRUNCATE: FillingGenerator.growth_call,
    MAP: FillingGenerator.small_map_call,
}
READ_ONLY_MAKERS = {
    OPEN: ReadOnlyGenerator.reading_open_call, MAP: ReadOnlyGenerator.any_map_call,
    UNMAP: ReadOnlyGenerator.any_unmap_call,
}
BY_HANDLE = (CLOSE, SEEK, READ, WRITE, TRUNCATE)


def build(recording, nodes):
    """Brings a fresh guard by calls to the tree of these nodes, with zeros in its files."""
    paths = {nodes[0].id: b""}
    for node in nodes[1:]:
        path = paths[node.id] = paths[node.parent] + b"/" + node.name
        make = calls.create if node.kind == FILE else calls.mkdir
        recording.do(make(node.mode, path))
        if node.size:
            handle = recording.do(calls.open_(WRITE_RIGHT, path)).number
            for at in range(0, node.size, MAX_COUNT):
                recording.do(calls.write(handle, bytes(min(MAX_COUNT, node.size - at))))
            recording.do(calls.close(handle))
