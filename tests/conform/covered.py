"""What a run has met: calls, requests, page edges, maps, renames, restarts, limits; full disks, where the host has met
one. A run that passes says so, and says what it has not met.
"""

from collections import Counter

from model import rules
from model.events import Done
from model.generate import BY_HANDLE
from model.rules import (
    CHMOD, CREATE, DIRECTORY, ID, MAP, MAX_COUNT, MAX_MAP, MAX_MAPS, MAX_NAME, MAX_NODES, MAX_OPEN, MAX_PAGES, MAX_PATH,
    MAX_SIZE, MKDIR, OPEN, PAGE, READ, READDIR, RENAME, TRUNCATE, UNIT, UNMAP, WRITE, pages_between, split_paths,
    unsigned,
)
from model.tree import CALLS

NAMES = {**CALLS, rules.MKDIR: "mkdir"}
REQUESTS = {**NAMES, READ: "fetch", WRITE: "store", TRUNCATE: "cut"}
del REQUESTS[rules.SEEK]

WANTED = {
    "calls": list(NAMES.values()),
    "requests": list(REQUESTS.values()),
    "page edges": [
        f"{call} {place}"
        for call in ("read", "write")
        for place in ("up to an edge", "one byte short of it", "one byte over it", "from an edge", "over several pages")
    ] + ["truncate to an edge", "truncate within a page", "truncate to 0", "a file that grows after it was cut"]
    + [f"growth {place}" for place in ("within a page", "to an edge", "over several pages", "from 0", "after a cut")],
    "maps": [
        f"a map of {UNIT:,} bytes", f"a map of {MAX_MAP:,} bytes", f"{MAX_MAPS} maps", "an unmap of the first",
        "an unmap of the last", "a map after an unmap", "a save with maps", "a restart with maps",
    ],
    "renames": [
        "a file renamed", "an open file renamed", "an empty directory renamed", "a tree renamed",
        "a tree with an open file renamed", "a rename within a directory", "a rename to another directory",
        "a rename to its own path", "a rename to a path that was left", f"a path of {MAX_PATH} by a rename",
        "a save with a node before its parent", "a restart with a node before its parent",
    ],
    "restarts": [
        "saves", "from no save", "power loss", "killed between two requests", "killed within a request",
        "killed within a sync", "killed after a sync", "killed within a start",
    ],
    "limits": [
        f"{MAX_NODES} nodes", f"{MAX_OPEN} open files", f"{MAX_PAGES:,} pages", f"a file of {MAX_SIZE:,} bytes",
        f"a name of {MAX_NAME}", f"a path of {MAX_PATH}", f"a read of {MAX_COUNT:,}", f"a write of {MAX_COUNT:,}",
        f"a listing of {MAX_NODES - 1}", "a listing of none", "names of any bytes",
        "a file without read and write bits open",
    ],
}


# what a host with room for everything never meets
FULL_DISKS = ["a create", "a mkdir", "a write's first store", "a write with pages that were stored", "a growing cut"]


class Covered:
    def __init__(self):
        self.counts = Counter()
        self.cut = set()
        self.has_unmapped = False
        self.left = set()  # paths that nodes had before a rename

    def met(self, group, name, condition=True):
        self.counts[group, name] += bool(condition)

    def request(self, request):
        self.met("requests", REQUESTS[request[0]])

    def full_disk(self, request, outcome):
        """A request that was answered so, and what the call has come to."""
        write = "a write with pages that were stored" if isinstance(outcome, Done) else "a write's first store"
        names = {CREATE: "a create", MKDIR: "a mkdir", WRITE: write, TRUNCATE: "a growing cut"}
        self.met("full disks", names[request[0]])

    def look(self, tree, call):
        """Size and cursor of the call's file, before it; of an unmap, its place among the maps, and how many there are;
        of a rename, the node and its parent.
        """
        if call[:1] == bytes([RENAME]):
            node = node_at(tree, split_paths(call[1:])[0])
            return node, node.parent if node else 0
        if call[:1] == bytes([UNMAP]):
            addresses = list(tree.maps)
            address = unsigned(call[1:])
            return addresses.index(address) if address in tree.maps else 0, len(addresses)
        handle = unsigned(call[1 : 1 + ID]) if call[:1] and call[0] in BY_HANDLE else None
        file = tree.open_files.get(handle)
        return (file_size(tree, handle), file.cursor) if file else (0, 0)

    def call(self, tree, call, before):
        """A call that is done."""
        self.met("calls", NAMES[call[0]])
        if call[0] in (READ, WRITE):
            self.transfer(tree, call, *before)
        elif call[0] == TRUNCATE:
            self.truncation(call, unsigned(call[1 + ID :]), before[0])
        elif call[0] == READDIR:
            self.listing(tree, call)
        elif call[0] in (MAP, UNMAP):
            self.maps(tree, call, *before)
        elif call[0] == RENAME:
            self.rename(tree, call, *before)
        if call[0] in (CREATE, MKDIR, OPEN, WRITE, TRUNCATE, CHMOD):
            self.limits(tree)

    def transfer(self, tree, call, size, start):
        handle, name = unsigned(call[1 : 1 + ID]), NAMES[call[0]]
        end = tree.open_files[handle].cursor
        if start == end:
            return
        for place, condition in (
            ("up to an edge", end % PAGE == 0), ("one byte short of it", end % PAGE == PAGE - 1),
            ("one byte over it", end % PAGE == 1), ("from an edge", start % PAGE == 0),
            ("over several pages", len(pages_between(start, end)) > 1),
        ):
            self.met("page edges", f"{name} {place}", condition)
        self.met("limits", f"a {name} of {MAX_COUNT:,}", end - start == MAX_COUNT)
        self.met("page edges", "a file that grows after it was cut", end > size and handle in self.cut)

    def truncation(self, call, size, before):
        handle = unsigned(call[1 : 1 + ID])
        if size < before:
            self.cut.add(handle)
            place = "to 0" if size == 0 else "within a page" if size % PAGE else "to an edge"
            self.met("page edges", f"truncate {place}")
        elif size > before:
            self.growth(handle, size, before)

    def growth(self, handle, size, before):
        pages = len(pages_between(before, size))
        for place, condition in (
            ("within a page", before % PAGE and pages == 1), ("to an edge", size % PAGE == 0),
            ("over several pages", pages > 1), ("from 0", before == 0), ("after a cut", handle in self.cut),
        ):
            self.met("page edges", f"growth {place}", condition)

    def maps(self, tree, call, place, before):
        """Of an unmap, its place among so many."""
        if call[0] == UNMAP:
            self.has_unmapped = True
            self.met("maps", "an unmap of the first", place == 0 and before > 1)
            self.met("maps", "an unmap of the last", place == before - 1 and before > 1)
            return
        length = unsigned(call[1:])
        self.met("maps", f"a map of {UNIT:,} bytes", length == UNIT)
        self.met("maps", f"a map of {MAX_MAP:,} bytes", length == MAX_MAP)
        self.met("maps", f"{MAX_MAPS} maps", len(tree.maps) == MAX_MAPS)
        self.met("maps", "a map after an unmap", self.has_unmapped)

    def rename(self, tree, call, node, parent):
        """Of a node that is at its new place, and its parent of before."""
        path, new_path = split_paths(call[1:])
        if path == new_path:
            return self.met("renames", "a rename to its own path")
        within = [other for other in tree.nodes if is_within(tree.nodes, other, node)]
        is_open = any(other.id in tree.open_files for other in within)
        is_directory, has_tree = node.kind == DIRECTORY, len(within) > 1
        longest = max(path_length(tree.nodes, other) for other in within)
        for name, condition in (
            ("a file renamed", not is_directory), ("an open file renamed", not is_directory and is_open),
            ("an empty directory renamed", is_directory and not has_tree), ("a tree renamed", has_tree),
            ("a tree with an open file renamed", has_tree and is_open),
            ("a rename within a directory", node.parent == parent),
            ("a rename to another directory", node.parent != parent),
            ("a rename to a path that was left", new_path in self.left),
            (f"a path of {MAX_PATH} by a rename", longest == MAX_PATH),
        ):
            self.met("renames", name, condition)
        self.left.add(path)

    def listing(self, tree, call):
        _, directory = tree.walk(rules.read_path(call[1:]))
        children = len(tree.children(directory))
        self.met("limits", f"a listing of {MAX_NODES - 1}", children == MAX_NODES - 1)
        self.met("limits", "a listing of none", children == 0)

    def limits(self, tree):
        nodes, last = tree.nodes, tree.nodes[-1]
        self.met("limits", f"{MAX_NODES} nodes", len(nodes) == MAX_NODES)
        self.met("limits", f"{MAX_OPEN} open files", len(tree.open_files) == MAX_OPEN)
        self.met("limits", f"{MAX_PAGES:,} pages", tree.page_total() == MAX_PAGES)
        self.met("limits", f"a file of {MAX_SIZE:,} bytes", any(node.size == MAX_SIZE for node in nodes))
        self.met("limits", f"a name of {MAX_NAME}", len(last.name) == MAX_NAME)
        self.met("limits", f"a path of {MAX_PATH}", path_length(nodes, last) == MAX_PATH)
        self.met("limits", "names of any bytes", not last.name.isascii())
        shut = any(node.id in tree.open_files and not node.mode & 6 for node in nodes)
        self.met("limits", "a file without read and write bits open", shut)

    # the end of a run

    def add(self, other):
        self.counts += other.counts

    def total(self):
        return sum(count for (group, _), count in self.counts.items() if group == "requests")

    def text(self):
        lines = []
        for group, names in WANTED.items():
            counts = [f"{name} {self.counts[group, name]:,}" for name in names if self.counts[group, name]]
            lines.append(f"{group}: {', '.join(counts)}")
        return lines + self.full_text() + [f"not met: {', '.join(self.missing()) or 'nothing'}"]

    def full_text(self):
        """Only a host that has met a full disk is to meet it everywhere."""
        group = "full disks"
        counts = [f"{name} {self.counts[group, name]:,}" for name in FULL_DISKS if self.counts[group, name]]
        return [f"{group}: {', '.join(counts)}"] if counts else []

    def missing(self):
        wanted = {**WANTED, **({"full disks": FULL_DISKS} if self.full_text() else {})}
        return [name for group, names in wanted.items() for name in names if not self.counts[group, name]]


def node_at(tree, path):
    """None where there is none."""
    node = tree.nodes[0]
    for name in filter(None, path.split(b"/")):
        node = next((child for child in tree.children(node) if child.name == name), None) if node else None
    return node


def is_within(nodes, node, top):
    """Whether a node is this one or lies beneath it."""
    parents = {other.id: other for other in nodes}
    while node is not top and node.parent:
        node = parents[node.parent]
    return node is top


def has_late_parent(nodes):
    """Whether a node stands before its parent, as only a rename brings it."""
    seen = {0}
    for node in nodes:
        if node.parent not in seen:
            return True
        seen.add(node.id)
    return False


def file_size(tree, handle):
    return next(node.size for node in tree.nodes if node.id == handle)


def path_length(nodes, node):
    parents = {other.id: other for other in nodes}
    length = 0
    while node.parent:
        length += 1 + len(node.name)
        node = parents[node.parent]
    return length
