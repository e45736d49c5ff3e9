"""Rows about renames: what a host does when it is asked for one, and what it hands out after one was saved."""

from copy import deepcopy
from hashlib import sha256

from model import calls
from model.image import read_image, write_image
from model.rules import DIRECTORY, put

from .host import status
from .lives import KEEP, READ_A, at_rest, started, told
from .replies import DESCRIPTOR, ERRORS, FULL, FULL_DISK, NUMBERS, PATH, READ_A as READ_OPEN_A, on, only_says, says
from .trial import NEW, Row

RENAME = calls.rename(b"/d/c", b"/n")
RENAME_D = calls.rename(b"/d", b"/n")
NOT_DONE = only_says("rename", status(0))
LINK = "001, 3.1 (link)"


# ---- deviations

def renames(act):
    """Obeys, and then does something more: `act(host, entry)`, with the one that was renamed."""
    def obey(host, fields):
        host.rename(fields)
        act(host, host.find(fields[1 + fields[0] :]))
        return status(0)
    return on("rename", obey)


def copies(host, fields):
    """The new name is there beside the old one."""
    directory, name = host.split(fields[1 + fields[0] :])
    directory.entries[name] = host.find(fields[1 : 1 + fields[0]])
    return status(0)


def renames_other(host, fields):
    """/b in the place of the one that is named."""
    return host.rename(bytes([2]) + b"/b" + fields[1 + fields[0] :])


def leaves_tree(host, entry):
    """What was in the directory is at no path any more."""
    entry.entries.clear()


def swaps_descriptors(host, entry):
    host.open_files[0], host.open_files[1] = host.open_files[1], host.open_files[0]


def new_id(host, entry):
    entry.id = 99


def old_file_again(host, fields):
    """A new file at the path that was left is the one that was renamed."""
    directory, name = host.split(fields[1:])
    directory.entries[name] = host.find(b"/n")
    return put(NEW, 4)


ROWS = [
    Row(PATH, "does not rename, and says that it did; the client opens the new name",
        [RENAME, calls.open_(3, b"/n")], NOT_DONE, "later 4"),
    Row(PATH, "does not rename, and says that it did; the client lists where the file was", [RENAME,
        calls.readdir(b"/d")], NOT_DONE, "later 7"),
    Row(PATH, "does not rename, and says that it did; neither name is ever asked for again", [RENAME, *READ_OPEN_A],
        NOT_DONE, "harmless"),
    Row(PATH, "keeps the old name beside the new one", [RENAME, calls.stat(b"/n"), calls.readdir(b"/d")],
        on("rename", copies), "later 7"),
    Row(PATH, "renames another file than the one that is named", [RENAME, calls.stat(b"/n")],
        on("rename", renames_other), "later 6"),
    Row(PATH, "renames a directory, and loses what is in it", [RENAME_D, calls.stat(b"/n"), calls.open_(3, b"/n/c")],
        renames(leaves_tree), "later 4"),
    Row("000, 3.2 (SP1)", "gives a file that it renames another id", [RENAME, calls.readdir(b"/")], renames(new_id),
        "later 7"),
    Row(DESCRIPTOR, "swaps the descriptors of two open files at a rename", [RENAME_D, *READ_OPEN_A],
        renames(swaps_descriptors), "later 5"),
    Row(LINK, "has the renamed file at its old path again, where a new one is made",
        [RENAME, calls.create(7, b"/d/c"), calls.stat(b"/d/c")], on("create", old_file_again), "later 6"),
    Row(f"{ERRORS}; 002, V.B (false failure)", "does what is asked and says that it failed: rename", [RENAME],
        says("rename", status(NUMBERS["EEXIST"])), "now 2"),
    Row(FULL_DISK, "says so where no call ends by it: rename", [RENAME], only_says("rename", FULL), "now 2"),
    Row("000, 3.3 (A3)", "answers a rename in eight bytes", [RENAME], says("rename", status(0) * 2), "now 1"),
    Row("own: nothing is replaced", "would put a file in the place of another", [calls.rename(b"/d/c", b"/b")], NOT_DONE, "refused 17"),
    Row("own", "would take a directory out of the tree, by a name beneath itself", [calls.rename(b"/d", b"/d/n")],
        NOT_DONE, "refused 22"),
]


# ---- over saves and loads

def tree_of_before():
    """Image and digest have the new name, the host's tree has the old one."""
    run = at_rest()
    tree = deepcopy(run.host.root)
    run.calls([calls.rename(b"/a", b"/d/a")])
    saved = run.guard.save()
    run.host.root = tree
    started(run, *saved)
    return f"load done, {told(run, [calls.open_(3, b'/d/a')])}"


def image_of_before():
    """The guard has the old name, the host's tree the new one."""
    run = at_rest()
    saved = run.guard.save()
    run.calls([calls.rename(b"/a", b"/d/a")])
    started(run, *saved)
    return f"load done, {told(run, READ_A[:1])}"


def made(change):
    """The number of the refusal, or 0, for a save's image with other records, and its own digest."""
    run = at_rest()
    nodes = change(read_image(run.guard.save()[0]))
    image = write_image(nodes, [page for node in nodes for page in node.pages])
    return run, started(run, image, sha256(image).digest())


def ring(nodes):
    """/d lies in a directory that lies in /d."""
    directory = next(node for node in nodes if node.name == b"d")
    below = next(node for node in nodes if node.name == b"c")
    below.kind, below.size, directory.parent = DIRECTORY, 0, below.id
    return nodes


def parent_that_is_a_file(nodes):
    next(node for node in nodes if node.name == b"c").parent = next(node for node in nodes if node.name == b"a").id
    return nodes


def other_order(nodes):
    return [nodes[0], *reversed(nodes[1:])]


def load_other_order():
    """Each record has its digests with it, and every node reaches the root."""
    run, number = made(other_order)
    return f"load {number or 'done'}, {told(run, READ_A)}"


LIVES = [  # as in lives
    ("004, 5.10 (a chunk)", "puts the tree of before a rename back; image and digest are of after it", tree_of_before,
     "load done, stop 4 at open /d/a for reading and writing", ""),
    ("004, 5.11 (the machine is stopped)", "has renamed a file since the save that the client starts from",
     image_of_before, "load done, stop 4 at open /a for reading and writing", ""),
    ("own", "hands out an image with a directory that lies beneath itself; the client takes its digest too",
     lambda: f"refused {made(ring)[1]} at the load", "refused 84 at the load", ""),
    ("own", "hands out an image with a file for a node's parent; the client takes its digest too",
     lambda: f"refused {made(parent_that_is_a_file)[1]} at the load", "refused 84 at the load", ""),
    ("own", "hands out the save's image with its records in another order; the client takes its digest too",
     load_other_order, "load done, done 2500 at read /a, 2,500 bytes",
     f"The image is sound: a rename leads to such ones. {KEEP}."),
]
