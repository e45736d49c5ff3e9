"""Rows about saves, loads, forks, and replies that nobody asked for. Each run gives what came, in words."""

from copy import deepcopy
from hashlib import sha256

from model import calls
from model.rules import put

from guard import ASK, DONE, REFUSED, STOPPED, Guard

from .host import status
from .trial import A, B, NEW, SETUP, Differs, Run, words_of

READ_A = [calls.open_(3, b"/a"), calls.read(A, 2500)]


def at_rest():
    """A run whose files are closed."""
    return Run(setup=[*SETUP, calls.close(A), calls.close(B)])


def change(run, data=b"newer"):
    """A write to /a, and back at rest."""
    run.calls([calls.open_(3, b"/a"), calls.write(A, data), calls.close(A)])
    if run.outcomes[-1][1] != DONE:
        raise Differs("a write with an honest host")
    return run


def started(run, image, digest, guard=None):
    """A fresh guard in the place of the old one: the number of the refusal, or 0."""
    run.guard, run.host.open_files, run.host.maps, run.outcomes = guard or Guard(), {}, {}, []
    try:
        run.guard.load(image, digest)
    except OSError as error:
        return error.errno
    return 0


def told(run, some):
    """Where these calls come to."""
    call, kind, number, _ = run.calls(some).outcomes[-1]
    return f"{'stop' if kind == STOPPED else 'done'} {number} at {words_of(call)}"


# ---- rollback

def old_image():
    run = at_rest()
    old = run.guard.save()[0]
    digest = change(run).guard.save()[1]
    return f"refused {started(run, old, digest)} at the load"


def changed_image():
    run = at_rest()
    image, digest = run.guard.save()
    return f"refused {started(run, image[:-1] + bytes([image[-1] ^ 1]), digest)} at the load"


def old_image_and_digest():
    """The host has gone back too: everything of that day is served."""
    run = at_rest()
    old, tree = run.guard.save(), deepcopy(run.host.root)
    change(run).guard.save()
    run.host.root = tree
    number = started(run, *old)
    return f"load {'done' if not number else number}, {told(run, READ_A)}"


def old_image_and_digest_alone():
    """The host's tree is today's."""
    run = at_rest()
    old = run.guard.save()
    change(run).guard.save()
    started(run, *old)
    return f"load done, {told(run, READ_A)}"


def old_tree():
    """Image and digest are the last; the host's tree is that of the save before."""
    run = at_rest()
    run.guard.save()
    tree = deepcopy(run.host.root)
    saved = change(run).guard.save()
    run.host.root = tree
    started(run, *saved)
    return f"load done, {told(run, READ_A)}"


def lost_store_and_a_save():
    run = at_rest()
    run.host.deviation = lambda host, name, fields: status(1024) if name == "store" else None
    saved = change(run).guard.save()
    started(run, *saved)
    return f"load done, {told(run, READ_A)}"


def map_over_a_load():
    """A map lives on over a save and a load; the host has forgotten it."""
    run = at_rest()
    run.calls([calls.map_(8192)])
    run.guard.load(*run.guard.save())
    run.host.maps = {}
    return f"load done, {told(run, [calls.map_(4096)])}"


def power_lost():
    """The host has gone on since the save, and is stopped at any moment."""
    run = at_rest()
    saved = run.guard.save()
    change(run)
    started(run, *saved)
    untouched = told(run, [calls.open_(3, b"/b"), calls.read(B, 2048)])
    return f"load done, {untouched}, {told(run, READ_A)}"


def forged_image():
    """An image that no guard saves, with its own digest."""
    run = at_rest()
    image = bytearray(run.guard.save()[0])
    image[4 + 8] = 1  # the root's kind
    return f"refused {started(run, bytes(image), sha256(image).digest())} at the load"


# ---- forks

def two_guards():
    """Both go on from one image, over one tree."""
    one = at_rest()
    saved = one.guard.save()
    other = at_rest()
    other.host = one.host
    started(other, *saved)
    change(other)
    return f"the other's write is done; the first: {told(one, READ_A)}"


def two_guards_and_two_trees():
    """The host gives each of two clients a tree of its own."""
    one = at_rest()
    saved = one.guard.save()
    other = at_rest()
    started(other, *saved)
    change(other)
    return f"the other's write is done; the first: {told(one, READ_A)}, with the old bytes"


def copied_guard():
    """A copy of a running guard's memory is used again after the guard has gone on, and so has the host's."""
    run = at_rest()
    memory, tree = run.guard.memory.raw, deepcopy(run.host.root)
    change(run)
    run.guard.memory.raw, run.host.root, run.outcomes = memory, tree, []
    return f"{told(run, READ_A)}, with the old bytes"


def id_given_again():
    """A client that still uses the handle of a file that it has closed and removed reaches the new file."""
    run = at_rest()
    run.calls([calls.remove(b"/a"), calls.create(7, b"/n")])
    number = run.outcomes[-1][2]
    run.calls([calls.open_(3, b"/n"), calls.write(NEW if number == NEW else number, b"x")])
    came = "done" if run.outcomes[-1][1] == DONE else "stop"
    return f"the new file has the old one's id, {number}; {came} at the write"


# ---- what nobody asked for

def unasked():
    kind, number, _ = Guard().reply(put(2, 4))
    return f"refused {number}" if kind == REFUSED else "taken"


def nested():
    guard = Guard()
    guard.call(calls.create(7, b"/a"))
    _, number, _ = guard.call(calls.create(7, b"/b"))
    kind = guard.reply(put(2, 4))[0]
    return f"refused {number}; the first call is {'done' if kind == DONE else 'gone'}"


def silent():
    guard = Guard()
    kind = guard.call(calls.create(7, b"/a"))[0]
    _, number, _ = guard.call(calls.stat(b"/"))
    return f"{'pending' if kind == ASK else 'gone'}; every other call is refused {number}"


def again_after_full():
    """A full disk has ended the call: another reply is to nothing, and the name is free."""
    guard = Guard()
    guard.call(calls.create(7, b"/a"))
    _, full, _ = guard.reply(status(-28))
    _, number, _ = guard.reply(put(2, 4))
    kind = guard.call(calls.create(7, b"/a"))[0]
    return f"refused {full}, then refused {number}; the same call {'asks' if kind == ASK else 'does not ask'} again"


def always_full():
    """Nothing is written, and nothing is lost."""
    run = at_rest()
    saved = run.guard.save()
    run.host.deviation, run.host.is_repeated = lambda host, name, fields: (
        status(-28) if name in ("create", "mkdir", "store") else None), True
    outcomes = run.calls([calls.create(7, b"/n"), calls.mkdir(7, b"/m"), *READ_A[:1], calls.write(A, b"new"),
                          calls.close(A)]).outcomes
    refused = [number for _, kind, number, _ in outcomes if kind == REFUSED]
    same = "the save is the same" if run.guard.save() == saved else "another save"
    return f"refused {refused[0]}, {len(refused)} times; {same}, {told(run, READ_A)}"


KEEP = "The client keeps the digest of its last save where the host can neither write nor put an older one back"

ROWS = [  # source, what the host does, the run, what must come, what a builder does where nothing is caught
    ("004, 3.2.1, 5.10 (data and metadata)", "hands out the image of the save before; the client has the last digest",
     old_image,
     "refused 74 at the load", ""),
    ("own", "changes a byte of the image", changed_image, "refused 74 at the load", ""),
    ("own", "hands out an image of its own making; the client takes its digest too", forged_image,
     "refused 84 at the load", ""),
    ("004, 3.2.1, 5.10 (the whole volume)",
     "puts image, digest and tree of the save before in the place of the last ones",
     old_image_and_digest, "load done, done 2500 at read /a, 2,500 bytes", f"{KEEP} (docs/INTEGRATION.md, 6)."),
    ("004, 5.10 (image and digest)", "puts image and digest of the save before back; its tree is today's",
     old_image_and_digest_alone, "load done, stop 5 at read /a, 2,500 bytes", ""),
    ("004, 5.10 (a chunk)", "puts the tree of the save before back; image and digest are the last", old_tree,
     "load done, stop 5 at read /a, 2,500 bytes", ""),
    ("001, 6 (a write that corrupts)", "loses a store and answers right; the client saves and starts again",
     lost_store_and_a_save,
     "load done, stop 5 at read /a, 2,500 bytes", ""),
    ("004, 5.11 (the machine is stopped)",
     "goes on after a save and is switched off; the client starts from that save", power_lost,
     "load done, done 2048 at read /b, 2,048 bytes, stop 5 at read /a, 2,500 bytes", ""),
    ("own", "forgets a map over a save and a load, and lends its memory again", map_over_a_load,
     "load done, stop 8 at map 4,096 bytes", ""),
    ("004, 3.2 (forking)", "lets two clients work over one tree", two_guards,
     "the other's write is done; the first: stop 5 at read /a, 2,500 bytes", ""),
    ("004, 3.2 (forking)", "gives each of two clients a tree of its own", two_guards_and_two_trees,
     "the other's write is done; the first: done 2500 at read /a, 2,500 bytes, with the old bytes",
     "One image is gone on from by one guard. Clients that share files share one guard."),
    ("own", "goes back with a copy of a running guard's memory", copied_guard,
     "done 2500 at read /a, 2,500 bytes, with the old bytes",
     "A guard's memory is never copied to be used again (docs/INTEGRATION.md, 8); what outlives it is a save."),
    ("own", "gives a removed file's id to a new file, which it may", id_given_again,
     "the new file has the old one's id, 2; done at the write", "A client forgets a handle when it closes the file."),
    ("003 (COIN: order)", "replies before anything is asked", unasked, "refused 61", ""),
    ("003 (COIN: nested calls)", "has another call made before it replies", nested,
     "refused 114; the first call is done", ""),
    ("own: a full disk", "says that its disk is full, and replies to the same request again", again_after_full,
     "refused 28, then refused 61; the same call asks again", ""),
    ("001, 6; 002, III; 004, 5.2 (denial of service)", "says each time that its disk is full", always_full,
     "refused 28, 3 times; the save is the same, done 2500 at read /a, 2,500 bytes",
     "Nothing wrong is served, and nothing is kept: a client that is refused 28 tells its user."),
    ("001, 6; 002, III; 004, 5.2 (denial of service)", "never replies", silent,
     "pending; every other call is refused 114",
     "Nothing wrong is served, nor anything: a client that waits sets itself a time, and starts from its last save."),
]
