"""Rows about a read-only guard: it has loaded the save of another guard, and the host is what the row says."""

from random import Random

from model import calls
from model.lies import LyingHost
from model.rules import UNIT
from model.script import Unrandom

from guard import ASK, DONE, REFUSED, STOPPED, Guard, Reader

from .lives import at_rest, change, started, told
from .replies import fetches, on
from .trial import A, B, C, PATHS, SETUP, Differs, Row, Run, words_of

OPEN_A, OPEN_B = calls.open_(1, b"/a"), calls.open_(1, b"/b")
LOOK_A = [OPEN_A, calls.read(A, 2500)]
LOOK = [OPEN_A, calls.read(A, 2500), calls.seek(A, 1000), calls.read(A, 50), calls.stat(b"/a"), calls.readdir(b"/"),
        calls.readdir(b"/d"), calls.stat(b"/d"), OPEN_B, calls.read(B, 2048), calls.close(B), calls.close(A)]
CHANGES = [  # each sort of call that it does not take, where a guard would do something
    calls.create(7, b"/n"), calls.mkdir(7, b"/n"), calls.open_(2, b"/b"), calls.open_(3, b"/b"), calls.write(A, b"x"),
    calls.truncate(A, 0), calls.remove(b"/b"), calls.rmdir(b"/d"), calls.chmod(0, b"/a"), calls.map_(UNIT),
    calls.unmap(UNIT), calls.rename(b"/b", b"/n"),
]


class Looking(Run):
    """/a was written again before the save, so there is an old page of it."""

    def __init__(self, deviation=None, is_repeated=False):
        super().__init__(deviation, is_repeated, [*SETUP, calls.write(A, b"newer"), calls.close(A), calls.close(B)])
        self.saved = self.guard.save()
        look_at(self, *self.saved)


def look_at(run, image, digest):
    """The number of the load's refusal, or 0."""
    return started(run, image, digest, Reader())


def saves_the_same(guard, saved):
    return "the save is the one that was loaded" if guard.save() == saved else "another save"


# ---- while it runs

def old_page(host, file, page):
    return host.old[file.id, page]


def forged_stat(host, fields):
    right = host.stat(fields)
    return right[:6] + bytes([right[6] ^ 1]) + right[7:]


def row(source, does, some, deviation, expected):
    return Row(source, does, some, deviation, expected, run=Looking)


ROWS = [
    row("000, 3 and 3.3 (A1, SP5); 002, III (replay)", "gives the page of before the last write", LOOK_A,
        fetches(old_page), "now 5"),
    row("000, 3.3 (A2a, SP1), TP8", "lists another directory", [calls.readdir(b"/")],
        on("readdir", lambda host, fields: host.readdir(b"/d")), "now 7"),
    row("000, 3.3 (A2b, SP2, SP3); 001, 3.1 (Graphene-SGX)", "gives the descriptor of another open file",
        [OPEN_A, OPEN_B], lambda host, name, fields: b"\0" * 4 if name == "open" and host.open_files else None,
        "now 4"),
    row("000, 3.3 (A2a, SP1), TP7", "tells another size", [calls.stat(b"/a")], on("stat", forged_stat), "now 6"),
]


# ---- over saves and loads

def tries_to_change():
    run = Looking().calls([OPEN_A])
    asked = run.host.asked
    refused = [number for _, kind, number, _ in run.calls(CHANGES).outcomes[1:] if kind == REFUSED]
    if refused != [30] * len(CHANGES) or run.host.asked > asked:
        raise Differs(f"a read-only guard and calls that change something: {refused}")
    run.calls([calls.close(A)])
    return f"refused 30, {len(refused)} times, the host is not asked; {saves_the_same(run.guard, run.saved)}"


def old_image():
    run = at_rest()
    old = run.guard.save()[0]
    digest = change(run).guard.save()[1]
    return f"refused {look_at(run, old, digest)} at the load"


def guard_goes_on():
    """The guard that has saved writes on, over the same tree."""
    run = at_rest()
    saved = run.guard.save()
    change(run)
    look_at(run, *saved)
    untouched = told(run, [OPEN_B, calls.read(B, 2048)])
    return f"the guard's write is done; the read-only guard: {untouched}, {told(run, LOOK_A)}"


def answered(guard, host, call, lie=None):
    """The kind in which a call ends; `lie(request, truth)` gives a reply in the place of the right one, or None."""
    kind, _, data = guard.call(call)
    while kind == ASK:
        truth = host.reply(data)
        kind, _, data = guard.reply((lie and lie(data, truth)) or truth)
    return kind


def read_only_guard():
    """A read-only guard over files of a guard before it, their host, and what was saved."""
    guard, host = Guard(), LyingHost(Unrandom())
    for call in [*SETUP, calls.close(A), calls.close(B)]:
        if answered(guard, host, call) != DONE:
            raise Differs(f"the setup's {words_of(call)}")
    reader, saved = Reader(), guard.save()
    reader.load(*saved)
    return reader, host, saved


def any_call(random):
    some = [*LOOK, *CHANGES, OPEN_A, OPEN_B, calls.open_(1, b"/d/c"), calls.close(C), calls.stat(b"/none"),
            calls.seek(B, 2048), calls.seek(B, 9), calls.read(B, 1)]
    return random.choice(some)


def close_all(guard, host):
    for handle in PATHS:
        answered(guard, host, calls.close(handle))


def hostile_run(random):
    """Calls, and a wrong reply at some time: what a save then comes to."""
    guard, host, saved = read_only_guard()

    def lie(request, truth):
        wrong = host.lies(request, truth)
        return random.choice(list(wrong.values())) if wrong and random.random() < 0.05 else None

    for _ in range(40):
        if answered(guard, host, any_call(random), lie) == STOPPED:
            break
    else:
        close_all(guard, host)
    try:
        return "same" if guard.save() == saved else "another"
    except OSError as error:
        return error.errno


def hostile_runs():
    random = Random(30)
    came = {hostile_run(random) for _ in range(200)}
    if came != {"same", 5}:
        raise Differs(f"saves of read-only guards come to {came}")
    return "of 200 read-only guards each is stopped and saves nothing more (5), or saves the image that was loaded"


LIVES = [  # as in lives
    ("own", "would let the client change something: each sort of call", tries_to_change,
     "refused 30, 12 times, the host is not asked; the save is the one that was loaded", ""),
    ("004, 3.2.1, 5.10 (data and metadata)",
     "hands out the image of the save before; the read-only guard has the last digest", old_image,
     "refused 74 at the load", ""),
    ("004, 3.2 (forking)", "lets the guard write on while a read-only guard shows the save of before, over one tree",
     guard_goes_on,
     "the guard's write is done; the read-only guard: done 2048 at read /b, 2,048 bytes, stop 5 at read /a,"
     " 2,500 bytes",
     "A read-only guard reads a copy of the tree, or between two saves (docs/INTEGRATION.md, 12)."),
    ("000, 7.2 (semi-random bad values)", "lies at some time or never, while the client tries calls of every sort",
     hostile_runs,
     "of 200 read-only guards each is stopped and saves nothing more (5), or saves the image that was loaded", ""),
]
