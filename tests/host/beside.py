"""The model beside the archive and the real host: each call goes through both, and the outcomes must be the same.

What a host may choose is the real one's: a new id and a map's address are taken over into the model, a listing may
stand in any order. Where a full disk has ended a call, the model's host says so to the same request, and does nothing.
"""

import os
import subprocess

from model.events import Ask, Call, Done, Load, Reply, Save
from model.host import Host
from model.image import LONGEST
from model.recording import Recording
from model.rules import CREATE, DIRECTORY, ID, MAP, MKDIR, PAGE, READDIR, TRUNCATE, WRITE, put, split_listing, unsigned
from model.script import Unrandom


class Killed(Exception):
    """The program is gone."""


class Caught(Exception):
    """The guard stopped."""


class Different(Exception):
    """The guard served something else than the model."""


class Driver:
    """The program of drive.c over a place on the disk: the directory `tree` and the file `table`.

    What the disk has for certain is recorded beside it, if that is wanted.
    """

    def __init__(self, program, place, record=False, errors=None, words=None):
        recorded = {"PLACE": str(place), "DURABLE": str(durable(place))} if record else {}
        self.process = subprocess.Popen(
            [program, *(words or [place / "tree", place / "table"])],
            stdin=subprocess.PIPE, stdout=subprocess.PIPE, stderr=errors, env={**os.environ, **recorded},
        )

    def send(self, *lines):
        """The words of the last line's answer; several short lines at once are quicker."""
        try:
            self.process.stdin.write("".join(f"{line}\n" for line in lines).encode())
            self.process.stdin.flush()
        except BrokenPipeError:
            raise Killed
        for _ in lines:
            answer = self.process.stdout.readline()
            if not answer.endswith(b"\n"):
                raise Killed
        return answer.decode().strip().split(" ")

    def kill(self):
        self.process.kill()
        self.end()

    def end(self):
        try:
            self.process.stdin.close()
        except BrokenPipeError:
            pass
        self.process.stdout.close()
        return self.process.wait()


def durable(place):
    return place.with_name(place.name + ".durable")


FULL = put(-28, 4)  # the status of a full disk, and bytes that are no new id
REFUSED_FULL = ["refused", "28"]


class Alike(Host):
    """The model's host with the ids, the addresses and the full disk of another. What it then says of a full disk, the
    recording has it undo.
    """

    chosen = 0
    is_full = staticmethod(lambda request: False)

    def reply(self, request):
        truth = super().reply(request)
        return FULL if self.is_full(request) else truth

    def new_id(self):
        return self.chosen

    def new_address(self, length):
        return self.chosen


class Beside(Recording):
    def __init__(self, driver):
        super().__init__(Unrandom())
        self.host = Alike(Unrandom())
        self.driver = driver
        self.saved = None

    def send(self, event):
        """A call, to its end."""
        if not isinstance(event, Call):
            raise ValueError(event)
        theirs = self.driver.send(f"c {event.data.hex()}")
        if theirs[0] == "stopped":
            raise Caught(theirs[1])
        gives = theirs[0] == "done" and event.data[0] in (CREATE, MKDIR, MAP)
        self.host.chosen = int(theirs[1]) if gives else 0
        self.host.is_full = self.full_disk(event.data, theirs)
        ours = super().send(event)
        while isinstance(ours, Ask):
            ours = super().send(Reply(self.truth))
        if comparable(event.data, theirs) != comparable(event.data, str(ours).split(" ")):
            raise Different(f"{event.data.hex()} gives {' '.join(theirs)}, not {ours}")
        return ours

    def full_disk(self, call, theirs):
        """Whether a request finds the disk full, by what has come of its call: one that was refused, at the first that
        may be answered so; a write that was done in part, at the first page that it does not reach.
        """
        file = self.guard.open_files.get(unsigned(call[1 : 1 + ID])) if call[:1] == bytes([WRITE]) else None
        if theirs == REFUSED_FULL:
            end = 0
        elif file and theirs[0] == "done" and int(theirs[1]) < len(call) - 1 - ID:
            end = file.cursor + int(theirs[1])
        else:
            return lambda request: False
        return lambda request: request[0] in (CREATE, MKDIR, TRUNCATE) or (
            request[0] == WRITE and unsigned(request[5:9]) * PAGE >= end
        )

    def close_all(self):
        for handle in list(self.guard.open_files):
            self.do(bytes([4]) + handle.to_bytes(4, "little"))

    def save(self):
        """A save by both, with no file open."""
        self.close_all()
        theirs = self.driver.send("s")
        ours = super().send(Save(LONGEST))
        if " ".join(theirs) != str(ours):
            raise Different(f"a save gives {' '.join(theirs)}, not {ours}")
        self.saved = ours

    def start_again(self, driver):
        """A fresh guard, the host as a new process would find it, the last image."""
        if driver.send("f") != ["fresh"]:
            raise Different("no fresh guard")
        self.driver = driver
        self.guard.__init__(self.guard.store)  # fresh, and still the one that the generator looks at
        self.host.open_files, self.host.maps = {}, {}
        self.load()

    def load(self):
        """The last image, whatever maps live; with no file open."""
        answer = self.driver.send(f"l {self.saved.data.hex()} {self.saved.digest.hex()}")
        if answer != ["done", "0"]:
            raise Different(f"the load gives {' '.join(answer)}")
        super().send(Load(self.saved.data, self.saved.digest))


def comparable(call, answer):
    """An outcome without what a host may choose."""
    if call[:1] == bytes([READDIR]) and answer[0] == "done":
        return answer[:2], sorted(split_listing(bytes.fromhex("".join(answer[2:]))))
    return answer


def in_model(host):
    """Path, id, mode and bytes (None for a directory) of each node that the model's host holds."""
    nodes = {}

    def walk(path, entry):
        nodes[path or b"/"] = entry.id, entry.mode, None if entry.kind == DIRECTORY else bytes(entry.data)
        for name, below in entry.entries.items():
            walk(path + b"/" + name, below)

    walk(b"", host.root)
    return nodes


def on_disk(place, stale_rows=False):
    """The same of the directory and the table of the real host. After a full disk the table may still have rows of
    nodes that are not there, which the next start forgets.
    """
    rows = {}
    table = place / "table"
    for row in table.read_bytes().split(b"\0")[1:-1] if table.exists() else [b"1 7 /"]:
        fields = row.split(b" ", 2)
        if len(fields) < 3:
            raise Different(f"the table has a torn row, {row}")
        rows[fields[2]] = int(fields[0]), int(fields[1])
    nodes = {}

    def row(path):
        if path not in rows:
            raise Different(f"{path} is on the disk and has no row in the table")
        return rows.pop(path)

    def walk(path, directory):
        nodes[path or b"/"] = *row(path or b"/"), None
        for below in directory.iterdir():
            name = path + b"/" + bytes_of(below)
            if below.is_dir():
                walk(name, below)
            else:
                nodes[name] = *row(name), below.read_bytes()

    walk(b"", place / "tree")
    if rows and not stale_rows:
        raise Different(f"the table has rows of nodes that are not there: {rows}")
    return nodes


def bytes_of(path):
    return path.name.encode("utf-8", "surrogateescape")
