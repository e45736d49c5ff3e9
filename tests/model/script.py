"""Scripted lists: events written by hand, each with the answer that the requirements ask for.

A script is a function over a `Script`. It is a test by itself, and its list goes into the transcripts.
"""

from random import Random

from . import calls
from .edges import image
from .events import Call, Load, Reply
from .recording import Recording
from .rules import MAX_COUNT
from .tree import digest, guard


class Unrandom(Random):
    """A host with this takes the lowest id and descriptor and lists in the order of creation."""

    def random(self):
        return 0.5

    def choice(self, choices):
        return choices[0]

    def shuffle(self, things):
        pass


class Script(Recording):
    def __init__(self, make_guard=guard):
        super().__init__(Unrandom(), make_guard)
        self.shown = {}

    def expect(self, answer, event, shown=None):
        """Sends an event, or a call's bytes, and holds the outcome against an answer's first words; a trial shows it in
        words.
        """
        self.check(answer, self.send(Call(event) if isinstance(event, bytes) else event), event)
        self.show(shown)

    def expect_end(self, answer, call, shown=None):
        """The same for a call's last outcome, after true replies."""
        self.expect("ask", call)
        self.check(answer, self.finish(), call)
        self.show(shown)

    def show(self, words):
        if words:
            self.shown[len(self.steps) - 1] = words

    def check(self, answer, outcome, event):
        if not f"{outcome} ".startswith(f"{answer} "):
            raise AssertionError(f"{event} gives {str(outcome)[:80]}, not {answer}")

    def file(self, path, data=b"", rights=3):
        """A file with these bytes, open with these rights, its cursor at the end; its handle."""
        handle = self.do(calls.create(7, path)).number
        self.do(calls.open_(2, path))
        for at in range(0, len(data), MAX_COUNT):
            self.do(calls.write(handle, data[at : at + MAX_COUNT]))
        self.do(calls.close(handle))
        self.do(calls.open_(rights, path))
        self.do(calls.seek(handle, len(data)))
        return handle

    def load(self, nodes):
        """Goes to a tree with files of zeros."""
        self.expect("done 0", load_of(image(nodes)))

    def stop(self):
        """A wrong reply to a chmod that changes nothing."""
        self.expect("ask", calls.chmod(7, b"/"))
        self.expect("stopped 1", Reply(b""))

    def house(self):
        """Directories that lack one bit each, with something inside, and a file without any bit."""
        for path in (b"/d", b"/shut", b"/kept", b"/kept/e", b"/kept/full", b"/blind"):
            self.do(calls.mkdir(7, path))
        for path in (b"/f", b"/d/x", b"/shut/x", b"/kept/x", b"/kept/full/x"):
            self.do(calls.create(7, path))
        self.do(calls.create(0, b"/mute"))
        for mode, path in ((6, b"/shut"), (5, b"/kept"), (3, b"/blind")):
            self.do(calls.chmod(mode, path))


def asked(script):
    """A script that has run."""
    s = Script()
    script(s)
    return s


def load_of(data):
    return Load(data, digest(data))
