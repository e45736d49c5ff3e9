"""A host as a program: frames over its standard input and output (docs/INTEGRATION.md, 9)."""

import os
import select
import shutil
import signal
import subprocess
import tempfile
import time

from model.rules import REPLY, put, unsigned

REQUEST, SYNC, START = 1, 2, 3
WIDTH = 4  # of a frame's length
FRAMES = {REQUEST: "a request", SYNC: "a sync", START: "a start"}


class Broken(Exception):
    """The program hangs, ends or sends a bad frame; the last frame that it got."""

    def __init__(self, words, frame):
        super().__init__(words)
        self.frame = frame


class Program:
    """A program over a directory of its own; it may be killed and started again there."""

    def __init__(self, command, patience):
        self.command, self.patience = command, patience
        self.place = tempfile.mkdtemp(prefix="conform.", dir=shared_memory())
        self.process, self.slowest = None, 0
        self.run()

    def run(self):
        """A new process over what is there; in a group of its own, so that a kill reaches what it has started too."""
        self.process = subprocess.Popen(
            [*self.command, self.place], stdin=subprocess.PIPE, stdout=subprocess.PIPE, bufsize=0,
            start_new_session=True,
        )
        self.came = self.frame = b""

    def kill(self):
        """Its number is its own as long as nobody has waited for it."""
        if self.process.returncode is None:
            os.killpg(self.process.pid, signal.SIGKILL)
        self.process.wait()
        self.process.stdin.close()
        self.process.stdout.close()

    def remove(self):
        self.kill()
        shutil.rmtree(self.place, ignore_errors=True)

    def end(self):
        """The end of its input ends an honest host."""
        self.process.stdin.close()
        try:
            self.process.wait(self.patience)
        except subprocess.TimeoutExpired:
            self.broken(f"it does not end within {self.patience:g} s of the end of its input")

    # frames

    def request(self, data):
        self.send(REQUEST, data)
        return self.receive()

    def sync(self, digest):
        self.send(SYNC, digest)
        self.nothing()

    def start(self, digest):
        self.send(START, digest)
        self.nothing()

    def send(self, kind, data):
        if self.is_readable(0):
            self.take()
        if self.came:
            self.broken("it sends bytes that nobody has asked for")
        self.frame = bytes([kind]) + data
        try:
            self.process.stdin.write(put(len(self.frame), WIDTH) + self.frame)
        except BrokenPipeError:
            self.ended()

    def receive(self):
        length = unsigned(self.read(WIDTH, "a frame"))
        if length > REPLY:
            self.broken(f"it sends a frame of {length:,} bytes; the longest reply has {REPLY:,}")
        return self.read(length, f"a frame of {length:,} bytes")

    def nothing(self):
        reply = self.receive()
        if reply:
            self.broken(f"it answers {FRAMES[self.frame[0]]} with {len(reply):,} bytes, not with an empty frame")

    def read(self, count, what):
        asked = time.monotonic()
        while len(self.came) < count:
            if not self.is_readable(max(0, asked + self.patience - time.monotonic())):
                self.broken(f"it hangs: of {what} there are {len(self.came):,} bytes after {self.patience:g} s")
            self.take()
        self.slowest = max(self.slowest, time.monotonic() - asked)
        data, self.came = self.came[:count], self.came[count:]
        return data

    def take(self):
        got = os.read(self.process.stdout.fileno(), 1 << 16)
        if not got:
            self.ended()
        self.came += got

    def is_readable(self, seconds):
        return bool(select.select([self.process.stdout], [], [], seconds)[0])

    def ended(self):
        try:
            status = self.process.wait(self.patience)
        except subprocess.TimeoutExpired:
            self.broken("it has closed its input or output")
        self.broken(f"it has ended, with status {status}")

    def broken(self, words):
        raise Broken(words, self.frame)


def shared_memory():
    """In memory where that is to be had: a disk makes it ten times as long."""
    place = "/dev/shm"
    return place if "TMPDIR" not in os.environ and os.access(place, os.W_OK) else None
