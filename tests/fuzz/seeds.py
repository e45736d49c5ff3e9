"""The fuzzer's first inputs, from the model's lists: python3 -m fuzz.seeds DIRECTORY

Each list three times: with its own replies, with those that the fuzzer's host works out, and with these where each
third store, cut and new node finds the disk full. A map's address is the list's own in all, since later calls name it.
The guard moves now and then. Each fourth list goes to a read-only guard too. Beside them a few inputs by hand, of what
is read after a full disk, of replies that nearly say so, of a read-only guard, of renames, and of images whose records
come in another order. The form is that of records.h.
"""

import sys
from itertools import islice
from pathlib import Path

from model import calls
from model.events import Ask, Call, Load, Reply, Save
from model.rules import ADDRESS, ANSWER, CREATE, MAP, MKDIR, REQUEST, TRUNCATE, WRITE, put, unsigned
from model.transcripts import recordings
from model.tree import digest

CALL, REPLY, TRUE_REPLY, SAVE, LOAD, LOAD_BADLY, LOAD_SAVED, MOVE, REPLY_OVER, REPLY_UNDER, FULL_REPLY = range(11)
OWN, TRUE, FULL = range(3)  # whose replies
FILLED = [bytes([kind]) for kind in (CREATE, MKDIR, WRITE, TRUNCATE)]  # requests that a full disk may end
MOST = 16_384  # bytes of an input
READER = 16  # in the first byte: a read-only guard
LONGEST = 0xFFFF  # bytes of a record


def record(what, data=b"", short_answer=False, short_request=False):
    return bytes([what | short_answer << 6 | short_request << 7]) + put(len(data), 2) + data


def reply_to_map(data, length):
    """What is the list's own in a reply of the right length: the address, then all up to the last byte that is not
    zero, or all from the first one on.
    """
    memory = data[ADDRESS:]
    if len(memory) != length:
        return REPLY, data[:LONGEST]
    front, back = memory.rstrip(b"\0"), memory.lstrip(b"\0")
    return (REPLY_OVER, data[:ADDRESS] + front) if len(front) <= len(back) or not back else (REPLY_UNDER, back)


def reply(data, asked, whose, is_third):
    if asked[:1] == bytes([MAP]):
        return reply_to_map(data, unsigned(asked[1:]))
    if whose == FULL and is_third and asked[:1] in FILLED:
        return FULL_REPLY, b""
    return (REPLY, data[:LONGEST]) if whose == OWN else (TRUE_REPLY, b"")


def records(event, asked, whose, is_third):
    """An event, and the request that was pending before it."""
    match event:
        case Call() | Reply():
            is_call = isinstance(event, Call)
            what, data = (CALL, event.data) if is_call else reply(event.data, asked, whose, is_third)
            return record(what, data, event.answer_len < ANSWER, event.request_len < REQUEST)
        case Save():
            return record(SAVE, put(event.buffer_len, 2))
        case Load():
            return record(LOAD if digest(event.image) == event.digest else LOAD_BADLY, event.image)


def moves(n):
    return record(MOVE) if n % 8 == 5 else b""


def with_requests(steps):
    """Each event with the last request before it."""
    asked = b""
    for event, outcome in steps:
        yield event, asked
        asked = outcome.data if isinstance(outcome, Ask) else asked


# ---- a full disk, by hand; the fuzzer's host gives the first file the id 2

THREE = bytes(range(256)) * 12  # pages
WRITE_THREE = [calls.seek(2, 0), calls.write(2, THREE), TRUE_REPLY, TRUE_REPLY, TRUE_REPLY]
READ_THREE = [calls.seek(2, 0), calls.read(2, 4096), TRUE_REPLY, TRUE_REPLY, TRUE_REPLY]
FILE = [calls.create(7, b"/a"), TRUE_REPLY, calls.open_(3, b"/a"), TRUE_REPLY, *WRITE_THREE]
AGAIN = [calls.seek(2, 0), calls.write(2, THREE[::-1])]  # three whole pages: no fetch
LOOK = [*READ_THREE, calls.stat(b"/a"), TRUE_REPLY, calls.readdir(b"/"), TRUE_REPLY]
NEARLY = [*(put(-28, width) for width in (3, 5, 8)), *(put(status, 4) for status in (-27, -29, 28, -5))]
ENDED = {  # calls up to the request that finds the disk full
    "create": [calls.create(7, b"/b")], "mkdir": [calls.mkdir(7, b"/b")],
    "grow": [calls.truncate(2, 5000)], "cut": [calls.truncate(2, 1024)],
    "cut store": [calls.truncate(2, 100), TRUE_REPLY],
    "first": AGAIN, "second": [*AGAIN, TRUE_REPLY], "third": [*AGAIN, TRUE_REPLY, TRUE_REPLY],
    "fetched": [calls.seek(2, 10), calls.write(2, b"x" * 1500), TRUE_REPLY],
    "fetched second": [calls.seek(2, 10), calls.write(2, b"x" * 1500), TRUE_REPLY, TRUE_REPLY, TRUE_REPLY],
    "longer": [calls.seek(2, 3000), calls.write(2, b"x" * 2000), TRUE_REPLY, TRUE_REPLY],
}


def by_hand():
    """Each of them with the full disk, twice, and what is read then; and with what is nearly the same."""
    for name, before in ENDED.items():
        on = [calls.write(2, b"on" * 600), *[TRUE_REPLY] * 4]
        yield name, [*FILE, *before, FULL_REPLY, FULL_REPLY, *LOOK, *on, *LOOK]
        for number, nearly in enumerate(NEARLY):
            yield f"{name}-{number}", [*FILE, *before, (REPLY, nearly), *LOOK]


# ---- a read-only guard, by hand: an image whose files are of zeros, as the fuzzer's host takes them to be

def node(id, parent, kind, mode, size, name):
    return put(id, 4) + put(parent, 4) + bytes([kind, mode]) + put(size, 4) + bytes([len(name)]) + name


ZERO_PAGE = digest(bytes(1024))
SHOWN = (put(4, 4) + node(1, 0, 2, 7, 0, b"") + node(2, 1, 1, 6, 2500, b"a") + node(3, 1, 2, 7, 0, b"d")
         + node(4, 3, 1, 4, 0, b"c") + put(3, 4) + 3 * ZERO_PAGE)
LOOK_ON = [calls.open_(1, b"/a"), TRUE_REPLY, calls.read(2, 4096), *[TRUE_REPLY] * 3, calls.seek(2, 9),
           calls.stat(b"/d/c"), TRUE_REPLY, calls.readdir(b"/"), TRUE_REPLY, calls.close(2), TRUE_REPLY]
NOT_TAKEN = [
    calls.create(7, b"/n"), calls.mkdir(7, b"/n"), *(calls.open_(rights, b"/a") for rights in (0, 2, 3, 4)),
    calls.write(2, b"x"), calls.write(2, b""), calls.truncate(2, 0), calls.remove(b"/a"), calls.remove(b"/none"),
    calls.rmdir(b"/d"), calls.chmod(0, b"/a"), calls.map_(4096), calls.unmap(4096), calls.rename(b"/a", b"/n"),
    calls.rename(b"/none", b"/n"), calls.rename(b"/d", b"/d/n"), calls.rename(b"/a", b"/a"), calls.rename(b"/", b"/"),
]
MISSHAPEN = [b"", b"\x03", b"\x10", b"\x11", b"\x10\x02/a", b"\x10\x00/a", b"\x10\xff/a/b",
             calls.rename(b"/a", b"n"), calls.rename(b"/a", b"/" + b"n" * 33), calls.create(8, b"/n"),
             calls.create(7, b"n"), calls.create(7, b"/" + b"n" * 33),
             calls.open_(3, b"/" + b"n" * 33), calls.remove(b"/n" * 128), calls.map_(4097), calls.unmap(4096)[:-1],
             calls.write(2, bytes(4097)), calls.truncate(2, 0) + b"x"]


def looked_at():
    """From the image, from fresh, and while a request is pending or the guard has stopped."""
    saves = [(SAVE, b""), LOAD_SAVED]
    image = [(LOAD, SHOWN)]
    yield "image", [*image, *LOOK_ON, *NOT_TAKEN, *MISSHAPEN, *saves, *LOOK_ON]
    yield "fresh", [*NOT_TAKEN, *MISSHAPEN, calls.readdir(b"/"), TRUE_REPLY, *saves]
    yield "open", [*image, *LOOK_ON[:5], *NOT_TAKEN, *saves, *LOOK_ON[5:], *saves]
    yield "pending", [*image, LOOK_ON[0], *NOT_TAKEN, *MISSHAPEN, *saves, *LOOK_ON[1:], *saves]
    yield "stopped", [*image, LOOK_ON[0], (REPLY, b"x"), *NOT_TAKEN, *MISSHAPEN, *saves]
    yield "full", [*image, LOOK_ON[0], FULL_REPLY, *NOT_TAKEN]
    shorts = [*((CALL, call, True) for call in NOT_TAKEN), *((CALL, call, False, True) for call in MISSHAPEN)]
    yield "short", [*image, *shorts]


# ---- renames, by hand: directories with ids 3 and 4 beside the open file, and a file in one of them

PLACES = [*FILE, calls.mkdir(7, b"/d"), TRUE_REPLY, calls.mkdir(7, b"/e"), TRUE_REPLY, calls.create(6, b"/d/b"),
          TRUE_REPLY]
NAMES = [*(part for path in (b"/", b"/d", b"/e", b"/e/d") for part in (calls.readdir(path), TRUE_REPLY)), *READ_THREE]
DEEP = [part for n in range(1, 8) for part in (calls.mkdir(7, (b"/" + b"d" * 31) * n), TRUE_REPLY)]
DEEPEST = (b"/" + b"d" * 31) * 7
MOVES = {  # renames, each done with the true reply where it is asked for
    "file": [(b"/a", b"/d/a"), (b"/d/a", b"/d/c"), (b"/d/c", b"/a")],
    "tree": [(b"/d", b"/e/d"), (b"/e/d/b", b"/b"), (b"/e/d", b"/d")],
    "before its parent": [(b"/d", b"/e/d"), (b"/a", b"/e/d/a")],
    "refused": [(b"/", b"/"), (b"/", b"/n"), (b"/a", b"/a"), (b"/a", b"/"), (b"/a", b"/d/b"), (b"/d", b"/d/n"),
                (b"/d", b"/d"), (b"/none", b"/a/x"), (b"/a", b"/a/x"), (b"/a", b"/none/x"), (b"/d", b"/d/b/x")],
}
SHUT = [(path, mode) for path in (b"/d", b"/e") for mode in (0, 1, 2, 3, 5, 6)]


def renamed(*pairs):
    """A true reply where nothing is pending is refused, and does no harm."""
    return [part for pair in pairs for part in (calls.rename(*pair), TRUE_REPLY)]


def moved():
    saves = [calls.close(2), TRUE_REPLY, (SAVE, b""), LOAD_SAVED, calls.open_(3, b"/a"), TRUE_REPLY]
    for name, pairs in MOVES.items():
        yield name, [*PLACES, *renamed(*pairs), *NAMES, *saves, *NAMES, *renamed(*pairs), *NAMES]
    for path, mode in SHUT:
        pairs = (b"/d/b", b"/e/n"), (b"/d/b", b"/d/b"), (b"/a", b"/d/a"), (b"/d", b"/n")
        yield f"mode {mode} of {path[1:].decode()}", [*PLACES, calls.chmod(mode, path), TRUE_REPLY, *renamed(*pairs)]
    for length in (29, 30, 31, 32):  # a path of 255 bytes with 31 in its first name, and with 30 in its last
        file = [calls.create(7, DEEPEST + b"/" + b"p" * 30), TRUE_REPLY]
        yield f"deep {length}", [*DEEP, *file, *renamed((b"/" + b"d" * 31, b"/" + b"n" * length))]
        yield f"deeper {length}", [*FILE, *DEEP, *renamed((b"/a", DEEPEST + b"/" + b"n" * length)), *READ_THREE]
    for number, wrong in enumerate([put(1, 4), put(-28, 4), b"", put(0, 3), put(0, 5), put(1024, 4)]):
        yield f"wrong {number}", [*PLACES, calls.rename(b"/d", b"/n"), (REPLY, wrong), *NAMES]


def image_of(*nodes):
    return put(len(nodes) + 1, 4) + node(1, 0, 2, 7, 0, b"") + b"".join(node(*one) for one in nodes) + put(0, 4)


IMAGES = {  # a node is id, parent, kind, mode, size, name
    "parents last": image_of((2, 3, 1, 7, 0, b"a"), (3, 4, 2, 7, 0, b"b"), (4, 1, 2, 7, 0, b"c")),
    "a ring of one": image_of((2, 2, 2, 7, 0, b"a")),
    "a ring of two": image_of((2, 3, 2, 7, 0, b"a"), (3, 2, 2, 7, 0, b"b")),
    "a ring of three": image_of((2, 4, 2, 7, 0, b"a"), (3, 2, 2, 7, 0, b"b"), (4, 3, 2, 7, 0, b"c")),
    "a file for a parent": image_of((2, 3, 1, 7, 0, b"a"), (3, 1, 1, 7, 0, b"b")),
    "no parent": image_of((2, 9, 1, 7, 0, b"a")),
    "a name twice": image_of((2, 3, 1, 7, 0, b"a"), (4, 3, 1, 7, 0, b"a"), (3, 1, 2, 7, 0, b"d")),
    **{f"a path of {225 + length}": image_of(
        (2, 3, 1, 7, 0, b"n" * length), *((n, (n + 1) % 10 or 1, 2, 7, 0, b"d" * 31) for n in range(3, 10))
    ) for length in (30, 31)},
}


def record_of(thing):
    """A call's bytes, what stands for a reply, or that with its bytes."""
    if isinstance(thing, bytes):
        return record(CALL, thing)
    return record(*thing) if isinstance(thing, tuple) else record(thing)


def main():
    directory = Path(sys.argv[1])
    for name, things in by_hand():
        (directory / f"full-{name}").write_bytes(b"\0" + b"".join(map(record_of, things)))
    for name, things in looked_at():
        for kind in 0, READER:
            (directory / f"look-{name}-{kind}").write_bytes(bytes([kind]) + b"".join(map(record_of, things)))
    for name, things in moved():
        (directory / f"rename-{name}").write_bytes(b"\0" + b"".join(map(record_of, things)))
    for name, image in IMAGES.items():
        looks = [calls.readdir(b"/"), TRUE_REPLY, calls.stat(b"/c/b/a"), TRUE_REPLY, *renamed((b"/c/b", b"/b"))]
        (directory / f"image-{name}").write_bytes(b"\0" + b"".join(map(record_of, [(LOAD, image), *looks])))
    for i, (_, recording) in enumerate(recordings()):
        for whose, kind in (OWN, 0), (TRUE, 0), (FULL, 0), *[(OWN, READER)] * (i % 4 == 0):
            parts = (
                records(event, asked, whose, (n + i) % 3 == 0) + moves(n)
                for n, (event, asked) in enumerate(with_requests(recording.steps))
            )
            data = bytes([i % 2 + kind]) + record(LOAD_SAVED) * (whose != OWN) + b"".join(islice(parts, 250))
            if len(data) <= MOST:
                (directory / f"{i}-{whose}-{kind}").write_bytes(data)


if __name__ == "__main__":
    main()
