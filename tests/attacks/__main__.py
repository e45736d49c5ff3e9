"""Prints docs/ATTACKS.md. Ends with an error where a row does not come to what it must.

    python3 -m attacks      from tests/, with examples/python on the path
"""

from itertools import groupby

from model import calls
from model.lies import LyingHost
from model.rules import UNIT
from model.script import Unrandom

from guard import ASK, STOPPED, Guard

from . import lives, outside, readers, renames, replies
from .trial import A, SETUP, Differs, come_to, words_of

HEAD = """# Attacks on the file interface, and what they come to

Written by `tests/attacks`, which runs each row against the archive; the gate looks whether this is what it prints.

Sources: 000 BesFS, 001 GateKeeper, 002 BFS, 003 BesFS (slides), 004 SecureFS, with the section; 01 the requirements;
own. A host here **does or does not do what it is asked, and then replies as right as it can**. Stop 1 is a wrong
length, 2 a status, 3 an id, 4 a descriptor, 5 a page, 6 a stat, 7 a listing, 8 a map. *At once*: at the reply to the
request at which the host was dishonest. *Later*: at a request after it; what the host did meanwhile is not served. With
an honest host in its place, no row stops.

Before: `/a` (2,500 bytes) and `/b` (2,048) are open, `/d` holds `/d/c`.
"""

EVERY = [  # the requests that the setup has not
    calls.read(A, 2500), calls.truncate(A, 1000), calls.truncate(A, 3000), calls.read(A, 3000), calls.chmod(5, b"/a"),
    calls.stat(b"/a"), calls.readdir(b"/"), calls.readdir(b"/d"), calls.stat(b"/d"), calls.close(A),
    calls.rename(b"/d/c", b"/n"), calls.rename(b"/n", b"/d/c"), calls.remove(b"/d/c"), calls.rmdir(b"/d"),
    calls.map_(2 * UNIT), calls.map_(UNIT), calls.unmap(UNIT),
]


def lies():
    """Every wrong reply that the model's lying host knows, to each request of the setup and of what follows."""
    some = [*SETUP, *EVERY]
    return sum(lies_at(some, number) for number in range(len(some)))


def lies_at(some, number):
    """At the requests of one call; a fresh guard for each lie."""
    count = request = 0
    while True:
        names = lies_to(some, number, request, None)
        if names is None:
            return count
        for name in names:
            if lies_to(some, number, request, name) != STOPPED:
                raise Differs(f"the lie '{name}' at {words_of(some[number])}")
        count += len(names)
        request += 1


def lies_to(some, number, which, name):
    """With a name, what the lie comes to; without, the lies that there are; None where there is no such request."""
    guard, host = Guard(), LyingHost(Unrandom())
    for at, call in enumerate(some[: number + 1]):
        kind, _, data = guard.call(call)
        request = 0
        while kind == ASK:
            truth = host.reply(data)
            if at == number and request == which:
                wrong = host.lies(data, truth)
                return guard.reply(wrong[name])[0] if name else list(wrong)
            kind, _, data = guard.reply(truth)
            request += 1
    return None


def table(titles, rows):
    yield f"| {' | '.join(titles)} |"
    yield f"|{'---|' * len(titles)}"
    for row in rows:
        yield f"| {' | '.join(row)} |"
    yield ""


def client_words(some):
    """The calls; one that comes many times over is told once."""
    runs = [(words, len(list(run))) for words, run in groupby(map(words_of, some))]
    return "; ".join(f"{words}, {times} times" if times > 2 else "; ".join([words] * times) for words, times in runs)


def document():
    yield HEAD
    yield "## While a guard runs\n"
    yield from table(
        ["from", "the host", "the client", "comes to"],
        [(row.source, row.does, client_words(row.calls), come_to(row)) for row in [*replies.ROWS, *renames.ROWS]],
    )
    yield f"Beside them (000, 7.2, semi-random bad values; 001, 8.2): {lies():,} wrong replies, each sort that"
    yield "tests/model knows to each request of a list of calls, each on a guard of its own. Each stops it at once.\n"
    yield "## Over saves and loads, and several guards\n"
    yield from table(
        ["from", "the host", "comes to", "not caught, by rule: what a builder does"],
        [life(*row) for row in [*lives.ROWS, *renames.LIVES]],
    )
    yield "## A read-only guard\n"
    yield "It has loaded the save of a guard; `/a` and `/b` are closed. Calls that it does not take are refused 30.\n"
    yield from table(
        ["from", "the host", "the client", "comes to"],
        [(row.source, row.does, client_words(row.calls), come_to(row)) for row in readers.ROWS],
    )
    yield from table(
        ["from", "the host", "comes to", "not caught, by rule: what a builder does"],
        [life(*row) for row in readers.LIVES],
    )
    yield "## Out of scope\n"
    yield from table(["from", "the attack", "why", "what a builder does"], outside.ROWS)


def life(source, does, run, expected, advice):
    came = run()
    if came != expected:
        raise Differs(f"{does}: {came}, not {expected}")
    return source, does, came, advice or "-"


if __name__ == "__main__":
    print("\n".join(document()).rstrip())
