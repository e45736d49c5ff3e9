"""Maps, written out by hand: which addresses and bytes are taken, what lives and what has ended, and that saves and
loads know nothing of it. What a map's reply may not be stands in `dishonest`, and in the last scripts here where it
takes many maps, or a large one."""

from . import calls
from .edges import files, image
from .events import Call, Load, Reply, Save
from .rules import ADDRESS, ANSWER, MAX_MAP, MAX_MAPS, REQUEST, SPACE, UNIT, put
from .script import load_of

STATUS_0 = Reply(put(0, 4))


def map_reply(address, length):
    return put(address, ADDRESS) + bytes(length)


def mapped(s, address, length=UNIT):
    """A map that the host puts at an address."""
    asked(s, address, length)
    s.expect(f"done {address}", Reply(map_reply(address, length)))


def asked(s, address, length=UNIT):
    s.host.new_address = lambda _: address
    s.expect(f"ask 0e{put(length, 4).hex()}", calls.map_(length))


def unmapped(s, address):
    s.expect(f"ask 0f{put(address, ADDRESS).hex()}", calls.unmap(address))
    s.expect("done 0", STATUS_0)


def stopped_by(s, reason, reply):
    """The reply to a map that is asked for; the guard works no more."""
    s.expect(f"stopped {reason}", Reply(reply))
    s.expect("refused 5", calls.map_(UNIT))
    s.expect("refused 5", calls.unmap(UNIT))


def map_and_unmap(s):
    s.expect("ask 0e00100000", calls.map_(UNIT))
    s.expect("done 4096", Reply(map_reply(UNIT, UNIT)))
    assert s.steps[-1][1].data == b""
    s.expect("ask 0f0010000000000000", calls.unmap(UNIT))
    s.expect("done 0", STATUS_0)
    s.expect("refused 22", calls.unmap(UNIT))


def map_lengths(s):
    """One unit and more; each in the room of the one before."""
    for length in (UNIT, 2 * UNIT, 3 * UNIT):
        mapped(s, UNIT, length)
        unmapped(s, UNIT)


def map_addresses(s):
    """The first that there is, the last, and those that have a bit of the upper half alone."""
    for address in (UNIT, 1 << 31, 1 << 32, 1 << 63, SPACE - UNIT):
        mapped(s, address)
    for address in (SPACE - UNIT, 1 << 32, UNIT):
        unmapped(s, address)
    mapped(s, SPACE - 2 * UNIT, 2 * UNIT)
    s.expect("refused 22", calls.unmap(SPACE - UNIT))


def map_touching(s):
    """Two maps may meet: above, below, and a third between."""
    mapped(s, 8 * UNIT, 2 * UNIT)
    mapped(s, 10 * UNIT)
    mapped(s, 7 * UNIT)
    mapped(s, 4 * UNIT)
    mapped(s, 5 * UNIT, 2 * UNIT)
    for address in (7, 4, 10, 5, 8):
        unmapped(s, address * UNIT)


def map_in_any_order(s):
    """Above, below, between: no order is asked."""
    for unit in (9, 2, 30, 5, 1 << 40, 7):
        mapped(s, unit * UNIT)
    for unit in (30, 9, 7, 1 << 40, 2, 5):
        unmapped(s, unit * UNIT)
        s.expect("refused 22", calls.unmap(unit * UNIT))


def unmap_no_first_address(s):
    """Inside a map, at its end, before it; none of its bytes but the first counts."""
    mapped(s, 4 * UNIT, 2 * UNIT)
    for address in (
        5 * UNIT, 6 * UNIT, 3 * UNIT, 4 * UNIT + 1, 4 * UNIT - 1, 6 * UNIT - 1, 0, 1, UNIT, SPACE - 1, SPACE - UNIT,
        4 * UNIT + (1 << 32), 4 * UNIT + (1 << 63),
    ):
        s.expect("refused 22", calls.unmap(address))
    unmapped(s, 4 * UNIT)


def unmap_twice(s):
    """The second is of no map, also beside maps that live; mapped again it is one."""
    for unit in (2, 3, 4):
        mapped(s, unit * UNIT)
    unmapped(s, 3 * UNIT)
    s.expect("refused 22", calls.unmap(3 * UNIT))
    mapped(s, 3 * UNIT)
    unmapped(s, 3 * UNIT)
    s.expect("refused 22", calls.unmap(3 * UNIT))


def map_freed_room(s):
    """The room of a map that has ended is free, in part, as a whole, and together with its neighbour's."""
    mapped(s, 4 * UNIT, 2 * UNIT)
    mapped(s, 6 * UNIT)
    unmapped(s, 4 * UNIT)
    mapped(s, 5 * UNIT)
    mapped(s, 4 * UNIT)
    for unit in (5, 6):
        unmapped(s, unit * UNIT)
    mapped(s, 5 * UNIT, 3 * UNIT)


def map_over_a_save(s):
    """The image is the one of a guard without maps; they live on behind it."""
    fresh = s.send(Save(100))
    mapped(s, 2 * UNIT)
    s.expect(f"done 23 {fresh.data.hex()} {fresh.digest.hex()}", Save(23))
    mapped(s, 3 * UNIT)
    s.expect("done 23", Save(100))
    for unit in (2, 3):
        unmapped(s, unit * UNIT)


def map_over_a_load(s):
    """A load takes other files and leaves the maps."""
    mapped(s, 2 * UNIT, 2 * UNIT)
    saved = s.send(Save(100))
    s.do(calls.mkdir(7, b"/d"))
    s.expect("done 0", Load(saved.data, saved.digest))
    s.expect("refused 2", calls.stat(b"/d"))
    mapped(s, 4 * UNIT)
    s.expect("done 0", load_of(image(files(3, 5))))
    unmapped(s, 2 * UNIT)
    s.expect("refused 22", calls.unmap(2 * UNIT))
    mapped(s, UNIT, 3 * UNIT)
    unmapped(s, 4 * UNIT)


def map_after_a_load_overlaps(s):
    """What lived before the load still counts."""
    mapped(s, 2 * UNIT)
    s.expect("done 0", load_of(image(files())))
    asked(s, UNIT, 2 * UNIT)
    stopped_by(s, 8, map_reply(UNIT, 2 * UNIT))


def map_beside_files(s):
    """Files are open while maps live: neither counts for the other."""
    handle = s.file(b"/a", b"12345")
    mapped(s, handle * UNIT)
    s.expect("refused 16", Save(1000))
    s.expect("refused 9", calls.close(handle * UNIT))
    s.expect("refused 22", calls.unmap(handle))
    s.do(calls.seek(handle, 0))
    s.expect_end("done 5 3132333435", calls.read(handle, 5))
    s.expect_end("done 0", calls.close(handle))
    s.expect("done", Save(1000))
    unmapped(s, handle * UNIT)


def map_short_buffers(s):
    """34 comes before any form and any number of maps, and a reply that is refused so may come again."""
    too_short = ((ANSWER - 1, REQUEST), (ANSWER, REQUEST - 1), (0, 0))
    for lengths in too_short:
        for call in (calls.map_(UNIT), calls.map_(0), calls.unmap(UNIT), calls.unmap(0)[:-1]):
            s.expect("refused 34", Call(call, *lengths))
    asked(s, UNIT)
    for lengths in too_short:
        s.expect("refused 34", Reply(map_reply(UNIT, UNIT), *lengths))
        s.expect("refused 34", Reply(b"", *lengths))
    s.expect("done 4096", Reply(map_reply(UNIT, UNIT)))
    s.expect("ask", calls.unmap(UNIT))
    for lengths in too_short:
        s.expect("refused 34", Reply(put(0, 4), *lengths))
    s.expect("done 0", Reply(put(0, 4)))


def map_longer_buffers(s):
    """The address is no bytes: nothing is written in any buffer."""
    for lengths in ((ANSWER + 1, REQUEST), (ANSWER, REQUEST + 1), (2 * ANSWER, 2 * REQUEST)):
        s.expect("ask 0e00100000", Call(calls.map_(UNIT), *lengths))
        s.expect("done 4096", Reply(map_reply(UNIT, UNIT), *lengths))
        s.expect("ask 0f0010000000000000", Call(calls.unmap(UNIT), *lengths))
        s.expect("done 0", Reply(put(0, 4), *lengths))


def map_while_pending(s):
    """One request at a time, of maps as of files."""
    asked(s, UNIT)
    for event in (Call(calls.map_(UNIT)), Call(calls.unmap(UNIT)), Call(calls.stat(b"/")), Save(100), load_of(b"")):
        s.expect("refused 114", event)
    s.expect("done 4096", Reply(map_reply(UNIT, UNIT)))
    s.expect("ask", calls.unmap(UNIT))
    s.expect("refused 114", calls.unmap(UNIT))
    s.expect("done 0", STATUS_0)
    s.expect("ask", calls.stat(b"/"))
    s.expect("refused 114", calls.map_(UNIT))


def map_replies_unasked(s):
    """A second reply is one too many."""
    s.expect("refused 61", Reply(map_reply(UNIT, UNIT)))
    mapped(s, UNIT)
    s.expect("refused 61", Reply(map_reply(UNIT, UNIT)))
    s.expect("refused 61", Reply(map_reply(2 * UNIT, UNIT)))
    unmapped(s, UNIT)
    s.expect("refused 61", STATUS_0)


def map_over_the_first(s):
    for unit in (2, 4, 6):
        mapped(s, unit * UNIT)
    asked(s, 8 * UNIT)
    stopped_by(s, 8, map_reply(2 * UNIT, UNIT))


def map_over_the_last_of_fifteen(s):
    for unit in range(1, MAX_MAPS):
        mapped(s, 2 * unit * UNIT)
    asked(s, 40 * UNIT, 2 * UNIT)
    stopped_by(s, 8, map_reply((2 * MAX_MAPS - 3) * UNIT, 2 * UNIT))


def map_over_the_last_after_one_ended(s):
    """Those that stand behind an ended one still live."""
    for unit in (2, 4, 6):
        mapped(s, unit * UNIT)
    unmapped(s, 2 * UNIT)
    asked(s, 2 * UNIT)
    stopped_by(s, 8, map_reply(6 * UNIT, UNIT))


def beside_a_larger_one(s):
    mapped(s, 4 * UNIT, 3 * UNIT)
    asked(s, 7 * UNIT)


def map_over_the_first_unit(s):
    beside_a_larger_one(s)
    stopped_by(s, 8, map_reply(4 * UNIT, UNIT))


def map_inside(s):
    beside_a_larger_one(s)
    stopped_by(s, 8, map_reply(5 * UNIT, UNIT))


def map_over_the_last_unit(s):
    beside_a_larger_one(s)
    stopped_by(s, 8, map_reply(6 * UNIT, UNIT))


def map_at_1(s):
    asked(s, UNIT)
    stopped_by(s, 8, map_reply(1, UNIT))


def map_past_the_end(s):
    """Its first unit is the last that there is, and touches a map."""
    mapped(s, SPACE - 2 * UNIT)
    asked(s, UNIT, 2 * UNIT)
    stopped_by(s, 8, map_reply(SPACE - UNIT, 2 * UNIT))


def map_past_the_end_and_over_a_map(s):
    mapped(s, SPACE - UNIT)
    asked(s, UNIT, 2 * UNIT)
    stopped_by(s, 8, map_reply(SPACE - UNIT, 2 * UNIT))


def largest_map_at_the_end(s):
    mapped(s, SPACE - MAX_MAP, MAX_MAP)
    unmapped(s, SPACE - MAX_MAP)


def largest_map_with_a_byte(s):
    asked(s, UNIT, MAX_MAP)
    stopped_by(s, 8, map_reply(UNIT, MAX_MAP)[:-1] + b"\1")


def largest_map_too_long(s):
    asked(s, UNIT, MAX_MAP)
    stopped_by(s, 1, map_reply(UNIT, MAX_MAP + 1))


MAPS = [
    map_and_unmap, map_lengths, map_addresses, map_touching, map_in_any_order, unmap_no_first_address, unmap_twice,
    map_freed_room, map_over_a_save, map_over_a_load, map_after_a_load_overlaps, map_beside_files,
    map_short_buffers, map_longer_buffers, map_while_pending, map_replies_unasked, map_over_the_first,
    map_over_the_last_of_fifteen, map_over_the_last_after_one_ended, largest_map_at_the_end,
    map_over_the_first_unit, map_inside, map_over_the_last_unit, map_at_1, map_past_the_end,
    map_past_the_end_and_over_a_map, largest_map_with_a_byte, largest_map_too_long,
]
