"""Every dishonest reply to every kind of request, one list each: the guard stops with the right reason and for good."""

from . import calls
from .events import Reply
from .maps import asked as asked_for, mapped
from .rules import PAGE, READDIR, SPACE, UNIT
from .script import Script


def a_tree(s):
    s.do(calls.mkdir(7, b"/d"))
    s.do(calls.mkdir(5, b"/e"))
    s.do(calls.create(6, b"/d/x"))
    s.do(calls.create(4, b"/d/y"))


def two_files(s):
    """Two files of the same length, one with its first page overwritten; the handle of that one, its cursor at 0."""
    handle = s.file(b"/a", b"A" * PAGE + b"B" * 10)
    s.file(b"/b", b"C" * PAGE + b"D" * 10)
    s.do(calls.seek(handle, 0))
    s.do(calls.write(handle, b"new"))
    s.do(calls.seek(handle, 0))
    return handle


def grown_file(s):
    """A file that was cut within its first page and then grown to two and a bit, its cursor at 0; its handle."""
    handle = s.file(b"/a", b"A" * PAGE + b"B" * 10)
    s.do(calls.truncate(handle, 700))
    s.do(calls.truncate(handle, 2 * PAGE + 10))
    s.do(calls.seek(handle, 0))
    return handle


def create(s):
    a_tree(s)
    s.expect("ask", calls.create(7, b"/a"))


def mkdir(s):
    a_tree(s)
    s.expect("ask", calls.mkdir(7, b"/d/a"))


def open_(s):
    a_tree(s)
    s.do(calls.open_(1, b"/d/y"))
    s.expect("ask", calls.open_(2, b"/d/x"))


def close(s):
    s.expect("ask", calls.close(s.file(b"/a")))


def read_first_page(s):
    s.expect("ask", calls.read(two_files(s), 2 * PAGE))


def read_last_page(s):
    s.expect("ask", calls.read(two_files(s), 2 * PAGE))
    s.expect("ask", Reply(s.truth))


def fetch_of_a_write(s):
    s.expect("ask", calls.write(two_files(s), b"x"))


def fetch_of_a_truncation(s):
    s.expect("ask", calls.truncate(two_files(s), PAGE + 5))


def store_first_page(s):
    s.expect("ask", calls.write(s.file(b"/a"), b"x" * (PAGE + 1)))


def store_last_page(s):
    store_first_page(s)
    s.expect("ask", Reply(s.truth))


def store_of_a_truncation(s):
    s.expect("ask", calls.truncate(s.file(b"/a", b"12345"), 4))
    s.expect("ask", Reply(s.truth))


def cut(s):
    s.expect("ask", calls.truncate(s.file(b"/a", b"x"), 0))


def cut_that_grows(s):
    s.expect("ask", calls.truncate(s.file(b"/a", b"12345"), 700))


def cut_that_adds_pages(s):
    s.expect("ask", calls.truncate(s.file(b"/a"), 3000))


def read_over_the_old_end(s):
    s.expect("ask", calls.read(grown_file(s), 800))


def read_added_page(s):
    """A page that was there before the cut, with other bytes."""
    s.expect("ask", calls.read(grown_file(s), 3 * PAGE))
    s.expect("ask", Reply(s.truth))


def read_last_added_page(s):
    read_added_page(s)
    s.expect("ask", Reply(s.truth))


def write_to_an_added_page(s):
    handle = grown_file(s)
    s.do(calls.seek(handle, PAGE))
    s.expect("ask", calls.write(handle, b"x"))


def cut_of_an_added_page(s):
    s.expect("ask", calls.truncate(grown_file(s), PAGE + 5))


def stat_of_a_grown_file(s):
    grown_file(s)
    s.expect("ask", calls.stat(b"/a"))


def remove(s):
    a_tree(s)
    s.expect("ask", calls.remove(b"/d/y"))


def rmdir(s):
    a_tree(s)
    s.expect("ask", calls.rmdir(b"/e"))


def chmod(s):
    a_tree(s)
    s.expect("ask", calls.chmod(0, b"/d/x"))


def readdir(s):
    a_tree(s)
    s.expect("ask", calls.readdir(b"/d"))


def readdir_of_one(s):
    s.do(calls.create(7, b"/a"))
    s.expect("ask", calls.readdir(b"/"))


def readdir_of_none(s):
    a_tree(s)
    s.expect("ask", calls.readdir(b"/e"))


def stat(s):
    s.file(b"/a", b"12345")
    a_tree(s)
    s.expect("ask", calls.stat(b"/a"))


def stat_of_a_directory(s):
    a_tree(s)
    s.expect("ask", calls.stat(b"/e"))


def map_beside_a_smaller_one(s):
    """It touches the other, and could lie around it."""
    mapped(s, 4 * UNIT)
    asked_for(s, 5 * UNIT, 3 * UNIT)


def map_of_one_unit(s):
    asked_for(s, SPACE - UNIT)


def unmap(s):
    mapped(s, UNIT)
    s.expect("ask", calls.unmap(UNIT))


def rename(s):
    a_tree(s)
    s.expect("ask", calls.rename(b"/d/x", b"/z"))


def rename_of_a_directory(s):
    a_tree(s)
    s.expect("ask", calls.rename(b"/e", b"/d/e"))


# what asks the host, and the stop reason of a reply that has the right length
QUESTIONS = {
    create: 3, mkdir: 3, open_: 4, close: 2, read_first_page: 5, read_last_page: 5, fetch_of_a_write: 5,
    fetch_of_a_truncation: 5, store_first_page: 2, store_last_page: 2, store_of_a_truncation: 2, cut: 2, remove: 2,
    rmdir: 2, chmod: 2, readdir: 7, readdir_of_one: 7, readdir_of_none: 7, stat: 6, stat_of_a_directory: 6,
    cut_that_grows: 2, cut_that_adds_pages: 2, read_over_the_old_end: 5, read_added_page: 5, read_last_added_page: 5,
    write_to_an_added_page: 5, cut_of_an_added_page: 5, stat_of_a_grown_file: 6, map_beside_a_smaller_one: 8,
    map_of_one_unit: 8, unmap: 2, rename: 2, rename_of_a_directory: 2,
}


def asked(question):
    s = Script()
    question(s)
    return s


def dishonest_lists():
    """Pairs of a name and a script that has run."""
    for question, reason in QUESTIONS.items():
        for lie in asked(question).lies():
            s = asked(question)
            reply = s.lies()[lie]
            is_length = len(reply) != len(s.truth) and s.request[0] != READDIR
            s.expect(f"stopped {1 if is_length else reason}", Reply(reply))
            s.expect("refused 5", calls.stat(b"/"))
            yield f"{question.__name__}: {lie}", s
