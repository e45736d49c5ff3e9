"""Wrong models: at least one for each rule, made by changing one place in the model's text.

The generated lists must tell each from the clean model. One that they do not tell apart means that a guard with that
fault would pass the comparison, so the generator has to get better.

    python3 -m model.mutations      prints each mutation with a seed that catches it
"""

import ast
import importlib.util
import shutil
import sys
import tempfile
from pathlib import Path

from . import events
from .generate import (
    generate, generate_filling, generate_growing, generate_longer, generate_mapping, generate_renaming,
)
from .renames import RENAMES
from .script import asked
from .transcripts import read_only_recordings

PACKAGE = Path(__file__).parent
COPIED = ["__init__", "events", "rules", "image", "tree", "desk"]
SEEDS = range(1400)
FILLING_SEEDS = range(1400, 2200)
RENAMING_SEEDS = range(2200, 2800)


def replaced(place, text, instead):
    """A piece of text is another."""
    return place, lambda source: source.replace(once(source, text), instead)


def dropped(place, text):
    """The line with this text is left out."""
    return place, lambda source: source.replace(line_with(source, text), "")


def delayed(place, first, second):
    """The line with the first text stands behind the line with the second."""

    def change(source):
        line, later = line_with(source, first), line_with(source, second)
        return source.replace(line, "").replace(later, later + line)

    return place, change


def added(place, text, line):
    """A line stands before the line with this text."""

    def change(source):
        found = line_with(source, text)
        indent = found[: len(found) - len(found.lstrip())]
        return source.replace(found, f"{indent}{line}\n{found}")

    return place, change


def asks_parent(place, bit):
    """Once a path is walked, a bit of the parent is asked as well."""
    walk = "_, node = self.walk(call.names)\n"
    return replaced(place, walk, f"parent{walk[1:]}        refuse(13, parent and not parent.mode & {bit})\n")


def modulo_256(place):
    """A request with the low byte of its descriptor."""
    return replaced(place, "put(descriptor, 4)", "put(descriptor % 256, 4)")


def grown_cursor(place):
    """Where a growth puts the cursor."""
    right = "min(file.cursor, call.size)"
    return replaced("tree.truncate", right, f"{place} if call.size > node.size else {right}")


def overlapping(condition):
    """When two maps are taken to have a byte in common."""
    return replaced("rules.overlap", "one < other + other_length and other < one + one_length", condition)


def looked_at(condition):
    """Which bytes of a map are taken not to be zero."""
    return replaced("tree.ask_map", "reply[ADDRESS:] != bytes(length)", condition)


IS_FULL = "rules.signed(reply) == NO_SPACE"
SAID_FULL = "reply == rules.put(NO_SPACE, 4)"
SO_FAR = "end if end == start + len(call.data) else"


def full_elsewhere(call, request):
    """A call ends with a full disk where it must stop."""
    asked = f"self.ask_status({request})"
    return replaced(f"tree.{call}", f"yield from {asked}", f"refuse(28, (yield from {asked[:-1]}, may_be_full=True)))")


def full_in(place, width):
    """A full disk is also said in another number of bytes."""
    right = {"tree.ask_id": "len(reply) != ID", "tree.ask_status": "len(reply) != 4"}[place]
    where = {"tree.ask_id": "", "tree.ask_status": "may_be_full and "}[place]
    return replaced(place, right, f"{right} and not ({where}reply == rules.put(NO_SPACE, {width}))")


def taken_as_full(place, condition):
    """What is taken for a full disk."""
    return replaced(place, IS_FULL, condition)


def ended_by_full(change):
    """What else a full disk does that refuses a call."""
    lines = f"except Refusal:\n            {change}\n            raise"
    return added("tree.advance", "except Stop as wrong", lines)


IS_READ_ONLY = "isinstance(self, ReadOnly)"
IS_NO_LOOK = "not self.takes(call)"
IS_LONG = "any(map(rules.is_long, call.paths))"
IS_NO_LOOK_YET = f"(call := rules.read_call(event.data)) and not {IS_LONG} and not self.takes(call)"


def read_only_takes(kinds):
    """Which kinds of call but an open a read-only guard takes."""
    return replaced("rules.is_read_only", "call.kind in READ_ONLY_KINDS", kinds)


def read_only_opens(condition):
    """Which rights a read-only guard opens files with."""
    return replaced("rules.is_read_only", "call.rights == READ_RIGHT", condition)


def read_only_number(number):
    """What a call that is not taken is refused with."""
    return replaced("tree.on_call", "refuse(30, ", f"refuse({number}, ")


def read_only_after(number, condition):
    """A number of the tables comes before 30."""
    return added("tree.on_call", "refuse(30", f"refuse({number}, {IS_NO_LOOK} and {condition})")


def read_only_early(number, condition):
    """30 comes before a number."""
    return added("tree.on_call", f"refuse({number}", f"refuse(30, {condition})")


def read_only_changes(change):
    """What a call that is not taken does before it is refused."""
    return added("tree.on_call", "refuse(30", f"{change} if {IS_NO_LOOK} else None")


REACH = "len(path_lengths(nodes)) == len(nodes)"
PARENTS_ARE_DIRECTORIES = "all(node.parent in [n.id for n in nodes if n.kind == DIRECTORY] for node in nodes[1:])"
LONG_BENEATH = "36, len(second) + self.length_beneath(node) > MAX_PATH"


def renamed_form(condition):
    """What is asked of a rename's bytes."""
    return replaced("rules", "None not in map(read_path, split_paths(both))", condition)


def renamed_early(number, refusal):
    """A rename is refused so before a number."""
    return added("tree.rename", f"refuse({number}", f"refuse({refusal})")


def renamed_before_13(whose):
    """36 comes before 13 of this parent."""
    return added("tree.rename", f"refuse(13, {whose}.mode", f"refuse({LONG_BENEATH})")


def renamed_over(condition):
    """What exists is in the way only so."""
    return replaced("tree.rename", "there is not None", f"there is not None and {condition}")


def renamed_with(change):
    """What else a rename does."""
    return added("tree.rename", "node.parent, node.name", change)


def one_bit_is_enough(source):
    line = line_with(source, "refuse(13, not parent")
    return source.replace(line, "").replace("not new_parent.mode", "not (parent.mode | new_parent.mode)")


def measured(how):
    """How the paths beneath a node are measured, by pairs of kind and length."""
    pairs = "[(child.kind, 1 + len(child.name) + self.length_beneath(child)) for child in self.children(node)] "

    def change(source):
        return source.replace(line_with(source, "return max"), f"        return {how.format(pairs)}\n")

    return "tree.length_beneath", change


IF_GROWN = "if call.size > node.size"
GROWN_ASKED = "refuse(28, (yield from self.ask_status(request, may_be_full=grows)))"
GROWN_WITHOUT = """reply = yield request
            if grows:
                {}
            else:
                stop(1, len(reply) != 4)
                stop(2, rules.signed(reply) != 0)"""


def once(source, text):
    assert source.count(text) == 1, f"{text!r} stands {source.count(text)} times"
    return text


def line_with(source, text):
    lines = [line for line in source.splitlines(keepends=True) if text in line]
    assert len(lines) == 1, f"{text!r} stands on {len(lines)} lines"
    return once(source, lines[0])


# A place is a module, or a module and one of its functions.
MUTATIONS = {
    # numbers of every event
    "a stopped guard takes calls": dropped("tree.on_call", "refuse(5"),
    "a stopped guard takes replies": dropped("tree.on_reply", "refuse(5"),
    "a stopped guard takes saves": dropped("tree.on_save", "refuse(5"),
    "a stopped guard takes loads": dropped("tree.on_load", "refuse(5"),
    "61 before 5": delayed("tree.on_reply", "refuse(5", "refuse(61"),
    "save while a request is pending": dropped("tree.on_save", "refuse(114"),
    "load while a request is pending": dropped("tree.on_load", "refuse(114"),
    "34 before 114": delayed("tree.on_call", "refuse(114", "refuse(34"),
    "34 before 61": delayed("tree.on_reply", "refuse(61", "refuse(34"),
    "22 before 34": delayed("tree.on_call", "refuse(34", "refuse(22"),
    "a call's answer buffer is never judged": replaced("tree.on_call", "event.answer_len < ANSWER or ", ""),
    "a reply's request buffer is never judged": replaced("tree.on_reply", " or event.request_len < REQUEST", ""),
    "a request buffer of 1,036": replaced("rules", "REQUEST = 1 + 4", "REQUEST = 4"),
    "an answer buffer of 9,689": replaced(
        "tree.on_reply",
        "event.answer_len < ANSWER",
        "event.answer_len < ANSWER - 1",
    ),
    "a call's answer buffer needs the exact length": replaced(
        "tree.on_call",
        "event.answer_len < ANSWER",
        "event.answer_len != ANSWER",
    ),
    "a call's longer request buffer is refused": added(
        "tree.on_call",
        "refuse(22",
        "refuse(34, event.request_len > REQUEST)",
    ),
    "a reply's longer answer buffer is refused": added(
        "tree.on_reply",
        "return",
        "refuse(34, event.answer_len > ANSWER)",
    ),
    "a reply's request buffer needs the exact length": replaced(
        "tree.on_reply",
        "event.request_len < REQUEST",
        "event.request_len != REQUEST",
    ),
    "an answer buffer of twice the length is refused": replaced(
        "tree.on_reply",
        "event.answer_len < ANSWER",
        "not ANSWER <= event.answer_len < 2 * ANSWER",
    ),
    "a reply refused 34 drops the request": added(
        "tree.on_reply",
        "refuse(34",
        "self.pending = self.pending if event.answer_len else None",
    ),
    # forms
    "mode 8": replaced("rules", "mode <= MAX_MODE", "mode <= MAX_MODE + 1"),
    "rights 0": replaced("rules", "1 <= rights <= 3", "rights <= 3"),
    "rights 4": replaced("rules", "1 <= rights <= 3", "1 <= rights <= 4"),
    "a count of 4,097": replaced("rules", "count <= MAX_COUNT", "count <= MAX_COUNT + 1"),
    "a write of 4,097": replaced("rules", "len(data) <= MAX_COUNT", "len(data) <= MAX_COUNT + 1"),
    "bytes after the last field": replaced("rules.read_call", "right and not rest", "right"),
    "a position is cut to four bytes": replaced(
        "tree.seek",
        "call.position > node.size",
        "call.position % 2**32 > node.size",
    ),
    "a slash at the end": replaced("rules.read_path", "map(is_name, names)", "map(is_name, names[:-1])"),
    "no first slash": replaced("rules.read_path", 'first == b"" and names', "names"),
    "the name .": replaced("rules.is_name", 'b".", ', ""),
    "the name ..": replaced("rules.is_name", ', b".."', ""),
    "a name with 0": replaced("rules.is_name", " and 0 not in name", ""),
    "a path of 256": replaced("rules.is_long", "len(path) > MAX_PATH", "len(path) > MAX_PATH + 1"),
    "no path of 255": replaced("rules.is_long", "len(path) > MAX_PATH", "len(path) >= MAX_PATH"),
    "a component of 33": replaced("rules.is_long", "len(name) > MAX_NAME", "len(name) > MAX_NAME + 1"),
    "36 before 22": added(
        "tree.on_call",
        "refuse(22",
        "refuse(36, event.data[:1] in (b'\\t', b'\\n', b'\\f', b'\\r') and rules.is_long(event.data[1:]))",
    ),
    "36 after the walk": added("tree.on_call", "refuse(36", "self.walk(call.names or (), last_may_be_absent=True)"),
    # the walk
    "a walk goes through files": dropped("tree.walk", "refuse(20"),
    "13 before 20 on the walk": delayed("tree.walk", "refuse(20", "refuse(13"),
    "the search bit is skipped": dropped("tree.walk", "refuse(13"),
    "the root needs no search bit": replaced("tree.walk", "not node.mode", "parent and not node.mode"),
    "2 before 13": delayed("tree.walk", "refuse(13", "refuse(2,"),
    "the walk looks for the write bit": replaced("tree.walk", "SEARCH_BIT", "WRITE_BIT"),
    # calls by path
    "create on a name that exists": replaced("tree.create", "node is not None", "parent is None"),
    "13 before 17": added("tree.create", "refuse(17", "refuse(13, parent and not parent.mode & WRITE_BIT)"),
    "create asks the parent's bit 4": replaced("tree.create", "WRITE_BIT", "READ_BIT"),
    "28 before 13": delayed("tree.create", "refuse(13", "refuse(28"),
    "257 nodes": replaced("tree.create", "== MAX_NODES", "== MAX_NODES + 1"),
    "255 nodes": replaced("tree.create", "== MAX_NODES", ">= MAX_NODES - 1"),
    "mkdir makes a file": replaced("tree.create", "FILE if call.kind == rules.CREATE else DIRECTORY", "FILE"),
    "a new node stands first": replaced("tree.create", "append(", "insert(1, "),
    "a new node has mode 7": replaced("tree.create", "call.mode", "7"),
    "open of a directory": dropped("tree.open", "refuse(21"),
    "13 before 21": delayed("tree.open", "refuse(21", "refuse(13"),
    "open looks at no mode": dropped("tree.open", "refuse(13"),
    "both rights need one bit": replaced("rules.covers", "reads and writes", "reads or writes"),
    "write needs bit 1": replaced("rules.covers", "WRITE_BIT", "SEARCH_BIT"),
    "16 before 13 at open": delayed("tree.open", "refuse(13", "refuse(16"),
    "24 before 16": delayed("tree.open", "refuse(16", "refuse(24"),
    "33 open files": replaced("tree.open", "== MAX_OPEN", "== MAX_OPEN + 1"),
    "31 open files": replaced("tree.open", "== MAX_OPEN", ">= MAX_OPEN - 1"),
    "a file is open twice": dropped("tree.open", "refuse(16"),
    "open is done with the descriptor": replaced("tree.open", "Done(node.id)", "Done(descriptor)"),
    "open starts at the end": replaced(
        "tree.open",
        "OpenFile(descriptor, call.rights)",
        "OpenFile(descriptor, call.rights, node.size)",
    ),
    "open gives every right": replaced("tree.open", "OpenFile(descriptor, call.rights)", "OpenFile(descriptor, 3)"),
    "open for reading gives both rights": replaced(
        "tree.open",
        "OpenFile(descriptor, call.rights)",
        "OpenFile(descriptor, 3 if call.rights == 1 else call.rights)",
    ),
    "open for writing gives both rights": replaced(
        "tree.open",
        "OpenFile(descriptor, call.rights)",
        "OpenFile(descriptor, 3 if call.rights == 2 else call.rights)",
    ),
    "open asks the parent's bit 4": asks_parent("tree.open", "READ_BIT"),
    "open asks the parent's bit 2": asks_parent("tree.open", "WRITE_BIT"),
    "remove of an empty directory": replaced(
        "tree.remove",
        "node.kind == DIRECTORY",
        "parent is None or self.children(node)",
    ),
    "13 before 21 at remove": replaced(
        "tree.remove",
        "refuse(21, ",
        "refuse(13, parent and not parent.mode & WRITE_BIT)\n        refuse(21, ",
    ),
    "remove asks the file's bit 2": replaced("tree.remove", "parent.mode", "node.mode"),
    "16 before 13 at remove": delayed("tree.remove", "refuse(13", "refuse(16"),
    "remove of an open file": dropped("tree.remove", "refuse(16"),
    "remove is done with a place": replaced(
        "tree.remove",
        "self.nodes.remove(node)\n        return Done(0)",
        "place = self.nodes.index(node)\n        self.nodes.remove(node)\n        return Done(place)",
    ),
    "the last node fills the gap": replaced(
        "tree.remove",
        "self.nodes.remove(node)",
        "self.nodes[self.nodes.index(node)] = self.nodes[-1]\n        self.nodes.pop()",
    ),
    "rmdir of a file": dropped("tree.rmdir", "refuse(20"),
    "39 before 16": added("tree.rmdir", "refuse(16", "refuse(39, self.children(node))"),
    "13 before 20 at rmdir": delayed("tree.rmdir", "refuse(20", "refuse(13"),
    "39 before 13": delayed("tree.rmdir", "refuse(13", "refuse(39"),
    "rmdir asks the directory's bit 2": replaced("tree.rmdir", "parent.mode", "node.mode"),
    "rmdir of a full directory": dropped("tree.rmdir", "refuse(39"),
    "chmod touches the rights of a handle": added(
        "tree.chmod",
        "node.mode = call.mode",
        "vars(self.open_files.get(node.id, OpenFile(0, 0)))['rights'] = call.mode >> 1 & 3",
    ),
    "chmod asks bit 2": added("tree.chmod", "yield", "refuse(13, not node.mode & WRITE_BIT)"),
    "chmod asks the parent's bit 4": asks_parent("tree.chmod", "READ_BIT"),
    "chmod asks the parent's bit 2": asks_parent("tree.chmod", "WRITE_BIT"),
    "chmod of the root is refused": replaced(
        "tree.chmod",
        "yield from",
        "refuse(16, node.parent == 0)\n        yield from",
    ),
    "chmod of an open file is refused": added("tree.chmod", "yield", "refuse(16, node.id in self.open_files)"),
    "chmod changes nothing": dropped("tree.chmod", "node.mode = call.mode"),
    "readdir of a file": dropped("tree.readdir", "refuse(20"),
    "13 before 20 at readdir": delayed("tree.readdir", "refuse(20", "refuse(13"),
    "readdir asks no bit": dropped("tree.readdir", "refuse(13"),
    "readdir asks the parent's bit 4 too": asks_parent("tree.readdir", "READ_BIT"),
    "readdir asks the parent's bit 2 too": asks_parent("tree.readdir", "WRITE_BIT"),
    "readdir is done with the length": replaced("tree.readdir", "len(entries), reply", "len(reply), reply"),
    "stat asks bit 4": added("tree.stat", "reply = yield", "refuse(13, not node.mode & READ_BIT)"),
    "stat asks the parent's bit 4": asks_parent("tree.stat", "READ_BIT"),
    "stat is done with 0": replaced("tree.stat", "Done(node.size, reply)", "Done(0, reply)"),
    "stat gives no bytes": replaced("tree.stat", "Done(node.size, reply)", "Done(node.size)"),
    # calls by handle
    "close needs a right": replaced("tree.close", "self.opened(call.handle)", "self.opened(call.handle, READ_RIGHT)"),
    "close keeps the file open": dropped("tree.close", "del "),
    "close sends the handle": replaced("tree.close", "file.descriptor", "call.handle & 0x7FFF_FFFF"),
    "seek needs a right": replaced("tree.seek", "self.opened(call.handle)", "self.opened(call.handle, READ_RIGHT)"),
    "seek below the size only": replaced("tree.seek", "> node.size", ">= max(node.size, 1)"),
    "seek beyond the size": replaced("tree.seek", "> node.size", "> node.size + 1"),
    "22 before 9": added("tree.seek", "self.opened", "refuse(22, call.position > MAX_SIZE)"),
    "seek leaves the cursor": dropped("tree.seek", "file.cursor ="),
    "read through a write-only handle": replaced("tree.read", ", READ_RIGHT", ""),
    "a read of no bytes needs no right": replaced("tree.read", "READ_RIGHT", "READ_RIGHT if call.count else 0"),
    "a read leaves the cursor": dropped("tree.read", "file.cursor = end"),
    "a read gives the page from its start": replaced("tree.read", "start % PAGE", "0"),
    "a read at a page's inside fetches for no bytes": replaced(
        "rules.pages_between",
        " if start < end else range(0)",
        "",
    ),
    "a read at the end is refused": added("tree.read", "pages = []", "refuse(22, call.count and start == node.size)"),
    "a read checks its first page only": replaced("tree.fetch", "stop(5, ", "stop(5, page == file.cursor // PAGE and "),
    "write through a read-only handle": replaced("tree.write", ", WRITE_RIGHT", ""),
    "a write of no bytes needs no right": replaced("tree.write", "WRITE_RIGHT", "WRITE_RIGHT if call.data else 0"),
    "a write that fetches needs the right to read": replaced(
        "tree.write",
        "data = yield from",
        "refuse(9, not file.rights & READ_RIGHT)\n                data = yield from",
    ),
    "a write leaves the cursor": dropped("tree.write", "file.cursor = end"),
    "a write is done with the new size": replaced("tree.write", "return Done(end - start)", "return Done(node.size)"),
    "a write may pass 65,536": replaced("tree.write", "end > MAX_SIZE", "end > MAX_SIZE + 1"),
    "a write may not reach 65,536": replaced("tree.write", "end > MAX_SIZE", "end >= MAX_SIZE"),
    "27 and 28 exchanged": delayed("tree.write", "refuse(27", "refuse(28, self.pages"),
    "1,025 pages": replaced("tree.write", "> MAX_PAGES", "> MAX_PAGES + 1"),
    "1,023 pages": replaced("tree.write", "> MAX_PAGES", ">= MAX_PAGES"),
    "28 counts the file's pages twice": replaced("tree.pages_with", " - pages_of(node.size)", ""),
    "28 counts each page written as new": replaced(
        "tree.write",
        "self.pages_with(node, max(node.size, end))",
        "self.page_total() + len(pages_between(start, end))",
    ),
    "a write fetches every page": replaced(
        "tree.write",
        "not rules.is_overwritten(page, node.size, start, end)",
        "page < len(node.pages)",
    ),
    "a write fetches no page": replaced("tree.write", "not rules.is_overwritten(page, node.size, start, end)", "False"),
    "a write fetches for bytes past the end": replaced(
        "rules.is_overwritten",
        "last <= end",
        "(page + 1) * PAGE <= end",
    ),
    "a write forgets what it fetched": replaced("tree.write", "rules.overlay(data,", "rules.overlay(bytes(PAGE),"),
    "a store sends the size at the end": replaced("tree.write", "node.size, written_so_far", "node.size, end"),
    "a store sends the end of the bytes": replaced("tree.write", "max(node.size, written_so_far)", "written_so_far"),
    "a store sends the old size": replaced("tree.write", "max(node.size, written_so_far)", "node.size"),
    "a store sends a size of at most 65,535": replaced(
        "rules.store_request",
        "put(size, 4)",
        "put(min(size, 65_535), 4)",
    ),
    "a close sends a descriptor modulo 256": modulo_256("rules.close_request"),
    "a fetch sends a descriptor modulo 256": modulo_256("rules.fetch_request"),
    "a store sends a descriptor modulo 256": modulo_256("rules.store_request"),
    "a cut sends a descriptor modulo 256": modulo_256("rules.cut_request"),
    "a store with its fields exchanged": replaced(
        "rules.store_request",
        "put(page, 4) + put(size, 4)",
        "put(size, 4) + put(page, 4)",
    ),
    "a fetch with its fields exchanged": replaced(
        "rules.fetch_request",
        "put(descriptor, 4) + put(page, 4)",
        "put(page, 4) + put(descriptor, 4)",
    ),
    "a write changes the tables before its end": added(
        "tree.write",
        "stored.append",
        "node.pages[page : page + 1] = [self.store.keep(data)]",
    ),
    "a write cuts the file": replaced(
        "tree.write",
        "node.size = max(node.size, end)",
        "node.size = end if call.data else node.size",
    ),
    "truncate through a read-only handle": replaced("tree.truncate", ", WRITE_RIGHT", ""),
    "truncation's store with the new size": replaced("tree.truncate", "page, node.size, data", "page, call.size, data"),
    "truncation stores no zeros": replaced("tree.truncate", "bytes(PAGE - inside)", "data[inside:]"),
    "truncation on a page edge stores": replaced("tree.truncate", " and inside:", ":"),
    "truncation to the same size cuts": replaced("tree.truncate", "if call.size != node.size:", "if True:"),
    "cut with its fields exchanged": replaced(
        "rules.cut_request",
        "put(descriptor, 4) + put(size, 4)",
        "put(size, 4) + put(descriptor, 4)",
    ),
    "truncation leaves the cursor": dropped("tree.truncate", "file.cursor ="),
    "truncation puts the cursor at the end": replaced("tree.truncate", "min(file.cursor, call.size)", "call.size"),
    "truncation is done with the size": replaced("tree.truncate", "Done(0)", "Done(call.size)"),
    # growth
    "truncation beyond the size is 22": added("tree.truncate", "refuse(27", "refuse(22, call.size > node.size)"),
    "truncation beyond 65,536 is 22": replaced("tree.truncate", "refuse(27", "refuse(22"),
    "truncation never refused 27": dropped("tree.truncate", "refuse(27"),
    "truncation to 65,537": replaced("tree.truncate", "> MAX_SIZE", "> MAX_SIZE + 1"),
    "no truncation to 65,536": replaced("tree.truncate", "> MAX_SIZE", ">= MAX_SIZE"),
    "a size is cut to four bytes": added(
        "tree.truncate",
        "refuse(27",
        "call = replace(call, size=call.size % 2**32)",
    ),
    "27 before 9": added("tree.truncate", "self.opened", "refuse(27, call.size > MAX_SIZE)"),
    "28 before 27 at truncate": delayed("tree.truncate", "refuse(27", "refuse(28, self.pages"),
    "truncation never refused 28": dropped("tree.truncate", "refuse(28, self.pages"),
    "28 by the size of before a truncation": replaced("tree.truncate", "(node, call.size)", "(node, node.size)"),
    "truncation to 1,025 pages": replaced("tree.truncate", "> MAX_PAGES", "> MAX_PAGES + 1"),
    "no truncation to 1,024 pages": replaced("tree.truncate", "> MAX_PAGES", ">= MAX_PAGES"),
    "no file grows while there are 1,024 pages": added(
        "tree.truncate",
        "page, inside",
        "refuse(28, call.size > node.size and self.page_total() == MAX_PAGES)",
    ),
    "a growth fetches and stores": replaced(
        "tree.truncate",
        "call.size < node.size and inside",
        "call.size != node.size and inside",
    ),
    "a growth fetches the last old page": added(
        "tree.truncate",
        "if call.size != node.size",
        f"{IF_GROWN}: yield from self.fetch(file, node, node.size // PAGE) if node.size % PAGE else ()",
    ),
    "a growth stores the last added page": added(
        "tree.truncate",
        "added =",
        f"{IF_GROWN}: yield from self.store_page(file, pages_of(call.size) - 1, call.size, bytes(PAGE))",
    ),
    "a growth cuts to the old size first": added(
        "tree.truncate",
        "if call.size != node.size",
        f"{IF_GROWN}: yield from self.ask_status(rules.cut_request(file.descriptor, node.size))",
    ),
    "a growth cuts twice": added(
        "tree.truncate",
        "added =",
        f"{IF_GROWN}: yield from self.ask_status(rules.cut_request(file.descriptor, call.size))",
    ),
    "a growth sends nothing": replaced("tree.truncate", "call.size != node.size", "call.size < node.size"),
    "a growth within a page sends nothing": replaced(
        "tree.truncate",
        "call.size != node.size",
        "call.size < node.size or pages_of(call.size) > len(pages)",
    ),
    "a growth cuts to the old size": replaced(
        "tree.truncate",
        "(file.descriptor, call.size)",
        "(file.descriptor, min(call.size, node.size))",
    ),
    "a growth cuts to whole pages": replaced(
        "tree.truncate",
        "(file.descriptor, call.size)",
        "(file.descriptor, max(call.size, PAGE * pages_of(call.size) * (call.size > node.size)))",
    ),
    "a cut sends two bytes of the size": replaced("rules.cut_request", "put(size, 4)", "put(size % 2**16, 4)"),
    "a growth takes any status": replaced(
        "tree.truncate",
        GROWN_ASKED,
        GROWN_WITHOUT.format("stop(1, len(reply) != 4)"),
    ),
    "a growth takes a status of any length": replaced(
        "tree.truncate",
        GROWN_ASKED,
        GROWN_WITHOUT.format("stop(2, rules.signed(reply[:4]) != 0)"),
    ),
    "a growth changes the tables before its reply": added(
        "tree.truncate",
        "yield from self.ask_status",
        "node.size = max(node.size, call.size)",
    ),
    "a growth leaves the size": replaced(
        "tree.truncate",
        "node.size = call.size",
        "node.size = min(node.size, call.size)",
    ),
    "a growth puts the cursor at the new end": grown_cursor("call.size"),
    "a growth puts the cursor at the old end": grown_cursor("node.size"),
    "a growth puts the cursor at 0": grown_cursor("0"),
    "added pages have the digest of no bytes": replaced("tree.truncate", "keep(bytes(PAGE))", "keep(b'')"),
    "added pages have no digest": replaced("tree.truncate", "self.store.keep(bytes(PAGE))", "bytes(32)"),
    "added pages have the digest of the last old page": replaced(
        "tree.truncate",
        "[self.store.keep(bytes(PAGE))]",
        "(pages[-1:] or [self.store.keep(bytes(PAGE))])",
    ),
    "the last added page is digested up to the end": replaced(
        "tree.truncate",
        "[self.store.keep(bytes(PAGE))] * added",
        "([self.store.keep(bytes(PAGE))] * added)[1:] + [self.store.keep(bytes(inside or PAGE))] * (added > 0)",
    ),
    "a growth takes the last old page for zeros": added(
        "tree.truncate",
        "added =",
        "pages = pages[: node.size // PAGE] if call.size > node.size else pages",
    ),
    "only the first added page has the digest of zeros": replaced(
        "tree.truncate",
        "* added",
        "* min(added, 1) + [bytes(32)] * (added - 1)",
    ),
    # maps
    "a map of no bytes": replaced("rules", "UNIT <= length <= MAX_MAP", "length <= MAX_MAP"),
    "a map of 69,632": replaced("rules", "UNIT <= length <= MAX_MAP", "UNIT <= length <= MAX_MAP + UNIT"),
    "no map of 65,536": replaced("rules", "UNIT <= length <= MAX_MAP", "UNIT <= length < MAX_MAP"),
    "a map of any length": replaced("rules", " and length % UNIT == 0", ""),
    "a map of half a unit more": replaced("rules", "length % UNIT == 0", "length % (UNIT // 2) == 0"),
    "a map's length is cut to three bytes": replaced(
        "rules",
        "UNIT <= length <= MAX_MAP",
        "UNIT <= length % 2**24 <= MAX_MAP",
    ),
    "seventeen maps": replaced("tree.map", "== MAX_MAPS", "== MAX_MAPS + 1"),
    "fifteen maps": replaced("tree.map", "== MAX_MAPS", ">= MAX_MAPS - 1"),
    "a seventeenth map is 28": replaced("tree.map", "refuse(12", "refuse(28"),
    "12 before 22": added(
        "tree.on_call",
        "refuse(22",
        "refuse(12, event.data[:1] == b'\\x0e' and len(self.maps) == MAX_MAPS)",
    ),
    "12 before 34": added(
        "tree.on_call",
        "refuse(34",
        "refuse(12, event.data[:1] == b'\\x0e' and len(self.maps) == MAX_MAPS)",
    ),
    "12 for an unmap": added("tree.unmap", "refuse(22", "refuse(12, len(self.maps) == MAX_MAPS)"),
    "a map sends its length alone": replaced("tree.map", "call.raw", "call.raw[1:]"),
    "a map is done with its length": replaced("tree.map", "Done(address)", "Done(call.length)"),
    "a map is done with 0": replaced("tree.map", "Done(address)", "Done(0)"),
    "a map is done with four bytes of its address": replaced("tree.map", "Done(address)", "Done(address % 2**32)"),
    "a map gives its bytes": replaced("tree.map", "Done(address)", "Done(address, bytes(call.length))"),
    "a map is not kept": dropped("tree.map", "self.maps[address] ="),
    "a map is kept as one unit": replaced("tree.map", "= call.length", "= UNIT"),
    "a map is kept as the largest": replaced("tree.map", "= call.length", "= 65_536"),
    "a map's reply of another length": dropped("tree.ask_map", "stop(1"),
    "a map's reply of another length is 8": replaced("tree.ask_map", "stop(1", "stop(8"),
    "a map's reply may be longer": replaced(
        "tree.ask_map",
        "len(reply) != ADDRESS + length",
        "len(reply) < ADDRESS + length",
    ),
    "8 before 1": delayed("tree.ask_map", "stop(1", "stop(8, reply"),
    "a map's reply is a status": added("tree.ask_map", "stop(1", "stop(2, len(reply) == 4)"),
    "address 0": replaced("tree.ask_map", "address == 0 or ", ""),
    "every address": dropped("tree.ask_map", "address % UNIT"),
    "an address of half a unit": replaced("tree.ask_map", "address % UNIT", "address % (UNIT // 2)"),
    "an address is signed": replaced("tree.ask_map", "rules.unsigned", "rules.signed"),
    "an address of four bytes": replaced("tree.ask_map", "reply[:ADDRESS]", "reply[:4]"),
    "a map beyond the space": dropped("tree.ask_map", "> SPACE"),
    "a map one unit beyond the space": replaced("tree.ask_map", "> SPACE", "> SPACE + UNIT"),
    "no map up to the end of the space": replaced("tree.ask_map", "> SPACE", ">= SPACE"),
    "address + length modulo 2^64": replaced("tree.ask_map", "address + length", "(address + length) % SPACE"),
    "a wrong address is 3": replaced("tree.ask_map", "stop(8, address == 0", "stop(3, address == 0"),
    "a map beyond the space is 3": replaced("tree.ask_map", "stop(8, address + length", "stop(3, address + length"),
    "an overlap is 3": replaced("tree.ask_map", "stop(8, any", "stop(3, any"),
    "a byte that is not zero is 5": replaced("tree.ask_map", "stop(8, reply", "stop(5, reply"),
    "every overlap": dropped("tree.ask_map", "rules.overlap"),
    "overlaps with the first map alone": replaced(
        "tree.ask_map",
        "self.maps.items()",
        "list(self.maps.items())[:1]",
    ),
    "overlaps with the last map alone": replaced(
        "tree.ask_map",
        "self.maps.items()",
        "list(self.maps.items())[-1:]",
    ),
    "overlaps with all maps but the last": replaced(
        "tree.ask_map",
        "self.maps.items()",
        "list(self.maps.items())[:-1]",
    ),
    "overlaps with eight maps": replaced("tree.ask_map", "self.maps.items()", "list(self.maps.items())[:8]"),
    "an overlap of first addresses": overlapping("one == other"),
    "an overlap by the new map's first address": overlapping("other <= one < other + other_length"),
    "an overlap by the old map's first address": overlapping("one <= other < one + one_length"),
    "no overlap around": overlapping(
        "other <= one < other + other_length or other < one + one_length <= other + other_length",
    ),
    "an overlap modulo 2^64": overlapping(
        "one < (other + other_length) % 2**64 and other < (one + one_length) % 2**64",
    ),
    "no map just above another": overlapping("one <= other + other_length and other < one + one_length"),
    "no map just below another": overlapping("one < other + other_length and other <= one + one_length"),
    "every byte": dropped("tree.ask_map", "stop(8, reply"),
    "the first 4,096 bytes alone": looked_at("reply[ADDRESS : ADDRESS + UNIT] != bytes(UNIT)"),
    "the last 4,096 bytes alone": looked_at("reply[-UNIT:] != bytes(UNIT)"),
    "all bytes but the first": looked_at("reply[ADDRESS + 1 :] != bytes(length - 1)"),
    "all bytes but the last": looked_at("reply[ADDRESS:-1] != bytes(length - 1)"),
    "the first byte of each unit": looked_at("any(reply[ADDRESS::UNIT])"),
    "ones are as good as zeros": looked_at("reply[ADDRESS:] not in (bytes(length), b'\\xff' * length)"),
    "an unmap of any address": dropped("tree.unmap", "refuse(22"),
    "an unmap of no map is 9": replaced("tree.unmap", "refuse(22", "refuse(9"),
    "an unmap of no map is done": added("tree.unmap", "refuse(22", "if call.address not in self.maps: return Done(0)"),
    "an unmap by any byte of a map": replaced(
        "tree.unmap",
        "call.address not in self.maps",
        "not any(rules.overlap(call.address, 1, *live) for live in self.maps.items())",
    ),
    "an unmap by four bytes of its address": replaced(
        "tree.unmap",
        "call.address not in self.maps",
        "call.address % 2**32 not in {address % 2**32 for address in self.maps}",
    ),
    "an unmap sends its address alone": replaced("tree.unmap", "call.raw", "call.raw[1:]"),
    "an unmap sends nothing": replaced("tree.unmap", "self.ask_status(call.raw)", "()"),
    "an unmap takes any status": replaced("tree.unmap", "yield from self.ask_status(call.raw)", "yield call.raw"),
    "an unmap is done with its address": replaced("tree.unmap", "Done(0)", "Done(call.address)"),
    "an unmap leaves the map": dropped("tree.unmap", "del "),
    "an unmap ends every map": replaced("tree.unmap", "del self.maps[call.address]", "self.maps.clear()"),
    "an unmap ends the map before its reply": replaced(
        "tree.unmap",
        "yield from self.ask_status(call.raw)\n        del self.maps[call.address]",
        "del self.maps[call.address]\n        yield from self.ask_status(call.raw)",
    ),
    "an unmap leaves the room": replaced("tree.unmap", "del self.maps[call.address]", "self.maps[call.address] = 0"),
    "a save while maps live is refused": replaced("tree.on_save", "self.open_files", "self.open_files or self.maps"),
    "a load while maps live is refused": replaced("tree.on_load", "self.open_files", "self.open_files or self.maps"),
    "a save ends every map": added("tree.on_save", "return Done", "self.maps.clear()"),
    "a load ends every map": added("tree.on_load", "return Done", "self.maps.clear()"),
    "an image with maps": replaced("tree.on_save", "= write_image", "= bytes(len(self.maps)) + write_image"),
    "a stop ends every map": added("tree.advance", "self.stopped = True", "self.maps.clear()"),
    # a full disk
    "a full disk is an id": dropped("tree.ask_id", "refuse(28"),
    "a full disk behind the id's rules": delayed("tree.ask_id", "refuse(28", "stop(3"),
    "a full disk before an id's length": delayed("tree.ask_id", "stop(1", "refuse(28"),
    "a full disk stops a create": replaced("tree.ask_id", "refuse(28", "stop(2"),
    "a full disk is a wrong id": replaced("tree.ask_id", "refuse(28", "stop(3"),
    "a create is refused 12": replaced("tree.ask_id", "refuse(28", "refuse(12"),
    "no mkdir ends with a full disk": taken_as_full("tree.ask_id", f"request[0] == rules.CREATE and {IS_FULL}"),
    "no create ends with a full disk": taken_as_full("tree.ask_id", f"request[0] == rules.MKDIR and {IS_FULL}"),
    "each negative id is a full disk": taken_as_full("tree.ask_id", "rules.signed(reply) < 0"),
    "an id of -27 is a full disk": taken_as_full("tree.ask_id", "rules.signed(reply) in (NO_SPACE, NO_SPACE + 1)"),
    "a full disk is read from an id's low half": taken_as_full("tree.ask_id", "rules.signed(reply[:2]) == NO_SPACE"),
    "a full disk makes the node": replaced(
        "tree.ask_id",
        f"refuse(28, {IS_FULL})",
        f"if {IS_FULL}: return 0xFFFF_FFE4",
    ),
    "a create is refused with its node made": replaced(
        "tree.create",
        "id = yield from self.ask_id(call.raw)",
        """try:
            id = yield from self.ask_id(call.raw)
        except Refusal:
            self.nodes.append(Node(9999, parent.id, FILE, call.mode, size=0, name=call.names[-1]))
            raise""",
    ),
    **{f"an id's full disk in {width} bytes": full_in("tree.ask_id", width) for width in (1, 2, 3, 5, 8)},
    "a load brings no such id": added(
        "tree.on_load",
        "self.nodes =",
        "refuse(84, any(node.id == 0xFFFF_FFE4 for node in nodes))",
    ),
    "such an id is no handle": added("tree.opened", "refuse(9", "refuse(9, handle == 0xFFFF_FFE4)"),
    "such an id is never removed": replaced(
        "tree.remove",
        "self.nodes.remove(node)",
        "self.nodes = [other for other in self.nodes if other is not node or node.id == 0xFFFF_FFE4]",
    ),
    "a full disk leaves the request": ended_by_full("self.pending = call if reply is not None else None"),
    "a full disk stops behind its refusal": ended_by_full("self.stopped = reply is not None"),
    "a full disk closes the files": ended_by_full("self.open_files = self.open_files if reply is None else {}"),
    "a write done in part leaves the request": replaced(
        "tree.advance",
        "return end.value",
        f"self.pending = call if {SAID_FULL} else None\n            return end.value",
    ),
    "a write done in part stops": replaced(
        "tree.advance",
        "return end.value",
        f"self.stopped = {SAID_FULL}\n            return end.value",
    ),
    "a write done in part names all bytes": replaced("tree.write", "Done(end - start)", "Done(len(call.data))"),
    "a write done in part names its pages' bytes": replaced(
        "tree.write",
        "Done(end - start)",
        "Done(end - start if end == start + len(call.data) else len(stored) * PAGE)",
    ),
    "a write done in part names the end": replaced(
        "tree.write",
        "Done(end - start)",
        "Done(end - start if end == start + len(call.data) else end)",
    ),
    "a write done in part puts the cursor at its end": replaced(
        "tree.write",
        "file.cursor = end",
        "file.cursor = start + len(call.data)",
    ),
    "a write done in part leaves the cursor": replaced(
        "tree.write",
        "file.cursor = end",
        f"file.cursor = {SO_FAR} start",
    ),
    "a write done in part leaves the size": replaced(
        "tree.write",
        "node.size = max(node.size, end)",
        f"node.size = max(node.size, {SO_FAR} 0)",
    ),
    "a write done in part has its whole size": replaced(
        "tree.write",
        "node.size = max(node.size, end)",
        "node.size = max(node.size, start + len(call.data))",
    ),
    "a write done in part cuts the file": replaced(
        "tree.write",
        "node.size = max(node.size, end)",
        "node.size = max(node.size, end) if end == start + len(call.data) else end",
    ),
    "a write done in part keeps the page that found no room": replaced(
        "tree.write",
        "end = page * PAGE ",
        "stored.append(self.store.keep(data))\n                end = page * PAGE ",
    ),
    "a write done in part keeps no page": replaced(
        "tree.write",
        "end = page * PAGE ",
        "stored = []\n                end = page * PAGE ",
    ),
    "a write done in part keeps its first page alone": replaced(
        "tree.write",
        "end = page * PAGE ",
        "stored = stored[:1]\n                end = page * PAGE ",
    ),
    "a write done in part counts the page that found no room": replaced(
        "tree.write",
        "end = page * PAGE ",
        "stored.append(self.store.keep(data))\n                end = written_so_far ",
    ),
    "a write with pages finished is refused": replaced("tree.write", "refuse(28, not stored)", "refuse(28, True)"),
    "a write with one page finished is refused": replaced("tree.write", "not stored", "len(stored) < 2"),
    "a write with no page finished is done": replaced(
        "tree.write",
        "refuse(28, not stored)",
        "if not stored: return Done(0)",
    ),
    "a page that was fetched is finished": replaced(
        "tree.write",
        "refuse(28, not stored)",
        "refuse(28, not stored and rules.is_overwritten(page, node.size, start, end))",
    ),
    "a write with no page finished is 27": replaced("tree.write", "refuse(28, not stored)", "refuse(27, not stored)"),
    "a refused write keeps its page": replaced(
        "tree.write",
        "refuse(28, not stored)",
        "node.pages[page : page + 1] = [self.store.keep(data)] if page < len(node.pages) else []\n"
        "                refuse(28, not stored)",
    ),
    "a refused write moves the cursor": replaced(
        "tree.write",
        "refuse(28, not stored)",
        "file.cursor = file.cursor if stored else 0\n                refuse(28, not stored)",
    ),
    "a full disk stops each write": replaced("tree.write", "may_be_full=True", "may_be_full=False"),
    "a full disk stops at the first page": replaced("tree.write", "may_be_full=True", "may_be_full=bool(stored)"),
    "a full disk stops behind the first page": replaced("tree.write", "may_be_full=True", "may_be_full=not stored"),
    "a full disk stops where the file does not grow": replaced(
        "tree.write",
        "may_be_full=True",
        "may_be_full=size > node.size",
    ),
    "a full disk stops at a page that is there": replaced(
        "tree.write",
        "may_be_full=True",
        "may_be_full=page >= len(node.pages)",
    ),
    "a full disk stops behind a fetch": replaced(
        "tree.write",
        "may_be_full=True",
        "may_be_full=rules.is_overwritten(page, node.size, start, end)",
    ),
    "a full disk stops a growth": replaced("tree.truncate", "may_be_full=grows", "may_be_full=False"),
    "a full disk stops a growth within a page": replaced(
        "tree.truncate",
        "may_be_full=grows",
        "may_be_full=pages_of(call.size) > len(node.pages)",
    ),
    "a full disk stops a growth by pages": replaced(
        "tree.truncate",
        "may_be_full=grows",
        "may_be_full=grows and pages_of(call.size) == len(node.pages)",
    ),
    "a full disk ends a shrinking cut": replaced("tree.truncate", "may_be_full=grows", "may_be_full=True"),
    "a full disk ends a truncation's store": replaced(
        "tree.truncate",
        "yield from self.store_page(file, page, node.size, data)",
        "refuse(28, (yield from self.store_page(file, page, node.size, data, may_be_full=True)))",
    ),
    "a growth that finds no room goes on": replaced("tree.truncate", GROWN_ASKED, GROWN_ASKED[len("refuse(28, ") : -1]),
    "a growth that finds no room is done": replaced(
        "tree.truncate",
        GROWN_ASKED,
        f"if {GROWN_ASKED[len('refuse(28, ') : -1]}: return Done(0)",
    ),
    "a growth that finds no room is 27": replaced("tree.truncate", "refuse(28, (yield", "refuse(27, (yield"),
    "a refused growth moves the cursor": replaced(
        "tree.truncate",
        GROWN_ASKED,
        f"found = {GROWN_ASKED[len('refuse(28, ') : -1]}\n"
        "            file.cursor = node.size if found else file.cursor\n            refuse(28, found)",
    ),
    **{f"a status's full disk in {width} bytes": full_in("tree.ask_status", width) for width in (1, 2, 3, 5, 8)},
    "a full disk of a wrong width is 2": added(
        "tree.ask_status",
        "stop(1",
        f"stop(2, len(reply) != 4 and {IS_FULL})",
    ),
    "every negative status is a full disk": taken_as_full("tree.ask_status", "rules.signed(reply) < 0"),
    "-27 is a full disk": taken_as_full("tree.ask_status", "rules.signed(reply) in (NO_SPACE, NO_SPACE + 1)"),
    "-29 is a full disk": taken_as_full("tree.ask_status", "rules.signed(reply) in (NO_SPACE, NO_SPACE - 1)"),
    "28 is a full disk": taken_as_full("tree.ask_status", "abs(rules.signed(reply)) == -NO_SPACE"),
    "a full disk ends a close": full_elsewhere("close", "rules.close_request(file.descriptor)"),
    "a full disk ends a remove": full_elsewhere("remove", "call.raw"),
    "a full disk ends a rmdir": full_elsewhere("rmdir", "call.raw"),
    "a full disk ends a chmod": full_elsewhere("chmod", "call.raw"),
    "a full disk ends an unmap": full_elsewhere("unmap", "call.raw"),
    "a full disk ends an open": added("tree.ask_descriptor", "stop(4, not", "refuse(28, descriptor == NO_SPACE)"),
    "a full disk is 2 to an open": added("tree.ask_descriptor", "stop(4, not", "stop(2, descriptor == NO_SPACE)"),
    "a full disk ends a fetch": added("tree.fetch", "stop(1", f"refuse(28, {SAID_FULL})"),
    "a full disk is 2 to a fetch": added("tree.fetch", "stop(1", f"stop(2, {SAID_FULL})"),
    "a full disk ends a map": added("tree.ask_map", "stop(1", f"refuse(28, {SAID_FULL})"),
    "a full disk ends a stat": added("tree.stat", "stop(1", f"refuse(28, {SAID_FULL})"),
    "a full disk ends a readdir": added("tree.readdir", "entries =", f"refuse(28, {SAID_FULL})"),
    "a full disk is 1 to a readdir": added("tree.readdir", "entries =", f"stop(1, {SAID_FULL})"),
    "a full disk before 34": added(
        "tree.on_reply",
        "refuse(34",
        "if event.data == rules.put(NO_SPACE, 4): return self.advance(self.pending, event.data)",
    ),
    "a full disk refused 34 drops the request": added(
        "tree.on_reply",
        "refuse(34",
        "self.pending = self.pending if event.answer_len or event.data != rules.put(NO_SPACE, 4) else None",
    ),
    "a full disk before 61": added(
        "tree.on_reply",
        "refuse(61",
        "refuse(28, self.pending is None and event.data == rules.put(NO_SPACE, 4))",
    ),
    "a full disk before 5": added(
        "tree.on_reply",
        "refuse(5",
        "refuse(28, self.stopped and event.data == rules.put(NO_SPACE, 4))",
    ),
    # replies
    "a status of another length": dropped("tree.ask_status", "stop(1"),
    "2 before 1": delayed("tree.ask_status", "stop(1", "stop(2"),
    "a status is unsigned": replaced("tree.ask_status", "!= expected", "> expected"),
    "any status but a negative one": replaced("tree.ask_status", "!= expected", "< 0"),
    "a store's status is 0": replaced("tree.store_page", "PAGE, may_be_full", "0, may_be_full"),
    "an id of another length": dropped("tree.ask_id", "stop(1"),
    "id 0": replaced("tree.ask_id", "id == 0 or ", ""),
    "a held id": replaced("tree.ask_id", "node.id == id for", "id == 1 for"),
    "the root's id": replaced("tree.ask_id", "in self.nodes)", "in self.nodes[1:])"),
    "an id may not be large": replaced("tree.ask_id", "id == 0 or", "id == 0 or id >> 31 or"),
    "a descriptor of another length": dropped("tree.ask_descriptor", "stop(1"),
    "descriptor 1,024": replaced("tree.ask_descriptor", "<= MAX_DESCRIPTOR", "<= MAX_DESCRIPTOR + 1"),
    "no descriptor 1,023": replaced("tree.ask_descriptor", "<= MAX_DESCRIPTOR", "< MAX_DESCRIPTOR"),
    "no descriptor 0": replaced("tree.ask_descriptor", "not 0 <=", "not 0 <"),
    "a negative descriptor": replaced(
        "tree.ask_descriptor",
        "not 0 <= descriptor <= MAX_DESCRIPTOR",
        "descriptor > MAX_DESCRIPTOR",
    ),
    "a descriptor that another file has": dropped("tree.ask_descriptor", "file.descriptor == descriptor"),
    "every page": dropped("tree.fetch", "stop(5"),
    "a digest of the bytes up to the end": replaced(
        "tree.fetch",
        "keep(reply)",
        "keep(reply[: node.size - page * PAGE].ljust(PAGE, b'\\0'))",
    ),
    "a page of another length is a wrong page": dropped("tree.fetch", "stop(1"),
    "a page of another place": replaced("tree.fetch", "!= node.pages[page]", "not in node.pages"),
    "a stop is forgotten": dropped("tree.advance", "self.stopped = True"),
    "every stat": dropped("tree.stat", "stop(6"),
    "a stat's mode is not looked at": replaced(
        "tree.stat",
        "reply != rules.stat_reply(node)",
        "reply != rules.stat_reply(replace(node, mode=reply[ID + 1]))",
    ),
    "a stat's size is not looked at": replaced(
        "tree.stat",
        "reply != rules.stat_reply(node)",
        "reply[:6] != rules.stat_reply(node)[:6]",
    ),
    "a stat's length is not looked at": dropped("tree.stat", "stop(1"),
    "a listing is only counted": replaced(
        "tree.readdir",
        "sorted(entries) != sorted(map(rules.entry, self.children(node)))",
        "len(entries) != len(self.children(node))",
    ),
    "a listing's entries count once": replaced(
        "tree.readdir",
        "sorted(entries) != sorted(map(rules.entry, self.children(node)))",
        "set(entries) != set(map(rules.entry, self.children(node)))",
    ),
    "one twice and one missing": replaced(
        "tree.readdir",
        "sorted(entries) != sorted(map(rules.entry, self.children(node)))",
        "len(entries) != len(self.children(node)) or set(entries) - set(map(rules.entry, self.children(node)))",
    ),
    "a listing in the order of creation": replaced(
        "tree.readdir",
        "sorted(entries) != sorted(map(rules.entry, self.children(node)))",
        "entries != list(map(rules.entry, self.children(node)))",
    ),
    # the read-only guard
    "every guard is read-only": replaced("tree", "return True", "return rules.is_read_only(call)"),
    "read-only: nothing is refused": replaced("tree.on_call", "refuse(30, ", "refuse(30, False and "),
    "read-only: takes create": read_only_takes("call.kind in (*READ_ONLY_KINDS, CREATE)"),
    "read-only: takes mkdir": read_only_takes("call.kind in (*READ_ONLY_KINDS, MKDIR)"),
    "read-only: takes write": read_only_takes("call.kind in (*READ_ONLY_KINDS, WRITE)"),
    "read-only: takes a write of nothing": read_only_takes(
        "call.kind in READ_ONLY_KINDS or call.kind == WRITE and not call.data",
    ),
    "read-only: takes truncate": read_only_takes("call.kind in (*READ_ONLY_KINDS, TRUNCATE)"),
    "read-only: takes remove": read_only_takes("call.kind in (*READ_ONLY_KINDS, REMOVE)"),
    "read-only: takes rmdir": read_only_takes("call.kind in (*READ_ONLY_KINDS, RMDIR)"),
    "read-only: takes chmod": read_only_takes("call.kind in (*READ_ONLY_KINDS, CHMOD)"),
    "read-only: takes map": read_only_takes("call.kind in (*READ_ONLY_KINDS, MAP)"),
    "read-only: takes unmap": read_only_takes("call.kind in (*READ_ONLY_KINDS, UNMAP)"),
    "read-only: takes what is new since the base": read_only_takes("call.kind in (*READ_ONLY_KINDS, MAP, UNMAP)"),
    "read-only: opens to write": read_only_opens("call.rights <= WRITE_RIGHT"),
    "read-only: opens to read and write": read_only_opens("call.rights & READ_RIGHT"),
    "read-only: opens with any right": read_only_opens("True"),
    "read-only: opens to write alone": read_only_opens("call.rights == WRITE_RIGHT"),
    "read-only: no open": read_only_opens("False"),
    "read-only: no close": read_only_takes("call.kind in READ_ONLY_KINDS and call.kind != CLOSE"),
    "read-only: no seek": read_only_takes("call.kind in READ_ONLY_KINDS and call.kind != SEEK"),
    "read-only: no read": read_only_takes("call.kind in READ_ONLY_KINDS and call.kind != READ"),
    "read-only: no readdir": read_only_takes("call.kind in READ_ONLY_KINDS and call.kind != READDIR"),
    "read-only: no stat": read_only_takes("call.kind in READ_ONLY_KINDS and call.kind != STAT"),
    "read-only: 1": read_only_number(1),
    "read-only: 13": read_only_number(13),
    "read-only: 22": read_only_number(22),
    "read-only: 13 at paths": read_only_number("13 if call.path else 30"),
    "read-only: 9 at handles": read_only_number("9 if call.handle else 30"),
    "read-only: 22 at opens": read_only_number("22 if call.kind == rules.OPEN else 30"),
    "read-only: 30 before 5": read_only_early(5, f"self.stopped and {IS_NO_LOOK_YET}"),
    "read-only: 30 before 114": read_only_early(114, f"self.pending and {IS_NO_LOOK_YET}"),
    "read-only: 30 before 34": read_only_early(34, IS_NO_LOOK_YET),
    "read-only: 30 before 22": read_only_early(
        22,
        f"{IS_READ_ONLY} and event.data[:1] and event.data[0] in {{*range(1, 17)}} - {{3, *rules.READ_ONLY_KINDS}}",
    ),
    "read-only: 30 before 22 at rights": read_only_early(
        22,
        f"{IS_READ_ONLY} and event.data[:1] == b'\\3' and event.data[1:2] != b'\\1'",
    ),
    "read-only: rights 0 are 30": read_only_early(22, f"{IS_READ_ONLY} and event.data[:2] == b'\\3\\0'"),
    "read-only: rights 4 are 30": read_only_early(22, f"{IS_READ_ONLY} and event.data[:2] == b'\\3\\4'"),
    "read-only: mode 8 is 30": read_only_early(22, f"{IS_READ_ONLY} and event.data[1:2] == b'\\x08'"),
    "read-only: a write of 4,097 is 30": read_only_early(
        22,
        f"{IS_READ_ONLY} and event.data[:1] == b'\\7' and len(event.data) == 5 + 4097",
    ),
    "read-only: a map of any length is 30": read_only_early(
        22,
        f"{IS_READ_ONLY} and event.data[:1] == b'\\x0e' and len(event.data) == 5",
    ),
    "read-only: every malformed call is 30": replaced(
        "tree.on_call",
        "refuse(22, ",
        f"refuse(30 if {IS_READ_ONLY} else 22, ",
    ),
    "read-only: an empty call is 30": read_only_early(22, f"{IS_READ_ONLY} and not event.data"),
    "read-only: kind 0 is 30": read_only_early(22, f"{IS_READ_ONLY} and event.data[:1] == b'\\0'"),
    "read-only: kind 17 is 30": read_only_early(22, f"{IS_READ_ONLY} and event.data[:1] == b'\\x11'"),
    "read-only: a kind from 17 up is 30": read_only_early(22, f"{IS_READ_ONLY} and event.data[:1] > b'\\x10'"),
    "read-only: every rename is 30": read_only_early(22, f"{IS_READ_ONLY} and event.data[:1] == b'\\x10'"),
    "read-only: every rename with two bytes is 30": read_only_early(
        22,
        f"{IS_READ_ONLY} and event.data[:1] == b'\\x10' and len(event.data) > 2",
    ),
    "read-only: 30 before 36 at rename": read_only_early(36, f"{IS_READ_ONLY} and call.kind == rules.RENAME"),
    "read-only: takes rename": read_only_takes("call.kind in (*READ_ONLY_KINDS, RENAME)"),
    "read-only: 30 after a rename's first walk": read_only_changes(
        "call.kind == rules.RENAME and self.walk(rules.read_path(call.paths[0]))",
    ),
    "read-only: 30 after a rename's second walk": read_only_changes(
        "call.kind == rules.RENAME and self.walk(rules.read_path(call.paths[1]), last_may_be_absent=True)",
    ),
    "read-only: 30 after a rename's 16": read_only_after(16, "call.kind == rules.RENAME and call.paths[0] == b'/'"),
    "read-only: 30 after a rename's 17": read_only_after(17, "call.kind == rules.RENAME and call.paths[1] == b'/'"),
    "read-only: a rename to its own path is done": read_only_changes(
        "call.kind == rules.RENAME and call.paths[0] == call.paths[1] and refuse(0, True)",
    ),
    "read-only: a refused rename renames": read_only_changes(
        "call.kind == rules.RENAME and vars(self.nodes[-1]).update(name=b'renamed')",
    ),
    "read-only: 30 before 36": delayed("tree.on_call", "refuse(36", "refuse(30"),
    "read-only: 30 after the walk": read_only_changes("self.walk(call.names or (), last_may_be_absent=True)"),
    "read-only: 30 after all of the walk": read_only_changes("call.path and self.walk(call.names)"),
    "read-only: 30 after 9": read_only_changes(
        "call.kind in (rules.WRITE, rules.TRUNCATE) and self.opened(call.handle)",
    ),
    "read-only: 30 after the right": read_only_after(
        9,
        "call.kind in (rules.WRITE, rules.TRUNCATE) and call.handle in self.open_files",
    ),
    "read-only: 30 after all that is judged": read_only_changes(
        "list(zip([0], getattr(self, CALLS[call.kind])(call)))",
    ),
    "read-only: 30 after 17": read_only_after(17, "call.kind in (rules.CREATE, rules.MKDIR) and call.path == b'/'"),
    "read-only: 30 after 21": read_only_after(21, "call.kind in (rules.OPEN, rules.REMOVE) and call.path == b'/'"),
    "read-only: 30 after 16": read_only_after(16, "call.kind == rules.RMDIR and call.path == b'/'"),
    "read-only: 30 after 24": read_only_after(24, "call.kind == rules.OPEN and len(self.open_files) == MAX_OPEN"),
    "read-only: 30 after 28": read_only_after(
        28,
        "call.kind in (rules.CREATE, rules.MKDIR) and len(self.nodes) == MAX_NODES",
    ),
    "read-only: 30 after 27": read_only_after(27, "call.size > MAX_SIZE"),
    "read-only: 30 after 28 of pages": read_only_after(28, "call.size and self.page_total() == MAX_PAGES"),
    "read-only: 22 for an unmap of no map": read_only_after(22, "call.kind == rules.UNMAP"),
    "read-only: an unmap of 0 is 22": read_only_after(22, "call.kind == rules.UNMAP and call.address == 0"),
    "read-only: a truncation to the same size is done": read_only_after(
        9,
        "call.kind == rules.TRUNCATE and any(node.size == call.size for node in self.nodes if node.id == call.handle)",
    ),
    "read-only: a refused chmod sets the mode": read_only_changes(
        "call.kind == rules.CHMOD and vars(self.nodes[-1]).update(mode=call.mode)",
    ),
    "read-only: a refused remove removes": read_only_changes(
        "call.kind == rules.REMOVE and len(self.nodes) > 1 and self.nodes.pop()",
    ),
    "read-only: a refused create adds": read_only_changes(
        "call.kind == rules.CREATE and call.names and"
        " self.nodes.append(Node(len(self.nodes) + 90, 1, FILE, 7, 0, call.names[-1]))",
    ),
    "read-only: a refused map lives": read_only_changes("self.maps.update({call.address + UNIT: UNIT})"),
    "read-only: a refused call closes files": read_only_changes("self.open_files.clear()"),
    "read-only: a refused call goes back to the start": read_only_changes(
        "[vars(file).update(cursor=0) for file in self.open_files.values()]",
    ),
    "read-only: a refused call is pending": replaced(
        "tree.on_call",
        f"refuse(30, {IS_NO_LOOK})",
        f"self.pending = iter(()) if {IS_NO_LOOK} else None\n        refuse(30, {IS_NO_LOOK})",
    ),
    "read-only: a refused call stops": replaced(
        "tree.on_call",
        f"refuse(30, {IS_NO_LOOK})",
        f"self.stopped = {IS_NO_LOOK}\n        refuse(30, {IS_NO_LOOK})",
    ),
    "read-only: no answer buffer is counted": replaced(
        "tree.on_call",
        "event.answer_len < ANSWER or",
        f"event.answer_len < ANSWER and not {IS_READ_ONLY} or",
    ),
    "read-only: no request buffer is counted": replaced(
        "tree.on_call",
        "event.request_len < REQUEST",
        f"event.request_len < REQUEST and not {IS_READ_ONLY}",
    ),
    "read-only: the buffers have their least lengths": added(
        "tree.on_call",
        "refuse(22",
        f"refuse(34, {IS_READ_ONLY} and (event.answer_len, event.request_len) != (ANSWER, REQUEST))",
    ),
    "read-only: a load keeps the nodes": replaced(
        "tree.on_load",
        "self.nodes = ",
        f"self.nodes = self.nodes if {IS_READ_ONLY} and len(self.nodes) > 1 else ",
    ),
    "read-only: no load": replaced("tree.on_load", "refuse(5, self.stopped", f"refuse(30, {IS_READ_ONLY}"),
    "read-only: no save": replaced("tree.on_save", "refuse(5, self.stopped", f"refuse(30, {IS_READ_ONLY}"),
    "read-only: a save with open files": replaced(
        "tree.on_save",
        "refuse(16, self.open_files",
        f"refuse(16, self.open_files and not {IS_READ_ONLY}",
    ),
    "read-only: a load with open files": replaced(
        "tree.on_load",
        "refuse(16, self.open_files",
        f"refuse(16, self.open_files and not {IS_READ_ONLY}",
    ),
    "read-only: a fresh guard's image is saved": added(
        "tree.on_save",
        "refuse(34",
        f"image = write_image(self.nodes[:1], []) if {IS_READ_ONLY} else image",
    ),
    "read-only: pages are not looked at": replaced(
        "tree.fetch",
        "self.store.keep(reply) != node.pages[page]",
        f"not {IS_READ_ONLY} and self.store.keep(reply) != node.pages[page]",
    ),
    "read-only: pages are not looked at behind the first": replaced(
        "tree.fetch",
        "self.store.keep(reply) != node.pages[page]",
        f"not ({IS_READ_ONLY} and page) and self.store.keep(reply) != node.pages[page]",
    ),
    "read-only: listings are not looked at": replaced("tree.readdir", "stop(7, ", f"stop(7, not {IS_READ_ONLY} and "),
    "read-only: stats are not looked at": replaced("tree.stat", "stop(6, ", f"stop(6, not {IS_READ_ONLY} and "),
    # saves, loads, the image
    "save never refused 34": dropped("tree.on_save", "refuse(34"),
    "save needs a byte more": replaced("tree.on_save", "> event.buffer_len", ">= event.buffer_len"),
    "save needs the longest buffer": replaced(
        "tree.on_save",
        "len(image) > event.buffer_len",
        "event.buffer_len < 44_776",
    ),
    "save needs the exact length": replaced("tree.on_save", "> event.buffer_len", "!= event.buffer_len"),
    "save into more than the longest image needs": added(
        "tree.on_save",
        "refuse(34",
        "refuse(34, event.buffer_len > 44_776)",
    ),
    "save with open files": dropped("tree.on_save", "refuse(16"),
    "34 before 16": delayed("tree.on_save", "refuse(16", "refuse(34"),
    "load with open files": dropped("tree.on_load", "refuse(16"),
    "74 before 16": delayed("tree.on_load", "refuse(16", "refuse(74"),
    "84 before 74": delayed("tree.on_load", "refuse(74", "refuse(84"),
    "84 for 74": replaced("tree.on_load", "refuse(74, ", "refuse(84, "),
    "74 for 84": replaced("tree.on_load", "refuse(84, ", "refuse(74, "),
    "a part of a digest": replaced(
        "tree.on_load",
        "len(event.digest) != DIGEST or digest(event.image) != event.digest",
        "not digest(event.image).startswith(event.digest)",
    ),
    "a digest with more behind": replaced(
        "tree.on_load",
        "len(event.digest) != DIGEST or digest(event.image) != event.digest",
        "digest(event.image) != event.digest[:DIGEST]",
    ),
    "a load changes nothing": dropped("tree.on_load", "self.nodes ="),
    "the digests of an image in reverse": replaced("image.read_image", "iter(digests)", "iter(digests[::-1])"),
    "an image's parent before its id": replaced(
        "image.record",
        "put(node.id, layout.id_bytes) + put(node.parent, layout.id_bytes)",
        "put(node.parent, layout.id_bytes) + put(node.id, layout.id_bytes)",
    ),
    "an image's ids of 8 bytes": replaced("image", "DELIVERED = Layout(4, False)", "DELIVERED = Layout(8, False)"),
    "an image with makers": replaced("image", "DELIVERED = Layout(4, False)", "DELIVERED = Layout(4, True)"),
    "an image of 257 nodes": replaced("image.is_sound", "<= MAX_NODES", "<= MAX_NODES + 1"),
    "an image of 255 nodes": replaced("image.is_sound", "<= MAX_NODES", "< MAX_NODES"),
    "an image's root of any id": replaced("image.is_root", "(node.id, ", "(1, "),
    "an image's root of any parent": replaced("image.is_root", "node.parent, ", "0, "),
    "an image's root of any kind": replaced("image.is_root", "node.kind, ", "DIRECTORY, "),
    "an image's root with a name": replaced("image.is_root", "node.name)", 'b"")'),
    "an image's root of mode 7": replaced("image.is_root", "(node.id, ", "(node.mode // 7, "),
    "an image's mode 8": replaced("image.within_limits", "<= MAX_MODE", "<= MAX_MODE + 1"),
    "an image's kind 3": replaced("image.within_limits", "DIRECTORY: 0", "DIRECTORY: 0, 3: 0"),
    "an image's directory of a size": replaced("image.within_limits", "DIRECTORY: 0", "DIRECTORY: MAX_SIZE"),
    "an image's file of 65,537": replaced("image.within_limits", "FILE: MAX_SIZE", "FILE: MAX_SIZE + 1"),
    "an image's file of 65,535": replaced("image.within_limits", "FILE: MAX_SIZE", "FILE: MAX_SIZE - 1"),
    "an image's name of 33": replaced("image.is_sound", "<= MAX_NAME", "<= MAX_NAME + 1"),
    "an image's name of any form": replaced("image.is_sound", "is_name(node.name) and ", ""),
    "an image's name with a slash": replaced("rules.is_name", ' and b"/" not in name', ""),
    "an image's id 0": dropped("image.is_sound", "0 not in"),
    "an image's ids twice": dropped("image.is_sound", "{node.id for"),
    "an image's parent is a file": replaced("image.path_lengths", "node.kind == DIRECTORY", "node.kind"),
    "an image's parent is absent": dropped("image.is_sound", REACH),
    "an image's parents come first": replaced(
        "image.is_sound",
        REACH,
        f"{REACH} and all(node.parent in [n.id for n in nodes[:i]] for i, node in enumerate(nodes) if i)",
    ),
    "an image's parents come next": replaced(
        "image.is_sound",
        REACH,
        f"{REACH} and all(node.parent in [n.id for n in nodes[: i + 2]] for i, node in enumerate(nodes) if i)",
    ),
    "an image with a ring": replaced("image.is_sound", REACH, PARENTS_ARE_DIRECTORIES),
    "an image with a ring of two": replaced(
        "image.is_sound",
        REACH,
        f"{PARENTS_ARE_DIRECTORIES} and all(node.id != node.parent for node in nodes)",
    ),
    "an image with a long ring": replaced(
        "image.is_sound",
        REACH,
        f"({REACH} or {PARENTS_ARE_DIRECTORIES} and len(nodes) - len(path_lengths(nodes)) > 2)",
    ),
    "an image with a ring of 200": replaced(
        "image.is_sound",
        REACH,
        f"({REACH} or {PARENTS_ARE_DIRECTORIES} and len(nodes) - len(path_lengths(nodes)) > 127)",
    ),
    "an image's later parent is a file": replaced(
        "image.path_lengths",
        "node.kind == DIRECTORY",
        "node.kind == DIRECTORY or nodes.index(node) == len(nodes) - 1",
    ),
    "an image's path is measured by its parent": replaced(
        "image.path_lengths",
        "length + 1 + len(child.name)",
        "1 + len(node.name) + 1 + len(child.name)",
    ),
    "an image's path is measured up to an earlier parent": replaced(
        "image.path_lengths",
        "length + 1 + len(child.name)",
        "(length if nodes.index(node) < nodes.index(child) else 0) + 1 + len(child.name)",
    ),
    # renames
    "no rename": replaced("rules", '    RENAME: ("both",),\n', ""),
    "rename: a first length of 0 is the root": replaced(
        "rules.split_paths",
        "return data[1:end]",
        "return data[1:end] or b'/'",
    ),
    "rename: an empty second path is the root": replaced("rules.split_paths", "data[end:]", "(data[end:] or b'/')"),
    "rename: the first path is of any form": renamed_form("read_path(split_paths(both)[1]) is not None and both[0]"),
    "rename: the second path is of any form": renamed_form("read_path(split_paths(both)[0]) is not None"),
    "rename: either path is of right form": renamed_form("any(map(read_path, split_paths(both)))"),
    "rename: the length counts itself": replaced("rules.split_paths", "1 + data[0]", "data[0]"),
    "rename: the length is the second path's": replaced(
        "rules.split_paths",
        "1 + data[0]",
        "max(len(data) - data[0], 1)",
    ),
    "rename: 36 before 22": added(
        "tree.on_call",
        "refuse(22",
        "refuse(36, event.data[:1] == b'\\x10' and any(map(rules.is_long, rules.split_paths(event.data[1:]))))",
    ),
    "rename: the first path's names are of any length": replaced("tree.on_call", "call.paths", "call.paths[-1:]"),
    "rename: the second path's names are of any length": replaced("tree.on_call", "call.paths", "call.paths[:1]"),
    "rename: the second path is walked first": delayed("tree.rename", "read_path(first)", "read_path(second), last"),
    "rename: the second path is there to its end": replaced("tree.rename", "last_may_be_absent=True", "False"),
    "rename: 16 before the second walk": replaced(
        "tree.rename",
        "new_parent, there",
        "refuse(16, parent is None)\n        new_parent, there",
    ),
    "rename: the root is 22": replaced("tree.rename", "refuse(16, ", "refuse(22, "),
    "rename: the root's own path is done": delayed("tree.rename", "refuse(16", "# nothing is sent"),
    "rename: 17 before 16": renamed_early(16, "17, there is not None"),
    "rename: 22 before 16": renamed_early(16, "22, new_parent is node"),
    "rename: 13 before 16": renamed_early(16, "13, new_parent and not new_parent.mode & WRITE_BIT"),
    "rename: its own path is 17": replaced("tree.rename", "if there is node", "if False"),
    "rename: its own path is sent": replaced(
        "tree.rename",
        "return Done(0)  # nothing is sent",
        "yield from self.ask_status(call.raw)\n            return Done(0)",
    ),
    "rename: its own path is done with the id": replaced("tree.rename", "Done(0)  #", "Done(node.id)  #"),
    "rename: 13 before its own path": added(
        "tree.rename",
        "if there is node",
        "refuse(13, not parent.mode & WRITE_BIT)",
    ),
    "rename: 16 for its own path where it is open": added(
        "tree.rename",
        "if there is node",
        "refuse(16, there is node and node.id in self.open_files)",
    ),
    "rename: replaces a file": renamed_over("there.kind == DIRECTORY"),
    "rename: replaces an empty directory": renamed_over("(there.kind == FILE or self.children(there))"),
    "rename: replaces what is of its kind": renamed_over("(there.kind != node.kind or new_parent is None)"),
    "rename: the root as second is 22": replaced("tree.rename", "refuse(17, ", "refuse(17 if new_parent else 22, "),
    "rename: 22 before 17": delayed("tree.rename", "refuse(17", "refuse(22"),
    "rename: 13 of the first before 17": renamed_early(17, "13, not parent.mode & WRITE_BIT"),
    "rename: 13 of the second before 17": renamed_early(17, "13, new_parent and not new_parent.mode & WRITE_BIT"),
    "rename: moves under itself": dropped("tree.rename", "refuse(22"),
    "rename: moves into itself": replaced("tree.rename", "self.subtree(node)", "self.subtree(node)[1:]"),
    "rename: moves beneath itself": replaced("tree.rename", "self.subtree(node)", "[node]"),
    "rename: moves far beneath itself": replaced("tree.rename", "self.subtree(node)", "[node, *self.children(node)]"),
    "rename: a name that begins alike is beneath": replaced(
        "tree.rename",
        "new_parent in self.subtree(node)",
        "second.startswith(first)",
    ),
    "rename: beneath its parent": replaced("tree.rename", "in self.subtree(node)", "in self.subtree(parent)[1:]"),
    "rename: beneath itself is 13": replaced("tree.rename", "refuse(22, ", "refuse(13, "),
    "rename: 13 of the first before 22": delayed("tree.rename", "refuse(22", "refuse(13, not parent"),
    "rename: 13 of the second before 22": renamed_early(22, "13, not new_parent.mode & WRITE_BIT"),
    "rename: 36 before 22 for beneath": renamed_early(22, LONG_BENEATH),
    "rename: the first parent's bit is skipped": dropped("tree.rename", "refuse(13, not parent"),
    "rename: the second parent's bit is skipped": dropped("tree.rename", "refuse(13, not new_parent"),
    "rename: one parent's bit is enough": ("tree.rename", one_bit_is_enough),
    "rename: asks the node's bit 2": added("tree.rename", "refuse(36", "refuse(13, not node.mode & WRITE_BIT)"),
    "rename: asks the first parent's bit 4": added(
        "tree.rename",
        "refuse(36",
        "refuse(13, not parent.mode & READ_BIT)",
    ),
    "rename: asks bit 4 of the second parent": replaced(
        "tree.rename",
        "not new_parent.mode & WRITE_BIT",
        "not new_parent.mode & READ_BIT",
    ),
    "rename: 36 before 13 of the first": renamed_before_13("not parent"),
    "rename: 36 before 13 of the second": renamed_before_13("not new_parent"),
    "rename: beneath is not measured": dropped("tree.rename", "refuse(36"),
    "rename: 256 beneath": replaced("tree.rename", "> MAX_PATH", "> MAX_PATH + 1"),
    "rename: no 255 beneath": replaced("tree.rename", "> MAX_PATH", ">= MAX_PATH"),
    "rename: the children alone are measured": replaced(
        "tree.rename",
        "self.length_beneath(node)",
        "max((1 + len(child.name) for child in self.children(node)), default=0)",
    ),
    "rename: files beneath are not measured": measured("max((n for kind, n in {}if kind == DIRECTORY), default=0)"),
    "rename: the last child is measured": measured("[(0, 0), *{}][-1][1]"),
    "rename: the first child is measured": measured("[*{}, (0, 0)][0][1]"),
    "rename: all beneath is measured together": measured("sum(n for _, n in {})"),
    "rename: no slash is measured": replaced("tree.length_beneath", "1 + len", "len"),
    "rename: measured from the first path": replaced("tree.rename", "len(second) +", "len(first) +"),
    "rename: measured from both": replaced("tree.rename", "len(second) +", "len(first) + len(second) +"),
    "rename: 28 in a full table": added("tree.rename", "yield from", "refuse(28, len(self.nodes) == MAX_NODES)"),
    "rename: an open file is refused": added("tree.rename", "refuse(36", "refuse(16, node.id in self.open_files)"),
    "rename: a full directory is refused": added("tree.rename", "refuse(36", "refuse(39, self.children(node))"),
    "rename: a directory is refused": added("tree.rename", "refuse(36", "refuse(21, node.kind == DIRECTORY)"),
    "rename: open files beneath are refused": added(
        "tree.rename",
        "refuse(36",
        "refuse(16, any(below.id in self.open_files for below in self.subtree(node)[1:]))",
    ),
    "rename: other paths are sent": replaced(
        "tree.rename",
        "ask_status(call.raw)",
        "ask_status(call.raw[:1] + first + second)",
    ),
    "rename: the paths are sent the other way round": replaced(
        "tree.rename",
        "ask_status(call.raw)",
        "ask_status(bytes([call.kind, len(second)]) + second + first)",
    ),
    "rename: the status is ignored": replaced("tree.rename", "from self.ask_status(call.raw)", "call.raw"),
    "rename: the status is looked at in any length": replaced(
        "tree.rename",
        "yield from self.ask_status(call.raw)",
        "stop(2, any((yield call.raw)))",
    ),
    "rename: answered by 1": replaced("tree.rename", "ask_status(call.raw)", "ask_status(call.raw, 1)"),
    "rename: a full disk ends it": full_elsewhere("rename", "call.raw"),
    "rename: a negative status refuses": replaced(
        "tree.rename",
        "yield from self.ask_status(call.raw)",
        "refuse(17, (yield call.raw)[3:] > b'\\x7f')",
    ),
    "rename: done with the id": replaced(
        "tree.rename",
        "[-1]\n        return Done(0)",
        "[-1]\n        return Done(node.id)",
    ),
    "rename: before it is answered": delayed("tree.rename", "yield from", "node.parent, node.name"),
    "rename: the record goes to the end": renamed_with("self.nodes.append(self.nodes.pop(self.nodes.index(node)))"),
    "rename: the record goes behind its parent": renamed_with(
        "self.nodes.insert(self.nodes.index(new_parent) + 1, self.nodes.pop(self.nodes.index(node)))",
    ),
    "rename: another id": renamed_with("node.id = min({*range(2, 999)} - {other.id for other in self.nodes})"),
    "rename: the handle is lost": renamed_with("self.open_files.pop(node.id, None)"),
    "rename: the cursor goes back": renamed_with("vars(self.open_files.get(node.id, node)).update(cursor=0)"),
    "rename: the descriptor is another": renamed_with("vars(self.open_files.get(node.id, node)).update(descriptor=0)"),
    "rename: the children stay behind": renamed_with(
        "[vars(below).update(parent=parent.id) for below in self.children(node)]",
    ),
    "rename: the mode is 7": renamed_with("node.mode = 7"),
    "rename: the bytes are lost": renamed_with("node.pages, node.size = [], 0"),
    "rename: the first digest is lost": renamed_with("node.pages[:1] = [bytes(32) for _ in node.pages[:1]]"),
    "rename: the name stays": replaced("tree.rename", "rules.read_path(second)[-1]", "node.name"),
    "rename: the parent stays": replaced("tree.rename", "node.name = new_parent.id", "node.name = parent.id"),
    "rename: nothing moves": dropped("tree.rename", "node.parent, node.name"),
    "rename: the first component is the name": replaced("tree.rename", "read_path(second)[-1]", "read_path(second)[0]"),
    "rename: a copy stays": renamed_with(
        "self.nodes.append(Node(0xABCDEF + len(self.nodes), parent.id, node.kind, 7, 0, rules.read_path(first)[-1]))",
    ),
    "an image's sibling names twice": dropped("image.is_sound", "(node.parent, node.name)"),
    "an image's names differ everywhere": replaced("image.is_sound", "(node.parent, node.name)", "node.name"),
    "an image's path of 256": dropped("image.is_sound", "MAX_PATH"),
    "no image's path of 255": replaced("image.is_sound", "<= MAX_PATH", "< MAX_PATH"),
    "an image's second count is larger": replaced("image.is_sound", "digest_count == sum", "digest_count >= sum"),
    "an image of 1,025 pages": dropped("image.is_sound", "MAX_PAGES"),
    "an image goes on": replaced("image.read_image", "reader.at != len(data) or ", ""),
}


def mutated(source, function, change):
    """A module's text with a change in one function, or anywhere where none is named."""
    if not function:
        return change(source)
    functions = [node for node in ast.walk(ast.parse(source)) if isinstance(node, ast.FunctionDef)]
    [found] = [node for node in functions if node.name == function]
    lines = source.splitlines(keepends=True)
    first, last = found.lineno - 1, found.end_lineno
    return "".join([*lines[:first], change("".join(lines[first:last])), *lines[last:]])


class Mutant:
    """A copy of the model, as far as a desk needs it, in a directory and with one mutation."""

    def __init__(self, name, directory):
        place, change = MUTATIONS[name]
        module, _, function = place.partition(".")
        self.package = Path(directory) / "model"
        self.package.mkdir()
        for copied in COPIED:
            shutil.copy(PACKAGE / f"{copied}.py", self.package)
        file = self.package / f"{module}.py"
        clean = file.read_text()
        file.write_text(mutated(clean, function, change))
        assert file.read_text() != clean, name

    def guards(self):
        """The functions that make the mutant's guards; events and outcomes are the clean model's."""
        for name in [name for name in sys.modules if name.partition(".")[0] == "mutant"]:
            del sys.modules[name]
        spec = importlib.util.spec_from_file_location(
            "mutant", self.package / "__init__.py", submodule_search_locations=[str(self.package)]
        )
        sys.modules["mutant"] = importlib.util.module_from_spec(spec)
        sys.modules["mutant.events"] = events
        return importlib.import_module("mutant.tree").GUARDS


def differs(make_guards, recording):
    """Whether a guard answers a recording in another way or ends with other tables."""
    guard = make_guards[recording.letter]()
    answered = all(guard.step(event) == outcome for event, outcome in recording.steps)
    return not answered or guard.tables() != recording.guard.tables()


def lists():
    """The lists that must tell every mutation, by seed; of seven, one in longer buffers, one of growing files, two of
    maps; then those of a full disk and of renames; then, by name, the scripts of renames and the stored lists of a
    read-only guard.
    """
    makers = [generate_longer, generate_growing, generate_mapping, generate_mapping, generate, generate, generate]
    made = [(seed, makers[seed % len(makers)](seed)) for seed in SEEDS]
    made += [(seed, generate_filling(seed)) for seed in FILLING_SEEDS]
    made += [(seed, generate_renaming(seed)) for seed in RENAMING_SEEDS]
    made += [(script.__name__, asked(script)) for script in RENAMES]
    return made + list(read_only_recordings())


def caught_by(name, recordings):
    """The seed of a recording that tells a mutation from the clean model, or None; that one is then tried first."""
    with tempfile.TemporaryDirectory() as directory:
        guards = Mutant(name, directory).guards()
        for i, (seed, recording) in enumerate(recordings):
            if differs(guards, recording):
                recordings.insert(0, recordings.pop(i))
                return seed
    return None


def main():
    recordings = lists()
    for name in MUTATIONS:
        print(f"{name}: {caught_by(name, recordings)}")


if __name__ == "__main__":
    main()
