"""POSIX beside the guard: the same calls behind the guard and on the machine, as an unprivileged user whose root
directory holds the same tree.

    python3 -m host.posix PROGRAM PLACE      from tests/, as root; PROGRAM is drive.c's, PLACE a directory to fill

Each call is tried on each kind of path, and a list of trials on open files; where the machine lets root mount a small
file system, others on a full disk. The errors must be the same but for the rows of the two tables below, each with the
rule that makes it; and what stands there must differ just so.
"""

import os
import resource
import shutil
import sys
from functools import partial
from pathlib import Path

from model.rules import MAX_COUNT as TRANSFER, MAX_OPEN as OPEN_FILES, MAX_SIZE as FILE_SIZE, UNIT

from .beside import Different, Driver
from .files import BOTH, READ, WRITE, Guarded, Plain, Planned, mount_small
from .house import DEEP, PATHS, build

NOBODY = 65534

# ---- calls by path

CALLS = {
    "create": lambda files, path: files.create(path),
    "mkdir": lambda files, path: files.mkdir(path),
    "read": lambda files, path: files.open(path, READ),
    "write": lambda files, path: files.open(path, WRITE),
    "both": lambda files, path: files.open(path, BOTH),
    "remove": lambda files, path: files.remove(path),
    "rmdir": lambda files, path: files.rmdir(path),
    "chmod": lambda files, path: files.chmod(path),
    "readdir": lambda files, path: files.readdir(path),
    "stat": lambda files, path: files.stat(path),
    "from": lambda files, path: files.rename(path, "/new"),
    "to": lambda files, path: files.rename("/writes", path),
}

# Where the guard says another number: a kind of path, the guard's number, the machine's for each call, and the rule.
# `read`, `write` and `both` are opens with these rights, `from` a rename of the path to a free one, `to` one of a file to
# the path; 0 is no error, `=` the same error.
BY_PATH = """
kind                | guard | create mkdir read write both remove rmdir chmod readdir stat from to | rule
33                  | 36    | 0      0     2    2     2    2      2     2     2       2    2    0  | a component has 32 bytes at most
33 below missing    | 36    | 2      2     2    2     2    2      2     2     2       2    2    2  | 36 comes before the walk
33 below a file     | 36    | 20     20    20   20    20   20     20    20    20      20   20   20 | 36 comes before the walk
256                 | 36    | 0      0     2    2     2    2      2     2     2       2    =    0  | a path has 255 bytes at most
no path             | 22    | 2      2     2    2     2    2      2     2     2       2    2    2  | a path has 1 byte at least
relative            | 22    | 17     17    0    0     0    0      20    0     20      0    0    0  | there is no working directory: each component stands after one /
file and slash      | 22    | 21     17    20   20    20   20     20    20    20      20   20   20 | a component has 1 byte at least
directory and slash | 22    | 21     17    0    21    21   21     0     0     0       0    0    20 | a component has 1 byte at least
missing and slash   | 22    | 21     0     2    2     2    2      2     2     2       2    2    20 | a component has 1 byte at least
two slashes         | 22    | 17     17    0    21    21   21     39    0     0       0    0    21 | a component has 1 byte at least
slashes within      | 22    | 17     17    0    0     0    0      20    0     20      0    0    0  | a component has 1 byte at least
dot                 | 22    | 17     17    0    21    21   21     =     0     0       0    16   16 | a component is not .
dot within          | 22    | 17     17    0    0     0    0      20    0     20      0    0    0  | a component is not .
dots                | 22    | 17     17    0    21    21   21     39    0     0       0    16   16 | a component is not ..
full                | 21    | =      =     0    =     =    =      =     =     =       =    =    =  | open is for files: 21 whatever the rights
empty               | 21    | =      =     0    =     =    =      =     =     =       =    =    =  | open is for files: 21 whatever the rights
root                | 21    | =      =     0    =     =    =      =     =     =       =    =    =  | open is for files: 21 whatever the rights
unsearchable        | 21    | =      =     0    =     =    =      =     =     =       =    =    =  | open is for files: 21 whatever the rights
unreadable          | 21    | =      =     13   =     =    =      =     =     =       =    =    =  | open: 21 comes before 13
kept empty          | 21    | =      =     0    =     =    13     =     =     =       =    =    =  | open is for files; remove: 21 comes before 13
kept full           | 21    | =      =     0    =     =    13     =     =     =       =    =    =  | open is for files; remove: 21 comes before 13
kept file           | 20    | =      =     =    =     =    =      13    =     =       =    =    =  | rmdir: 20 comes before 13
file                | 17    | =      =     =    =     =    =      =     =     =       =    =    0  | a rename replaces nothing
in full             | 17    | =      =     =    =     =    =      =     =     =       =    =    0  | a rename replaces nothing
no bits             | 17    | =      =     =    =     =    =      =     =     =       =    =    0  | a rename replaces nothing
read only           | 17    | =      =     =    =     =    =      =     =     =       =    =    0  | a rename replaces nothing
32                  | 17    | =      =     =    =     =    =      =     =     =       =    =    0  | a rename replaces nothing
255                 | 17    | =      =     =    =     =    =      =     =     =       =    =    0  | a rename replaces nothing
full                | 17    | =      =     =    =     =    =      =     =     =       =    =    21 | a rename replaces nothing
empty               | 17    | =      =     =    =     =    =      =     =     =       =    =    21 | a rename replaces nothing
unsearchable        | 17    | =      =     =    =     =    =      =     =     =       =    =    21 | a rename replaces nothing
unreadable          | 17    | =      =     =    =     =    =      =     =     =       =    =    21 | a rename replaces nothing
root                | 17    | =      =     =    =     =    =      =     =     =       =    =    16 | a rename replaces nothing
kept file           | 17    | =      =     =    =     =    =      =     =     =       =    =    13 | rename: 17 comes before 13
kept empty          | 17    | =      =     =    =     =    =      =     =     =       =    =    13 | rename: 17 comes before 13
kept full           | 17    | =      =     =    =     =    =      =     =     =       =    =    13 | rename: 17 comes before 13
"""

# ---- trials on open files


def written(files, rights=BOTH, size=10):
    """/file with so many bytes, open with these rights, its cursor at the beginning."""
    handle = files.open("/file", BOTH)
    for at in range(0, size, TRANSFER):
        files.write(handle, bytes(min(TRANSFER, size - at)))
    files.close(handle)
    return files.open("/file", rights)


def closed(files):
    handle = written(files)
    files.close(handle)
    return handle


def at_end(files, size):
    handle = written(files, size=size)
    files.seek(handle, size)
    return handle


def open_many(files, count):
    for n in range(count):
        files.create(f"/empty/{n}")
    for n in range(count):
        files.open(f"/empty/{n}", READ)


def changed_mode(files, rights):
    """/file open, and then without any bit."""
    handle = written(files, rights)
    files.chmod("/file", 0)
    return handle


def map_many(files, count):
    for _ in range(count):
        files.map(UNIT)


def unmapped(files):
    address = files.map(UNIT)
    files.unmap(address)
    return address


def read_after_rename(files):
    """An open file goes on, at another path."""
    handle = written(files)
    files.rename("/file", "/empty/file")
    files.stat("/empty/file")
    files.read(handle, 10)


def too_deep(files):
    """What is beneath would have a path of 256 bytes."""
    files.mkdir("/empty/" + "d" * 31)
    files.rename(DEEP[: 2 * 32], "/empty/" + "d" * 31 + "/" + "d" * 26)


TRIALS = {
    "rename, open": read_after_rename,
    "rename, a directory with an open file": lambda files: (files.open("/full/x", READ), files.rename("/full", "/new")),
    "rename, its own path": lambda files: files.rename("/file", "/file"),
    "rename, its own path in a directory without bit 2": lambda files: files.rename("/kept/x", "/kept/x"),
    "rename, a directory to its own path": lambda files: files.rename("/full", "/full"),
    "rename, the root to its own path": lambda files: files.rename("/", "/"),
    "rename, the root into a directory": lambda files: files.rename("/", "/empty/new"),
    "rename, a directory into itself": lambda files: files.rename("/full", "/full/new"),
    "rename, a directory beneath itself": lambda files: files.rename(DEEP[:32], DEEP[:96] + "/new"),
    "rename, a directory to what is in it": lambda files: files.rename("/full", "/full/x"),
    "rename, a file beneath itself": lambda files: files.rename("/file", "/file/x"),
    "rename, a file onto a file": lambda files: files.rename("/file", "/reads"),
    "rename, a file onto a directory": lambda files: files.rename("/file", "/empty"),
    "rename, a directory onto a file": lambda files: files.rename("/empty", "/file"),
    "rename, a directory onto an empty one": lambda files: files.rename("/full", "/empty"),
    "rename, a directory onto a full one": lambda files: files.rename("/empty", "/full"),
    "rename, onto the root": lambda files: files.rename("/file", "/"),
    "rename, out of a directory without bit 2": lambda files: files.rename("/kept/x", "/new"),
    "rename, into a directory without bit 2": lambda files: files.rename("/file", "/kept/new"),
    "rename, within a directory without bit 2": lambda files: files.rename("/kept/x", "/kept/new"),
    "rename, a directory without bit 2 itself": lambda files: files.rename("/kept", "/new"),
    "rename, a directory without bit 2 to another parent": lambda files: files.rename("/kept", "/empty/new"),
    "rename, onto a file in a directory without bit 2": lambda files: files.rename("/file", "/kept/x"),
    "rename, missing, to below a file": lambda files: files.rename("/missing", "/file/x"),
    "rename, missing, to below missing": lambda files: files.rename("/missing", "/missing/x"),
    "rename, missing, onto the root": lambda files: files.rename("/missing", "/"),
    "rename, missing, to 33": lambda files: files.rename("/missing", "/" + "n" * 33),
    "rename, 33, to a bad form": lambda files: files.rename("/" + "n" * 33, "/full/.."),
    "rename, below missing, to a barred directory": lambda files: files.rename("/missing/x", "/shut/new"),
    "rename, barred, to below a file": lambda files: files.rename("/shut/x", "/file/x"),
    "rename, below a file, to below missing": lambda files: files.rename("/file/x", "/missing/x"),
    "rename, so that a path beneath has 256 bytes": too_deep,
    "map": lambda files: files.map(UNIT),
    "map, 65,536 bytes": lambda files: files.map(65_536),
    "map, no bytes": lambda files: files.map(0),
    "map, 4,095 bytes": lambda files: files.map(UNIT - 1),
    "map, 4,097 bytes": lambda files: files.map(UNIT + 1),
    "map, 69,632 bytes": lambda files: files.map(65_536 + UNIT),
    "map, 16 of them": lambda files: map_many(files, 16),
    "map, 17 of them": lambda files: map_many(files, 17),
    "unmap": unmapped,
    "unmap, twice": lambda files: files.unmap(unmapped(files)),
    "unmap, within a map": lambda files: files.unmap(files.map(2 * UNIT) + UNIT),
    "unmap, not aligned": lambda files: files.unmap(files.map(UNIT) + 1),
    "unmap, address 0": lambda files: files.unmap(0),
    "close, closed": lambda files: files.close(closed(files)),
    "seek, closed": lambda files: files.seek(closed(files), 0),
    "read, closed": lambda files: files.read(closed(files), 1),
    "write, closed": lambda files: files.write(closed(files), b"x"),
    "truncate, closed": lambda files: files.truncate(closed(files), 0),
    "read, open to read": lambda files: files.read(written(files, READ), 10),
    "read, open to write": lambda files: files.read(written(files, WRITE), 1),
    "read of no bytes, open to write": lambda files: files.read(written(files, WRITE), 0),
    "write, open to write": lambda files: files.write(written(files, WRITE), b"x"),
    "write, open to read": lambda files: files.write(written(files, READ), b"x"),
    "write of no bytes, open to read": lambda files: files.write(written(files, READ), b""),
    "truncate, open to write": lambda files: files.truncate(written(files, WRITE), 5),
    "truncate, open to read": lambda files: files.truncate(written(files, READ), 5),
    "seek, open to write": lambda files: files.seek(written(files, WRITE), 5),
    "seek to the size": lambda files: files.seek(written(files), 10),
    "seek beyond the size": lambda files: files.seek(written(files), 11),
    "truncate to the size": lambda files: files.truncate(written(files), 10),
    "truncate beyond the size": lambda files: files.truncate(written(files), 11),
    "truncate to 65,536": lambda files: files.truncate(written(files), FILE_SIZE),
    "truncate to 65,537": lambda files: files.truncate(written(files), FILE_SIZE + 1),
    "read at the end": lambda files: files.read(at_end(files, 10), 5),
    "read of 4,096": lambda files: files.read(written(files), TRANSFER),
    "read of 4,097": lambda files: files.read(written(files), TRANSFER + 1),
    "write of 4,096": lambda files: files.write(written(files), bytes(TRANSFER)),
    "write of 4,097": lambda files: files.write(written(files), bytes(TRANSFER + 1)),
    "write up to 65,536": lambda files: files.write(at_end(files, FILE_SIZE - 1), b"x"),
    "write from 65,536 on": lambda files: files.write(at_end(files, FILE_SIZE), b"x"),
    "write over 65,536": lambda files: files.write(at_end(files, FILE_SIZE - 1), b"xx"),
    "32 files open": lambda files: open_many(files, OPEN_FILES),
    "33 files open": lambda files: open_many(files, OPEN_FILES + 1),
    "open, open": lambda files: (written(files), files.open("/file", READ)),
    "remove, open": lambda files: (written(files), files.remove("/file")),
    "chmod, open": lambda files: (written(files), files.chmod("/file", 4)),
    "stat, open": lambda files: (written(files), files.stat("/file")),
    "read after a chmod to 0": lambda files: files.read(changed_mode(files, READ), 1),
    "write after a chmod to 0": lambda files: files.write(changed_mode(files, WRITE), b"x"),
    "open after a chmod to 0": lambda files: (files.close(changed_mode(files, READ)), files.open("/file", READ)),
    "rmdir of a directory with an open file": lambda files: (files.open("/full/x", READ), files.rmdir("/full")),
}

# ---- trials on a disk without room: what is written stands before the filling


def filled(files, size=TRANSFER, at=None):
    """/file with so many bytes, open, its cursor somewhere, and no room for more."""
    handle = written(files, size=size)
    files.seek(handle, size if at is None else at)
    files.fill()
    return handle


def with_full_disk(act):
    return lambda files: (files.fill(), act(files))


FULL_TRIALS = {
    "create, full disk": with_full_disk(lambda files: files.create("/new")),
    "mkdir, full disk": with_full_disk(lambda files: files.mkdir("/new")),
    "create of a file that is there, full disk": with_full_disk(lambda files: files.create("/file")),
    "open, full disk": with_full_disk(lambda files: files.open("/file", BOTH)),
    "remove, full disk": with_full_disk(lambda files: files.remove("/file")),
    "rmdir, full disk": with_full_disk(lambda files: files.rmdir("/empty")),
    "chmod, full disk": with_full_disk(lambda files: files.chmod("/file", 4)),
    "readdir, full disk": with_full_disk(lambda files: files.readdir("/full")),
    "stat, full disk": with_full_disk(lambda files: files.stat("/file")),
    "rename, full disk": with_full_disk(lambda files: files.rename("/file", "/full/new")),
    "read, full disk": lambda files: files.read(filled(files, at=0), 10),
    "close, full disk": lambda files: files.close(filled(files)),
    "write within the file, full disk": lambda files: files.write(filled(files, at=5), b"x" * 100),
    "write over the end, full disk": lambda files: files.write(filled(files, at=TRANSFER - 10), b"x" * 20),
    "write over the end twice, full disk": lambda files: over_the_end_twice(files),
    "write at the end, full disk": lambda files: files.write(filled(files), b"x"),
    "write of no bytes, full disk": lambda files: files.write(filled(files), b""),
    "truncate to less, full disk": lambda files: files.truncate(filled(files), 10),
    "truncate beyond the size, full disk": lambda files: files.truncate(filled(files), TRANSFER + 1),
}


def over_the_end_twice(files):
    """A write that is done in part, and then the rest of it."""
    handle = filled(files, at=TRANSFER - 10)
    files.write(handle, b"x" * 20)
    files.write(handle, b"x" * 10)


BY_HANDLE = """
trial                                               | guard | machine | rule
truncate, open to read                              | 9     | 22      | a truncation needs right 2
seek beyond the size                                | 22    | 0       | a cursor lies between 0 and the size
read of 4,097                                       | 22    | 0       | a read has a count of 4,096 at most
write of 4,097                                      | 22    | 0       | a write has 4,096 bytes at most
write over 65,536                                   | 27    | 0       | a write is done as a whole or not at all
open, open                                          | 16    | 0       | a file is open once at most
remove, open                                        | 16    | 0       | a file that is open is not removed
map, 4,095 bytes                                    | 22    | 0       | a map's length is a multiple of 4,096
map, 4,097 bytes                                    | 22    | 0       | a map's length is a multiple of 4,096
map, 69,632 bytes                                   | 22    | 0       | a map has 65,536 bytes at most
map, 17 of them                                     | 12    | 0       | 16 maps live at most
unmap, twice                                        | 22    | 0       | an unmap is of a map that lives
unmap, within a map                                 | 22    | 0       | an unmap is of a whole map, by its first address
unmap, address 0                                    | 22    | 0       | an unmap is of a map that lives
rename, a file onto a file                          | 17    | 0       | a rename replaces nothing
rename, a file onto a directory                     | 17    | 21      | a rename replaces nothing
rename, a directory onto a file                     | 17    | 20      | a rename replaces nothing
rename, a directory onto an empty one               | 17    | 0       | a rename replaces nothing
rename, a directory onto a full one                 | 17    | 39      | a rename replaces nothing
rename, onto the root                               | 17    | 16      | a rename replaces nothing
rename, a directory to what is in it                | 17    | 22      | rename: 17 comes before 22
rename, onto a file in a directory without bit 2    | 17    | 13      | rename: 17 comes before 13
rename, a directory without bit 2 to another parent | 0     | 13      | a rename asks for no bit of the node itself
rename, missing, to below a file                    | 2     | 20      | the first path is walked to its end before the second
rename, missing, onto the root                      | 2     | 16      | the first path is walked to its end before the second
rename, missing, to 33                              | 36    | 2       | 36 comes before the walk
rename, 33, to a bad form                           | 22    | 16      | a component is not .., and 22 comes before 36
rename, so that a path beneath has 256 bytes        | 36    | 0       | a path has 255 bytes at most
"""

ON_A_FULL_DISK = """
trial                               | guard | machine | rule
truncate beyond the size, full disk | 28    | 0       | a growing cut may be answered -28: the host takes the room at once
"""


# ---- the two sides: the error of each act, or 0, on the tree of house.py, which is built anew after an act that may
# have changed it


def errors(acts, renew, files):
    found, fresh = [], False
    for _, act, changes in acts:
        if not fresh:
            renew()
        found.append(error_of(act, files))
        fresh = found[-1] != 0 and not changes
    return found


def error_of(act, files):
    try:
        act(files)
    except OSError as error:
        return error.errno
    return 0


def behind_the_guard(program, place, acts):
    place.mkdir()
    driver = Driver(program, place)
    driver.send("f")

    def renew():
        driver.send("b 0")
        shutil.rmtree(place / "tree")
        (place / "table").unlink(missing_ok=True)
        build(planned := Planned())
        driver.send("f", *planned.lines)

    found = errors(acts, renew, Guarded(driver))
    driver.end()
    return found


def on_the_machine(place, acts, is_small):
    """In a process whose root is the tree, that is nobody and has the guard's limits; on a small disk, or on any."""
    place.mkdir()
    os.chown(place, NOBODY, NOBODY)
    reader, writer = os.pipe()
    child = os.fork()
    if child == 0:
        try:
            become_nobody(place, writer, is_small)
            os.write(WRITER, bytes(errors(acts, renew_machine, Plain())))
        finally:
            os._exit(0)
    os.close(writer)
    with open(reader, "rb") as results:
        found = list(results.read())
    os.waitpid(child, 0)
    return found


WRITER = 3


def can_mount(place):
    """Whether a small disk is to be had; tried in a process of its own, whose mounts nobody else sees."""
    place.mkdir()
    child = os.fork()
    if child == 0:
        try:
            mount_small(place)
        except OSError:
            os._exit(1)
        os._exit(0)
    return os.waitpid(child, 0)[1] == 0


def become_nobody(root, writer, is_small):
    if is_small:
        mount_small(root)
        os.chown(root, NOBODY, NOBODY)
    os.dup2(writer, WRITER)
    os.closerange(WRITER + 1, 1024)
    resource.setrlimit(resource.RLIMIT_NOFILE, (WRITER + 1 + OPEN_FILES,) * 2)
    resource.setrlimit(resource.RLIMIT_FSIZE, (FILE_SIZE,) * 2)
    os.chroot(root)
    os.chdir("/")
    os.setgroups([])
    os.setgid(NOBODY)
    os.setuid(NOBODY)


def renew_machine():
    os.closerange(WRITER + 1, 1024)
    clear("/")
    build(Plain())


def clear(directory):
    os.chmod(directory, 0o700)
    for entry in list(os.scandir(directory)):
        if entry.is_dir():
            clear(entry.path)
            os.rmdir(entry.path)
        else:
            os.unlink(entry.path)


# ---- comparison


def rows(table):
    """The lines of a table, each as its cells."""
    return [[cell.strip() for cell in line.split("|")] for line in table.strip().split("\n")]


def known_by_path():
    """(call, kind) to both numbers."""
    (_, _, names, _), *lines = rows(BY_PATH)
    known = {}
    for kind, guard, numbers, _ in lines:
        for call, number in zip(names.split(), numbers.split(), strict=True):
            if number != "=":
                known[call, kind] = [int(guard), int(number)]
    return known


def known_by_handle(is_small):
    known = rows(BY_HANDLE)[1:] + (rows(ON_A_FULL_DISK)[1:] if is_small else [])
    return {trial: [int(guard), int(machine)] for trial, guard, machine, _ in known}


def acts(is_small):
    """The name of each trial, what is done, and whether it may change the tree even where it ends in an error."""
    for call, act in CALLS.items():
        for kind, path in PATHS.items():
            if (call, kind) != ("from", "256"):  # a first path's length has one byte
                yield (call, kind), partial(act, path=path), False
    for trial, act in {**TRIALS, **(FULL_TRIALS if is_small else {})}.items():
        yield trial, act, True


def main():
    program, place = sys.argv[1], Path(sys.argv[2])
    shutil.rmtree(place, ignore_errors=True)
    place.mkdir(parents=True)
    is_small = can_mount(place / "mounted")
    all_acts = list(acts(is_small))
    ours = behind_the_guard(program, place / "guarded", all_acts)
    theirs = on_the_machine(place / "plain", all_acts, is_small)
    if len(theirs) != len(ours):
        raise Different("the machine's side is not to be had")
    known = {**known_by_path(), **known_by_handle(is_small)}
    differences = {name: numbers for (name, _, _), *numbers in zip(all_acts, ours, theirs) if numbers[0] != numbers[1]}
    for name in {**known, **differences}:
        if differences.get(name) != known.get(name):
            raise Different(f"{name}: guard and machine give {differences.get(name)}; the table has {known.get(name)}")
    full = f"{len(FULL_TRIALS)} of them on a full disk" if is_small else "none on a full disk, which only a mount gives"
    print(f"posix: {len(all_acts)} trials, {full}, {len(known)} differences, each by a rule of the guard")


if __name__ == "__main__":
    main()
