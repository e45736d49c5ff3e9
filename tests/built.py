#!/usr/bin/env python3
"""Proves and compiles crates of this repository for C, for programs and for the tests.

    tests/built.py [--about TIME] NAME..               target/bin/NAME of a program, target/staticlib/libNAME.a of the static library NAME_c;
                                                       what is there and younger than each source stays
    tests/built.py --beside FOLDER ARCHIVE LIBRARY..   ARCHIVE of a crate that is none of the repository's, FOLDER/src/lib.rt, over libraries

Standard output has all that is said. With --about each crate that was proved just now is told on standard error.
The libraries are those that `rt lib` proves here. OVER_CI=1 says that `rt ci` has just passed in this checkout, and that it was clean before: then each
library and program lies in crates/*/out as `rt ci` left it, and only the archive's own crate is proved once more, over them.
"""
import contextlib
import fcntl
import os
import pathlib
import re
import shutil
import subprocess
import sys
import time

TOP = pathlib.Path(__file__).resolve().parent.parent
OVER_CI = os.environ.get("OVER_CI") == "1"


def listed():
    """Each crate of crates.txt with the libraries that it uses."""
    found = {}
    for line in (TOP / "crates.txt").read_text().splitlines():
        name, _, uses = line.partition("#")[0].partition(":")
        if name.strip():
            found[name.split()[0]] = uses.split()
    return found


def below(crate, crates):
    """The libraries of this repository below a crate, in the order in which rt builds them."""
    found = []
    for it in crates[crate]:
        if it in crates:
            found += [below_it for below_it in [*below(it, crates), it] if below_it not in found]
    return found


def is_stale(file):
    """Whether there is no such file, or a source is younger."""
    if not file.is_file():
        return True
    made = file.stat().st_mtime
    for at, folders, names in os.walk(TOP / "crates"):
        if pathlib.Path(at).parent == TOP / "crates":
            folders[:] = [it for it in folders if it != "out"]
        if any(os.stat(f"{at}/{it}").st_mtime > made for it in names):
            return True
    return (TOP / "crates.txt").stat().st_mtime > made


def says(words, folder, tell=None):
    """Runs a command with no input, passes on what it says, and returns its status."""
    how = {"cwd": folder, "stdin": subprocess.DEVNULL, "stdout": subprocess.PIPE, "stderr": subprocess.STDOUT}
    with subprocess.Popen(words, **how, text=True, errors="replace") as ran:
        for line in ran.stdout:
            print(line, end="", flush=True)
            if tell:
                tell(line)
    return ran.returncode


def kit():
    return os.path.dirname(subprocess.run(["rt", "doc"], stdout=subprocess.PIPE, text=True, check=True).stdout.strip())


def rattle(verb, name, folder, uses, *more):
    """The command that checks or builds a crate over the libraries that lie in crates/*/out."""
    crates, at = listed(), kit()
    every = dict.fromkeys(it for use in uses if use in crates for it in [*below(use, crates), use])
    root = next(it for it in ("src/main.rt", "src/lib.rt") if (pathlib.Path(folder) / it).is_file())
    words = ["rattle", verb, "--crate-name", name, root]
    for it in ["std", *(use for use in uses if use not in crates)]:
        words += ["--extern", f"{it}={at}/rlibs/{it}.rlib"]
    words += ["-L", f"dependency={at}/rlibs"]
    for it in uses:
        words += ["--extern", f"{it}={TOP}/crates/{it}/out/rlib/{it}.rlib"] if it in crates else []
    for it in every:
        words += ["-L", f"dependency={TOP}/crates/{it}/out/rlib"]
    words += ["--antt-project", f"{at}/rattle/logic/antt-project.json", "--logic-built", f"{at}/logic_built"]
    return [*words, "--jobs", "2", "--links", f"{name}=", *more]


def archive_over(name, folder, uses, archive):
    """An archive over libraries that are built; returns the status."""
    more = ["--crate-type", "staticlib", "--toolchain", f"{kit()}/toolchain", "--backend", "llvm", "-o", archive]
    return says(rattle("build", name, folder, uses, *more), folder)


def libraries(uses):
    """Has the libraries built, where `rt ci` has not left them."""
    crates = listed()
    if OVER_CI and all((TOP / f"crates/{it}/out/rlib/{it}.rlib/format").is_file() for it in uses if it in crates):
        return 0
    return next(filter(None, (says(["rt", "lib"], TOP / "crates" / it) for it in uses if it in crates)), 0)


def place(made, to):
    to.parent.mkdir(parents=True, exist_ok=True)
    # a program that runs meanwhile keeps its file
    new = to.with_name(f"{to.name}.new")
    shutil.copyfile(made, new)
    new.chmod(made.stat().st_mode & 0o777)
    new.replace(to)


def target(crate):
    if (TOP / f"crates/{crate}/src/main.rt").is_file():
        return TOP / f"target/bin/{crate}"
    return TOP / f"target/staticlib/lib{crate.removesuffix('_c')}.a"


def teller(crate, about):
    """Tells on standard error of each crate that was proved, and how many of all are, by the order in which rt goes."""
    crates, start, last = listed(), time.monotonic(), [""]
    order = [*below(crate, crates), crate]

    def tell(line):
        if found := re.match(r"crate (\w+): modules ", line):
            last[0] = found[1]
        if line.startswith("logic=proved") and last[0] in order:
            passed = int(time.monotonic() - start)
            told = f"{order.index(last[0]) + 1} of {len(order)} crates proved ({last[0]})"
            print(f"./run: {told}, {passed // 60}:{passed % 60:02} of about {about}", file=sys.stderr, flush=True)

    return tell


def build(crate, about=None):
    """Makes the crate's target; returns whether it could."""
    to, folder = target(crate), TOP / "crates" / crate
    if not is_stale(to):
        return True
    tell = teller(crate, about) if about else None
    if to.parent.name == "bin":
        made = folder / "out" / crate
        if not OVER_CI or not made.is_file():
            # the program runs once, on no input; what it ends with says nothing of how it was built
            made.with_name(f"{crate}.stamp").unlink(missing_ok=True)
            says(["rt", "run"], folder, tell)
            if not made.with_name(f"{crate}.stamp").is_file():
                return False
    else:
        made = folder / f"out/lib{crate}.a"
        made.unlink(missing_ok=True)
        if OVER_CI:
            made.parent.mkdir(exist_ok=True)
            if archive_over(crate, folder, listed()[crate], made):
                print(f"tests/built.py: {crate} is not built over what rt ci left; rt lib builds all", flush=True)
        if not made.is_file() and says(["rt", "lib"], folder, tell):
            return False
    place(made, to)
    return True


@contextlib.contextmanager
def alone():
    """One run at a time builds."""
    (TOP / "target").mkdir(exist_ok=True)
    with open(TOP / "target/.built", "w") as lock:
        fcntl.flock(lock, fcntl.LOCK_EX)
        yield


def main(words):
    if words[:1] == ["--beside"] and len(words) > 3:
        folder, archive, *uses = words[1:]
        name = pathlib.Path(archive).stem.removeprefix("lib")
        with alone():
            return libraries(uses) or archive_over(name, folder, uses, os.path.abspath(archive))
    about = words.pop(1) if words[:1] == ["--about"] else None
    names = words[1:] if about else words
    if not names or not set(names) <= set(listed()):
        print(__doc__, file=sys.stderr)
        return 2
    with alone():
        return 0 if all(build(it, about) for it in names) else 1


if __name__ == "__main__":
    sys.exit(main(sys.argv[1:]))
