#!/usr/bin/env python3
"""What must be believed: every definition that the promises of the entries and the claim are made of, found by
following names from the roots.

    bench/believed.py            the modules, and the names in each that are reached
    bench/believed.py check      ends with 1 where docs/BELIEVED.md does not list just these modules

A definition is an item of crates/*/specs whose name the text of another one uses; laws are used by proofs alone and are
not reached. Structs and enums that definitions name stand in src.
"""

import re
import sys
from pathlib import Path

TOP = Path(__file__).resolve().parent.parent
LIST = TOP / "docs" / "BELIEVED.md"

ROOTS = {
    "guard/Entries": ("Called", "ReaderCalled", "Replied", "Saved", "Loaded", "MadeFresh"),
    "guard/Promise": ("Shown",),
    "guard_guarantee/Chains": (
        "Link", "Begins", "FirstHalf", "SecondHalf", "FirstHalfOfLives", "SecondHalfOfLives", "ReadOnlyClaim",
    ),
    "machine/Claim": ("FirstHalf", "SecondHalf"),
    "machine/Restart": ("FirstHalfOfLives", "SecondHalfOfLives"),
    "read_only/Claim": ("ReadOnlyClaim",),
    "read_only/Lives": ("FirstHalfOfLives", "SecondHalfOfLives"),
}

USE = re.compile(r"use Rattle\.(?!std\b)(\w+)\.specs\.(?:laws\.)?(declared\.)?(\w+)(?:\.\w[\w-]*)?\.\{(.*)\}")
SIGNATURE = re.compile(r" *(?:unfoldable |abbrev )?(?:pub )?([^\s(){}:]+(?: [^\s(){}:]+)*)(?: \{ℓ\})? : ")
DATA = re.compile(r" *(?:pub )?(?:record|data) ([^\s(){}:]+)")
MODULE = re.compile(r" *module _ (.*)where")


def words(text):
    return set(re.split(r"[\s(){};,.=\\]+", text))


class Module:
    """The items of one file: for each name its text, and where the names come from that it imports."""

    def __init__(self, name, path):
        self.name, self.path, self.items, self.inner, self.imports = name, path, {}, {}, {}
        outer, item, indent, data = [], None, 0, None
        for line in path.read_text().splitlines():
            bare = line.strip()
            if not bare or bare.startswith("--"):
                continue
            if bare.startswith("use "):
                self.take_import(bare)
                continue
            depth = len(line) - len(line.lstrip())
            outer = [(d, text) for d, text in outer if d < depth]
            if data is not None and depth > data:
                self.items[item] += "\n" + bare
                if found := SIGNATURE.match(line):
                    self.inner.update(dict.fromkeys(found[1].split(), item))
                continue
            data = None
            if found := MODULE.match(line):
                outer.append((depth, found[1]))
            elif found := DATA.match(line):
                item, data = found[1], depth
                self.items[item] = " ".join(text for _, text in outer) + "\n" + bare
            elif (found := SIGNATURE.match(line)) and not bare.startswith("unfolding"):
                item = found[1]
                self.items[item] = " ".join(text for _, text in outer) + "\n" + bare
            elif item:
                self.items[item] += "\n" + bare

    def take_import(self, line):
        found = USE.match(line)
        if not found:
            return
        crate, declared, module, names = found.groups()
        for name in names.split(","):
            source, _, local = name.strip().partition(" as ")
            home = f"{crate}::{module}" if declared else f"{crate}/{module}"
            self.imports[local or source] = (home, source)


def modules():
    found = {}
    for path in sorted((TOP / "crates").glob("*/specs/**/*.antt")):
        name = f"{path.relative_to(TOP / 'crates').parts[0]}/{path.stem}"
        found[name] = Module(name, path)
    return found


def reached():
    """By module, or by crate and type of the source: the names that are reached."""
    all_modules = modules()
    seen, todo = set(), [(home, name) for home, names in ROOTS.items() for name in names]
    while todo:
        home, name = todo.pop()
        if (home, name) in seen:
            continue
        if "::" in home:
            seen.add((home, home.split("::")[1]))
            continue
        module = all_modules[home]
        name = module.inner.get(name, name)
        if (home, name) in seen:
            continue
        if name not in module.items:
            sys.exit(f"bench/believed.py: {home} has no {name}")
        seen.add((home, name))
        for word in words(module.items[name]) - {name}:
            if word in module.imports:
                todo.append(module.imports[word])
            elif word in module.items or word in module.inner:
                todo.append((home, word))
    by_home = {}
    for home, name in seen:
        by_home.setdefault(home, set()).add(name)
    return all_modules, by_home


def believed():
    """By home, the lines of its items that are reached; the laws that a byte form carries are proofs."""
    all_modules, by_home = reached()
    return {
        home: sum(len(all_modules[home].items[name].strip().splitlines()) for name in names)
        if home in all_modules else 0
        for home, names in by_home.items() if home != "lists/FormLaws"
    }


def listed():
    return set(re.findall(r"(?m)^\| `([\w/:]+)` \|", LIST.read_text()))


def main():
    found = believed()
    if sys.argv[1:] == ["check"]:
        lacking, spare = set(found) - listed(), listed() - set(found)
        for home in sorted(lacking | spare):
            print(f"docs/BELIEVED.md {'lacks' if home in lacking else 'has, and nothing reaches,'} {home}")
        sys.exit(1 if lacking or spare else 0)
    _, by_home = reached()
    for home in sorted(found):
        print(f"{home}: {' '.join(sorted(by_home[home]))}")


if __name__ == "__main__":
    main()
