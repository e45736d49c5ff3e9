#!/usr/bin/env python3
"""Functions of crates/*/src that differ only in names, numbers and types: one group a line, and how many there are.

    tools/twins.py [FOLDER]     of this checkout, or of another one

Two bodies are alike where they are the same text once every name, number and type is replaced by its order of
appearance. Bodies of fewer than four lines are not looked at.
"""
import pathlib
import re
import sys

FUNCTION = re.compile(r"(?m)^( *)(?:pub )?(?:extern \"C\" )?fn (\w+)(.*?)^\1\{\n(.*?)^\1\}$", re.S)
WORD = re.compile(r"[A-Za-z_]\w*|\d+")
KEPT = {"let", "mut", "if", "else", "while", "for", "in", "match", "return", "break", "as", "true", "false"}


def shape(body):
    seen = {}
    text = re.sub(r"//.*", "", body)
    return re.sub(r"\s+", " ", WORD.sub(lambda w: w[0] if w[0] in KEPT else f"#{seen.setdefault(w[0], len(seen))}", text))


def main():
    top = pathlib.Path(sys.argv[1] if sys.argv[1:] else pathlib.Path(__file__).parent.parent)
    groups = {}
    for path in sorted(top.glob("crates/*/src/**/*.rt")):
        for _, name, _, body in FUNCTION.findall(path.read_text()):
            if body.count("\n") >= 4:
                groups.setdefault(shape(body), []).append(f"{path.parts[len(top.parts) + 1]}::{name}")
    twins = [group for group in groups.values() if len(group) > 1]
    for group in twins:
        print(" ".join(group))
    print(f"{len(twins)} groups, {sum(map(len, twins))} functions")


main()
