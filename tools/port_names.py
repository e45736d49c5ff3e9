#!/usr/bin/env python3
"""Brings the names of this repository's definitions and lemmas to today's spelling, by the rows of port_names.tsv.

    tools/port_names.py     once, in the tree that port.py made, at the top of the repository

A row is an old name, a tab and the new one; a third column names the crate in which it turns, or says `all` (a name
that was spelled so before it turns where no dot stands before it). It goes by whole words, in .antt files and in the
clauses of .rt files; a comment's words turn where they are written as code or have a capital inside. The modules
`Contracts` of outcomes and page_changes are `Clauses` now, since Rattle makes a module `specs.contracts`.
"""
import os
import re
import sys

HERE = os.path.dirname(os.path.abspath(__file__))
WORD = re.compile(r"[^\s(){}.;,@\"«»]+")
QUIET = re.compile(r'"(?:[^"\\\n]|\\.)*"|(?<![^\s(){}.;,@"«»])--[^\n]*|//[^\n]*|\{-.*?-\}', re.S)
PROSE = re.compile(r"`[^`\n]+`|[^\s(){}.;,:@\"«»`?]+")
MOVED = ('outcomes', 'page_changes')


def rows():
    plain, before = {}, {}
    with open(os.path.join(HERE, 'port_names.tsv'), encoding='utf-8') as f:
        for line in f:
            old, new, *where = line.rstrip('\n').split('\t')
            if where:
                before.setdefault(where[0], {})[old] = new
            else:
                plain[old] = new
    return plain, before


def turned(text, crate, plain, before):
    earlier = {**before.get('all', {}), **before.get(crate, {})}

    def code(part):
        def one(m):
            w = m[0]
            if w in plain:
                return plain[w]
            if w in earlier and (m.start() == 0 or part[m.start() - 1] != '.'):
                return earlier[w]
            return w
        return WORD.sub(one, part)

    def quiet(m):
        part = m[0]
        if part.startswith('"'):
            return part

        def one(w):
            if w[0].startswith('`'):
                return '`' + code(w[0][1:-1]) + '`'
            return plain[w[0]] if w[0] in plain and re.match('[a-z]+[A-Z]', w[0]) else w[0]
        return PROSE.sub(one, part)

    out, at = [], 0
    for m in QUIET.finditer(text):
        out += [code(text[at:m.start()]), quiet(m)]
        at = m.end()
    out.append(code(text[at:]))
    text = ''.join(out)
    for c in MOVED:
        text = text.replace(f'Rattle.{c}.specs.Contracts', f'Rattle.{c}.specs.Clauses')
        if crate == c:
            text = re.sub(r'(?m)^(\s*(?:pub )?mod )Contracts$', r'\1Clauses', text)
    return text


def main():
    plain, before = rows()
    changed = 0
    for folder, folders, files in os.walk('crates'):
        folders[:] = sorted(d for d in folders if d != 'out')
        for name in sorted(files):
            if not name.endswith(('.antt', '.rt')):
                continue
            path = os.path.join(folder, name)
            crate = path.split(os.sep)[1]
            with open(path, encoding='utf-8') as f:
                text = f.read()
            new = turned(text, crate, plain, before if name.endswith('.antt') else {})
            if new != text:
                with open(path, 'w', encoding='utf-8') as f:
                    f.write(new)
                changed += 1
    for c in MOVED:
        old = f'crates/{c}/specs/Contracts.antt'
        if os.path.exists(old):
            os.rename(old, f'crates/{c}/specs/Clauses.antt')
    print(f'port_names: {changed} files changed')


if __name__ == '__main__':
    sys.exit(main())
