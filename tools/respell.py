#!/usr/bin/env python3
"""Brings the repository's own definitions and lemmas to snake case: run once at the top, after the kit's port.py. tools/respell.txt has a line a
name, 'OLD NEW', and where the name is another's elsewhere 'OLD NEW FILE': then it is renamed in the files whose path ends so, and nowhere else.
Turned are the files of specs/ and proofs/, in src/ the words of clauses, imports and comments, the texts of the must-fail edits, and what tests/ and
docs/ cite. Functions of src/, strings, inputs and outputs keep their names: a name of Rust has no capital inside and no dash."""

import os
import re
import sys

WORD = re.compile(r"[A-Za-z_][A-Za-z0-9_']*(?:-[A-Za-z0-9_][A-Za-z0-9_']*)*")
CAMEL = re.compile(r"[a-z0-9][A-Z]")


def table(path):
    every, some = {}, []
    for line in open(path, encoding="utf-8"):
        words = line.split()
        if not words or words[0].startswith("#"):
            continue
        if len(words) == 2:
            every[words[0]] = words[1]
        else:
            some.append(tuple(words))
    return every, some


def names_of(path, every, some):
    mine = {old: new for old, new, file in some if path.endswith(file)}
    return {**every, **mine}


def turned(text, names, taken=lambda w: True):
    return WORD.sub(lambda m: names[m[0]] if m[0] in names and taken(m[0]) else m[0], text)


def antt(text, names):
    """A library's name that a file imports is not the repository's."""
    theirs = set()
    for m in re.finditer(r"(?m)^(?:ghost )?use ([\w.]+)\.\{([^}]*)\}", text):
        if not re.match(r"Rattle\.(?!std\b)", m[1]):
            theirs |= set(WORD.findall(m[2]))
    return by_line(text, "--", names, lambda w: w not in theirs)


def by_line(text, mark, names, taken=lambda w: True):
    """Comments are prose."""
    return "\n".join(plain(l, names) if l.lstrip().startswith(mark) else turned(l, names, taken) for l in text.split("\n"))


def edit(text, names):
    return by_line(text, "#", names)


def rt(text, names):
    out = []
    for line in text.split("\n"):
        ghost = line.startswith("ghost use ")
        out.append(turned(line, names, lambda w: ghost or ("-" not in w and CAMEL.search(w))))
    return "\n".join(out)


def plain(text, names):
    """In prose a word with a dash is a name only between backquotes."""
    text = turned(text, names, lambda w: CAMEL.search(w))
    return re.sub(r"`[^`\n]*`", lambda m: turned(m[0], names), text)


def files(top):
    for base in ("crates", "tests", "docs", "samples"):
        for folder, dirs, names in os.walk(os.path.join(top, base)):
            dirs[:] = sorted(d for d in dirs if d not in ("out", "records", "second_judge"))
            for name in sorted(names):
                yield os.path.join(folder, name)
    yield os.path.join(top, "README.md")


def main():
    here = os.path.dirname(os.path.abspath(__file__))
    top = sys.argv[1] if len(sys.argv) > 1 else os.path.dirname(here)
    every, some = table(os.path.join(here, "respell.txt"))
    count = 0
    for path in files(top):
        names = names_of(path, every, some)
        if path.endswith(".antt"):
            how = antt
        elif path.endswith(".rt"):
            how = rt
        elif path.endswith(".edit"):
            how = edit
        elif path.endswith((".md", "claims.txt", "constants.txt", "claims.awk", "constants.awk", "widths.awk")):
            how = plain
        else:
            continue
        text = open(path, encoding="utf-8").read()
        new = how(text, names)
        if new != text:
            open(path, "w", encoding="utf-8").write(new)
            count += 1
    print(f"respell: {count} files changed")


main()
