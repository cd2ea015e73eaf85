#!/usr/bin/env python3
"""Respells this repository's own definitions and lemmas as Rattle spells names.

usage: python3 tools/respell.py [--list]      at the top of the repository, after the kit's port.py

A name that an .antt file of this repository declares and that has a dash gets snake case (first-place: first_place), or upper camel case
where it begins with a capital (Dump-of: DumpOf). Names that the checker makes (goals, invariants, steps) and names of the libraries keep
their spelling, in each file that imports them. Files of specs/ and proofs/, ghost parts of src/ and edits are turned; strings are not, and of
comments only code spans. It stops, and writes nothing, where two names would fall together. --list only prints the names.
"""
import collections
import os
import re
import sys

# names that are more than a matter of dashes
OTHER = {"getD-again": "get_or_again", "in-getD": "in_get_or", "closed-N": "closed_n", "are-N": "are_n", "grown-N": "grown_n"}
NAME = r"[^\s(){}.;,@\"«»:]+"
DECLARED = re.compile(r"\s*(?:(?:abbrev|pub|unfoldable|data|record|ruleset)\s+)*(" + NAME + r")\s*(?::(?!:)|[({].*:)")
BOUND = re.compile(r"\s*(?:(?:abbrev|pub)\s+)*(" + NAME + r")(?:\s[^=]*)?\s=\s")
MADE = re.compile(r"(?:loop-|returns-|invariant-|invariant_of-|decreases-|overflow-|offset-bounds-|bounds-|.*-requires)")
TOKEN = re.compile(r"[^\s(){}.;,@\"«»]+")
LIBRARY = re.compile(r"use\s+(?:Rattle\.std|Prim|denote|mathlib|native|lib|logic)\.[^\n]*")


def files(root):
    for folder, dirs, names in os.walk(root):
        dirs[:] = sorted(d for d in dirs if d != "out")
        for name in sorted(names):
            if name.endswith((".antt", ".rt", ".edit")):
                yield os.path.join(folder, name)


def code_of(line):
    """The part of a line of .antt that is no comment."""
    m = re.search(r"(?:^|\s)--(?:\s|$)", line)
    return line[: m.start()] if m else line


def declared(path, text):
    for line in text.split("\n"):
        line = code_of(line)
        m = DECLARED.match(line) or BOUND.match(line)
        if m and m[1] not in ("use", "ghost", "module", "mod", "mutual", "let"):
            yield m[1]


def camel(name):
    return "".join(part[:1].upper() + part[1:] for part in name.split("-"))


def new_of(name):
    if name in OTHER:
        return OTHER[name]
    return camel(name) if name[0].isupper() else name.replace("-", "_")


def turned(path, text, table):
    """The text with each own name turned, but for strings, comments and the names that the file has from a library."""
    kept = {w for m in LIBRARY.finditer(text) for w in TOKEN.findall(m[0])}
    marks = "--" if path.endswith(".antt") else "//"

    def words(part):
        return TOKEN.sub(lambda m: m[0] if m[0] in kept else table.get(m[0], m[0]), part)

    out = []
    for line in text.split("\n"):
        m = re.search(r"(?:^|(?<=\s))" + marks + r"(?:\s|$)", line)
        code, note = (line[: m.start()], line[m.start() :]) if m else (line, "")
        pieces = re.split(r'("(?:[^"\\]|\\.)*")', code)
        code = "".join(p if i % 2 else words(p) for i, p in enumerate(pieces))
        out.append(code + re.sub(r"`[^`]*`", lambda s: words(s[0]), note))
    return "\n".join(out)


def main():
    texts = {}
    for path in files("crates"):
        with open(path, encoding="utf-8") as f:
            texts[path] = f.read()
    own, every = collections.OrderedDict(), set()
    for path, text in texts.items():
        if path.endswith(".antt"):
            for name in declared(path, text):
                every.add(name)
                if "-" in name and re.match(r"[A-Za-z]", name) and not MADE.match(name):
                    own[name] = new_of(name)
    fallen = collections.defaultdict(set)
    for old, new in own.items():
        fallen[new].add(old)
        if new in every:
            fallen[new].add(new)
    together = {n: o for n, o in fallen.items() if len(o) > 1}
    if "--list" in sys.argv:
        for old, new in sorted(own.items()):
            print(old, new)
    for new, olds in sorted(together.items()):
        print("fall together:", new, sorted(olds))
    if together or "--list" in sys.argv:
        raise SystemExit(1 if together else 0)
    count = 0
    for path, text in texts.items():
        after = turned(path, text, own)
        if after != text:
            count += 1
            with open(path, "w", encoding="utf-8") as f:
                f.write(after)
    print(len(own), "names,", count, "files")


if __name__ == "__main__":
    main()
