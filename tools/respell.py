#!/usr/bin/env python3
"""Spells the definitions and lemmas of specs/ and proofs/ as the library does.

usage: python3 tools/respell.py [--list]     at the top of the repository; --list says what it would rename

A function, a lemma, a field and a constructor are in snake case; a type and a module keep their camel case. A dash stays
only between a word of the library and a definition of ours, as in length-field. Names of Rust, of the goals that the check
makes, strings, inputs and outputs are not touched. Run it once, right after the kit's port.py.
"""

import os
import re
import sys

# A character of a name, in clauses and in files of specs/ and proofs/.
NAME = r"[^\s(){}\[\],;.:λ→×≡∷=|\"`]"
TOKEN = re.compile(NAME + "+")
DECLARED = re.compile(r"^ *(?:(?:abbrev|unfoldable|private|pub|data|record)\s+)*(" + NAME + r"+)\s*(?:[({][^)}]*[)}]\s*)*:\s")
# A word, and what it means.
ROW = re.compile(r"^(--     \S.*?)\s{3,}(\S.*)$")
# Words of the library that a lemma's name may begin with, before a dash.
LIBRARY = {"length", "take", "drop"}
# Lemmas that would fall together with the definition, or the function of src/, that they are about.
LEMMAS = {"in-range", "for-ports", "one_more", "counts-add-up", "not-always-best", "places-stay-apart", "takes-every-list"}
# A lemma named after a word of the old library, by the word's name in today's.
OF_LIBRARY = {"getD-bare": "get_or_bare"}


def crates(root):
    top = os.path.join(root, "crates")
    return sorted(c for c in os.listdir(top) if os.path.isdir(os.path.join(top, c, "src")))


def files(root, ends):
    for crate in crates(root):
        for folder, dirs, names in os.walk(os.path.join(root, "crates", crate)):
            dirs[:] = sorted(d for d in dirs if d not in ("out", "target"))
            for name in sorted(names):
                if name.endswith(ends):
                    yield os.path.join(folder, name)


def read(path):
    with open(path, encoding="utf-8") as f:
        return f.read()


def declared(root):
    """The names that the files of definitions and lemmas declare, but for those of goals."""
    for path in files(root, ".antt"):
        inside = os.path.relpath(path, os.path.join(root, "crates")).split(os.sep)
        if len(inside) == 3 and inside[2] != "Lib.antt":
            for line in read(path).splitlines():
                m = DECLARED.match(line)
                if m and m.group(1) not in ("use", "--"):
                    yield m.group(1)


def snake(name):
    return re.sub(r"([a-z0-9])([A-Z])", lambda m: m.group(1) + "_" + m.group(2).lower(), name)


def spelled(name, names):
    if name in OF_LIBRARY:
        return OF_LIBRARY[name]
    if name[0].isupper():
        return name
    parts = name.split("-")
    joint = "-" if len(parts) == 2 and parts[0] in LIBRARY and parts[1] in names else "_"
    return joint.join(snake(p) for p in parts) + ("_lem" if name in LEMMAS else "")


def table(root):
    names = set(declared(root))
    renamed = {n: spelled(n, names) for n in names}
    renamed = {old: new for old, new in renamed.items() if old != new}
    for old, new in sorted(renamed.items()):
        if new in names - set(renamed) or list(renamed.values()).count(new) > 1:
            raise SystemExit(f"respell: {old} and another name would both be {new}")
    return renamed


def turn(text, renamed, comment):
    """The text in the new spelling; of a comment only the names with no dash, since a dash may be a hyphen there."""

    def word(m):
        return renamed.get(m.group(0), m.group(0))

    def word_of_comment(m):
        return m.group(0) if "-" in m.group(0) else word(m)

    def line_of(line):
        code, mark, said = line.partition(comment)
        if comment == "//" and '"' in code:
            return line
        return TOKEN.sub(word, code) + mark + TOKEN.sub(word_of_comment, said)

    return aligned([line_of(line) for line in text.split("\n")])


def aligned(lines):
    """The lines, where those at the head of a file that say what its words mean begin their texts in one column."""
    rows = {i: m for i, m in enumerate(map(ROW.match, lines)) if m}
    if rows:
        column = max(len(m.group(1)) for m in rows.values()) + 4
        for i, m in rows.items():
            lines[i] = m.group(1).ljust(column) + m.group(2)
    return "\n".join(lines)


def main():
    root = os.getcwd()
    renamed = table(root)
    if "--list" in sys.argv[1:]:
        for old, new in sorted(renamed.items()):
            print(old, new)
        return
    for path in files(root, (".antt", ".rt", ".edit")):
        old = read(path)
        new = turn(old, renamed, "--" if path.endswith(".antt") else "//")
        if new != old:
            with open(path, "w", encoding="utf-8") as f:
                f.write(new)
    print(f"respell: {len(renamed)} names")


main()
