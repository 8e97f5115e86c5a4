#!/usr/bin/env python3
"""Brings the names of definitions, lemmas and bound variables to Rattle's spelling: words in snake case.

usage: python3 tools/respell.py        at the top of the repository, once, after port.py of the kit

`rowIs` becomes `row_is`, and `length-lowBytes` becomes `length-low_bytes`: a dash joins two names and stays. Types and facts have
their capital already. Where a definition would come to have the name of a lemma, the lemma gets `_lem`. Functions of src/, strings
and what stands behind a dot in a path to a generated module keep their names. It touches crates/, more-edits/ and the pages.
"""

import glob
import re
import sys

TOKEN = re.compile(r"[^\s(){}\[\].,;:λ→×`\"|·/]+")
CAMEL = re.compile(r"[a-z][a-z0-9]*([A-Z][a-z0-9]*)+'*")
HEAD = re.compile(r"^\s*(?:(?:abbrev|unfoldable|pub|data|record|ruleset)\s+)*([^\s(){}\[\].,;:λ→×`\"|]+)\s*(?:[({].*)?\s:\s")


def snake(part):
    return re.sub(r"(?<=[a-z0-9])[A-Z]", lambda m: "_" + m.group(0).lower(), part) if CAMEL.fullmatch(part) else part


def respelled(name):
    return "-".join(snake(p) for p in name.split("-"))


def proofs():
    return sorted(glob.glob("crates/**/*.antt", recursive=True))


def declared():
    """The names that specs/ and the lemma files declare."""
    names = set()
    for path in proofs():
        if path.endswith("/Proof.antt"):
            continue
        for line in open(path, encoding="utf-8"):
            m = HEAD.match(line)
            if m and not line.startswith("--"):
                names.add(m.group(1))
    return names


def turn(text, lemmas):
    def one(m):
        name = m.group(0)
        new = respelled(name)
        if new == name and name in lemmas and m.string[m.start() - 1 : m.start()] != ".":
            return name + "_lem"
        return new

    return TOKEN.sub(one, text)


def unquoted(text, lemmas):
    """The text with all but its strings turned."""
    return "".join(part if i % 2 else turn(part, lemmas) for i, part in enumerate(re.split(r'("(?:[^"\\\n]|\\.)*")', text)))


def main():
    names = declared()
    turned = {respelled(n) for n in names if respelled(n) != n}
    lemmas = {n for n in names if n in turned}
    n = 0
    for path in proofs():
        n += write(path, lambda t: turn(t, lemmas))
    for path in sorted(glob.glob("crates/*/src/**/*.rt", recursive=True)):
        n += write(path, lambda t: unquoted(t, set()))
    for path in sorted(glob.glob("crates/*/must-fail/*.edit") + glob.glob("more-edits/*/*.edit")):
        n += write(path, lambda t: edit(t, lemmas))
    for path in ["README.md"] + sorted(glob.glob("docs/*.md")):
        n += write(path, lambda t: re.sub(r"`[^`\n]*`", lambda m: turn(m.group(0), set()), t))
    print(f"respell: {n} files changed; lemmas that got _lem: {', '.join(sorted(lemmas)) or 'none'}")


def edit(text, lemmas):
    """A must-fail edit: its file's name stays, and the rest is turned as that file is."""
    first, _, rest = text.partition("\n")
    return first + "\n" + (turn(rest, lemmas) if first.rstrip().endswith(".antt") else unquoted(rest, set()))


def write(path, change):
    with open(path, encoding="utf-8") as f:
        old = f.read()
    new = change(old)
    if new != old:
        with open(path, "w", encoding="utf-8") as f:
            f.write(new)
    return new != old


if __name__ == "__main__":
    sys.exit(main())
