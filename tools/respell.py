#!/usr/bin/env python3
"""Spells this repository's own definitions and lemmas as today's Rattle does: words in snake case, types and modules in camel case.

usage: tools/respell.py        at the top of the repository, once, behind the toolchain's port.py

A name that a file of specs/ or proofs/ declares in camel case, as `nameBehind`, becomes `name_behind`, wherever it stands as a whole word: in
.antt and .rt files, in must-fail edits and trials, in .ci/grounds, and in the code spans of the documents. Names of the papers that had a dash for
their underscore, as VT-BOOL, get it back. Types, modules, functions of src/ and the names of libraries stay. A dash joins two words as it did.
Three lemmas would fall together with a definition; they keep the dash that they had.
"""
import os
import re

WORD = r'[^\s(){}.;,@"«»:\x60]+'
DECLARED = re.compile(r"(?m)^ *(?:(?:pub|abbrev|unfoldable|open) )*((?:" + WORD + r" )*?" + WORD + r")((?: [({][^\n]*[)}])*) :(?= |$)")
CAMEL = re.compile(r"(?<=[a-z0-9])[A-Z]")
PAPERS = re.compile(r"(?:VT|PARAMFLAG|IMPLTYPEFLAG|TYPEFLAG|FUNCFLAG|VARFLAG|TKIND)-[A-Z0-9]+")
DASHED = {"name_by": "name-by", "some_below": "some-below", "not_negative": "not-negative"}


def files(*ends):
    for top in ("crates", "docs", ".ci"):
        for folder, dirs, names in os.walk(top):
            dirs[:] = sorted(d for d in dirs if d not in ("out", ".git"))
            for name in sorted(names):
                if name.endswith(ends):
                    yield os.path.join(folder, name)


def read(path):
    with open(path, encoding="utf-8") as f:
        return f.read()


def snake(name):
    return CAMEL.sub(lambda m: "_" + m[0].lower(), name)


def declared():
    """The names in camel case that the repository's own lemma files declare, each with its new spelling."""
    table = {}
    for path in files(".antt"):
        for m in DECLARED.finditer(read(path)):
            for name in m[1].split():
                if not name[0].isupper() and CAMEL.search(name):
                    table[name] = snake(name)
    return table


def main():
    table = declared()
    word = re.compile(WORD)

    def turn(m):
        name = m[0]
        if name in table:
            return table[name]
        return name.replace("-", "_") if PAPERS.fullmatch(name) else name

    changed = 0
    for path in [*files(".antt", ".rt", ".edit", ".md"), "README.md", ".ci/grounds"]:
        text = read(path)
        new = text
        if path.endswith(".antt"):
            new = word.sub(lambda m: DASHED.get(m[0], m[0]), new)
        if path.endswith(".md"):
            new = re.sub(r"\x60[^\x60\n]+\x60", lambda s: word.sub(turn, s[0]), new)
        else:
            new = word.sub(turn, new)
        if new != text:
            with open(path, "w", encoding="utf-8") as f:
                f.write(new)
            changed += 1
    print(f"respell: {len(table)} names, {changed} files")


main()
