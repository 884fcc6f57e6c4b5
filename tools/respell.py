#!/usr/bin/env python3
"""Brings the project's own definitions and lemmas to snake case, after the kit's port.py.

usage: python3 tools/respell.py [ROOT]

Run once, on what port.py left. A name in lower camel case, or a part of one between dashes, gets
underscores: firstTaken-one becomes first_taken-one. Types and modules keep their capital. Text in
quotes keeps its spelling, and so do the functions of src/, which were in snake case before. Edits of
must-fail/ are respelled like the files that they name.
"""

import os
import re
import sys

STRING = re.compile(r'"(?:[^"\\]|\\.)*"')
# The library's getD is get_or now; a fact that was spelled as a value.
OWN = {"getD": "get_or"}
FACTS = {"crates/green/proofs/FinalLaws.antt": {"near": "Near"}}


def snake(name):
    if not re.match(r"[a-z]", name) or not re.search(r"[A-Z]", name):
        return name
    return OWN.get(name) or re.sub(r"(?<=[a-z0-9'])([A-Z]+)", lambda m: "_" + m.group(1).lower(), name)


def words(text, facts):
    def one(m):
        return facts.get(m.group(0)) or snake(m.group(0))

    # A fact's name stands alone, not before a dash.
    def named(m):
        whole = m.group(0)
        if "-" in whole:
            return "-".join(snake(p) for p in whole.split("-"))
        return one(m)

    return re.sub(r"[^\W\d][\w']*(?:-[\w']+)*", named, text)


def outside_quotes(text, facts):
    at, made = 0, []
    for m in STRING.finditer(text):
        made += [words(text[at : m.start()], facts), m.group(0)]
        at = m.end()
    return "".join(made + [words(text[at:], facts)])


def respelled(path, text, facts):
    """Comments have quotes that don't close on their line: each line is taken by itself."""
    if path.endswith(".antt"):
        return "".join(words(line, facts) for line in text.splitlines(keepends=True))
    return "".join(outside_quotes(line, facts) for line in text.splitlines(keepends=True))


def main(root):
    changed = 0
    for folder, folders, names in os.walk(os.path.join(root, "crates")):
        folders[:] = sorted(f for f in folders if f != "out")
        for name in sorted(names):
            if not name.endswith((".antt", ".rt", ".edit")):
                continue
            path = os.path.join(folder, name)
            with open(path, encoding="utf-8") as f:
                text = f.read()
            made = respelled(path, text, FACTS.get(os.path.relpath(path, root), {}))
            if made != text:
                changed += 1
                with open(path, "w", encoding="utf-8") as f:
                    f.write(made)
    print(f"{changed} files respelled")


if __name__ == "__main__":
    main(sys.argv[1] if len(sys.argv) > 1 else ".")
