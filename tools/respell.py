#!/usr/bin/env python3
"""Respells the repository's own definitions and lemmas: words in snake case, as the toolchain's library has them.

    python3 tools/respell.py      # once, at the top, behind the toolchain's port.py

A name in mixed case that begins with a small letter, as `runAfterRow-append`, becomes `run_after_row-append`: in specs/ and
proofs/, in the clauses of src/, and in must-fail/. Names of types, facts and modules keep their capitals. Rust's names, strings
and numbers have none in the middle, so they stay as they are.
"""
import pathlib
import re

# what the toolchain's library calls its own, where an edit still has the older name
LIBRARY = {"getD": "get_or"}
NAME = re.compile(r"(?<![A-Za-z0-9_'])[a-z][A-Za-z0-9_₀-₉'-]*")


def respelled(name):
    if name in LIBRARY:
        return LIBRARY[name]
    if not re.search(r"(^|[-_])[a-z][a-z0-9]*[A-Z]", name):
        return name
    words = re.sub(r"(?<=[a-z0-9])([A-Z]+)", lambda m: "_" + m.group(1).lower(), name)
    return re.sub(r"(?<=[a-z])_or14", "_or_14", words)


def main():
    for path in sorted(pathlib.Path("crates").rglob("*")):
        if path.suffix not in (".antt", ".rt", ".edit") or "out" in path.parts:
            continue
        text = path.read_text()
        turned = NAME.sub(lambda m: respelled(m.group()), text)
        if path.suffix == ".edit":
            # a projection is written tight, and an operator has a circle for each argument
            turned = re.sub(r"\((\w+) \.(\w+)", r"(\1.\2", turned)
        if turned != text:
            path.write_text(turned)


main()
