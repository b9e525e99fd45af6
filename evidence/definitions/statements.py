"""What the statements of proofs/ speak of: of demands all that are public, of other crates those that docs/INSPECTION.md names. Files
Examples.antt state worked cases, demands/proofs/Between.antt what is shown of calls between the crates.

A statement ends where its proof begins. It stands in modules, whose suppositions it has, and behind abbreviations that it may use.
"""
import re

from definitions.files import files_of
from definitions.scope import Scope
from reading import lines_of

START = re.compile(r"(pub|abbrev|module) (?!data |record )(\S+)")
NAMED = re.compile(r"\[([^]]*)\]\(\.\./(crates/\w+/proofs/[\w/]+\.antt)\)")


def pieces(lines):
    """Modules, abbreviations and public statements: depth, kind, name, and the lines of each."""
    piece = None
    for line in [*lines, ""]:
        depth, text = len(line) - len(line.lstrip()), line.strip()
        start = START.match(text)
        if piece and (start or not text or ends(piece, depth, text)):
            yield piece
            piece = None
        if start:
            piece = depth, start[1], start[2], []
        if piece and not text.startswith("--"):
            piece[3].append(text)


def ends(piece, depth, text):
    """Another line than those of the piece: behind a module's `where`, or the first of a law's proof."""
    indent, kind, name, lines = piece
    if kind == "module":
        return lines[-1].endswith(" where")
    return kind == "pub" and depth <= indent and (text.startswith("unfolding ") or text.split()[0] == name)


def stated_in(path, laws=None):
    """The places that statements name: those of the laws, or all."""
    lines = lines_of(path)
    scope, around = Scope(path, lines), []
    for depth, kind, name, text in pieces(lines):
        around = [(outer, places) for outer, places in around if outer < depth]
        places = set(scope.used(" ".join(text)))
        if kind != "pub":
            around.append((depth if kind == "module" else depth - 1, places))
        elif laws is None or name in laws:
            yield from places.union(*(outer for _, outer in around))


def named_laws(root):
    """The laws in the links of INSPECTION.md, by file."""
    laws = {}
    for words, path in NAMED.findall("\n".join(lines_of(root / "docs/INSPECTION.md"))):
        laws.setdefault(path, set()).update(re.findall(r"`([^` ]+)`", words))
    return laws


def kind_of(path):
    return {"Examples.antt": "worked", "Between.antt": "between"}.get(path.name, "stated")


def stated(root, kind):
    """The places that the statements of a kind name: stated, worked or between."""
    for path in files_of(root, "demands", "proofs", ".antt"):
        if kind_of(path) == kind:
            yield from stated_in(path)
    for path, laws in named_laws(root).items():
        if kind_of(root / path) == kind:
            yield from stated_in(root / path, laws)
