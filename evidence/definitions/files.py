"""The definitions of crates/*/specs, and the enums and structs of crates/*/src that they use, as the files have them.

A definition has the comment above it; where none stands directly above, the comment before it in the file is its too. A comment may end
with a mark, [3.2] or [3.2, 3.4]: the rules of docs/FORMAT.md that the definition says. In src/ it is the same with an enum or struct.
"""
import re
from collections import namedtuple

from definitions.scope import TOKEN, Place, Scope
from reading import lines_of, require

MARK = re.compile(r" \[(\d+\.\d+(?:, \d+\.\d+)*)\]$")
HEAD = " Assumes nothing."

# where it stands; the number of its comment in the file; the comment and the text, both without marks; the rules; what it uses
Definition = namedtuple("Definition", "crate folder file names group comment code rules uses words")


def marks(lines):
    return tuple(rule for line in lines if (found := MARK.search(line)) for rule in found[1].split(", "))


def proper(lines, sign):
    """The lines without those that are blank, or a comment alone."""
    return [line for line in lines if line.strip() and not line.lstrip().startswith(sign)]


def bare(lines, sign):
    """Their text without comments."""
    return "\n".join(line.split(sign)[0] for line in lines)


def lines_proper(definition):
    return len(proper(definition.code, "--" if definition.folder == "specs" else "//"))


def declared(code):
    """The names that lines declare; constructors and fields with the data or record that they are part of."""
    names, parts, outer = [], {}, None
    for line in proper(code, "--"):
        indent, text = len(line) - len(line.lstrip()), line.strip()
        if outer and indent > outer[0]:
            if found := re.match(r"(?:pub )?([^\s()]+) :", text):
                parts[found[1]] = outer[1]
            continue
        outer = None
        if found := re.match(r"(?:pub )?(?:data|record) ([^\s{]+)", text):
            outer = indent, found[1]
        elif not (found := re.match(r"(?:abbrev |unfoldable )?(?:pub )?([^\s()]+) :", text)):
            continue
        names.append(found[1])
    return names, parts


def blocks(lines):
    """Comments and declarations of a file of specs/. A declaration goes on as long as what follows a blank line is indented."""
    block = []
    for line, after in zip(lines, lines[1:] + [""]):
        if line.startswith("use ") or not line.strip() and not after.startswith(" "):
            kind, ended = None, True
        else:
            kind = "comment" if line.startswith("--") else "code"
            ended = bool(block) and block[0].startswith("--") != (kind == "comment")
        if ended and block:
            yield block
            block = []
        if kind:
            block.append(line)
    if block:
        yield block


def read_specs(crate, file, path):
    """The definitions of a file of specs/, each with all its names."""
    lines = lines_of(path)
    scope, found, comment, group, own = Scope(path, lines), [], [], 0, {}
    for block in blocks(lines):
        if block[0].startswith("--"):
            comment, group = block, group + 1
            continue
        names, parts = declared(block)
        require(names, f"{path}: nothing is declared by: {block[0]}")
        own.update({word: Place(crate, "specs", file, name) for name in names for word in (name, name.strip("◌"))})
        own.update({part: Place(crate, "specs", file, name) for part, name in parts.items()})
        found.append((names, group, comment, block))
    scope.names.update(own)
    for names, group, comment, block in found:
        text = bare(block, "--")
        yield Definition(crate, "specs", file, tuple(names), group, spoken(comment, "--"), unmarked(block), marks(comment + block),
                         frozenset(scope.used(text)), frozenset(scope.words & set(TOKEN.findall(text))))


def spoken(comment, sign):
    """A comment without its signs, its mark, and what the head of a file of specs/ says of all its text."""
    return " ".join(line.strip().removeprefix(sign).strip() for line in unmarked(comment)).removesuffix(HEAD)


def unmarked(lines):
    return tuple(MARK.sub("", line) for line in lines)


def read_src(crate, file, path):
    """The enums and structs of a source file."""
    lines = lines_of(path)
    starts = {at: found[1] for at, line in enumerate(lines) if (found := re.match(r"pub(?:\(crate\))? (?:enum|struct) (\w+) \{$", line))}
    types = {name: place_of(crate, found[1], name) for line in lines if (found := re.match(r"use (\S+)::\{?([\w, ]+)\}?;", line))
             for name in found[2].split(", ")}
    types |= {name: Place(crate, "src", file, name) for name in starts.values()}
    for at, name in starts.items():
        first, code = at, lines[at:lines.index("}", at) + 1]
        while first and lines[first - 1].startswith(("//", "#[")):
            first -= 1
        above = [line for line in lines[first:at] if line.startswith("//")]
        uses = frozenset(types[used] for used in re.findall(r"\w+", bare(code, "//")) if used in types)
        yield Definition(crate, "src", file, (name,), at, spoken(above, "//"), unmarked(code), marks(above + code),
                         uses, frozenset())


def place_of(crate, module, name):
    """Where `use module::name` leads: crate::file, or another crate and its file."""
    first, *files = module.split("::")
    return Place(crate if first == "crate" else first, "src", "/".join(files) or "lib", name)


def crates_of(root):
    """The crates in the order of crates.txt: each behind those that it knows."""
    return [line.split(":")[0].split()[0] for line in lines_of(root / "crates.txt") if ":" in line]


def files_of(root, crate, folder, ending):
    return sorted((root / "crates" / crate / folder).rglob(f"*{ending}"))


def file_of(root, path):
    """The name that `use` lines have for a file, below its crate's folder."""
    return path.relative_to(root / "crates").with_suffix("").as_posix().split("/", 2)[2]


class Definitions:
    """All of them in the order of the crates, and by the place of each name."""

    def __init__(self, root):
        self.all = []
        for crate in crates_of(root):
            for folder, ending, read in (("src", ".rt", read_src), ("specs", ".antt", read_specs)):
                for path in files_of(root, crate, folder, ending):
                    if path.name != "Lib.antt":
                        self.all += read(crate, file_of(root, path), path)
        self.at = {Place(one.crate, one.folder, one.file, name): one for one in self.all for name in one.names}

    def closed(self, places):
        """The definitions at these places, and all that they use."""
        found, left = set(), [place for place in places if place.folder != "proofs"]
        while left:
            place = left.pop()
            place = place if place in self.at else self.whole(place)
            if self.at[place] not in found:
                found.add(self.at[place])
                left += self.at[place].uses
        return found

    def whole(self, place):
        """The data or record that has a constructor of this name."""
        for one in self.all:
            if (one.crate, one.folder, one.file) == place[:3] and place.name in declared(one.code)[1]:
                return place._replace(name=declared(one.code)[1][place.name])
        require(False, f"crates/{place.crate}/{place.folder}/{place.file} has no {place.name}")
