"""What is checked of DECISIONS.md: its contents are its headings, and what it names in `` is somewhere in the sources. Of DEVELOPING.md: it
has every call in Rattle with its signature, and every crate with those that it knows. Of CHANGES.md: a note begins with two sentences
for users, and has no table."""
import re
from itertools import takewhile

from definitions.contracts import calls
from texts import NAME, ROOT, complain, headings, plain, read, seen


def signature(call):
    """What stands before the clauses, in one line where `rt fmt` makes more of it."""
    lines = takewhile(lambda line: not re.match(r" +(ensures|requires)\b", line), call.code)
    return " ".join(line.strip() for line in lines).replace("( ", "(").replace(", )", ")")


def developed(document):
    """The calls in Rattle, each with its signature; the crates, each with those that it knows."""
    text = read(document)
    there = {call.name + signature(call).split(f"fn {call.name.split('::')[-1]}")[1]
             for call in calls(ROOT) if not call.name.startswith("prushgoli::")}
    named = {name for row in re.findall(r"^\| (`.*?`) \| ", text, re.MULTILINE) for name in re.findall(r"`(\w+::[^`]*)`", row)}
    for name in sorted(there ^ named):
        complain(document, f"{'it does not name' if name in there else 'there is no'} {name}")
    known = {name: set(knows.split()) for name, knows in re.findall(r"^(\w+)(?: staticlib)?:([^#\n]*)", read("crates.txt"), re.MULTILINE)}
    above = set()
    for name, knows in re.findall(r"^\| \[(\w+)\]\(\.\./crates/\1\) \| [^|]* \| ([^|]*) \|$", text, re.MULTILINE):
        said = {"nothing": set(), "all above": set(above)}.get(knows, set(knows.split(", ")))
        if said != known.get(name):
            complain(document, f"the crate {name} knows {known.get(name)}")
        above.add(name)
    for name in sorted(set(known) - above):
        complain(document, f"it does not name the crate {name}")


def contents(document):
    """The list before the first section has every section, in order."""
    first, *_ = re.split(r"^## ", read(document), maxsplit=1, flags=re.MULTILINE)
    listed = [(title, anchor) for title, _, anchor in re.findall(r"^- \[([^]]*)\]\((#)([^)]*)\)", first, re.MULTILINE)]
    if listed != headings(document)[1:]:
        complain(document, "its contents are not its headings")


def known_names(document):
    """What stands in `` is in the sources: each of its words. `.._as_defined` stands for several names."""
    folders = [ROOT / folder for folder in ("crates", "tests", "bench", "evidence", "include", "examples", "programs")]
    paths = [*ROOT.glob("*"), *(path for folder in folders for path in folder.rglob("*") if "out" not in path.relative_to(ROOT).parts)]
    sources = [path for path in paths if path.is_file() and path.suffix != ".md"]
    said = [path for path in sources if path.name != "can-fail" and path.parent.name != "papers"]
    text = " ".join(path.read_text(encoding="utf-8", errors="replace") for path in said)
    words = set(re.findall(r"[\w-]+", text)) | {path.stem for path in sources} | {path.parent.name for path in sources}
    for name in NAME.findall(read(document)):
        seen["names"] += 1
        if not name.startswith("..") and not set(re.findall(r"[\w-]+", name)) <= words:
            complain(document, f"there is no {name}")


def notes(document):
    """Each note begins with two sentences for users; the tables are in bench/HISTORY.md."""
    for note in re.split(r"^## ", read(document), flags=re.MULTILINE)[1:]:
        title, first, rest = note.split("\n\n", 2)
        if first.startswith("- ") or len(re.findall(r"\.(?: |$)", plain(first))) != 2:
            complain(document, f"the note {title} does not begin with two sentences")
        if re.search(r"^ *\|", rest, re.MULTILINE):
            complain(document, f"the note {title} has a table")
