"""Reading the documents, and what is checked of all: every link leads to a file, and to a heading there, the names in a link are that
file's or stand in it; "and 3 more" behind a law counts the laws of its kind in demands; and there is no count that only a run of a test
knows."""
import pathlib
import re

ROOT = pathlib.Path(__file__).resolve().parent.parent.parent
LINK = re.compile(r"\[([^]]*)\]\(([^)#]*)(?:#([^)]+))?\)")
NAME = re.compile(r"`([^` ]+)`")
problems = []
seen = {"links": 0, "names": 0, "quotes": 0, "counts": 0}


def complain(where, what):
    problems.append(f"{where}: {what}")


def read(path):
    return (ROOT / path).read_text(encoding="utf-8")


def plain(text):
    return " ".join(text.split())


def holds(path, name):
    """The file declares the name, in the prover's language; another file has it, not as a part of a longer one."""
    declared = rf"^\s*(?:(?:abbrev |unfoldable )?pub |abbrev |unfoldable )?(?:data |record )?{re.escape(name)}(?: :| \(|$)"
    anywhere = rf"(?<![\w-]){re.escape(name)}(?![\w-])"
    return re.search(declared if str(path).endswith(".antt") else anywhere, read(path), re.MULTILINE) is not None


def headings(path):
    """The headings of a document, each with the anchor that leads to it."""
    found = re.findall(r"^#+ (.*)$", read(path), re.MULTILINE)
    return [(title, re.sub(r"[^\w -]", "", title.lower()).replace(" ", "-")) for title in found]


def linked(document, text):
    """The files that a text links to, each held to the names and the heading in its link."""
    files = []
    for words, target, anchor in LINK.findall(text):
        if ":" in target:
            continue
        seen["links"] += 1
        path = (ROOT / document).parent.joinpath(target).resolve() if target else ROOT / document
        if not path.exists():
            complain(document, f"no file {target}")
            continue
        files += [path] if target else []
        if anchor and anchor not in [there for _, there in headings(path)]:
            complain(document, f"no heading {anchor} in {path.name}")
        for name in NAME.findall(words):
            seen["names"] += 1
            if name != path.stem and not holds(path, name):
                complain(document, f"no {name} in {target}")
    return files


def counted(document):
    """`one-meets`, `other-meets` and 3 more: demands have five laws with that ending."""
    laws = "".join(path.read_text(encoding="utf-8") for path in ROOT.glob("crates/demands/proofs/*.antt"))
    for named, more in re.findall(r"((?:\[?`[\w-]+`(?:\]\([^)]*\))?,? )+)and (\d+) more", plain(read(document))):
        names = NAME.findall(named)
        ending = re.split("[-_]", names[-1])[-1]
        there = len(re.findall(rf"^pub [\w-]+[-_]{ending} :", laws, re.MULTILINE))
        seen["counts"] += 1
        if there != len(names) + int(more):
            complain(document, f"there are {there} laws that end with -{ending}")


def uncounted(document):
    """Counts that change with the tests and that nothing holds."""
    count = re.compile(r"\b\d[\d,]* (?:faults|traces|comparisons)\b|\b\d+,\d+ (?:lines|calls|frames)\b|\bmillion\b")
    for found in count.findall(plain(read(document))):
        complain(document, f"a count that no test holds: {found}")
