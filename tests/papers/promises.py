"""What is checked of PROMISES.md. An entry is a promise, whose first words are bold and whose last are its demands, and three lists. Said
by: definitions, a file of specs/ and its names, `crate/File: names`, parts divided by `;`. Shown by: laws of proofs/ in the same form,
and contracts of functions. Wrong programs refused: `crate/edit`. Every name is where it is said to be, no entry says else, and every
must-fail edit is named."""
import re

from texts import NAME, ROOT, complain, holds, plain, read, seen


def entries(document):
    """The entries of PROMISES.md: the promise, and its three lists as lists of parts."""
    paragraphs = [plain(paragraph) for paragraph in re.split(r"\n\s*\n", read(document).split("\n## ", 2)[2])]
    lists = re.compile(r"- Said by: (.*)\. - Shown by: (.*)\. - Wrong programs refused: (.*)\.")
    for promise, listed in zip(paragraphs, paragraphs[1:] + [""]):
        found = lists.fullmatch(listed)
        if bool(found) != promise.startswith("**"):
            complain(document, f"no promise with its three lists: {promise[:60]}")
        elif found:
            if not re.fullmatch(r"\*\*.+\*\*.* \(demands? [123](?:, [123])*(?: and [123])?(?:; 02, #\d+)?\)", promise):
                complain(document, f"a promise does not end with its demands: {promise[:60]}")
            yield promise, found[1].split("; "), found[2].split("; "), found[3].split(", ")


def named_in(document, folder, part):
    """`crate/File: names`: each of them stands in that file. A remark in brackets may follow a name."""
    found = re.fullmatch(r"([a-z_]+)/([A-Z]\w+): (`[^` ]+`(?: \([^()]*\))?(?:,? (?:`[^` ]+`|and \d+ more)(?: \([^()]*\))?)*)", part)
    if not found:
        complain(document, f"not read as names of a file: {part}")
        return
    path = f"crates/{found[1]}/{folder}/{found[2]}.antt"
    for name in NAME.findall(found[3]):
        seen["names"] += 1
        if not (ROOT / path).exists() or not holds(path, name):
            complain(document, f"no {name} in {path}")


def contracts_of(document, part):
    """`contracts of` functions: each is there, with its module, type or crate where these are said."""
    for name in NAME.findall(part):
        *where, function = name.split("::")
        called = function + (r"\w+\(" if function.endswith("_") else r"\(")
        homes = [path for path in ROOT.glob("crates/*/src/*.rt") if re.search(rf"fn {called}", path.read_text(encoding="utf-8"))]
        seen["names"] += 1
        if not any({path.stem, path.parts[-3]} & set(where) or holds(path, f"impl {'::'.join(where)}") or not where for path in homes):
            complain(document, f"no function {name}")


def promised(document):
    """Every definition, law, function and edit that PROMISES.md names is there; the number of its promises, and the edits."""
    edits = set()
    for promise, said, shown, refused in entries(document):
        seen["promises"] = seen.get("promises", 0) + 1
        for part in [] if said == ["the clauses beside it"] else said:
            named_in(document, "specs", part)
        for part in shown:
            if re.fullmatch(r"contracts? of (?:the )?`[\w:]+`(?:, `[\w:]+`)*(?: calls)?", part):
                contracts_of(document, part)
            else:
                named_in(document, "proofs", part)
        for edit in refused:
            edits.add(edit)
            if not re.fullmatch(r"[a-z]+/\w+", edit) or not (ROOT / f"crates/{edit.replace('/', '/must-fail/')}.edit").exists():
                complain(document, f"no edit {edit}: {promise[:60]}")
    return edits


def edits_named(document, inspection, named, rows):
    """Every must-fail edit is named by an entry of PROMISES.md or a row of INSPECTION.md, which says how many there are."""
    there = {f"{path.parent.parent.name}/{path.stem}" for path in ROOT.glob("crates/*/must-fail/*.edit")}
    for edit in sorted(there - named - {f"{crate}/{edit}" for _, edit, crate, *_ in rows}):
        complain(document, f"no entry names the edit {edit}")
    if f"There are {len(there)}," not in plain(read(inspection)):
        complain(inspection, f"there are {len(there)} must-fail edits")
    return len(there)
