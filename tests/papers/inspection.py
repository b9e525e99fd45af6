"""What is checked of INSPECTION.md: a quote stands word for word in the file linked last before it; it says how many calls there are, and
how many must-fail edits and rows its table of wrong programs has. Where what the gate printed is given, the first error named in a row is the one
that it says of its edit, and each row is printed, `five:` for document 01's five wrong programs, whose names are bold, `refused:` for the
others:

    refused: PROGRAM | CRATE/EDIT | LAW in crates/CRATE/FOLDER/FILE | BY WHAT

It counts the lines of definition proper, without imports, comments and blank lines, in five lists. A list starts with its sum, one of

    N lines of definition in M files, for the documents' calls
    N lines of definition in M files, in the words of the toolchain's logic
    N lines of definition in M files, for worked cases alone
    N lines of definition in M files, for calls between the crates alone
    N lines of definition in M files, for inner functions and proofs alone

and goes to the next sum or heading. It has every file of specs/ that has such definitions, as a link with its lines of that kind behind:
[Rows](../crates/bits/specs/Rows.antt) 6. Which these are, evidence/definitions/reached.py says: the first are those that the contracts
of the calls in FORMAT.md lead to, the statements of demands/proofs, and the laws that INSPECTION.md links to.

Of FORMAT.md: every definition that is not in the second or the last list, and every enum and struct that it uses, names a rule in its
comment, [3.2]; every rule that is named is there; every rule is named by a definition of the first or third list, or says itself what
holds it (evidence/definitions/marks.py)."""
import re

from definitions.contracts import calls
from definitions.marks import problems as problems_of_marks
from definitions.reached import lines_by_file
from texts import NAME, ROOT, complain, linked, plain, problems, read, seen


def quotes(document):
    """Indented paragraphs are quotes from the file that was linked last before them."""
    source = None
    for paragraph in re.split(r"\n\s*\n", read(document)):
        if paragraph.startswith("    "):
            seen["quotes"] += 1
            if source is None or plain(paragraph) not in plain(read(source)):
                complain(document, f"not word for word in {source}: {plain(paragraph)[:60]}")
        else:
            files = linked(document, paragraph)
            source = files[-1] if files else source


def definitions(document, reached):
    """The lists of definitions: each with its sum, and with every file that it must have, and its lines."""
    text = plain(read(document))
    starts = sorted(found.start() for found in re.finditer(r"\d+ lines of definition in \d+ files, (?:for|in) |(?<= )## ", text))
    for what, chosen in (("for the documents' calls", reached.ours), ("in the words of the toolchain's logic", reached.logic),
                         ("for worked cases alone", reached.worked), ("for calls between the crates alone", reached.between),
                         ("for inner functions and proofs alone", reached.inner)):
        there = lines_by_file(chosen)
        total = f"{sum(there.values())} lines of definition in {len(there)} files, {what}"
        at = text.find(total)
        if at < 0:
            complain(document, f"of the definitions it must be said: {total}")
            continue
        end = min((start for start in starts if start > at), default=len(text))
        listed = dict(re.findall(r"\[\w+\]\(\.\./(crates/\w+/specs/[\w/]+\.antt)\) (\d+)", text[at:end]))
        for path in sorted(set(there) | set(listed)):
            if str(there.get(path, 0)) != listed.get(path, "0"):
                complain(document, f"{path} has {there.get(path, 0)} lines of definition {what}, not {listed.get(path, 'none')}")


def rules(reached):
    """Rules and definitions name each other."""
    problems.extend(problems_of_marks(reached))
    seen["rules"] = len(reached.rules)
    seen["definitions"] = sum(len(one.names) for one in reached.ruled | reached.between)


def public_calls(document, reached):
    """How many calls there are: for C, in Rattle, and between the crates, these by name."""
    there = {call.name for call in calls(ROOT)}
    asked = {call.name for call in reached.calls}
    for_c, between = {name for name in asked if name.startswith("prushgoli::")}, there - asked
    said = re.search(r"There are (\d+): (\d+) for C and (\d+) in Rattle\b.*? and (\d+) by which one crate calls another: ([^.;]*)",
                     plain(read(document)))
    numbers = [len(there), len(for_c), len(asked - for_c), len(between)]
    if not said or [int(number) for number in said.groups()[:4]] != numbers:
        complain(document, f"of the public calls, those for C, in Rattle and between the crates there are {numbers}")
        return
    named = {home for name in NAME.findall(said[5]) for home in between if home.endswith(f"::{name}")}
    for name in sorted(between - named):
        complain(document, f"it does not name {name} among the calls between the crates")


def wrong_programs(document):
    """The rows of the table of wrong programs: the program, its edit, the law or step and the file of the first error, by what."""
    row = re.compile(r"^\| ([^|]+) \| \[`(\w+)`\]\(\.\./crates/(\w+)/must-fail/\2\.edit\) "
                     r"\| `([^`]+)` in \[[^]]*\]\(\.\./(crates/\3/(?:proofs|src)/[^)]+)\) \| ([^|]+) \|$", re.MULTILINE)
    rows = row.findall(read(document))
    if len(rows) != read(document).count(".edit)"):
        complain(document, f"the table of wrong programs has {len(rows)} rows that can be read")
    if len({program.split("**")[1] for program, *_ in rows if "**" in program}) != 5:
        complain(document, "the table of wrong programs has not document 01's five")
    if f"For {len(rows)} of them" not in plain(read(document)):
        complain(document, f"the table of wrong programs has {len(rows)} rows")
    seen["wrong programs"] = len(rows)
    return rows


def first_errors(document, rows, log):
    """The first error of a wrong program: the law or step and its file, as the gate says them behind the edit's name."""
    refused = re.compile(r"^rt: must-fail (\w+/\w+)\.edit: refused, as it must be: (?:note: )?(?:\./)?(\S+?):\d+:\d+: (.*)$", re.MULTILINE)
    said = {edit: (file, error) for edit, file, error in refused.findall(read(log))}
    for _, edit, crate, name, path, _ in rows:
        file, error = said.get(f"{crate}/{edit}", ("", "none"))
        if f"crates/{crate}/{file}" != path or f"`{name}`" not in error:
            complain(document, f"the first error of {crate}/{edit} is: {file}: {error}")


def refusals(rows):
    """The rows as text without marks."""
    for program, edit, crate, name, path, what in rows:
        kind = "five" if "**" in program else "refused"
        yield f"{kind}: {re.sub(r'[`*]', '', f'{program} | {crate}/{edit} | {name} in {path} | {what}')}"
