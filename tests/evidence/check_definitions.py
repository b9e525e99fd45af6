"""Checks the page of definitions: by docs/FORMAT.md, by the files that it prints from, and that each definition that has to be believed
stands there once.

Usage: check_definitions.py PAGE
"""
import re
import sys
from collections import Counter
from pathlib import Path

from looking import check, check_commit, check_links, parsed, shown, text

ROOT = Path(__file__).resolve().parent.parent.parent
sys.path.insert(0, str(ROOT / "evidence"))

from definitions.reached import Reached

MARK = re.compile(r" \[\d+\.\d+(?:, \d+\.\d+)*\]$", re.MULTILINE)


def words(markdown):
    """A text without what only marks it up."""
    return re.sub(r"[`|\s]|\*\*|--\||\[([^]]*)\]\([^)]*\)", r"\1", markdown)


def check_rules(page):
    source = re.sub(r"^#.*$", "", (ROOT / "docs/FORMAT.md").read_text(encoding="utf-8"), flags=re.MULTILINE)
    rules = re.split(r"^\*\*(\d+\.\d+)\*\* ", source, flags=re.MULTILINE)[1:]
    there = [element.get("id").removeprefix("rule-") for element in page.iter() if element.get("id", "").startswith("rule-")]
    differ = ", ".join(sorted(set(there) ^ set(rules[::2])))
    check(there == rules[::2], f"page and docs/FORMAT.md differ in {f'rule {differ}' if differ else 'the order of the rules'}")
    for number, said in zip(rules[::2], rules[1::2]):
        element = page.find(f".//*[@id='rule-{number}']/*[@class='text']")
        check(words(text(element)) == words(number + said), f"rule {number} has another text")
    return len(there)


def printed(page):
    """All definitions on the page: the file and its names, and the text."""
    for block in page.iter("div"):
        if block.get("class") == "definition":
            file = text(block.find(".//*[@class='file']"))
            for pre in block.iter("pre"):
                yield file, (pre.get("data-names") or "").split(), text(pre)


def labels(chosen):
    """Files and names as the page has them."""
    return {(f"{one.crate}/{one.file}" if one.folder == "specs" else f"{one.crate}/src/{one.file}.rt", name)
            for one in chosen for name in one.names}


def file_of(label):
    crate, _, file = label.partition("/")
    return ROOT / "crates" / crate / (file if file.startswith("src/") else f"specs/{file}.antt")


def check_definitions(page):
    reached, there, lines = Reached(ROOT), Counter(), Counter()
    sides = {"ours": labels(reached.ours), "worked": labels(reached.worked), "helpers": labels(reached.between)}
    for file, names, code in printed(page):
        if not names:
            continue
        check(code.strip("\n") in MARK.sub("", file_of(file).read_text(encoding="utf-8")), f"{file}: {names} is not as in the file")
        there.update((file, name) for name in names)
        for side, needed in sides.items():
            if "/src/" not in file and (file, names[0]) in needed:
                lines[side] += sum(not re.match(r"\s*(--|$)", line) for line in code.splitlines())
    needed = set().union(*sides.values())
    for one in sorted(needed | set(there)):
        check(there[one] == (one in needed), f"{' '.join(one)} stands {there[one]} times on the page")
    for side in sides:
        count = [text(cell) for cell in page.find(f".//tr[@id='count-{side}']")][2]
        check(count == str(lines[side]), f"{count} lines of definition are said, {lines[side]} are there")
    return len(there)


def main(path):
    page = parsed(path, remarks=("//",))
    check(shown(page, "notation"), "no word list")
    rules, definitions = check_rules(page), check_definitions(page)
    check_links(page, {})
    check_commit(page)
    print(f"tests/evidence: {rules} rules, {definitions} definitions, each once and as in its file; nothing from outside")


if __name__ == "__main__":
    main(*sys.argv[1:])
