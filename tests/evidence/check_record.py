"""Checks what the page shows of the gate's record."""
import re
from pathlib import Path

from looking import check, found, numbers, shown, text

# Document 01, "How much a contract has to say".
FIVE = {"refuses everything", "a single fixed field", "writes nothing", "codes the first word and fills the rest",
        "reports an invented length"}


def record(folder, step, pattern):
    """All that the pattern finds in what a step of the gate printed."""
    return re.findall(pattern, (folder / step).read_text(encoding="utf-8"), re.MULTILINE)


def functions_in(path):
    """Those that are written, without a trait's own, which have no body, and those of a derived PartialEq or Debug."""
    text = re.sub(r"^(pub(\(crate\))? )?trait .*?^}$", "", path.read_text(encoding="utf-8"), flags=re.MULTILINE | re.DOTALL)
    derived = " ".join(re.findall(r"#\[derive.*", text))
    return len(re.findall(r"^[^/\n]*\bfn \w+[(<]", text, re.MULTILINE)) + len(re.findall(r"\b(PartialEq|Debug)\b", derived))


def check_gate(page, folder):
    edits, = record(folder, "ci", r"^rt: ok; .*; must-fail edits: (\d+) refused(?:, \d+ of them only by a limit)?; ")
    crates = len(record(folder, "ci", r"^rt: (\w+)(?: proved$| is kept: )"))
    functions = sum(map(functions_in, Path("crates").glob("*/src/**/*.rt")))
    (comparisons, differences), = record(folder, "compare", r"^compare: (\d+) comparisons, (\d+) differences$")
    said = {
        "gate-crates": crates, "gate-edits": edits, "gate-comparisons": comparisons, "gate-differences": differences,
        "gate-functions": functions,
        "gate-traces": record(folder, "trace", r"^tests/trace: (\d+) traces, ")[0],
        "gate-axioms-library": sum(map(int, record(folder, "lib", r"^logic=proved .*\baxioms=(\d+) "))),
        "gate-axioms-program": record(folder, "program", r"^logic=proved .*\baxioms=(\d+) ")[0],
    }
    for name, number in said.items():
        check(shown(page, name).replace(",", "") == str(number), f"{name} is {shown(page, name)}, in the gate's record {number}")
    check([shown(page, "gate-last")] == record(folder, "ci", r"^\d+ passed, 0 failed$"), "the closing line is another")
    check([shown(page, "toolchain")] == record(folder, "version", r"^rattle.*$"), "the toolchain is another")


def check_answers(page, folder):
    """Each cell is the record's, and rows and columns add up to the comparisons that the text says."""
    calls = record(folder, "compare", r"^(\w+)(?:, long)? +accepted (\d+), refused(.*)$")
    answers = [{0: int(accepted), **{int(number): int(count) for number, count in re.findall(r"(\d+): (\d+)", refused)}}
               for _, accepted, refused in calls]
    table = found(page, "answers")
    heads = [text(head) for head in table.find("thead")[0]][2:-1]
    check(heads == list(dict.fromkeys(name for name, _, _ in calls)), f"the calls compared are said to be {heads}")
    sums, total = [0] * len(calls), 0
    for row in table.findall("tbody/tr"):
        number = numbers(row[0])[0] if numbers(row[0]) else 0
        counts = [0 if text(cell) == "–" else numbers(cell)[0] for cell in row[2:]]
        check(counts[:-1] == [of_call.get(number, 0) for of_call in answers], f"answer {number}: {counts[:-1]}")
        check(sum(counts[:-1]) == counts[-1], f"answer {number}: the sum is {counts[-1]}")
        sums, total = [before + count for before, count in zip(sums, counts)], total + counts[-1]
    foot = table.find("tfoot")
    check([numbers(cell)[0] for cell in foot[0][2:]] == sums + [total], "the sums of the calls are others")
    facts, = numbers(foot[1][-1])
    check([facts] == [int(found) for found in record(folder, "compare", r"^facts beside the calls  looked at (\d+)$")], f"{facts} facts")
    check(numbers(foot[2][-1]) == [total + facts] == numbers(found(page, "gate-comparisons")), "the comparisons do not add up")


def check_wrong_programs(page, folder):
    said = record(folder, "documents", r"^(five|refused): (.*?) \| (.*?) \| (.*?) \| (.*)$")
    rows = page.findall(".//table[@class='wrong stack']/tbody/tr")
    check(len(rows) == len(said), f"{len(rows)} wrong programs are shown, {len(said)} are in the record")
    for row, (kind, *cells) in zip(rows, said):
        check([text(cell) for cell in row] == cells, f"wrong program: {cells[0]}: another row")
        check((row.get("class") == "five") == (kind == "five"), f"wrong program: {cells[0]}: whether it is one of the five")
    names = {text(row.find(".//b")) for row in rows if row.get("class") == "five"}
    check(names == FIVE, f"document 01's five wrong programs are said to be {sorted(names)}")
