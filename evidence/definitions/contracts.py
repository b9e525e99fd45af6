"""The functions of crates/*/src that other crates or C can call, and what their `ensures` clauses speak of. The exports of prushgoli_c are
none: they are the calls for C of prushgoli once more, with their clauses, which tests/total sees to."""
import re
from collections import namedtuple

from definitions.files import crates_of, file_of, files_of
from definitions.scope import Scope
from reading import lines_of

FUNCTION = re.compile(r"^( *)pub (?:const )?fn (\w+)", re.MULTILINE)
EXPORTS = "prushgoli_c"
CLAUSE = re.compile(r"\b(ensures|requires)\b[^{]*\{|\{")

# its name, crate::file::Type::function without what is not there; its lines up to the body; the places that its clauses name
Call = namedtuple("Call", "name code uses")


def closing(text, at):
    """Behind the brace that closes the one at a place."""
    depth = 0
    for end in range(at, len(text)):
        depth += {"{": 1, "}": -1}.get(text[end], 0)
        if depth == 0:
            return end + 1
    return len(text)


def head(text):
    """Where the clauses of a function end, which stand before the brace that opens its body; and what it ensures."""
    at, ensured = 0, []
    while (found := CLAUSE.search(text, at)) and found[1]:
        at = closing(text, found.end() - 1)
        if found[1] == "ensures":
            ensured.append(text[found.end():at - 1])
    return at, " ".join(ensured)


def calls_in(root, crate, path):
    lines = lines_of(path)
    text, scope, file = "\n".join(lines), Scope(path, lines), file_of(root, path)
    for found in FUNCTION.finditer(text):
        types = re.findall(r"^impl (\w+)", text[:found.start()], re.MULTILINE) if found[1] else []
        name = "::".join([crate, *([] if file == "lib" else file.split("/")), *types[-1:], found[2]])
        end, ensured = head(text[found.start():])
        code = [line.removeprefix(found[1]) for line in text[found.start():found.start() + end].split("\n")]
        yield Call(name, tuple(code), frozenset(scope.used(ensured)))


def calls(root):
    return [call for crate in crates_of(root) if crate != EXPORTS
            for path in files_of(root, crate, "src", ".rt") for call in calls_in(root, crate, path)]
