"""Reading what programs left: a line that is needed and missing is an error, never an empty cell."""
import re
from pathlib import Path


class Missing(Exception):
    """Something that the page needs is not there, or is not what it has to be."""


def require(holds, what):
    if not holds:
        raise Missing(what)


def lines_of(path):
    try:
        return Path(path).read_text(encoding="utf-8").splitlines()
    except OSError as error:
        raise Missing(f"{path}: {error.strerror}") from error


def only(pattern, lines, path):
    """The groups of the one line that the whole pattern fits."""
    found = [match for match in (re.fullmatch(pattern, line) for line in lines) if match]
    require(len(found) == 1, f"{path}: {len(found)} lines, not one, of the form: {pattern}")
    return found[0].groups()


def facts(path):
    """Lines of a name and a value."""
    pairs = [line.split(" ", 1) for line in lines_of(path)]
    require(all(len(pair) == 2 for pair in pairs), f"{path}: a line is not a name and a value")
    return dict(pairs)


def fact(known, name, path):
    require(known.get(name), f"{path}: no line: {name}")
    return known[name]
