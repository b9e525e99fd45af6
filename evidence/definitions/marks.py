"""What is not right between the rules of docs/FORMAT.md and the marks of the definitions.

Every definition that a contract or a statement leads to has a mark; every mark names a rule that is there; every rule has a definition of
the documents' calls or of their worked cases, or says itself what holds it.
"""


def where(one):
    ending = "antt" if one.folder == "specs" else "rt"
    return f"crates/{one.crate}/{one.folder}/{one.file}.{ending}: {', '.join(one.names)}"


def problems(reached):
    yield from unmarked(reached)
    yield from astray(reached)
    yield from uncovered(reached)


def unmarked(reached):
    for one in reached.ordered(reached.ruled | reached.between):
        if not one.rules:
            yield f"{where(one)}: its comment names no rule"


def astray(reached):
    numbers = {rule.number for rule in reached.rules}
    for one in reached.definitions.all:
        for number in one.rules:
            if number not in numbers:
                yield f"{where(one)}: there is no rule {number} in docs/FORMAT.md"
        if one.rules and one in reached.inner:
            yield f"{where(one)}: it names a rule, and no contract and no statement leads to it"


def uncovered(reached):
    covered = {number for one in reached.ruled for number in one.rules}
    for rule in reached.rules:
        if rule.number not in covered and not rule.excuse:
            yield f"docs/FORMAT.md: no definition names rule {rule.number}"
        if rule.number in covered and rule.excuse:
            yield f"docs/FORMAT.md: rule {rule.number} is {rule.excuse}, and a definition names it"
