"""Which definitions have to be believed, and for what.

contracts    what the contracts of the documents' calls lead to
stated       what the statements about them lead to beside these
logic        what is said of every call in the words of the toolchain's logic
worked       what only worked cases lead to: evidence, and nothing to believe
between      what only the contracts of calls between the crates lead to, and the statements about these
inner        the others: for functions that no other crate can call, and for proofs
"""
from definitions.contracts import calls
from definitions.files import Definitions, lines_proper
from definitions.rules import calls_of, rules_of
from definitions.statements import stated
from reading import require

LOGIC = "demands", "specs", "Runs"


class Reached:
    def __init__(self, root):
        self.rules = rules_of(root)
        self.definitions = Definitions(root)
        closed, asked, there = self.definitions.closed, calls_of(self.rules), calls(root)
        missing = asked - {call.name for call in there}
        require(not missing, f"docs/FORMAT.md names a call that is not there: {', '.join(sorted(missing))}")
        self.calls = [call for call in there if call.name in asked]
        self.contracts = closed(place for call in self.calls for place in call.uses)
        self.logic = {one for one in self.definitions.all if one[:3] == LOGIC}
        self.stated = closed(stated(root, "stated")) - self.contracts - self.logic
        self.ours = self.contracts | self.stated
        self.worked = closed(stated(root, "worked")) - self.ours
        self.ruled = self.ours | self.worked
        helpers = [place for call in there if call.name not in asked for place in call.uses]
        self.between = closed([*helpers, *stated(root, "between")]) - self.ruled
        self.inner = set(self.definitions.all) - self.ruled - self.logic - self.between

    def ordered(self, chosen):
        """In the order of the crates and their files."""
        return [one for one in self.definitions.all if one in chosen]


def of_specs(chosen):
    return [one for one in chosen if one.folder == "specs"]


def lines_by_file(chosen):
    """How many lines of definition proper each file of specs/ has among these."""
    counted = {}
    for one in of_specs(chosen):
        path = f"crates/{one.crate}/specs/{one.file}.antt"
        counted[path] = counted.get(path, 0) + lines_proper(one)
    return counted
