"""What the gate, `make test`, left in build/gate: a file for each step with all that it printed, `begin` and `end`; and how many functions
each crate has, which the sources say: of a crate that an earlier run proved `rt ci` says no more than that."""
import re
from collections import namedtuple
from pathlib import Path

from definitions.files import crates_of, files_of
from reading import fact, facts, lines_of, only, require

Crate = namedtuple("Crate", "name functions edits kept")  # kept: an earlier run on this machine proved it
Call = namedtuple("Call", "name form answers")  # answers: how many of each, 0 for accepted, else the number of the refusal
Wrong = namedtuple("Wrong", "is_of_five program edit law file by")

ROOT = Path(__file__).resolve().parent.parent
FUNCTION = re.compile(r"^ *(?:pub(?:\(crate\))? )?(?:const |extern \"C\" )*fn \w+", re.MULTILINE)
# A trait's function, which has clauses and no body.
DECLARED = re.compile(r"^ *fn [^{}]*?(?:(?:requires|ensures)[^{};]*\{[^{}]*\}\s*)+;$", re.MULTILINE)
DERIVED = re.compile(r"^ *#\[derive\((.*)\)\]", re.MULTILINE)
# What is derived with a function that `rt` proves; Clone, Copy, Eq and Drop have none.
WITH_FUNCTION = ("PartialEq", "Debug")
# Only a program and an archive have a target, and only their lines count axioms, where there are any.
LOGIC = re.compile(r"logic=proved functions=(\d+)(?: axioms=(\d+))?(?: target=(\S+))?(?: cpu=\S+)? sum=.*")
AXIOM = re.compile(r"  (\w+(?:::\w+)+) +reached")
PROVED = re.compile(r"rt: (\w+) (proved|is kept: .*)")
REFUSED = re.compile(r"rt: must-fail ((\w+)/\w+)\.edit: refused, as it must be\b.*")
ASKED = re.compile(r"(\w+)(, long)? +accepted (\d+), refused((?:  \d+: \d+)+)")
WRONG = re.compile(r"(five|refused): (.+?) \| (\w+/\w+) \| (\S+) in (crates/\S+) \| (.+)")
# The steps that tell what they found in one line, their last.
TOLD = ("total", "documents", "header", "archive", "example", "programs", "first", "readme")


def functions_of(crate):
    return sum(functions_in(path.read_text(encoding="utf-8")) for path in files_of(ROOT, crate, "src", ".rt"))


def functions_in(text):
    derived = [name for names in DERIVED.findall(text) for name in names.split(", ") if name in WITH_FUNCTION]
    return len(FUNCTION.findall(text)) - len(DECLARED.findall(text)) + len(derived)


class Gate:
    def __init__(self, folder):
        self.folder = Path(folder)
        begin, end = self.folder / "begin", self.folder / "end"
        self.begin = facts(begin)
        for name in ("commit", "changed", "files", "sum", "machine", "cores", "time"):
            fact(self.begin, name, begin)
        self.seconds = int(fact(facts(end), "time", end)) - int(self.begin["time"])
        self.toolchain, = only(r"(rattle\S* .*)", *self.step("version"))
        self.read_proofs()
        self.archive_axioms, self.program_axioms = self.axioms("lib"), self.axioms("program")
        self.read_comparisons()
        self.read_traces()
        self.read_wrong_programs()
        self.told = {name: self.last_line(name) for name in TOLD}

    def step(self, name):
        path = self.folder / name
        return lines_of(path), path

    def read_proofs(self):
        """A crate's lines end with: rt: NAME proved. Of one that an earlier run proved there is one line. Those on the edits come later."""
        lines, path = self.step("ci")
        kept, edits, before = {}, {}, []
        for line in lines:
            before.append(line)
            if match := PROVED.fullmatch(line):
                kept[match[1]] = match[2] != "proved"
                if not kept[match[1]]:
                    self.check_functions(match[1], before, path)
                before = []
            elif match := REFUSED.fullmatch(line):
                edits.setdefault(match[2], set()).add(match[1])
        self.crates = [Crate(name, functions_of(name), len(edits.get(name, ())), kept[name]) for name in crates_of(ROOT) if name in kept]
        self.functions = sum(crate.functions for crate in self.crates)
        self.refused_edits = set().union(*edits.values())
        self.edits = len(self.refused_edits)
        self.check_proofs(lines, path)

    @staticmethod
    def check_functions(name, lines, path):
        functions, *_ = only(LOGIC.pattern, lines, path)
        require(int(functions) == functions_of(name), f"{path}: {functions} functions of {name} are proved, it has {functions_of(name)}")

    def axioms(self, step):
        """The names of the axioms that the archive or the program rests on."""
        lines, path = self.step(step)
        counts = {int(match[2] or 0) for match in map(LOGIC.fullmatch, lines) if match and match[3]}
        named = sorted({match[1] for match in map(AXIOM.fullmatch, lines) if match})
        require(counts == {len(named)}, f"{path}: axioms={sorted(counts)}, and named are {named}")
        return named

    def check_proofs(self, lines, path):
        """What was counted line by line is what the gate itself says at its end."""
        edits, = map(int, only(r"rt: ok; .*; must-fail edits: (\d+) refused(?:, \d+ of them only by a limit)?; .*", lines, path))
        passed, failed = map(int, only(r"(\d+) passed, (\d+) failed", lines[-1:], path))
        crates = len(crates_of(ROOT))
        require(len(self.crates) == crates, f"{path}: {len(self.crates)} crates are found, there are {crates}")
        require(self.edits == edits, f"{path}: {self.edits} refused edits are found, {edits} are said")
        require(passed == crates + edits and failed == 0, f"{path}: the last line is: {lines[-1]}")
        self.last = lines[-1]

    def read_comparisons(self):
        lines, path = self.step("compare")
        self.calls = [Call(match[1], "long" if match[2] else "base", self.answers(match))
                      for match in map(ASKED.fullmatch, lines) if match]
        require(len(self.calls) == 12, f"{path}: {len(self.calls)} lines, not 12, on a call: NAME accepted N, refused ...")
        self.facts = int(only(r"facts beside the calls  looked at (\d+)", lines, path)[0])
        self.comparisons, self.differences = map(int, only(r"compare: (\d+) comparisons, (\d+) differences", lines, path))
        counted = sum(sum(call.answers.values()) for call in self.calls) + self.facts
        require(counted == self.comparisons, f"{path}: its rows add up to {counted} comparisons, {self.comparisons} are said")
        require(self.differences == 0, f"{path}: there are differences")

    @staticmethod
    def answers(match):
        refused = (part.split(": ") for part in match[4].split("  ")[1:])
        return {0: int(match[3]), **{int(number): int(count) for number, count in refused}}

    def read_traces(self):
        lines, path = self.step("trace")
        compared = only(r"tests/trace: (\d+) traces, (\d+) lines, (\d+) differences", lines, path)
        self.traces, self.trace_lines, self.trace_differences = map(int, compared)
        require(self.trace_differences == 0, f"{path}: there are differences")

    def read_wrong_programs(self):
        """What docs/INSPECTION.md says of wrong programs, as tests/documents found it in what the gate said of them."""
        lines, path = self.step("documents")
        self.wrong = [Wrong(match[1] == "five", *match.groups()[1:]) for match in map(WRONG.fullmatch, lines) if match]
        five = {wrong.program.partition(":")[0] for wrong in self.wrong if wrong.is_of_five}
        require(len(five) == 5, f"{path}: not document 01's five wrong programs: {sorted(five)}")
        for wrong in self.wrong:
            require(wrong.edit in self.refused_edits, f"{path}: the gate refused no edit {wrong.edit}")

    def last_line(self, name):
        lines, path = self.step(name)
        require(lines and lines[-1].startswith(f"tests/{name}: "), f"{path}: its last line does not tell the result")
        return lines[-1].removeprefix(f"tests/{name}: ")
