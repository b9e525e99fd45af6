"""What the names of a file lead to, by its `use` lines; in src/ by its `ghost use` lines.

use Rattle.CRATE.specs.FILE.{a, b}                  definitions of CRATE
use Rattle.CRATE.specs.FILE as f                    f.a
use Rattle.CRATE.specs.declared.file.Type.{Type}    an enum or struct of CRATE's src/file.rt; without file, of src/lib.rt
use Rattle.CRATE.specs.declared.Type.TheVariants.{A, B}     its variants, which lead to it
All other names are words of the toolchain, whose own crates are std and core. An operator, ◌at◌, stands between what it takes, as at.
"""
import re
from collections import namedtuple

from reading import require

Place = namedtuple("Place", "crate folder file name")

USE = re.compile(r"(?:ghost )?use ([^\s{};]+?)(?:\.\{([^{}]*)\}| as (\S+?))?;?")
OURS = re.compile(r"Rattle\.(?!(?:std|core)\.)(\w+)\.(specs|proofs)\.(.+)")
TOKEN = re.compile(r"[^\s(){};,]+")


def use_lines(lines):
    """Each `use` as one line, also where its names go on in the next."""
    whole = None
    for line in lines:
        whole = f"{whole} {line.strip()}" if whole else line.strip() if re.match(r"(?:ghost )?use ", line) else None
        if whole and whole.count("{") == whole.count("}"):
            yield whole
            whole = None


class Scope:
    def __init__(self, path, lines):
        self.names, self.modules, self.words = {}, {}, set()
        for line in use_lines(lines):
            if "::" not in line:
                self.read(path, line)

    def read(self, path, line):
        found = USE.fullmatch(line)
        require(found, f"{path}: not understood: {line}")
        module, names, other = found.groups()
        ours = OURS.fullmatch(module)
        for name in filter(None, map(str.strip, (names or "").split(","))):
            name, _, here = name.partition(" as ")
            if ours:
                self.names[(here or name).strip("◌")] = self.names[here or name] = self.place(ours, name)
            else:
                self.words.add(name.strip("◌"))
        if ours and names is None:
            self.modules[other or module.split(".")[-1]] = ours

    @staticmethod
    def place(ours, name):
        crate, folder, module = ours.groups()
        if not module.startswith("declared."):
            return Place(crate, folder, module.replace(".", "/"), name)
        *files, kind = module.removeprefix("declared.").removesuffix(".TheVariants").split(".")
        return Place(crate, "src", "/".join(files) or "lib", kind)

    def used(self, text):
        """The places of all names in a text."""
        for token in TOKEN.findall(text):
            module, _, name = token.partition(".")
            if token in self.names:
                yield self.names[token]
            elif module in self.modules and name:
                yield self.place(self.modules[module], name)
