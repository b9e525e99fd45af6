"""Definitions as blocks of the page: file, comment, text; and where each stands."""
import re
from html import escape
from itertools import groupby

from definitions.rules import order
from definitions.scope import TOKEN
from markup import inline

# What stands before the name that a line declares, and the name.
DECLARED = re.compile(r"(\s*)((?:abbrev |unfoldable )?(?:pub(?:\(crate\))? )?(?:data |record |enum |struct )?)([^\s()]+)(?= :| \(| \{|$)")


def anchor(one):
    return escape(f"{one.crate}-{one.file.replace('/', '-')}-{one.names[0]}")


def under(one):
    """The comment that a definition stands under."""
    return one.crate, one.folder, one.file, one.group


class Blocks:
    def __init__(self, reached):
        self.reached = reached
        self.first = {one: min(one.rules, key=order) for one in reached.ruled}

    def groups(self, chosen):
        """Those under one comment together."""
        return [list(group) for _, group in groupby(self.reached.ordered(chosen), key=under)]

    def of_rule(self, rule):
        """The definitions that have this rule as their first, and the names of the others."""
        here = {one for one, number in self.first.items() if number == rule.number}
        parts = [self.group(group) for group in self.groups(here)]
        others = [f"{self.link(one, name)}&#160;({self.first[one]})" for one in self.reached.ordered(self.reached.ruled)
                  if rule.number in one.rules and one not in here for name in one.names]
        if others:
            parts.append(f'<p class="also">{"See also" if here else "See"} {", ".join(others)}</p>')
        return parts

    def group(self, group):
        one = group[0]
        file = f"{one.crate}/{one.file}" if one.folder == "specs" else f"{one.crate}/src/{one.file}.rt"
        rules = sorted({number for each in group for number in each.rules}, key=order)
        named = f' <span class="rules">[{", ".join(rules)}]</span>' if len(rules) > 1 or one in self.reached.between else ""
        texts = "\n".join(self.text(each) for each in group)
        return (f'<div class="definition"><p class="comment"><span class="file">{file}</span> {inline(one.comment)}{named}</p>\n'
                f"{texts}</div>")

    def text(self, one):
        sign = "--" if one.folder == "specs" else "//"
        lines = "".join(self.line(line, sign, one.names, one.uses) for line in one.code)
        return f'<pre id="{anchor(one)}" data-names="{escape(" ".join(one.names))}">{lines}</pre>'

    def contract(self, call):
        """A call with its clauses; above them its crate."""
        lines = "".join(self.line(line, "//", (), call.uses) for line in call.code)
        return f'<div class="definition"><p class="comment"><span class="file">{escape(call.name)}</span></p>\n<pre>{lines}</pre></div>'

    def line(self, line, sign, names, uses):
        """A line that is too long goes on below, indented further. The name that it declares is in bold."""
        indent, start = len(line) - len(line.lstrip()), DECLARED.match(line)
        text, sign, remark = line.partition(sign)
        shown = ""
        if start and start[2] and start[3] in names:
            shown = f"{start[1]}<i>{escape(start[2])}</i><b>{escape(start[3])}</b>"
            text = text[start.end():]
        shown += self.linked(text, names, uses) + (f"<i>{escape(sign + remark, quote=False)}</i>" if sign else "")
        return f'<span class="line" style="--indent: {indent}ch">{shown}\n</span>'

    def linked(self, text, names, uses):
        """Names lead to their definitions."""
        there = {place.name: self.reached.definitions.at[place] for place in uses
                 if place in self.reached.definitions.at and place.name not in names}
        return TOKEN.sub(lambda found: self.link(there[found[0]], found[0]) if found[0] in there else escape(found[0], quote=False), text)

    @staticmethod
    def link(one, name):
        return f'<a href="#{anchor(one)}">{escape(name)}</a>'

    def where(self, one):
        return self.first.get(one, "between")
