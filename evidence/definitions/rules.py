"""The rules of docs/FORMAT.md: a paragraph that starts with its number in bold, **3.2**, and all up to the next rule or heading.

A rule ends its paragraph with a bracket, (01, Words) or (02, #102), which may say what holds it where no definition does.
"""
import re
from collections import namedtuple

from reading import lines_of, require

FORMAT = "docs/FORMAT.md"
HEADING = re.compile(r"## (\d+)\. (.*)")
START = re.compile(r"\*\*(\d+\.\d+)\*\* ")
BRACKET = re.compile(r"\((?:0[12], [^()]+|decided: DECISIONS\.md)\)$")
# What holds a rule that no definition says.
EXCUSES = ("said by the contracts", "run, not proved")

# the heading's number and title; the rule's number; its paragraphs, the number taken off; the excuse, or nothing
Rule = namedtuple("Rule", "section title number paragraphs excuse")


def paragraphs_of(lines):
    """Lines between blank ones."""
    whole = []
    for line in lines + [""]:
        if line.strip():
            whole.append(line)
        elif whole:
            yield whole
            whole = []


def order(number):
    """Rule numbers in their order: 3.2 stands before 3.10."""
    return tuple(map(int, number.split(".")))


def excuse_of(number, lines):
    bracket = BRACKET.search(" ".join(lines))
    require(bracket, f"{FORMAT}: rule {number} does not end with what it stands for, like (01, Words) or (02, #102)")
    return next((excuse for excuse in EXCUSES if excuse in bracket[0]), None)


def rules_of(root):
    section, rules = None, []
    for lines in paragraphs_of(lines_of(root / FORMAT)):
        if lines[0].startswith("#"):
            section = HEADING.fullmatch(lines[0])
        elif section and (found := START.match(lines[0])):
            number, text = found[1], [lines[0][found.end():], *lines[1:]]
            rules.append(Rule(int(section[1]), section[2], number, [text], excuse_of(number, text)))
        elif section:
            require(rules and rules[-1].section == int(section[1]), f"{FORMAT}: a text before the first rule of section {section[1]}")
            rules[-1].paragraphs.append(lines)
    check_numbers(rules)
    return rules


def check_numbers(rules):
    """Sections and the rules of each count from 1."""
    section = last = 0
    for rule in rules:
        section, last = (section, last + 1) if rule.section == section else (section + 1, 1)
        require(rule.number == f"{section}.{last}", f"{FORMAT}: rule {rule.number} stands where {section}.{last} must")
    numbers = {rule.number for rule in rules}
    for rule in rules:
        text = " ".join(line for lines in rule.paragraphs for line in lines)
        for number in re.findall(r"(?<![\d.])\d+\.\d+(?![\d.]*\d)", text):
            require(number in numbers, f"{FORMAT}: rule {rule.number} names a rule {number}, which is not there")


def calls_of(rules):
    """Document 01's calls: what stands in `` in the table whose first column is headed call. A name alone is a call for C."""
    calls = set()
    for rule in rules:
        for lines in rule.paragraphs:
            if lines[0].startswith("| call |"):
                calls.update(name for line in lines for name in re.findall(r"`([\w:]+)`", line))
    require(calls, f"{FORMAT}: no table of the calls")
    return {name if "::" in name else f"prushgoli::{name}" for name in calls}
