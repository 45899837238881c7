"""A table, read anew by docs/guide/TABLES.md: for the second opinions tests/states.py and bench/foma."""

import itertools
import os
import re
from collections.abc import Iterator
from dataclasses import dataclass, field

from spelling import ESCAPES, characters

# Of rules of one length those of any place but `always` come first, and then the earlier line.
PLACED_FIRST = True

SPACE, PUNCTUATION, DIGIT, LETTER, LOWERCASE, UPPERCASE, SIGN, MATH = (1 << it for it in range(8))
GAP = SPACE | PUNCTUATION

# The classes that the line of each opcode gives its character.
CLASSES = {
    "space": SPACE, "punctuation": PUNCTUATION, "digit": DIGIT, "letter": LETTER, "sign": SIGN, "math": MATH,
    "lowercase": LOWERCASE | LETTER, "uppercase": UPPERCASE | LETTER, "litdigit": DIGIT,
}
SIGNS = {"capsign": "capsletter", **{it: it for it in ("capsletter", "begcapsword", "endcapsword", "numsign", "nocontractsign")}}

# A condition on the classes of a neighbour: its kind and a set of classes. These pairs are in the
# order of conditions in a certificate.
Cond = tuple[int, int]
ANY, MEETS, AVOIDS = 0, 1, 2
ALWAYS: Cond = (ANY, 0)

# Of each place the condition on the neighbour before, and on the one after; but see `after_of`.
PLACES = {
    "always": (ALWAYS, ALWAYS), "partword": (ALWAYS, (MEETS, LETTER)), "word": ((MEETS, GAP), (MEETS, GAP)),
    "sufword": ((MEETS, GAP), (MEETS, GAP | LETTER)), "prfword": ((MEETS, GAP | LETTER), (MEETS, GAP)),
    "begword": ((MEETS, GAP), (MEETS, LETTER)), "begmidword": ((MEETS, GAP | LETTER), (MEETS, LETTER)),
    "midword": ((MEETS, LETTER), (MEETS, LETTER)), "midendword": ((MEETS, LETTER), (MEETS, GAP | LETTER)),
    "endword": ((MEETS, LETTER), (MEETS, GAP)), "begnum": ((MEETS, GAP), (MEETS, DIGIT)),
    "midnum": ((MEETS, DIGIT), (MEETS, DIGIT)), "endnum": ((MEETS, DIGIT), (AVOIDS, DIGIT)),
}


class Fault(Exception):
    """Why a table isn't compared."""


def holds(cond: Cond, classes: int) -> bool:
    """Whether classes meet a condition."""
    kind, wanted = cond
    return kind == ANY or (kind == MEETS) == bool(wanted & classes)


def after_of(place: str, before: int) -> Cond:
    """The condition of a place on the neighbour after, where the one before has these classes."""
    return ALWAYS if place == "partword" and before & LETTER else PLACES[place][1]


@dataclass
class Character:
    opcode: str = ""
    cells: list[str] = field(default_factory=list)
    classes: int = 0
    is_literary: bool = False
    is_mode: bool = False
    is_nocont: bool = False
    fold: str = ""


@dataclass(frozen=True)
class Rule:
    place: str
    chars: str
    cells: tuple[str, ...]
    line: int


def rank(rule: Rule) -> tuple[int, bool, int]:
    """The order of the rules: the first that fits is used."""
    return -len(rule.chars), PLACED_FIRST and rule.place == "always", rule.line


def cells_of(dots: str) -> list[str]:
    """The cells that an operand spells: the dots of a cell may have any order."""
    return ["".join(sorted(it)) for it in dots.split("-")]


def rows(path: str, root: str) -> Iterator[list[str]]:
    """The tokens of the lines of a table that do something, includes replaced."""
    with open(path, encoding="utf-8-sig", newline="") as file:
        lines = file.read().split("\n")
    for line in lines:
        tokens = re.findall(r"[^ \t]+", line.removesuffix("\r"))
        if not tokens or tokens[0].startswith("#"):
            continue
        if tokens[0] == "include":
            yield from rows(os.path.join(os.path.dirname(root), tokens[1]), root)
        else:
            yield tokens


class Table:
    """A table: its characters, its rules in rank, and the cells of its indicators."""

    def __init__(self, path: str) -> None:
        self.chars: dict[str, Character] = {}
        self.signs: dict[str, list[str]] = {}
        lines = list(rows(path, path))
        found = []
        for number, (opcode, *operands) in enumerate(lines):
            if opcode in ("display", "nofor"):
                continue
            if opcode == "noback":
                opcode, *operands = operands
            if opcode in PLACES:
                found.append((number, opcode, *operands[:2]))
            elif opcode == "uplow":
                upper, lower = characters(operands[0])
                cells = operands[1].partition(",")
                self.define(upper, opcode, cells[0], CLASSES["uppercase"])
                self.define(lower, opcode, cells[2] or cells[0], CLASSES["lowercase"])
                self.chars[upper].fold = self.chars[upper].fold or lower
            elif opcode in CLASSES:
                self.define(characters(operands[0]), opcode, operands[1], CLASSES[opcode])
            elif opcode in SIGNS:
                self.signs[SIGNS[opcode]] = cells_of(operands[0])
            elif opcode not in ("numericmodechars", "numericnocontchars"):
                raise Fault(f"the opcode {opcode} isn't read")
        for opcode, *operands in lines:
            for it in characters(operands[0]) if opcode == "numericmodechars" else "":
                self.chars[it].is_mode = True
            for it in characters(operands[0]) if opcode == "numericnocontchars" else "":
                self.chars[it].is_nocont = True
        self.rules = sorted((self.rule(*it) for it in found), key=rank)

    def define(self, char: str, opcode: str, dots: str, classes: int) -> None:
        """A line that defines a character: the first gives its cells, or the first `litdigit`."""
        info, is_literary = self.chars.setdefault(char, Character()), opcode == "litdigit"
        if not info.cells or (is_literary and not info.is_literary):
            info.opcode, info.cells = opcode, cells_of(dots)
        info.classes |= classes
        info.is_literary |= is_literary

    def rule(self, line: int, place: str, operand: str, dots: str) -> Rule:
        chars = "".join(self.fold(it) for it in characters(operand))
        own = itertools.chain(*(self.chars[it].cells for it in chars))
        return Rule(place, chars, tuple(own if dots == "=" else cells_of(dots)), line)

    def fold(self, char: str) -> str:
        return self.chars[char].fold or char

    def is_capital(self, char: str) -> bool:
        return bool(self.chars[char].classes & UPPERCASE)

    def has_word_capitals(self) -> bool:
        return "begcapsword" in self.signs
