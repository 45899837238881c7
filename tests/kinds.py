#!/usr/bin/env python3
"""Compares the kinds that `brl clashes` gives pairs of rules with those that a plain second program gives them.

  tests/kinds.py PROGRAM [--seed SEED] [--count COUNT]

The kinds, the sets of characters and the lines of a list are written here anew, by the definitions in
crates/brl_clashes/specs, and not by the program's code. Every other table is made by random_tables.py, the others
here: with letters in both cases, digits with the cells of letters, marks, characters that can't be seen, braille
patterns, sets of characters, and rules that differ in one letter, have the same cells or begin with those of another.
Of each table

- the lists of all kinds (`--kind KEY`) together must have each pair of rules once, as many in each section as its
  heading says, and each pair in the list of its kind alone. Its texts must clash and diverge at its rules, and have
  no characters of later sections;
- `--first 0` must list all pairs but those for which another line stands;
- each list must be as the definitions have it, line by line, also that of the first pair of one kind;
- the list without an option must have the lines of pairs where at most 12 of a section have one, and else those of
  its kinds, with their numbers, in order. There each example must be a pair of that kind, and no two the same. What
  comes before the list, which is likely slips, may be any text;
- the sets must be as the definitions have them; more than 3 are one line where no option is given.

A key that there isn't must be refused. Of 100 tables or more, and so of the default count, some pairs must be of each
kind, some sections be shown by kinds, and some sets be in one line. The same seed makes the same tables. The exit
status is 1 where something differs, which is printed.
"""

import random
import re
import sys
import tempfile
import unicodedata
from collections import Counter
from collections.abc import Iterator
from dataclasses import dataclass
from itertools import cycle
from pathlib import Path
from typing import NamedTuple

sys.dont_write_bytecode = True
import random_tables
from clashes import Plain, Rules, divergence
from plain_table import CLASSES, DIGIT, LETTER, PUNCTUATION, SPACE, UPPERCASE, Table, characters

# Of this many tables or more some pairs are of each kind, whatever the seed.
ENOUGH = 100

# The kinds in their order, each with what its pairs are.
TITLES = {
    "alike": "one or two letters differ",
    "rules": "two rules with the same cells",
    "cells": "characters with the same cells",
    "case": "capitals alone differ",
    "several": "a character with the cells of several",
    "begins": "a rule begins with the cells of another",
    "word": "a rule with the cells of other texts",
    "asdigit": "read as digits after a digit",
    "number": "a number with the cells of other texts",
    "sets": "of other characters of the sets",
    "again": "of capitals, as of their small letters",
    "unseen": "with characters that can't be seen",
    "braille": "with braille patterns",
}
WITHOUT_EXAMPLES = ["sets", "again", "unseen", "braille"]

# Keys that there aren't.
NO_KEYS = ["", "other", "Alike", "set", "kinds", "alike,rules"]

# The sections in order, by their characters, and how many kinds of pairs have a line in each.
SMALL, DIGITS, CAPITALS, MARKS, ALL = range(5)
SECTIONS = ["small letters", "with digits", "with capitals", "with marks", "all characters"]
MOST_KINDS = [9, 9, 4, 4, 0]

# The most pairs of a section that all have a line, and the most sets, where no option is given.
MOST_LINES, MOST_SETS = 12, 3


# ---- Tables

LETTER_CELLS = dict(zip("abcdefghij", ["1", "12", "14", "145", "15", "124", "1245", "125", "24", "245"]))
DIGIT_CELLS = dict(zip("1234567890", LETTER_CELLS.values()))

# Cells that are those of several letters, or begin with those of another.
FEW_CELLS = ["0", "1", "2", "12", "14", "1-1", "1-2", "1-12", "12-1"]

# Other characters: marks, letters, those that can't be seen, and braille patterns.
OTHERS = [
    *("punctuation .", "punctuation ,", "punctuation ;", "sign %", "sign &", "sign @", "math +", "letter \\x00e8"),
    *("letter \\x00ea", "letter \\x00eb", "uplow \\x00c9\\x00e9", "digit \\x00b2", "litdigit \\x0663", "space \\x00a0"),
    *("sign \\x200b", "letter \\x00ad", "punctuation \\x034f", "letter \\xe000", "uppercase \\xe001", "punctuation /"),
    *("sign \\x2801", "letter \\x2802", "punctuation \\x2803", "space \\x2800", "uplow \\x2841\\x2809", "sign \\\\"),
    *("sign \\x0301", "digit \\x200c", "space \\t", "sign *", "sign =", "letter \\x00e0", "letter \\x3164"),
]
CAPITAL_SIGNS = ["capsletter 6", "capsletter 1", "begcapsword 6-6", "begcapsword 1", "endcapsword 6-3"]
SIGNS = [*CAPITAL_SIGNS, "numsign 3456", "nocontractsign 56"]
FLAGS = ["numericmodechars .", "numericmodechars ,%", "numericnocontchars a", "numericnocontchars abc"]


def mixed_table(chance: random.Random) -> str:
    """A table of characters of all kinds, and rules of some of them."""
    letters, odd = "abcdefghij"[: chance.randint(3, 7)], chance.choice([0, 0.1, 0.4, 1])
    lines = [f"space \\s {chance.choice('002')}"] * (chance.random() < 0.9)
    lines += mixed_letters(chance, {it: some_cells(chance, odd, LETTER_CELLS[it]) for it in letters})
    digits, others = [*mixed_digits(chance, odd)], chance.sample(OTHERS, chance.choice([0, 3, 9, 18]))
    in_rules = [*letters * 2, *(it.split()[1] for it in [lines[0], *digits[:2], *others[:2]])]
    cells = chance.sample(FEW_CELLS, chance.randint(2, 4))
    lines += [*digits, *(f"{it} {chance.choice(cells)}" for it in others)]
    known = set("".join(characters(it.split()[1]) for it in lines))
    lines += {it.split()[0]: it for it in SIGNS if chance.random() < 0.5}.values()
    lines += [it for it in FLAGS if chance.random() < 0.3 and known.issuperset(it.split()[1])]
    return random_tables.text_of([*lines, *mixed_rules(chance, in_rules)])


def some_cells(chance: random.Random, odd: float, usual: str) -> str:
    return chance.choice(FEW_CELLS) if chance.random() < odd else usual


def mixed_letters(chance: random.Random, cells: dict[str, str]) -> Iterator[str]:
    """Lines that define letters with these cells, of most tables with capitals."""
    ways = chance.choice([["letter"], ["uplow"], ["uplow"], ["letter", "uplow", "apart"]])
    for it, dots in cells.items():
        way = chance.choice(ways)
        if way == "apart":
            yield from (f"lowercase {it} {dots}", f"uppercase {it.upper()} {dots}")
        else:
            yield f"uplow {it.upper()}{it} {dots}" if way == "uplow" else f"letter {it} {dots}"


def mixed_digits(chance: random.Random, odd: float) -> Iterator[str]:
    """Lines that define digits, of some tables none."""
    opcodes = chance.choice([["digit"], ["litdigit"], ["litdigit"], ["digit", "litdigit"]])
    for it in chance.sample("1234567890", chance.choice([0, 3, 7])):
        yield f"{chance.choice(opcodes)} {it} {some_cells(chance, odd, DIGIT_CELLS[it])}"


def mixed_rules(chance: random.Random, chars: list[str]) -> Iterator[str]:
    """A few rules of these characters, and of some another one in which one may differ, or the end of the cells."""
    for _ in range(chance.choice([0, 1, 2, 4, 8])):
        word, place = chance.choices(chars, k=chance.randint(1, 3)), chance.choice(random_tables.PLACES)
        dots = "-".join(chance.choices(["1", "12", "14", "145", "0"], k=chance.randint(1, 2)))
        yield f"{place} {''.join(word)} {dots}"
        if chance.random() < 0.5:
            word[chance.randrange(len(word))] = chance.choice(chars)
            yield f"{place} {''.join(word)} {dots}{chance.choice(['', '', '-1', '-12'])}"


class Given(NamedTuple):
    """A table, the characters that its texts leave out, and the words of the option that says so."""

    text: str
    left_out: str
    option: list[str]


def tables(chance: random.Random, count: int) -> Iterator[Given]:
    """Tables of this script and of random_tables in turn."""
    others = random_tables.tables(random.Random(chance.random()), count)
    for is_mixed, (table, left_out) in zip(cycle([True, False]), others):
        if is_mixed:
            yield mixed_given(chance, mixed_table(chance))
        else:
            yield Given(table, left_out, random_tables.option(table, left_out))


def mixed_given(chance: random.Random, table: str) -> Given:
    """A table, of about every third all but one character."""
    rows = [it for it in map(str.split, table.splitlines()) if it[0] in CLASSES or it[0] == "uplow"]
    left_out = chance.choice("".join(characters(it[1]) for it in rows))
    return Given(table, left_out, ["--without", spelled(left_out)]) if chance.random() < 0.3 else Given(table, "", [])


# ---- Characters that can't be seen

UNSEEN = ["Cc", "Cf", "Co", "Zs", "Zl", "Zp"]
MARK = ["Mn", "Me"]

# Of the characters of tables here, those that Unicode ignores by default though they are of other categories.
IGNORED = "\u034f\u3164"

ESCAPES = {"\\": "\\\\", " ": "\\s", "\t": "\\t"}


def is_unseen(char: str) -> bool:
    return unicodedata.category(char) in UNSEEN or char in IGNORED + "\u2800"


def spelled(char: str) -> str:
    """How a list spells a character."""
    is_hidden = is_unseen(char) or unicodedata.category(char) in MARK
    return ESCAPES.get(char, f"\\x{ord(char):04x}" if is_hidden else char)


# ---- The kinds of pairs of rules


@dataclass(frozen=True)
class Pair:
    """A pair of rules in a list: its line, the texts as they are there, and the numbers of the rules."""

    row: str
    texts: tuple[str, str]
    rules: Rules

    def both(self) -> tuple[str, str]:
        return characters(self.texts[0]), characters(self.texts[1])

    def order(self) -> tuple[bool, int, int, Rules]:
        """By this the most suspicious pair comes first."""
        left, right = self.both()
        is_other = len(left) != len(right)
        return is_other, 0 if is_other else sum(map(str.__ne__, left, right)), len(left + right), self.rules


class Kinds:
    """The kinds of pairs of rules of a table, for texts that leave out some characters."""

    def __init__(self, plain: Plain, left_out: str) -> None:
        self.plain, self.table, self.chars = plain, plain.table, list(plain.table.chars)
        self.kept = [it for it in self.chars if it not in left_out]
        in_rules = {char for rule in self.table.rules for char in rule.chars}
        self.lone = [it for it in self.kept if it not in in_rules and self.fold(it) == it]
        firsts = {it: self.set_of(it)[0] for it in self.lone}
        self.own = {number: plain.numbers[firsts.get(it, it)] for it, number in plain.numbers.items()}
        small = {it: self.fold(it) for it in self.chars}
        self.small = {number: plain.numbers[firsts.get(small[it], small[it])] for it, number in plain.numbers.items()}

    def fold(self, char: str) -> str:
        return self.table.fold(char)

    def set_of(self, char: str) -> list[str]:
        """The characters in no rule that the table treats as this one."""

        def treated(char: str) -> tuple[object, ...]:
            it = self.table.chars[char]
            return it.cells, it.classes, it.is_literary, it.is_mode, it.is_nocont

        return [it for it in self.lone if treated(it) == treated(char)]

    def sets(self) -> list[list[str]]:
        found = {it[0]: it for it in map(self.set_of, self.lone)}
        return [it for it in found.values() if len(it) > 1]

    def character(self, rule: int) -> str:
        """The character of which a rule is the own definition; empty where it is another rule."""
        return self.chars[rule - len(self.table.rules)] if rule >= len(self.table.rules) else ""

    def section(self, char: str) -> int:
        """The first section with texts that have a character."""
        classes = self.table.chars[char].classes
        if classes & UPPERCASE:
            return CAPITALS
        if classes & DIGIT:
            return DIGITS
        if classes & (LETTER | SPACE):
            return SMALL
        return MARKS if classes & PUNCTUATION else ALL

    def sections(self) -> list[int]:
        return sorted({self.section(it) for it in self.kept}) or [SMALL]

    def is_represented(self, rules: Rules, firsts: dict[int, int], listed: set[Rules]) -> bool:
        """Whether another line stands for a pair of rules, where these own definitions stand for others."""
        one, other = (firsts.get(it, it) for it in rules)
        if (one, other) == rules:
            return False
        return (one == other and rules[0] != rules[1]) or (min(one, other), max(one, other)) in listed

    def kind(self, pair: Pair, listed: set[Rules]) -> str:
        """The kind of a pair, where these pairs are listed."""
        left, right = pair.both()
        if self.is_represented(pair.rules, self.own, listed):
            return "sets"
        if any("\u2800" <= it <= "\u28ff" for it in left + right):
            return "braille"
        if any(is_unseen(it) and it != " " for it in left + right) or self.define_unseen(pair.rules):
            return "unseen"
        if [*map(self.fold, left)] == [*map(self.fold, right)]:
            return "case"
        if self.is_represented(pair.rules, self.small, listed):
            return "again"
        return self.kind_by_texts(left, right) or self.kind_by_rules(pair.rules)

    def define_unseen(self, rules: Rules) -> bool:
        return any(is_unseen(it) for it in map(self.character, rules) if it)

    def kind_by_texts(self, left: str, right: str) -> str:
        """The kind that two texts have, whatever their rules are; empty where it is one of rules."""
        if sum(map(self.is_digit, left)) != sum(map(self.is_digit, right)):
            return "asdigit" if left[0] == right[0] and self.is_digit(left[0]) else "number"
        if len(left) != len(right):
            return ""
        if [*map(self.small_cells, left)] == [*map(self.small_cells, right)]:
            return "cells"
        others = [both for both in zip(left, right) if both[0] != both[1]]
        are_letters = all(self.table.chars[it].classes & LETTER for both in others for it in both)
        return "alike" if len(others) <= 2 and are_letters else ""

    def is_digit(self, char: str) -> bool:
        return self.section(char) == DIGITS

    def small_cells(self, char: str) -> list[str]:
        """The cells of a character's small letter."""
        return self.table.chars[self.fold(char)].cells

    def kind_by_rules(self, rules: Rules) -> str:
        own = [it for it in rules if self.character(it)]
        if own:
            return "several" if len(own) == 2 else "word"
        one, other = (self.table.rules[it].cells for it in rules)
        return "rules" if one == other else "begins"


# ---- What the program lists

SETS = re.compile(r"\d+ sets? of characters ha")
HEADING = re.compile(rf"({'|'.join(SECTIONS)}): \d+ .*")
ROW = re.compile(r"  (\S+) / (\S+)  \S+  \S+:(\d+) (\S+) (\S+)  \S+:(\d+) (\S+) (\S+)")


class Fault(Exception):
    """What is wrong with a list."""


class Reader:
    """Reads lists of a table of one file."""

    def __init__(self, plain: Plain, text: str) -> None:
        self.plain, self.lines = plain, text.splitlines()
        self.numbers = {it.line + 1: number for number, it in enumerate(plain.table.rules)}

    def rule(self, line: str, opcode: str, operand: str) -> int:
        """The number of the rule of a line, or of the own definition of a character."""
        chars, number = characters(operand), self.numbers.get(int(line))
        wanted = chars if number is None else self.plain.table.rules[number].chars
        if opcode != self.lines[int(line) - 1].split()[0] or chars != wanted:
            raise Fault(f"no rule: {line} {opcode} {operand}")
        return self.plain.numbers[chars] if number is None else number

    def pairs(self, lines: list[str]) -> list[list[Pair]]:
        """The pairs of each section of a list."""
        found: list[list[Pair]] = []
        for row in lines:
            if HEADING.fullmatch(row):
                found.append([])
            elif it := ROW.fullmatch(row):
                rules = self.rule(*it.group(3, 4, 5)), self.rule(*it.group(6, 7, 8))
                found[-1].append(Pair(row, (it[1], it[2]), (min(rules), max(rules))))
        return found


# ---- What the lists must be


class Lists:
    """The lists of a table with these pairs of rules in its sections."""

    def __init__(self, kinds: Kinds, sections: list[list[Pair]]) -> None:
        self.kinds, self.numbers = kinds, kinds.sections()
        self.sections = [sorted(it, key=Pair.order) for it in sections]
        self.kind_of: dict[Rules, str] = {}
        listed: set[Rules] = set()
        for some in self.sections:
            listed |= {it.rules for it in some}
            self.kind_of |= {it.rules: kinds.kind(it, listed) for it in some}

    def of_kind(self, place: int, key: str) -> list[Pair]:
        return [it for it in self.sections[place] if self.kind_of[it.rules] == key]

    def with_lines(self, place: int) -> list[Pair]:
        """The pairs of a section for which no other line stands."""
        return [it for it in self.sections[place] if self.kind_of[it.rules] != "sets"]

    def sets(self, is_screen: bool) -> Iterator[str]:
        """The lines of the sets."""
        sets, same = self.kinds.sets(), "the same cells, classes and flags"
        have = f"{len(sets)} sets of characters have {same}"
        if is_screen and len(sets) > MOST_SETS:
            yield f"{have}, in no rule; --first 0 lists them"
            return
        if len(sets) == 1:
            yield f"1 set of characters has {same}, and is in no rule; below, its first represents it:"
        elif sets:
            yield f"{have}, and are in no rule; below, the first of each represents its set:"
        for some in sets:
            yield f"  {'-'.join(self.kinds.table.chars[some[0]].cells)}  {' '.join(map(spelled, some))}"

    def heading(self, place: int) -> str:
        more = " more" if any(self.sections[:place]) else ""
        return f"{SECTIONS[self.numbers[place]]}: {pairs_words(len(self.sections[place]), more)}"

    def headings(self) -> list[str]:
        return [self.heading(it) for it in range(len(self.sections))]

    def rows(self, place: int, first: int, key: str) -> Iterator[str]:
        """The lines of a section: of the pairs of a kind, or where none is asked for of those that have one."""
        shown = self.of_kind(place, key) if key else self.with_lines(place)
        yield from (it.row for it in shown[: first or None])
        if first and len(shown) > first:
            yield f"  {len(shown) - first} more"
        if others := len(self.sections[place]) - len(shown):
            yield f"  {others} of other {'kinds' if key else 'characters of the sets'}"

    def is_by_kinds(self, place: int) -> bool:
        return len(self.with_lines(place)) > MOST_LINES

    def kind_rows(self, place: int) -> Iterator[str]:
        """The lines of the kinds of a section, those with examples up to these."""
        counts = {it: len(self.of_kind(place, it)) for it in TITLES if self.of_kind(place, it)}
        lined = [it for it in counts if it not in WITHOUT_EXAMPLES][: MOST_KINDS[self.numbers[place]]]
        yield from (f"{counts[it]:7}  {TITLES[it]}: " for it in lined)
        others = [it for it in counts if it not in lined and it not in WITHOUT_EXAMPLES]
        hidden = [it for it in counts if it in WITHOUT_EXAMPLES]
        yield from ("       " + "".join(f"  {counts[it]} {it}" for it in some) for some in (others, hidden) if some)

    def verdict(self) -> list[str]:
        return [pairs_words(len(self.kind_of), "")] if self.kind_of else []

    def listed(self, first: int, key: str) -> list[str]:
        """The lines of a list of pairs, but for what it says of a table without clashes, and of an option."""
        sections = [[self.heading(it), *self.rows(it, first, key)] for it in range(len(self.sections))]
        return [*self.sets(False), *sum(sections, []), *self.verdict()]


def pairs_words(count: int, more: str) -> str:
    return f"{count}{more} {'pair of rules diverges' if count == 1 else 'pairs of rules diverge'}, and no others"


# ---- The list without an option


def texts_in(examples: list[str], kind: str) -> tuple[list[tuple[str, str]], int]:
    """The texts of lines of examples, and how many more pairs there are."""
    if kind != "cells":
        return [it.group(1, 2) for row in examples if (it := re.fullmatch(r"(\S+) / (\S+)  \S.*", row))], 0
    found, rest = [], ", ".join(examples)
    while it := re.match(r"(\S+) / (\S+?)(?:, |$)", rest):
        found.append(it.group(1, 2))
        rest = rest[it.end() :]
    more = re.fullmatch(r"(\d+) more", rest)
    if rest and not more:
        raise Fault(f"no examples: {examples}")
    return found, int(more[1]) if more else 0


def check_examples(lists: Lists, place: int, title: str, examples: list[str]) -> None:
    """Examples are different pairs of the kind, one or more in each line."""
    kind = next(it for it, name in TITLES.items() if name == title)
    texts, more = texts_in(examples, kind)
    known = {it.texts for it in lists.of_kind(place, kind)}
    if not known.issuperset(texts) or len(set(texts)) < max(1, len(texts), len(examples)):
        raise Fault(f"none, or not of the kind '{kind}', or twice: {examples}")
    if kind == "cells" and len(texts) + more != len(known):
        raise Fault(f"{len(texts)} examples and {more} more, of {len(known)}: {examples}")


def check_kind_rows(lists: Lists, place: int, rows: list[str]) -> None:
    """The lines of a section by kinds, of which the examples may take several, are as they must be."""
    lines: list[list[str]] = []
    for row in rows:
        if lines and row.startswith(" " * 11):
            lines[-1].append(row.strip(" "))
        elif it := re.fullmatch(r"( *\d+  [^:]+: )(.+)", row):
            lines.append([it[1], it[2]])
        else:
            lines.append([row])
    wanted = [*lists.kind_rows(place)]
    if [it[0] for it in lines] != wanted:
        raise Fault(f"by kinds {rows}, wanted {wanted}")
    for line, *examples in lines:
        if line.endswith(": "):
            check_examples(lists, place, line[9:-2], examples)


def check_screen(lists: Lists, lines: list[str]) -> None:
    """The lines of a list without an option: any, those of the sets, those of each section, and the last one."""
    places = [number for number, it in enumerate(lines) if HEADING.fullmatch(it)]
    if [lines[it] for it in places] != lists.headings():
        raise Fault(f"without an option {lines}, wanted {lists.headings()}")
    ends = [*places[1:], len(lines) - len(lists.verdict())]
    sets = lines[next((it for it in range(places[0]) if SETS.match(lines[it])), places[0]) : places[0]]
    if sets != [*lists.sets(True)] or lines[ends[-1] :] != lists.verdict():
        raise Fault(f"without an option {lines}, wanted {[*lists.sets(True)]} and {lists.verdict()}")
    for place, (begin, end) in enumerate(zip(places, ends)):
        rows = lines[begin + 1 : end]
        if lists.is_by_kinds(place):
            check_kind_rows(lists, place, rows)
        elif rows != [*lists.rows(place, 0, "")]:
            raise Fault(f"without an option {rows}, wanted {[*lists.rows(place, 0, '')]}")


# ---- The comparison


def union(told: dict[str, list[list[Pair]]], kinds: Kinds) -> list[list[Pair]]:
    """The pairs of the sections of the lists of all kinds."""
    wanted = len(kinds.sections())
    if wrong := [key for key, sections in told.items() if len(sections) != wanted]:
        raise Fault(f"not {wanted} sections: {wrong}")
    found = [[pair for sections in told.values() for pair in sections[place]] for place in range(wanted)]
    if more := [rules for rules, count in Counter(it.rules for some in found for it in some).items() if count > 1]:
        raise Fault(f"pairs of rules that are listed twice: {more}")
    return found


def check_pairs(kinds: Kinds, sections: list[list[Pair]]) -> None:
    """The texts of each pair clash and diverge at its rules, and have characters of its section."""
    for number, pairs in zip(kinds.sections(), sections):
        known = {it for it in kinds.kept if kinds.section(it) <= number}
        for it in pairs:
            left, right = it.both()
            if not known.issuperset(left + right):
                raise Fault(f"a character of another section: {it.row}")
            if divergence(kinds.plain.steps(left), kinds.plain.steps(right)) != it.rules:
                raise Fault(f"no clash at these rules: {it.row}")


def check_kinds(lists: Lists, told: dict[str, list[list[Pair]]]) -> None:
    """Each pair is in the list of its kind."""
    for key, sections in told.items():
        for it in sum(sections, []):
            if lists.kind_of[it.rules] != key:
                raise Fault(f"listed as '{key}', but of the kind '{lists.kind_of[it.rules]}': {it.row}")


class Asked(NamedTuple):
    """A program, the path of a table, and what is asked of it."""

    program: str
    path: Path
    given: Given

    def lines(self, *words: str) -> list[str]:
        """The lines of a list of the table, but for those of which the numbers or the words are another test's."""
        status, told = random_tables.run(self.program, "clashes", *words, *self.given.option, self.path)
        *lines, end = told.split("\n")
        of_option = lines.pop() if self.given.option and lines else ""
        is_clear = bool(lines) and re.fullmatch(r"unambiguous: \d+ states, \d+ pairs", lines[-1])
        is_named = not of_option or of_option.startswith(f"{self.given.option[0][2:]}: ")
        if end or not is_named or status != (0 if is_clear else 1):
            raise Fault(f"{words}: status {status}: {told}")
        return lines[:-1] if is_clear else lines


def check(asked: Asked, chosen: str, counts: Counter[str]) -> None:
    """Compares all lists of a table; of the chosen kind also that of the first pair of each section."""
    plain = Plain(Table(str(asked.path)))
    kinds, reader = Kinds(plain, asked.given.left_out), Reader(plain, asked.given.text)
    lines = {key: asked.lines("--kind", key) for key in TITLES}
    told = {key: reader.pairs(it) for key, it in lines.items()}
    sections = union(told, kinds)
    check_pairs(kinds, sections)
    lists = Lists(kinds, sections)
    check_kinds(lists, told)
    lines[""] = asked.lines("--first", "0")
    for key, it in lines.items():
        if it != lists.listed(0, key):
            raise Fault(f"--kind '{key}': {it}, wanted {lists.listed(0, key)}")
    if (it := asked.lines("--first", "1", "--kind", chosen)) != lists.listed(1, chosen):
        raise Fault(f"--first 1 --kind {chosen}: {it}, wanted {lists.listed(1, chosen)}")
    check_screen(lists, asked.lines())
    note(lists, counts)


def note(lists: Lists, counts: Counter[str]) -> None:
    """Counts what was compared of a table."""
    counts.update(lists.kind_of.values())
    by_kinds = [SECTIONS[number] for place, number in enumerate(lists.numbers) if lists.is_by_kinds(place)]
    counts.update([*by_kinds, *["a section by kinds"] * len(by_kinds)])
    counts.update(["sets in one line"] * (len(lists.kinds.sets()) > MOST_SETS) + ["clashing"] * bool(lists.kind_of))


def check_keys(asked: Asked) -> None:
    """Keys that there aren't are refused."""
    for it in NO_KEYS:
        if random_tables.run(asked.program, "clashes", "--kind", it, asked.path) != (2, ""):
            raise Fault(f"the key '{it}' isn't refused")


def report(counts: Counter[str], seed: str) -> None:
    """Prints what was compared."""
    print(f"seed {seed}: pairs of rules: {', '.join(f'{counts[it]} {it}' for it in TITLES)}")
    print(f"sections by kinds: {', '.join(f'{counts[it]} {it}' for it in SECTIONS)}")
    print(f"tables with more than {MOST_SETS} sets, which are one line: {counts['sets in one line']}")
    clashing, failed = counts["clashing"], counts["failed"]
    clear = counts["tables"] - clashing - failed
    print(f"kinds: {counts['tables']} tables, {clashing} with clashes, {clear} without, {failed} failed")


def main(words: list[str]) -> int:
    options = random_tables.asked(__doc__, words)
    counts: Counter[str] = Counter()
    with tempfile.TemporaryDirectory() as room:
        path = Path(room) / "t.ctb"
        for chosen, given in zip(cycle(TITLES), tables(random.Random(options.seed), options.count)):
            path.write_text(given.text)
            asked = Asked(options.program, path, given)
            try:
                check(asked, chosen, counts)
                if not counts["tables"]:
                    check_keys(asked)
            except (Fault, KeyError, IndexError) as fault:
                counts["failed"] += 1
                print(f"{fault!r}\nwith {given.option}:\n{given.text}", flush=True)
            counts["tables"] += 1
    never = [it for it in [*TITLES, "a section by kinds", "sets in one line"] if not counts[it]]
    lacking = ", ".join(never) if counts["tables"] >= ENOUGH else ""
    if lacking:
        print(f"never came: {lacking}")
    report(counts, options.seed)
    return 1 if counts["failed"] or lacking else 0


if __name__ == "__main__":
    sys.exit(main(sys.argv[1:]))
