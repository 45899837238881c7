#!/usr/bin/env python3
"""Compares the pairs of rules that `brl clashes` lists with those of all short texts.

  tests/clashes.py PROGRAM [--seed SEED] [--count COUNT]

Texts are translated here anew, by docs/proof/DEFINITIONS.md, and not by the program's code. Of each
table that is made at random all texts of up to 5 characters are translated, or up to fewer where
there would be too many. Then

- each example that `brl clashes` lists must be a clash, and its first different steps must be of the
  two rules that are listed with it;
- no one character of its texts, nor one of each, can be left out so that they clash and diverge there;
- no pair of rules is listed twice, and the last line gives their number;
- wherever two short texts with the same cells diverge, that pair of rules must be listed;
- the status must be 0 where none is listed, and 1 where some are.

The same seed makes the same tables. The exit status is 1 where something differs, which is printed.
"""

import re
import sys
import tempfile
from collections import defaultdict
from collections.abc import Iterator
from itertools import combinations, product, takewhile
from pathlib import Path
from typing import NamedTuple

sys.dont_write_bytecode = True
import random_tables
from plain_table import LETTER, PLACES, SPACE, UPPERCASE, Table, after_of, characters, holds

# The length of the longest texts that are tried, and how many texts of one length are.
LONGEST, MOST = 5, 2000

# Two rules, by their numbers: first the lesser.
Rules = tuple[int, int]


class Step(NamedTuple):
    """What a step takes: the rule, its characters, its cells, and whether these characters begin in a
    run of capitals."""

    rule: int
    reads: str
    cells: tuple[str, ...]
    is_run: bool


# ---- Translation


class Plain:
    """A table, by which texts are translated."""

    def __init__(self, table: Table) -> None:
        self.table = table
        self.numbers = {it: len(table.rules) + number for number, it in enumerate(table.chars)}

    def classes(self, text: str, place: int) -> int:
        return self.table.chars[text[place]].classes if 0 <= place < len(text) else SPACE

    def is_run(self, text: str, place: int) -> bool:
        """Whether a run of capitals begins or goes on at a place."""
        here, before, after = (self.classes(text, place + it) & UPPERCASE for it in (0, -1, 1))
        return bool(self.table.has_word_capitals() and here and (before or after))

    def fits(self, text: str, place: int, number: int) -> bool:
        """Whether a rule fits at a place."""
        rule, before = self.table.rules[number], self.classes(text, place - 1)
        found = text[place : place + len(rule.chars)]
        others = found[1:]
        if self.is_run(text, place):
            others = "".join(self.table.fold(it) if self.table.is_capital(it) else "\0" for it in others)
        return (
            self.table.fold(found[0]) + others == rule.chars
            and holds(PLACES[rule.place][0], before)
            and holds(after_of(rule.place, before), self.classes(text, place + len(rule.chars)))
        )

    def is_numeric(self, text: str) -> bool:
        """Whether numeric mode holds after a text."""
        is_numeric = False
        for it in map(self.table.chars.__getitem__, text):
            is_numeric = it.is_literary or (it.is_mode and is_numeric)
        return is_numeric

    def indicators(self, text: str, place: int) -> Iterator[str]:
        """The cells of the indicators before the step at a place."""
        info, is_capital, is_run = self.table.chars[text[place]], self.table.is_capital(text[place]), self.is_run(text, place)
        before = self.classes(text, place - 1) & UPPERCASE
        is_after_run = self.table.has_word_capitals() and before and self.classes(text, place - 2) & UPPERCASE
        is_numeric = self.is_numeric(text[:place])
        is_used = {
            "endcapsword": is_after_run and info.classes & LETTER and not is_capital,
            "nocontractsign": is_numeric and info.is_nocont,
            "numsign": info.is_literary and not is_numeric,
            "begcapsword": is_capital and is_run and not before,
            "capsletter": is_capital and not is_run,
        }
        for sign, it in is_used.items():
            yield from self.table.signs.get(sign, ()) if it else ()

    def step(self, text: str, place: int) -> Step:
        rules = self.table.rules
        number = next((it for it in range(len(rules)) if self.fits(text, place, it)), None)
        if number is None:
            number, reads, own = self.numbers[text[place]], text[place], self.table.chars[text[place]].cells
        else:
            reads, own = text[place : place + len(rules[number].chars)], rules[number].cells
        return Step(number, reads, (*self.indicators(text, place), *own), self.is_run(text, place))

    def steps(self, text: str) -> list[Step]:
        """The steps of a text's translation."""
        found, place = [], 0
        while place < len(text):
            found.append(self.step(text, place))
            place += len(found[-1].reads)
        return found


def cells_of(steps: list[Step]) -> tuple[str, ...]:
    return tuple(cell for it in steps for cell in it.cells)


def divergence(left: list[Step], right: list[Step]) -> Rules | None:
    """The rules of the first different steps of two texts that clash; None where they don't clash."""
    if left == right or cells_of(left) != cells_of(right):
        return None
    one, other = next((one, other) for one, other in zip(left, right) if one != other)
    return min(one.rule, other.rule), max(one.rule, other.rule)


# ---- All short texts


def short_texts(chars: list[str]) -> Iterator[str]:
    for length in range(LONGEST + 1):
        if len(chars) ** length <= MOST:
            yield from map("".join, product(chars, repeat=length))


def divergences(plain: Plain, without: str) -> dict[Rules, tuple[str, str]]:
    """The pairs of rules at which short texts that clash diverge, each with two such texts."""
    by_cells: dict[tuple[str, ...], list[tuple[str, list[Step]]]] = defaultdict(list)
    for text in short_texts([it for it in plain.table.chars if it not in without]):
        steps = plain.steps(text)
        by_cells[cells_of(steps)].append((text, steps))
    found: dict[Rules, tuple[str, str]] = {}
    for some in by_cells.values():
        for (left, one), (right, other) in combinations(some, 2):
            rules = divergence(one, other)
            if rules:
                found.setdefault(rules, (left, right))
    return found


# ---- What the program lists


class Example(NamedTuple):
    left: str
    right: str
    lines: set[int]


def examples(told: str) -> Iterator[Example]:
    """The examples of a list: their texts, and the lines of their rules."""
    for row in told.splitlines():
        found = re.fullmatch(r"  (\S+) / (\S+)  \S+  (.*)", row)
        if found:
            lines = {int(it) for it in re.findall(r"t\.ctb:(\d+) ", found[3])}
            yield Example(characters(found[1]), characters(found[2]), lines)


def smaller(text: str) -> Iterator[str]:
    yield text
    for place in range(len(text)):
        yield text[:place] + text[place + 1 :]


def example_fault(plain: Plain, it: Example, without: str) -> str:
    """What is wrong with an example, if anything."""
    if set(it.left + it.right) & set(without):
        return "it uses what is left out"
    rules = divergence(plain.steps(it.left), plain.steps(it.right))
    if rules is None:
        return "it is no clash"
    for left, right in product(smaller(it.left), smaller(it.right)):
        if (left, right) != (it.left, it.right) and divergence(plain.steps(left), plain.steps(right)) == rules:
            return f"it is not small: {left!r} / {right!r}"
    return ""


def set_rows(told: str) -> Iterator[str]:
    """The lines of sets of characters, which come first: the cells, and each character spelled."""
    rows = told.splitlines()
    if rows and re.match("[0-9]+ sets? of characters ", rows[0]):
        yield from takewhile(lambda row: row.startswith("  "), rows[1:])


def stand_ins(told: str, plain: Plain) -> dict[int, int]:
    """For the own definition of each character of a set that of the first of the set."""
    sets = ([plain.numbers[characters(it)] for it in row.split()[1:]] for row in set_rows(told))
    return {number: some[0] for some in sets for number in some}


def is_shown(rules: Rules, listed: set[Rules], others: dict[int, int]) -> bool:
    """Whether a pair of rules is listed, or one that stands for it: of two characters of one set the line
    of the set does."""
    one, other = sorted(others.get(it, it) for it in rules)
    return rules in listed or one == other or (one, other) in listed


# ---- The comparison


def list_fault(plain: Plain, told: str, status: int, without: str) -> str:
    """What is wrong with a list, if anything."""
    listed: set[Rules] = set()
    for it in examples(told):
        if wrong := example_fault(plain, it, without):
            return f"{it.left!r} / {it.right!r}: {wrong}"
        rules = divergence(plain.steps(it.left), plain.steps(it.right))
        if not it.lines or rules is None or rules in listed:
            return f"{it.left!r} / {it.right!r}: listed twice, or without lines"
        listed.add(rules)
    folded = sum(int(it) for it in re.findall(r"^  (\d+) of other characters of the sets$", told, re.MULTILINE))
    counts = re.findall(r"^(\d+) (?:pair of rules diverges|pairs of rules diverge), and no others$", told, re.MULTILINE)
    if status != (1 if listed or folded else 0) or counts != ([str(len(listed) + folded)] if status else []):
        return f"status {status}, {len(listed)} listed and {folded} folded, but it says {counts}"
    others = stand_ins(told, plain)
    lacking = {it: texts for it, texts in divergences(plain, without).items() if not is_shown(it, listed, others)}
    return f"not listed: {lacking}" if lacking else ""


def difference(program: str, folder: Path, table: str, without: str) -> tuple[str, str]:
    """What the list of a table says, and what is wrong with it, if anything."""
    path = folder / "t.ctb"
    path.write_text(table)
    words = random_tables.option(table, without)
    status, told = random_tables.run(program, "clashes", "--first", "0", *words, path)
    wrong = list_fault(Plain(Table(str(path))), told, status, without)
    return "failed" if wrong else ["unambiguous", "listed"][status], f"{wrong}\n{told}" if wrong else ""


def main(words: list[str]) -> int:
    asked = random_tables.asked(__doc__, words)
    with tempfile.TemporaryDirectory() as room:
        counts, lacking = random_tables.compare(asked, "listed", lambda *it: difference(asked.program, Path(room), *it))
    print(f"clashes: {asked.count} tables, {counts['listed']} with clashes, {counts['unambiguous']} without, {counts['failed']} failed")
    return 1 if counts["failed"] or lacking else 0


if __name__ == "__main__":
    sys.exit(main(sys.argv[1:]))
