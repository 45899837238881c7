#!/usr/bin/env python3
"""Compares the states that `brl search` finds with those of a plain program of their definition.

  tests/states.py PROGRAM [--seed SEED] [--count COUNT]

The machine with dues is written here anew, by docs/proof/MACHINES.md and docs/proof/DEFINITIONS.md,
and not by the program's code: the steps of a state are tried one by one, over all forms of all
rules. Of each table that is made at random all reached states and pairs are found, for the texts of
the table, or for those that don't use one of its characters. Then

- `brl search` must find a certificate or a clash where this program does;
- the states of the certificate must be the reached states, and its pairs must be reached pairs;
- `brl check` must accept the reached states with all reached pairs, and with those of the search.

The same seed makes the same tables. The exit status is 1 where something differs, which is printed.
"""

import sys
import tempfile
from collections.abc import Iterable, Iterator
from itertools import chain, combinations, product
from pathlib import Path
from typing import NamedTuple

sys.dont_write_bytecode = True
import random_tables
from plain_table import ALWAYS, AVOIDS, LETTER, MEETS, PLACES, SPACE, UPPERCASE, Cond, Rule, Table, after_of, holds

# A table, and how many states it has: out of a run of capitals `midword AA` has no form, since its
# second character is a capital.
ROW, ROW_STATES = "lowercase x 1\nuppercase A 2\nmidword AA 3\nbegcapsword 12\n", 8

# A due: its kind, its characters (none of a need) and its condition. These triples are in the order
# of dues in a certificate.
Due = tuple[int, str, Cond]
NEED, BAR = 0, 1


class State(NamedTuple):
    before: int
    is_numeric: bool
    is_run: bool
    dues: tuple[Due, ...]


class Step(NamedTuple):
    rule: int
    reads: str
    cells: tuple[str, ...]
    next: State


class Form(NamedTuple):
    """What a step may take: what it reads, in a run of capitals or out of one; what must follow so
    that this is so; its rule's condition on what follows; and the rules ranked above its own."""

    rule: int
    reads: str
    is_run: bool
    further: Cond
    after: Cond
    cells: tuple[str, ...]
    above: list[Rule]


# ---- Dues


def need(cond: Cond) -> list[Due]:
    """The need of this condition; what asks for nothing is no due."""
    return [] if cond == ALWAYS else [(NEED, "", cond)]


def bar(chars: str, cond: Cond) -> list[Due] | None:
    """What is due where a text must not go on so; None where every text does."""
    if chars:
        return [(BAR, chars, cond)]
    return None if cond == ALWAYS else [(NEED, "", (MEETS + AVOIDS - cond[0], cond[1]))]


def spelled(cond: Cond) -> str:
    return "*" if cond == ALWAYS else f"{' +-'[cond[0]]}{cond[1]}"


def state_line(state: State) -> str:
    """The line of a state in a certificate of version 3."""
    dues = (f"{'nb'[kind]}{'.'.join(f'{ord(it):x}' for it in chars)}{spelled(cond)}" for kind, chars, cond in state.dues)
    return " ".join(["state", str(state.before), str(int(state.is_numeric)), str(int(state.is_run)), *dues])


# ---- The machine


class Machine:
    """The machine with dues of a table, for the texts that use none of some characters."""

    def __init__(self, table: Table, without: str) -> None:
        self.table, self.without = table, without

    # What a step takes.

    def texts(self, chars: str, is_run: bool) -> Iterator[str]:
        """What a rule with these characters may read: in a run of capitals, capitals whose folds
        they are; out of one, a character whose fold is the first, and the others."""
        folded = [[it for it in self.table.chars if self.table.fold(it) == char] for char in chars]
        if is_run:
            folded = [[it for it in some if self.table.is_capital(it)] for some in folded]
        return map("".join, product(*folded) if is_run else product(folded[0], [chars[1:]]))

    def further(self, before: int, text: str, is_run: bool) -> Cond | None:
        """What must follow a text so that it begins in a run of capitals, or out of one, after
        these classes; None where it can't begin so."""
        if not (self.table.has_word_capitals() and self.table.is_capital(text[0])):
            return None if is_run else ALWAYS
        if not before & UPPERCASE and len(text) == 1:
            return (MEETS if is_run else AVOIDS, UPPERCASE)
        return ALWAYS if is_run == bool(before & UPPERCASE or self.table.is_capital(text[1])) else None

    def rule_texts(self, rule: Rule, before: int, is_run: bool) -> Iterator[tuple[str, Cond]]:
        """The texts of a rule's forms, in a run of capitals or out of one, after these classes, and
        what must follow each."""
        if holds(PLACES[rule.place][0], before):
            for text in self.texts(rule.chars, is_run):
                further = self.further(before, text, is_run)
                if further is not None:
                    yield text, further

    def forms(self, before: int) -> Iterator[Form]:
        """All forms after a character of these classes: those of rules, and of own definitions."""
        rules = self.table.rules
        for is_run in (True, False):
            for number, rule in enumerate(rules):
                after, above = after_of(rule.place, before), rules[:number]
                for text, further in self.rule_texts(rule, before, is_run):
                    yield Form(number, text, is_run, further, after, rule.cells, above)
            for number, (char, info) in enumerate(self.table.chars.items(), len(rules)):
                further = self.further(before, char, is_run)
                if further is not None:
                    yield Form(number, char, is_run, further, ALWAYS, tuple(info.cells), rules)

    # What a step leaves.

    def carried(self, due: Due, reads: str) -> list[Due] | None:
        """What is left of a due once these characters are read; None where they break it."""
        kind, chars, cond = due
        if kind == BAR and chars.startswith(reads):
            return bar(chars[len(reads) :], cond)
        if kind == BAR and not reads.startswith(chars):
            return []
        is_met = holds(cond, self.table.chars[reads[len(chars)]].classes)
        return [] if is_met == (kind == NEED) else None

    def dues(self, state: State, form: Form) -> Iterator[list[Due] | None]:
        """What is left of each due of a state, and what the step of a form owes."""
        yield need(form.after)
        yield need(form.further)
        for due in state.dues:
            yield self.carried(due, form.reads)
        for rule in form.above:
            for text, _ in self.rule_texts(rule, state.before, form.is_run):
                if text.startswith(form.reads):
                    yield bar(text[len(form.reads) :], after_of(rule.place, state.before))

    def indicators(self, state: State, form: Form) -> Iterator[str]:
        """The cells of the indicators before a form."""
        info, is_capital = self.table.chars[form.reads[0]], self.table.is_capital(form.reads[0])
        is_used = {
            "endcapsword": self.table.has_word_capitals() and state.is_run and info.classes & LETTER and not is_capital,
            "nocontractsign": state.is_numeric and info.is_nocont,
            "numsign": info.is_literary and not state.is_numeric,
            "begcapsword": is_capital and form.is_run and not state.before & UPPERCASE,
            "capsletter": is_capital and not form.is_run,
        }
        return chain.from_iterable(self.table.signs.get(sign, ()) for sign, it in is_used.items() if it)

    def step(self, state: State, form: Form) -> Step | None:
        """The step of a form, if it breaks no due."""
        left = list(self.dues(state, form))
        if None in left:
            return None
        before, is_numeric, is_run = state[:3]
        for info in map(self.table.chars.__getitem__, form.reads):
            is_run = self.table.has_word_capitals() and bool(before & info.classes & UPPERCASE)
            is_numeric = info.is_literary or (info.is_mode and is_numeric)
            before = info.classes
        after = State(before, is_numeric, is_run, tuple(sorted(set(chain.from_iterable(left)))))
        return Step(form.rule, form.reads, (*self.indicators(state, form), *form.cells), after)

    def steps(self, state: State) -> list[Step]:
        """The steps of a state; two forms may give one step."""
        forms = (it for it in self.forms(state.before) if not set(it.reads) & set(self.without))
        return [it for it in dict.fromkeys(self.step(state, form) for form in forms) if it]


# ---- What is reached

# Two states, by their numbers, and the lead of the first.
Pair = tuple[int, int, tuple[str, ...]]


class Reached:
    """The states and the pairs that a machine reaches, and whether one of these is a clash."""

    def __init__(self, machine: Machine) -> None:
        start = State(SPACE, False, False, ())
        numbers, self.states = {start: 0}, [start]
        # of each state's steps the number of the next state, and the cells
        self.steps: list[list[tuple[int, tuple[str, ...]]]] = []
        for state in self.states:  # which grow on the way
            steps = machine.steps(state)
            for it in steps:
                if it.next not in numbers:
                    numbers[it.next] = len(numbers)
                    self.states.append(it.next)
            self.steps.append([(numbers[it.next], it.cells) for it in steps])
        self.ends = [all(holds(cond, SPACE) for kind, _, cond in it.dues if kind == NEED) for it in self.states]
        self.pairs: set[Pair] = set()
        self.is_clash = self.finds_clash()

    def finds_clash(self) -> bool:
        """Finds the pairs, up to the first with two ends and no lead."""
        todo = [it for steps in self.steps for one, two in combinations(steps, 2) for it in paired(*one, *two)]
        while todo:
            pair = ahead, behind, lead = todo.pop()
            if pair in self.pairs:
                continue
            self.pairs.add(pair)
            if not lead:
                if self.ends[ahead] and self.ends[behind]:
                    return True
                todo.append((behind, ahead, lead))
            todo += (it for step in self.steps[behind] for it in paired(ahead, lead, *step))
        return False


def paired(left: int, given: tuple[str, ...], right: int, other: tuple[str, ...]) -> Iterator[Pair]:
    """The pair of two runs that give these cells after the same ones, if there is one."""
    if given[: len(other)] == other:
        yield left, right, given[len(other) :]
    elif other[: len(given)] == given:
        yield right, left, other[len(given) :]


# ---- The comparison


def body(cert: Path) -> tuple[list[str], list[tuple[str, str, str]]]:
    """The lines of the states of a certificate, and its pairs with these lines."""
    rows = cert.read_text().splitlines()
    states = [it for it in rows if it.startswith("state ")]
    pairs = [it.split()[1:] for it in rows if it.startswith("pair ")]
    return states, [(states[int(ahead)], states[int(behind)], lead) for ahead, behind, lead in pairs]


def certificate(states: list[str], pairs: Iterable[tuple[str, str, str]]) -> str:
    """A certificate of these states and pairs."""
    numbers = {it: number for number, it in enumerate(states)}
    rows = [f"pair {numbers[ahead]} {numbers[behind]} {lead}" for ahead, behind, lead in pairs]
    return "\n".join(["BRLCERT 3", *states, *rows, f"end {len(states)} {len(rows)}"]) + "\n"


def difference(program: str, folder: Path, table: str, without: str) -> tuple[str, str]:
    """What the search says of a table, and what is different here, if anything."""
    path, cert, mine = folder / "t.ctb", folder / "t.cert", folder / "mine.cert"
    path.write_text(table)
    words = random_tables.option(table, without)
    status, told = random_tables.run(program, "search", *words, path, cert)
    reached = Reached(Machine(Table(str(path)), without))
    if status not in (0, 1) or reached.is_clash != (status == 1):
        return "failed", f"a clash: {reached.is_clash}; the search: status {status}, {told}"
    if reached.is_clash:
        return "a clash", ""
    states, (listed, found) = [state_line(it) for it in reached.states], body(cert)
    pairs = {(states[ahead], states[behind], "-".join(lead) or "-") for ahead, behind, lead in reached.pairs}
    if sorted(listed) != sorted(states):
        here, there = sorted(set(states) - set(listed)), sorted(set(listed) - set(states))
        return "failed", f"states here alone: {here}; in the certificate alone: {there}"
    if not pairs.issuperset(found):
        return "failed", f"pairs in the certificate alone: {sorted(set(found) - pairs)}"
    for some in (sorted(pairs), found):
        mine.write_text(certificate(states, some))
        answer = random_tables.run(program, "check", *words, path, mine)
        if answer[0] != 0 or not answer[1].startswith(f"accepted: {len(states)} states, {len(some)} pairs\n"):
            return "failed", f"the check: {answer}\n{mine.read_text()}"
    return "certified", ""


def row_fault(program: str, folder: Path) -> str:
    """What is wrong with the states of ROW, if anything."""
    came, wrong = difference(program, folder, ROW, "")
    is_right = came == "certified" and len(body(folder / "t.cert")[0]) == ROW_STATES
    return wrong or ("" if is_right else f"not {ROW_STATES} states")


def main(words: list[str]) -> int:
    asked = random_tables.asked(__doc__, words)
    with tempfile.TemporaryDirectory() as room:
        folder = Path(room)
        if wrong := row_fault(asked.program, folder):
            print(f"{wrong}:\n{ROW}")
        counts, lacking = random_tables.compare(asked, "certified", lambda *it: difference(asked.program, folder, *it))
    counts["failed"] += 1 if wrong else 0
    said = f"{counts['certified']} certified and compared, {counts['a clash']} clash, {counts['failed']} failed"
    print(f"states: {asked.count} tables, {said}")
    return 1 if counts["failed"] or lacking else 0


if __name__ == "__main__":
    sys.exit(main(sys.argv[1:]))
