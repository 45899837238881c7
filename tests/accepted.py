#!/usr/bin/env python3
"""Compares what `brl clashes` writes, and `clashes`, `search` and `check` accept, with a plain reading of
docs/guide/ACCEPTED.md.

  tests/accepted.py PROGRAM [--seed SEED] [--count COUNT]

What rules say, and which characters are of one set, is told here anew, of tables that are made at random. Of
each table

- `--write` writes a line for each set of which two characters aren't left out, and others for just as many pairs
  of rules as the list has besides, each of two rules of the table, and among them all those at which short
  texts diverge;
- `--accept` with some of these lines, turned at random, with notes between them, with some characters of sets, and
  with stale lines, lists just the other pairs, prints each stale line, gives their number, those of pairs and sets,
  and the status, and with `--write` writes the others; with `--prune` the file is left without its stale lines;
- a line of rules that aren't listed is `P2`, and passes where a limit is passed, and then no file is written; one
  that isn't of two rules is `P1`, one that isn't of characters of one set `P3`;
- `search --accept` and `check --accept` with such lines print each, and no verdict;
- `search --accept` with all lines certifies the table, and says how many pairs and sets it accepts; `check` accepts
  the certificate with the same file, and refuses it without one of its lines. Any two short texts with the same
  cells are then the same but for what the file says. With some lines alone the search reports a clash at another
  pair of rules, and with none that of the search without a file.

The same seed makes the same tables. The exit status is 1 where something differs, which is printed.
"""

import random
import re
import subprocess
import sys
import tempfile
from collections import defaultdict
from itertools import combinations, product
from pathlib import Path
from typing import NamedTuple

sys.dont_write_bytecode = True
import random_tables
from clashes import Plain, Rules, Step, cells_of, divergence, divergences, examples, short_texts
from plain_table import Table, characters

# What a limit so low leaves out is told by no line.
LOW = "1"

# How the line of a set begins.
EXCHANGE = "exchange "


class Told(NamedTuple):
    """What the program answered; notices are left out of standard error."""

    status: int
    out: str
    err: str

    def shown(self, plain: Plain) -> list[Rules | None]:
        """The pairs of rules of its list, in its order."""
        return [divergence(plain.steps(it.left), plain.steps(it.right)) for it in examples(self.out)]

    def number(self, form: str) -> int:
        """The number on the one line of this form; -1 where there is none."""
        found = re.findall(f"^([0-9]+) {form}$", self.out, re.MULTILINE)
        return int(found[0]) if len(found) == 1 else -1

    def listed(self) -> int:
        """How many pairs of rules the last line names; 0 where the table is unambiguous."""
        if re.search("^unambiguous: ", self.out, re.MULTILINE):
            return 0
        return self.number("(?:pair of rules diverges|pairs of rules diverge), and no others(?: but for the accepted ones)?")

    def clash(self) -> tuple[str, str]:
        """The two texts of its report; empty where it has none."""
        found = re.match("left: (.*)\nright: (.*)\n", self.out)
        return (characters(found[1]), characters(found[2])) if found else ("", "")


def sets_of(table: Table) -> list[str]:
    """The sets of two or more characters with the same cells, classes and flags that are in no rule."""
    used, found = {it for rule in table.rules for it in rule.chars}, defaultdict(list)
    for char, it in table.chars.items():
        if char not in used and table.fold(char) == char:
            found[tuple(it.cells), it.classes, it.is_literary, it.is_mode, it.is_nocont].append(char)
    return ["".join(some) for some in found.values() if len(some) > 1]


def many(count: int, one: str) -> str:
    return f"{count} {one}{'s' * (count != 1)}"


class Words:
    """What the rules of a table say, and its sets of characters."""

    def __init__(self, plain: Plain) -> None:
        self.numbers, table = plain.numbers, plain.table
        own = [self.of(it.opcode, char, it.cells) for char, it in table.chars.items()]
        self.rules = [self.of(it.place, it.chars, list(it.cells)) for it in table.rules] + own
        self.pairs = defaultdict(list)
        for pair in product(range(len(self.rules)), repeat=2):
            self.pairs[self.line(pair)].append(pair)
        self.lines = set(self.pairs)
        self.sets = sets_of(table)

    @staticmethod
    def of(opcode: str, chars: str, cells: list[str]) -> str:
        return f"{opcode} {random_tables.spelled(chars)} {'-'.join(cells)}"

    def line(self, pair: Rules) -> str:
        return f"{self.rules[pair[0]]} / {self.rules[pair[1]]}"

    def named(self, line: str) -> set[Rules]:
        """The pairs of rules that a line of a file names, the lesser number first."""
        if line.startswith(EXCHANGE):
            own = sorted(self.numbers[it] for it in set(characters(line.removeprefix(EXCHANGE))))
            return set(combinations(own, 2))
        return {(min(it), max(it)) for it in self.pairs.get(line, ())}

    def written(self, pairs: list[Rules]) -> list[str]:
        """The lines of a file with these pairs."""
        lines = [EXCHANGE + random_tables.spelled(it) for it in self.sets if self.named(EXCHANGE + random_tables.spelled(it)) & set(pairs)]
        of_sets = set().union(*map(self.named, lines))
        return lines + [self.line(it) for it in pairs if it not in of_sets]


def turned(line: str) -> str:
    one, _, other = line.partition(" / ")
    return f"{other} / {one}" if other else line


class Case:
    """A table, and how its clashes are asked for."""

    def __init__(self, program: str, folder: Path, table: str, without: str) -> None:
        self.program, self.folder = program, folder
        self.path, self.pairs, self.chosen, self.cert = (folder / it for it in ("t.ctb", "t.pairs", "chosen.pairs", "t.cert"))
        self.path.write_text(table)
        self.options = random_tables.option(table, without)
        self.without = without
        self.plain = Plain(Table(str(self.path)))
        self.words = Words(self.plain)
        self.chance = random.Random(table)

    def run(self, *words: str | Path) -> Told:
        ran = subprocess.run([str(it) for it in (self.program, *words)], capture_output=True, text=True, timeout=60)
        return Told(ran.returncode, ran.stdout, re.sub("^notice .*\n", "", ran.stderr, flags=re.MULTILINE))

    def ask(self, *options: str | Path) -> Told:
        """What the program answers, where FILE of `--write` is no file before."""
        self.pairs.unlink(missing_ok=True)
        return self.run("clashes", "--first", "0", *self.options, *options, self.path)

    def written(self) -> list[str]:
        """The lines of the file that was written; one that isn't there has a line that no file has."""
        return self.pairs.read_text().splitlines() if self.pairs.exists() else ["no file"]

    def choose(self, lines: list[str]) -> None:
        self.chosen.write_text("".join(it + self.chance.choice(["\n", "\n", "\r\n"]) for it in lines))

    def accept(self, lines: list[str], *options: str | Path) -> Told:
        """What it answers beside these lines."""
        self.choose(lines)
        return self.ask("--accept", self.chosen, *options)

    def decide(self, command: str, lines: list[str]) -> Told:
        """What `search` or `check` answers beside these lines."""
        self.choose(lines)
        return self.run(command, *self.options, "--accept", self.chosen, self.path, self.cert)

    def listed(self, lines: list[str]) -> list[Rules]:
        """The pairs of rules that are listed, where these lines are written of them.

        A line may name several, but of rules that say the same only the first is ever chosen.
        """
        own = [self.plain.numbers[it] for it in self.plain.table.chars if it not in self.without]
        of_sets = [it for line in lines if line.startswith(EXCHANGE) for it in self.words.named(line) if set(it) <= set(own)]
        return [*of_sets, *(it for line in lines if not line.startswith(EXCHANGE) for it in sorted(self.words.named(line))[:1])]

    # ---- What is wrong, if anything

    def written_fault(self, plain_list: Told, lines: list[str]) -> str:
        """What is wrong with the file of a whole list."""
        listed = self.listed(lines)
        if len(listed) != plain_list.listed():
            return f"{len(listed)} pairs in {lines}, and {plain_list.listed()} in the list"
        sets = [EXCHANGE + random_tables.spelled(it) for it in self.words.sets if len(set(it) - set(self.without)) > 1]
        if [it for it in lines if it.startswith(EXCHANGE)] != sets:
            return f"these aren't just the sets {sets}: {lines}"
        if strange := [it for it in lines if it not in sets and it not in self.words.lines]:
            return f"these lines are of no two rules: {strange}"
        lacking = [it for it in [*plain_list.shown(self.plain), *divergences(self.plain, self.without)] if it not in listed]
        return f"these pairs are lacking: {[self.words.line(it) for it in lacking]}" if lacking else ""

    def with_notes(self, lines: list[str]) -> list[str]:
        """Lines in another order, each turned or not, with notes between them."""
        some = [self.chance.choice([it, turned(it)]) for it in lines]
        some += self.chance.choices(["", " \t", "# a note", " \t# letter a 1 / letter a 1"], k=self.chance.randint(0, 3))
        self.chance.shuffle(some)
        return some

    def part(self, line: str) -> str:
        """The line of a set with some of its characters, in another order; another line as it is."""
        if not line.startswith(EXCHANGE):
            return line
        some = characters(line.removeprefix(EXCHANGE))
        return EXCHANGE + random_tables.spelled("".join(self.chance.sample(some, self.chance.randint(2, len(some)))))

    def fault_of(self, line: str, listed: set[Rules] | None) -> str:
        """The fault of a line, if it has one, where these pairs are listed and no others; without them no line lacks its pair."""
        if not line.strip(" \t") or line.lstrip(" \t").startswith("#"):
            return ""
        if line.startswith(EXCHANGE):
            some = line.removeprefix(EXCHANGE)
            is_set = re.fullmatch(r"(\\s|[^\\\s]){2,}", some) and any(set(characters(some)) <= set(it) for it in self.words.sets)
            return "" if is_set else "P3 NoSuchSet"
        if line not in self.words.lines:
            return "P1 NoSuchRules"
        return "" if listed is None or self.words.named(line) & listed else "P2 NotListed"

    def stale(self, lines: list[str], listed: set[Rules] | None) -> list[str]:
        """What is printed of the stale lines among these."""
        numbered = [(self.fault_of(it, listed), it, number) for number, it in enumerate(lines, 1)]
        return [f"{fault} {it} at {self.chosen}:{number}\n" for fault, it, number in numbered if fault]

    def counted(self, lines: list[str], listed: set[Rules] | None) -> str:
        """The line that says how many pairs, of those that are listed, and sets these lines name."""
        own = set().union(*(self.words.named(it) for it in lines if not it.startswith(EXCHANGE)))
        shown = [set(characters(it.removeprefix(EXCHANGE))) for it in lines if it.startswith(EXCHANGE)]
        sets = sum(any(some <= set(it) for some in shown) for it in self.words.sets)
        pairs = own if listed is None else own & listed
        return f"but for: {many(len(pairs), 'pair')} of rules, {many(sets, 'set')} of characters\n"

    def tail(self, left: int, taken: int, stale: str, counted: str) -> str:
        """The last lines of a list."""
        verdict = f"{left} {'pair of rules diverges' if left == 1 else 'pairs of rules diverge'}, and no others"
        names = random_tables.option_line(self.options)
        return f"{verdict}{' but for the accepted ones' * (taken > 0)}\n{stale}{counted}{names}"

    def accepting_fault(self, plain_list: Told, lines: list[str], some: list[str]) -> str:
        """What is wrong with the list beside these lines, some of which may be stale."""
        listed = self.listed(lines)
        stale = self.stale(some, set(listed))
        good = [it for it in some if not self.fault_of(it, set(listed))]
        named = set().union(*map(self.words.named, good))
        left = [it for it in listed if it not in named]
        counted, taken = self.counted(good, set(listed)), len(listed) - len(left)
        told = self.accept(some, "--write", self.pairs)
        tail = self.tail(len(left), taken, f"stale: {many(len(stale), 'line')}\n" * bool(stale), counted)
        is_whole = told.out.endswith(tail) if listed else re.search("^unambiguous: ", told.out, re.MULTILINE)
        if (told.status, told.listed(), told.err) != (1 if left else 2 if stale else 0, len(left), "".join(stale)) or not is_whole:
            return f"beside {some}: status {told.status}, {told.err}\n{told.out}\nand not {stale} {tail}"
        shown = told.shown(self.plain)
        if not set(shown) <= set(left) or len(set(shown)) != len(shown):
            return f"beside {some}: others are shown\n{told.out}"
        if [it for it in plain_list.shown(self.plain) if it not in named] != [it for it in shown if it in plain_list.shown(self.plain)]:
            return f"beside {some}: some that were shown aren't any more, or in another order\n{told.out}"
        if wanted := self.words.written(left) if self.written() != self.words.written(left) else []:
            return f"beside {some}: {self.written()} is written, and not {wanted}"
        return self.pruning_fault(some, good, stale, told)

    def pruning_fault(self, some: list[str], good: list[str], stale: list[str], told: Told) -> str:
        """What is wrong where the stale lines are taken out of the file, beside which this was told before."""
        self.choose(some)
        before = self.chosen.read_bytes()
        pruned = self.ask("--accept", self.chosen, "--prune")
        old, new = ("stale: ", "pruned: ") if stale else ("but for: ", "pruned: 0 lines\nbut for: ")
        wanted = Told(0 if told.status == 2 else told.status, told.out.replace(f"\n{old}", f"\n{new}"), told.err)
        if pruned != wanted or self.pairs.exists():
            return f"beside {some}: {pruned} is told, and not {wanted}"
        kept = "".join(f"{it}\n" for it in good).encode() if stale else before
        return "" if self.chosen.read_bytes() == kept else f"of {some} {self.chosen.read_bytes()} is left, and not {kept}"

    def some_fault(self, plain_list: Told, lines: list[str]) -> str:
        """What is wrong with the list and the search beside some of these lines."""
        some = [self.part(it) for it in lines if self.chance.random() < 0.5]
        named, listed = set().union(*map(self.words.named, some)), self.listed(lines)
        wrong = self.accepting_fault(plain_list, lines, self.with_notes(some))
        return wrong or self.clash_fault(some, named, {it for it in listed if it not in named})

    def faulty_line_fault(self, plain_list: Told, lines: list[str]) -> str:
        """What is wrong where lines are stale."""
        listed = set(self.listed(lines))
        stale = self.chance.choice(sorted(it for it in self.words.lines if not self.words.named(it) & listed) or [""])
        bad = self.chance.choice([f"{it}{end}" for it in self.words.rules for end in ("", " / ", " / nothing", f" / {it} ")])
        known = list(self.plain.table.chars)
        apart = [one + other for one, other in combinations(known, 2) if not any({one, other} <= set(it) for it in self.words.sets)]
        no_set = EXCHANGE + random_tables.spelled(self.chance.choice([*apart, "", known[0]])) + self.chance.choice(["", "", " ", "\\q"])
        some = [self.chance.choice([it, turned(it)]) for it in lines if self.chance.random() < 0.3] + [stale, bad, no_set]
        self.chance.shuffle(some)
        if wrong := self.accepting_fault(plain_list, lines, some):
            return wrong
        self.cert.write_text("")
        command, wanted = self.chance.choice(["search", "check"]), Told(2, "", "".join(self.stale(some, None)))
        if (told := self.decide(command, some)) != wanted:
            return f"beside {some} {command} ends with {told}, and not with {wanted}"
        told = self.accept([*lines, stale], "--write", self.pairs, "--limit", LOW)
        if told.status == 3:
            return "" if self.written() == ["no file"] and not told.err else f"a line is stale, or a file written, of a list that may lack pairs: {told}"
        return "" if not stale or told.err == f"P2 NotListed {stale} at {self.chosen}:{len(lines) + 1}\n" else f"the line '{stale}' passes: {told}"

    # ---- Searches and checks

    def clash_fault(self, some: list[str], named: set[Rules], left: set[Rules]) -> str:
        """What is wrong with a search beside some lines, which names these pairs of rules and leaves others."""
        self.cert.unlink(missing_ok=True)
        told = self.decide("search", some)
        if not left:
            return "" if told.status == 0 else f"beside {some} the search ends with {told}"
        texts = [self.plain.steps(it) for it in told.clash()]
        rules = divergence(*texts)
        if told.status != 1 or self.cert.exists() or not rules or rules in named or set("".join(told.clash())) & set(self.without):
            return f"beside {some} the search ends with {told}"
        if not named:
            alone = self.run("search", *self.options, self.path, self.cert)
            return "" if told == alone else f"beside {some} the search ends with {told}, and without a file with {alone}"
        return "" if rules == min(left) else f"beside {some} the clash is at {rules}, and not at the least of {left}"

    def agree(self, left: list[Step], right: list[Step], accepted: set[Rules], exchanged: set[Rules]) -> bool:
        """Whether two texts are the same but for exchanges, to their ends or up to an accepted pair of rules."""
        for one, other in zip(left, right):
            rules = min(one.rule, other.rule), max(one.rule, other.rule)
            if one != other and rules in accepted:
                return True
            if one != other and (rules not in exchanged or one.cells != other.cells):
                return False
        return len(left) == len(right)

    def short_fault(self, lines: list[str]) -> str:
        """Which short texts with the same cells aren't as a certificate for these lines says, if any are."""
        accepted = set().union(*(self.words.named(it) for it in lines if not it.startswith(EXCHANGE)))
        exchanged = set().union(*(self.words.named(it) for it in lines if it.startswith(EXCHANGE)))
        by_cells = defaultdict(list)
        for text in short_texts([it for it in self.plain.table.chars if it not in self.without]):
            steps = self.plain.steps(text)
            by_cells[cells_of(steps)].append((text, steps))
        for some in by_cells.values():
            for (left, one), (right, other) in combinations(some, 2):
                if not self.agree(one, other, accepted, exchanged):
                    return f"{left!r} and {right!r} aren't the same but for {lines}"
        return ""

    def certificate_fault(self, lines: list[str]) -> str:
        """What is wrong with a search that accepts all of these lines, and the checks of its certificate."""
        some = self.with_notes(lines)
        self.cert.unlink(missing_ok=True)
        found, told = self.decide("search", some), self.decide("check", some)
        but_for = self.counted(some, None)
        names = random_tables.option_line(self.options)
        form = r"certified: \d+ states, \d+ pairs\n" + re.escape(but_for + names)
        if found.status or not re.fullmatch(form, found.out):
            return f"beside {some} the search ends with {found}, and not with {but_for}"
        if told != Told(0, found.out.replace("certified", "accepted"), ""):
            return f"beside {some} the check ends with {told} after {found}"
        if lines and self.decide("check", self.chance.sample(lines, len(lines) - 1)).status != 1:
            return f"with one line less the certificate for {lines} is accepted"
        return self.short_fault(lines)

    def fault(self) -> tuple[int, str]:
        """How many pairs of rules are listed, and what is wrong, if anything."""
        plain_list = self.ask()
        if self.ask("--write", self.pairs) != plain_list:
            return 0, "with --write something else is printed"
        lines = self.written()
        wrong = self.written_fault(plain_list, lines) or self.some_fault(plain_list, lines) or self.faulty_line_fault(plain_list, lines)
        return len(lines), wrong or self.certificate_fault(lines)


# How many tables have sets of characters.
with_sets = 0


def difference(program: str, folder: Path, table: str, without: str) -> tuple[str, str]:
    """What the list of a table comes to, and what is wrong with its files, if anything."""
    global with_sets
    case = Case(program, folder, table, without)
    with_sets += bool(case.words.sets)
    count, wrong = case.fault()
    return ("failed" if wrong else "listed" if count else "unambiguous"), wrong


def main(words: list[str]) -> int:
    asked = random_tables.asked(__doc__, words)
    with tempfile.TemporaryDirectory() as room:
        counts, lacking = random_tables.compare(asked, "listed", lambda *it: difference(asked.program, Path(room), *it))
    print(f"accepted: {asked.count} tables, {counts['listed']} with clashes, {counts['unambiguous']} without, {counts['failed']} failed")
    print(f"accepted: {with_sets} tables have sets of characters")
    return 1 if counts["failed"] or lacking or (asked.count >= random_tables.ENOUGH and not with_sets) else 0


if __name__ == "__main__":
    sys.exit(main(sys.argv[1:]))
