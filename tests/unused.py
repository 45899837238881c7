#!/usr/bin/env python3
"""Compares the rules that `brl unused` lists with those that no text uses.

  tests/unused.py PROGRAM [--seed SEED] [--count COUNT]

Texts are translated here anew, as in tests/clashes.py, and the machine with dues is written anew, as in
tests/states.py: neither is the program's code. Of each table that is made at random

- no text of up to 5 characters, or up to fewer where there would be too many, may use a listed rule, of
  some tables without a character, by --without or by --only with the others;
- a rule must be listed just where no path of the machine from its start to a final state takes it;
- each listed rule must be as `brl rules` has it, and with the rule that is chosen at the start of its
  characters, if that is another;
- the last line must give the numbers of listed rules and of all, and the status whether there are any;
- with a limit of one state less than are reached, no rule is listed, and the status is 3.

It also says how many of the rules that aren't listed are used by a short text. The same seed makes the
same tables. The exit status is 1 where something differs, which is printed.
"""

import random
import re
import subprocess
import sys
import tempfile
from collections import Counter
from pathlib import Path
from typing import NamedTuple

sys.dont_write_bytecode = True
import random_tables
from clashes import Plain, short_texts
from plain_table import SPACE, Table, holds
from states import NEED, Machine, State

# Lines that are added to tables in turn: none, a rule that is there already, with other cells, and a
# rule behind a placed one of the same characters.
EXTRAS = ["", "always {0} 1-2-3\nalways {0} 2\n", "begword {0} 3-3\nendword {0} 3-3-3\nword {0} 1\n", "always {0}{0} 3\nmidword {0}{0} 2-2\n"]


class Found(NamedTuple):
    """What is found of a table: how many states are reached, and the rules that a text uses."""

    states: int
    used: set[int]


def is_final(state: State) -> bool:
    return all(holds(cond, SPACE) for kind, _, cond in state.dues if kind == NEED)


def found_of(machine: Machine) -> Found:
    """The rules of the steps between reached states that lead on to a final one."""
    numbers = {State(SPACE, False, False, ()): 0}
    states = list(numbers)
    steps: list[tuple[int, int, int]] = []
    for here, state in enumerate(states):  # which grow on the way
        for it in machine.steps(state):
            if it.next not in numbers:
                numbers[it.next] = len(states)
                states.append(it.next)
            steps.append((here, it.rule, numbers[it.next]))
    live = {number for number, state in enumerate(states) if is_final(state)}
    while more := {here for here, _, after in steps if after in live} - live:
        live |= more
    return Found(len(states), {rule for _, rule, after in steps if after in live})


def used_by_short(plain: Plain, without: str) -> set[int]:
    """The rules that a short text without some characters uses."""
    kept = [it for it in plain.table.chars if it not in without]
    return {step.rule for text in short_texts(kept) for step in plain.steps(text)}


# ---- What the program lists


def run(*words: str | Path) -> tuple[int, str]:
    ran = subprocess.run([str(it) for it in words], capture_output=True, text=True, timeout=60)
    return ran.returncode, ran.stdout


def rule_rows(program: str, path: Path) -> list[list[str]]:
    """The columns of `brl rules`: the number, the opcode, the characters, the cells, the file and line."""
    return [row.split("  ") for row in run(program, "rules", path)[1].splitlines()]


def wanted_row(rows: list[list[str]], plain: Plain, number: int) -> str:
    """The line of an unused rule."""
    rules = plain.table.rules
    chars = rules[number].chars if number < len(rules) else list(plain.table.chars)[number - len(rules)]
    chosen = plain.steps(chars)[0].rule
    _, opcode, spelled, _, place = rows[chosen]
    return "  ".join([*rows[number], *["in its place:", f"{place} {opcode} {spelled}"] * (chosen != number)])


def wanted_text(program: str, path: Path, plain: Plain, unused: list[int], option: list[str]) -> str:
    rows = rule_rows(program, path)
    lines = [wanted_row(rows, plain, it) for it in unused]
    whole = "the one rule" if len(rows) == 1 else f"each of {len(rows)} rules"
    last = f"{len(unused)} of {len(rows)} rules {'is' if len(unused) == 1 else 'are'} used by no text" if unused else f"{whole} is used by some text"
    return "\n".join([*lines, last]) + "\n" + random_tables.option_line(option)


# ---- The comparison


def difference(program: str, path: Path, without: str, counts: Counter[str]) -> str:
    """What is wrong with the answer for a table and the texts without some characters, if anything."""
    plain = Plain(Table(str(path)))
    option = random_tables.option(path.read_text(), without)
    found, short = found_of(Machine(plain.table, without)), used_by_short(plain, without)
    total = len(plain.table.rules) + len(plain.table.chars)
    unused = [it for it in range(total) if it not in found.used]
    status, told = run(program, "unused", *option, path)
    listed = {int(it) for it in re.findall(r"^(\d+)  ", told, re.MULTILINE)}
    if listed & short:
        return f"used by a short text: {sorted(listed & short)}"
    wanted = wanted_text(program, path, plain, unused, option)
    if status != (1 if unused else 0) or told != wanted:
        return f"{option}: status {status}, wanted {wanted}"
    if run(program, "unused", *option, "--limit", str(found.states), path) != (status, told):
        return f"another answer within a limit of {found.states} states"
    if run(program, "unused", *option, "--limit", str(found.states - 1), path) != (3, f"limit: {found.states} states\n"):
        return f"no limit at {found.states - 1} states"
    counts.update(unused=len(unused), own=sum(it >= len(plain.table.rules) for it in unused), short=len(short), used=total - len(unused))
    counts.update(["some" if unused else "none"])
    return ""


def with_extra(table: str, extra: str) -> str:
    """A table with more rules of a small letter that it has, if it has one."""
    letters = [it for it in random_tables.defined(table.splitlines()) if it.islower()]
    return table + (extra.format(letters[0]) if letters else "")


def main(words: list[str]) -> int:
    asked = random_tables.asked(__doc__, words)
    counts: Counter[str] = Counter()
    kinds: Counter[str] = Counter()
    options: Counter[str] = Counter()
    with tempfile.TemporaryDirectory() as room:
        path = Path(room) / "t.ctb"
        for number, (some, without) in enumerate(random_tables.tables(random.Random(asked.seed), asked.count)):
            table = with_extra(some, EXTRAS[number // 3 % len(EXTRAS)])
            path.write_text(table)
            kinds.update(random_tables.kinds(table))
            options.update(random_tables.option(table, without)[:1])
            if wrong := difference(asked.program, path, without, counts):
                counts["failed"] += 1
                print(f"{wrong}\nwithout '{without}':\n{table}", flush=True)
    lacking = random_tables.lacking(kinds) if asked.count >= random_tables.ENOUGH else ""
    print("\n".join(filter(None, [f"seed {asked.seed}: compared {random_tables.shown(kinds)}", random_tables.shown_options(options), lacking])))
    print(f"used: {counts['used']} rules, {counts['short']} of them by a short text; unused: {counts['unused']}, {counts['own']} of them own")
    print(f"unused: {asked.count} tables, {counts['some']} with such rules, {counts['none']} without, {counts['failed']} failed")
    return 1 if counts["failed"] or lacking else 0


if __name__ == "__main__":
    sys.exit(main(sys.argv[1:]))
