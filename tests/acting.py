#!/usr/bin/env python3
"""Compares which lines `brl cut --only` says can act with those that tests/plain_acting.py finds, on tables made at random.

  tests/acting.py PROGRAM [--seed SEED] [--count COUNT]

A table defines some characters, with or without capitals, digits and marks, and has up to some twenty lines of all
opcodes that the plain program knows: with prefixes, virtual dots, characters that aren't defined, escapes, good and bad, and
tests; some lines end with a backslash, and some are no lines of liblouis. It is cut with or without `--rewrite`, for an alphabet
of some of the characters that its cut defines, which is spelled with ranges where these follow each other. The lines of
the answer from `can act` on and its status are those of the plain program, which checks itself on small tables first.

The same seed makes the same tables. The exit status is 1 where something differs, which is printed, or where 1,000 tables
or more lack lines of an opcode, or of opcodes of one kind those that can act, or those that can't.
"""

import argparse
import contextlib
import random
import re
import subprocess
import sys
import tempfile
from collections import Counter
from pathlib import Path

sys.dont_write_bytecode = True
import plain_acting
import plain_cut
from plain_acting import Row

# This many tables or more have lines of each opcode, and of each kind those that can act and that can't, whatever the seed.
ENOUGH = 1000

SMALL, CAPITALS, DIGITS, MARKS = "abcdé", "ABCDÉ", "123", ".;+=*"
CELLS = ["1", "12", "14", "145", "0", "36", "1-2", "12-1", "3456", "6-6"]
VIRTUAL = ["1a", "9", "1-2b", "f"]
# Cells that no character has, for indicators and for tests of cells.
SIGN_CELLS = ["56", "46"]
OWN_CLASSES = ["foo", "bar", "w"]
CLASSES = [*plain_acting.DEFINITIONS, *OWN_CLASSES]

# Opcodes whose lines matter for each other; half of the lines of a table are of one such group.
TOGETHER = [
    ["letsign", "noletsign", "word", "largesign"],
    ["letsign", "sufword", "prfword", "begmidword", "noletsignafter"],
    ["begcapsword", "endcapsword", "capsletter", "capsign", "endword"],
    ["numsign", "digit", "litdigit", "numericmodechars", "begnum"],
    ["pass2", "pass3", "capsletter", "numsign", "always"],
    ["pass2", "pass4", "begcapsword", "capsletter", "uplow"],
    ["correct", "context", "attribute", "class", "swapcc"],
    ["base", "uplow", "literal", "joinword"],
    ["always", "word", "endword"],
    ["modeletter", "begmode", "attribute"],
]

# Opcodes by the operands that their lines have here; those of no list have characters and dots.
DOTS = [*plain_acting.CAPITALS, *plain_acting.NUMBERS, "letsign", "undefined", "begcomp", "endcomp"]
CHARS = [*plain_acting.NUMBER_LISTS, *plain_acting.SEQUENCES, "noletsign", "noletsignbefore", "noletsignafter", "contraction", "nocont", "capsmodechars"]
NAME_DOTS = [it for it in plain_acting.MODES + plain_acting.IDLE if "emph" in it or "mode" in it]
NAME_CHARS = ["attribute", "class", "swapcc", "swapcd", "swapdd"]

# Opcodes of one kind: of their lines that a cut leaves out, and of those that it keeps, some can act and some can't.
LEFT_OUT = [
    plain_acting.DEFINITIONS, plain_acting.PLACED, ["always"], [it for it in plain_acting.RULES if it not in [*plain_acting.PLACED, "always"]],
    plain_acting.CAPITALS, plain_acting.NUMBERS, plain_acting.NUMBER_LISTS, plain_acting.MODES, plain_acting.SEQUENCES, plain_acting.BLOCKS,
    plain_acting.CLASS_LINES, plain_acting.TEXT_TESTS, plain_acting.CELL_TESTS, *([it] for it in plain_acting.OTHERS),
]  # fmt: skip
KEPT = [
    plain_acting.DEFINITIONS, [*plain_acting.PLACED, "always"], plain_acting.NUMBER_LISTS, ["begcapsword"], ["begnum", "midnum", "endnum"], ["letsign"],
]  # fmt: skip


# ---- Tables


class Maker:
    """Makes the lines of a table."""

    def __init__(self, chance: random.Random) -> None:
        self.chance = chance
        self.has_escapes = chance.random() < 0.3
        self.small = SMALL[: chance.randint(1, 5)]
        self.capitals = CAPITALS[: chance.choice([0, 0, len(self.small), chance.randint(0, 5)])]
        self.digits = DIGITS[: chance.choice([0, chance.randint(1, 3)])]
        self.marks = MARKS[: chance.choice([0, chance.randint(1, 5)])]
        self.all = " " + self.small + self.capitals + self.digits + self.marks
        self.together = chance.choice(TOGETHER)
        # some tables have few characters and cells in their rules, so that lines are often about the same ones
        self.is_narrow = self.is_so(0.4)
        self.cells = chance.sample(CELLS, 4) if self.is_narrow else CELLS

    def is_so(self, often: float) -> bool:
        return self.chance.random() < often

    def one(self, chars: str) -> str:
        """A character as an operand spells it."""
        char = self.chance.choice(chars)
        if char == " ":
            return "\\s"
        if self.has_escapes and self.is_so(0.3):
            return self.chance.choice([f"\\x{ord(char):04x}", f"\\x{ord(char):04X}", f"\\y{ord(char):05x}", f"\\z{ord(char):08x}"])
        return char

    def chars(self, most: int) -> str:
        """Characters, most of them defined, and rarely an escape that spells none."""
        if self.is_so(0.02):
            return self.chance.choice(["\\xd800", "\\xdfffa", "a\\q", "\\x12", "\\xd800\\q", "b\\"])
        pool = self.all if self.is_so(0.9) else SMALL + CAPITALS + DIGITS + MARKS + " ü"
        if self.is_narrow and self.is_so(0.8):
            pool = self.small[:2] + self.capitals[:1]
            most = 1
        elif self.is_so(0.3):
            pool = self.small
        return "".join(self.one(pool) for _ in range(min(self.chance.choice([1, 1, 2, 2, 3, most]), most + 1)))

    def dots(self) -> str:
        found = self.chance.choice(VIRTUAL) if self.is_so(0.3) else self.cell()
        return f"{found},{self.cell()}" if self.is_so(0.04) else found

    def name(self) -> str:
        return self.chance.choice(CLASSES if self.is_so(0.5) else OWN_CLASSES)

    def definitions(self) -> list[str]:
        """The lines that define the characters of the table."""
        lines = ["space \\s 0"] if self.is_so(0.9) else ["sign \\s 0"]
        lines += [f"{self.chance.choice(['letter', 'lowercase', 'lowercase'])} {it} {self.cell()}" for it in self.small]
        for upper in self.capitals:
            small = upper.lower() if self.is_so(0.9) else self.chance.choice(SMALL)
            ways = [f"uplow {upper}{small} {self.cell()},{self.cell()}", f"base uppercase {upper} {small}", f"uppercase {upper} {self.cell()}"]
            lines += [self.chance.choice([ways[0], ways[1], ways[1], ways[2]])]
        for it in self.digits:
            lines += [f"{kind} {it} {self.cell()}" for kind in ("digit", "litdigit") if self.is_so(0.7)] or [f"litdigit {it} {self.cell()}"]
        lines += [f"{self.chance.choice(['punctuation', 'sign', 'math'])} {it} {self.cell()}" for it in self.marks]
        if len(self.capitals) > 1 and self.is_so(0.3):
            lines.append(f"base uppercase {self.capitals[1]} {self.capitals[0]}")
        if self.is_so(0.2):
            lines.append(f"noback letter {self.chance.choice(SMALL)} {self.cell()}")
        return lines

    def cell(self) -> str:
        return self.chance.choice(self.cells)

    def item(self, is_of_cells: bool) -> str:
        """An item of a test, mostly one of its kind: of cells, or of text."""
        count = self.chance.choice(["", "", "", "1", "0-2", "1-3", "0", "."])
        marks = self.chance.choice(["[", "]", "`", "~", "/", "_", "_1", "#1=2", "{foo", "}foo", "?"])
        string = f'"{self.chars(3)}"'
        if self.is_so(0.03):
            string = self.chance.choice(['"', '""', '"a', '"a\\"b"', '"\\s"'])
        letters = "".join(self.chance.choices("dDlmpSsUuwxyzaq", k=self.chance.choice([1, 1, 2])))
        cells = self.chance.choice([self.cell(), self.cell(), *SIGN_CELLS, *SIGN_CELLS, self.chance.choice(VIRTUAL), "1-", "-", "11"])
        if is_of_cells and self.is_so(0.7):
            return f"@{cells}"
        return self.chance.choice([string, string, string, f"${letters}{count}", f"%{self.name()}{count}", f"@{cells}", marks])

    def test(self, is_of_cells: bool) -> str:
        found = "".join(("!" if self.is_so(0.15) else "") + self.item(is_of_cells) for _ in range(self.chance.choice([1, 1, 2, 3])))
        return found if found and "\\" != found[-1:] else found + '"a"'

    def base(self) -> str:
        upper, lower = (self.one(CAPITALS + SMALL), self.one(SMALL + CAPITALS)) if self.is_so(0.8) else (self.chars(2), self.chars(2))
        return f"base {self.chance.choice(['uppercase', 'uppercase', 'uppercase', 'digit', 'foo'])} {upper} {lower}"

    def line(self, opcode: str) -> str:
        """A line of an opcode."""
        if opcode == "base":
            return self.base()
        if opcode == "uplow":
            return f"uplow {self.one(CAPITALS)}{self.one(SMALL)} {self.dots()}"
        if opcode in plain_acting.TEXT_TESTS + plain_acting.CELL_TESTS:
            return f"{opcode} {self.test(opcode in plain_acting.CELL_TESTS)} {self.chance.choice(['@1', '?', '*'])}"
        if opcode == "grouping":
            return f"grouping {self.name()} {self.chars(2)} 1,2"
        if opcode == "match":
            return f"match %[^_] {self.chars(3)} - {self.dots()}"
        if opcode in plain_acting.DEFINITIONS:
            return f"{opcode} {self.one(self.all if self.is_so(0.8) else SMALL + CAPITALS + DIGITS)} {self.dots()}"
        if opcode in NAME_CHARS:
            return f"{opcode} {self.name()} {self.chars(3)}"
        if opcode in CHARS:
            return f"{opcode} {self.chars(2)}"
        if opcode in NAME_DOTS:
            return f"{opcode} {self.name()} {self.dots()}"
        if opcode in DOTS:
            return f"{opcode} {self.chance.choice(SIGN_CELLS) if self.is_so(0.4) else self.dots()}"
        return f"{opcode} {self.chars(3)} {'=' if self.is_so(0.1) else self.dots()}"

    def prefixed(self, line: str) -> str:
        """A line after up to three prefixes."""
        for _ in range(self.chance.choice([0] * 12 + [1, 1, 1, 2, 3])):
            prefix = self.chance.choice([*plain_acting.PREFIXES, "before", "after"])
            line = f"{prefix} {self.name() + ' ' if plain_acting.PREFIXES[prefix] else ''}{line}"
        return line

    def odd(self) -> str:
        """A line that isn't like the others: no line of liblouis, with too few operands, or an include."""
        opcode = self.chance.choice(plain_acting.OPCODES)
        odd = ["nothing a b", "macro", "nobreak", "# a comment", "#", "", "noback", "before space", "include", "include u", "include h.dic"]
        return self.chance.choice([*odd, "include v", "include v", opcode, f"{opcode} {self.chars(1)}", f"{opcode} {self.name()}"])

    def any_line(self) -> str:
        if self.is_so(0.06):
            line = self.odd()
        elif self.is_so(0.5):
            line = self.line(self.chance.choice(self.together))
        elif self.is_so(0.2):
            line = self.line(self.chance.choice(["always", *plain_acting.PLACED]))
        else:
            line = self.line(self.chance.choice(plain_acting.OPCODES))
        line = self.prefixed(line)
        if self.is_so(0.1):
            line = self.chance.choice(["\t", " ", "  "]) + line.replace(" ", self.chance.choice(["  ", "\t", " \t"]))
        if self.is_so(0.012):
            line += self.chance.choice(["\\", " \\", "\\\r"])
        return line

    def files(self) -> dict[str, str]:
        """The files of a table, of which an include line may name the second."""
        first = self.definitions()
        more = [self.any_line() for _ in range(self.chance.randint(0, 14))]
        lines = first + more
        if self.is_so(0.4):
            self.chance.shuffle(lines)
        end = self.chance.choice(["\n", "\n", "\n", "\r\n"])
        text = end.join(lines) + self.chance.choice([end, ""])
        return {"t.ctb": text, "v": "\n".join(self.any_line() for _ in range(self.chance.randint(0, 3))) + "\n"}


def spelled_alphabet(chance: random.Random, alphabet: str, defined: set[str]) -> str:
    """An alphabet as `--only` spells it, with ranges where characters that the table defines follow each other."""
    order = sorted(defined)
    spans: list[list[str]] = []
    for char in sorted(alphabet):
        if spans and order.index(char) == order.index(spans[-1][-1]) + 1 and chance.random() < 0.8:
            spans[-1].append(char)
        else:
            spans.append([char])
    words = ["".join(it) if len(it) < 3 and chance.random() < 0.5 else it[0] + ".." + it[-1] if len(it) > 1 else it[0] for it in spans]
    chance.shuffle(words)
    # two full stops make a range of the character before them, also those of one that begins with a full stop
    words.sort(key=lambda it: not it.startswith("..."))
    escaped = {" ": "\\s", ".": "\\x002e"}
    found = [re.fullmatch(r"(.)\.\.(.)", it, re.DOTALL) for it in words]
    spell = lambda text: "".join(escaped.get(it, it) for it in text)  # noqa: E731
    return "".join(f"{spell(span[1])}..{spell(span[2])}" if span else spell(word) for span, word in zip(found, words))


# ---- Comparing


def expected(alphabet: set[str], is_rewriting: bool) -> tuple[list[str], int, list[tuple[Row, bool]]]:
    """The last lines of an answer, and its status, with the lines of the table."""
    rows, _ = plain_acting.judged("t.ctb", is_rewriting, alphabet)
    lines = plain_acting.answer("t.ctb", "d", rows)
    with contextlib.suppress(plain_cut.Stop):
        _, text = plain_cut.cut("t.ctb", is_rewriting)
        return lines, max(plain_cut.status_of(text), int(any(acts for _, acts in rows))), rows
    raise AssertionError("a table that isn't cut")


def from_acting_on(text: str) -> list[str]:
    """The lines of an answer after the one that names the alphabet."""
    lines = text.removesuffix("\n").split("\n")
    at = next((place for place, it in enumerate(lines) if it.startswith("only: ")), len(lines))
    return lines[at + 1 :]


def compare(program: Path, chance: random.Random, seen: Counter[tuple[str, bool, bool]], kinds: Counter[str]) -> str:
    """Makes a table, and says how the program's answer differs, if it does."""
    files = Maker(chance).files()
    is_rewriting = chance.random() < 0.6
    with tempfile.TemporaryDirectory() as folder, contextlib.chdir(folder):
        for name, text in files.items():
            Path(name).write_text(text, newline="")
        _, defined = plain_acting.judged("t.ctb", is_rewriting)
        if not defined:
            kinds["without a character"] += 1
            return ""
        groups = [{*SMALL}, {*SMALL, *CAPITALS}, {*SMALL, " "}, {*DIGITS, *SMALL}, {*MARKS, " "}, {*CAPITALS}, defined]
        pool = sorted(chance.choice(groups) & defined or defined)
        alphabet = pool if chance.random() < 0.3 else chance.sample(pool, chance.randint(1, len(pool)))
        only = spelled_alphabet(chance, "".join(alphabet), defined)
        want, status, rows = expected({*alphabet}, is_rewriting)
        words = ["cut", "t.ctb", "d", f"--only={only}", *(["--rewrite"] if is_rewriting else [])]
        ran = subprocess.run([program, *words], capture_output=True, timeout=60, check=False)
    got = from_acting_on(ran.stdout.decode())
    for row, acts in rows:
        seen[row.opcode, row.is_kept, acts] += 1
    kinds["idle" if len(want) == 1 and want[0].startswith("no line") else "with lines that can act"] += 1
    kinds["rewritten" if is_rewriting else "not rewritten"] += 1
    kinds["with a range"] += ".." in only
    if (got, ran.returncode) == (want, status):
        return ""
    shown = "".join(f"---- {name}\n{text}\n" for name, text in files.items())
    return f"{shown}---- {' '.join(words)}\n{got}, status {ran.returncode}, {ran.stderr.decode()}\nwhere {want}, status {status} is wanted"


def lacking(seen: Counter[tuple[str, bool, bool]]) -> list[str]:
    """The opcodes without a line, and the kinds without one that can act, or without one that can't."""
    lacks = [f"no line of {it}" for it in plain_acting.OPCODES if not any(seen[it, is_kept, acts] for is_kept in (False, True) for acts in (False, True))]
    for is_kept, kinds in ((False, LEFT_OUT), (True, KEPT)):
        for kind in kinds:
            for acts, said in ((True, "can"), (False, "can't")):
                if not any(seen[it, is_kept, acts] for it in kind):
                    lacks.append(f"of {'/'.join(kind)} no line that is {'kept' if is_kept else 'left out'} {said} act")
    return lacks


def counted(seen: Counter[tuple[str, bool, bool]]) -> str:
    """How many lines of each opcode act and are idle, of those that the cut keeps and of those that it leaves out."""
    parts = []
    for opcode in plain_acting.OPCODES:
        left, kept = ((seen[opcode, is_kept, True], seen[opcode, is_kept, False]) for is_kept in (False, True))
        parts.append(f"{opcode} {left[0]}/{left[1]}" + (f" kept {kept[0]}/{kept[1]}" if any(kept) else ""))
    return ", ".join(parts)


def main() -> int:
    reader = argparse.ArgumentParser(description=__doc__.split("\n", 1)[0])
    reader.add_argument("program", type=Path)
    reader.add_argument("--seed", default="1")
    reader.add_argument("--count", type=int, default=300)
    asked = reader.parse_args()
    program = asked.program.resolve()
    if plain_acting.check_itself():
        return 1
    chance = random.Random(asked.seed)
    seen: Counter[tuple[str, bool, bool]] = Counter()
    kinds: Counter[str] = Counter()
    wrong = 0
    for _ in range(asked.count):
        difference = compare(program, chance, seen, kinds)
        if difference:
            wrong += 1
            print(difference)
    acting = sum(count for (_, _, acts), count in seen.items() if acts)
    print(f"seed {asked.seed}: {asked.count} tables, " + ", ".join(f"{count} {kind}" for kind, count in sorted(kinds.items())))
    print(f"{seen.total()} lines, of which {acting} can act; by opcode, acting/idle: {counted(seen)}")
    lacks = lacking(seen) if asked.count >= ENOUGH else []
    print(*lacks, f"acting: {asked.count - wrong} passed, {wrong} failed", sep="\n")
    return 1 if wrong or lacks else 0


if __name__ == "__main__":
    sys.exit(main())
