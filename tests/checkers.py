#!/usr/bin/env python3
"""Compares `brl check` with tools/second_checker.py, which follows the pages on certificates alone.

  tests/checkers.py PROGRAM [--seed SEED] [--count COUNT]

Of each table that is made at random some certificates are made: that of `brl search`, and in each
version what the second checker's machine reaches, or a first part of it. Each is checked as it is,
then with changes: other states and pairs, fields that are spelled otherwise or out of range, lines
that are swapped, dropped or doubled, other bytes. Both checkers must print the same, with the same
status. The second one is called as a function, and now and then as a program.

The same seed makes the same tables and changes. Which answers came how often is printed, and each
certificate that is judged otherwise. The exit status is 1 where there is one, where of many tables
no certificate got an answer of some kind, and where the second checker has more than 300 lines. The
last line says how many certificates were judged the same, and how many faults there are.
"""

import random
import re
import subprocess
import sys
import tempfile
from collections import Counter
from collections.abc import Callable
from dataclasses import dataclass
from pathlib import Path

sys.dont_write_bytecode = True
SECOND = Path(__file__).resolve().parent.parent / "tools" / "second_checker.py"
sys.path.insert(0, str(SECOND.parent))
import random_tables
import second_checker
from plain_table import ALWAYS, MEETS, Cond, Table
from second_checker import DuesMachine, Machine, State, WindowMachine, followed, splits

# All answers but those of files and of the command line.
ANSWERS = ["accepted", "A1", "A2", "A3", "A4", "A5", *(f"K{it}" for it in range(1, 10)), "W1"]

# How many states and pairs a certificate has that is made here, and how often each is changed.
MOST_STATES, MOST_PAIRS, CHANGES = 120, 400, 8

# As a program the second checker judges one of this many certificates; how many lines it may have. Of
# this many tables some certificate gets each answer.
AS_PROGRAM, MOST_LINES, MANY_TABLES = 200, 300, 300

# Tables, options and certificates that random ones hardly have. Of version 1: a table that is just not
# too wide, and one that is; windows that begin with an undefined character, have ended and know
# nothing, or know more than a step reads on to; a start that is final. The most that fields may have,
# and more. Lines with two faults. Steps of one rule that differ in what they read alone. Dots of a
# table in another order.
LETTERS = [f"letter {chr(0x61 + it)} {f'{it + 1:05b}'.translate({48: '3-', 49: '6-'})}1\n" for it in range(22)]
AB = "letter a 1\nletter b 12\n"
BOTH_CASES = "uplow Aa 1\nuplow Bb 12\nalways ab 14\n"
ODD_WINDOWS = "state 8 0 0 7a\nstate 8 0 1 7a\nstate 8 0 0 7a.61\nstate 8 0 1 -\nstate 8 0 0 61.7a.61\n"
ONE, TWO = "BRLCERT 3\nstate 1 0 0\n", "BRLCERT 3\nstate 1 0 0\nstate 8 0 0\n"
BOTH_STATES = "BRLCERT 3\nstate 1 0 0\nstate 24 0 0\nstate 40 0 0\nstate 24 0 0 b62*\nstate 40 0 0 b62*\n"
ROWS: list[tuple[str, list[str], str]] = [
    ("".join(LETTERS[:21]) + "always ab 1\n", [], "BRLCERT 1\nstate 1 0 0 -\nend 1 0\n"),
    ("".join(LETTERS) + "always ab 1\n", [], "BRLCERT 1\nstate 1 0 0 -\nend 1 0\n"),
    (AB, [], f"BRLCERT 1\nstate 1 0 0 -\n{ODD_WINDOWS}end 6 0\n"),
    (AB, [], f"BRLCERT 1\nstate 1 0 0 -\nstate 8 0 0 61\nstate 8 0 0 62\n{ODD_WINDOWS}end 8 0\n"),
    (AB, ["--without", "ab"], "BRLCERT 1\nstate 1 0 0 -\npair 0 0 -\nend 1 1\n"),
    (BOTH_CASES, [], f"{BOTH_STATES}end 5 0\n"),
    (BOTH_CASES, ["--only", "ab"], f"{BOTH_STATES}end 5 0\n"),
    ("letter a 21\nletter b 12\n", [], f"{TWO}pair 1 1 -\nend 2 1\n"),
    ("letter a 1\nletter b 1-21\n", [], f"{TWO}pair 1 1 12\nend 2 1\n"),
    *((AB, [], f"{TWO}pair 0 1 {'-'.join(['1'] * it)}\nend 2 1\n") for it in (1024, 1025)),
    *((AB, [], f"{ONE}pair 0 {it} -\nend 1 1\n") for it in ("1", "01", "4294967295", "4294967296")),
    *((AB, [], f"{ONE}pair 0 0 {it}\nend 1 1\n") for it in ("11", "121", "21", "00", "0", "0-12345678", "9", "1--2", "1-")),
    *((AB, [], f"{ONE}state 1 0 0 {it}\nend 2 0\n") for it in ("b10ffff*", "b110000*", "bd7ff.e000*", "bd800*", "bdfff*", "be000*")),
    *((AB, [], f"{ONE}state 1 0 0 {it}\nend 2 0\n") for it in ("n*", "b*", "b+8", "n+8*", "b61", "n8", "n+255", "n-256", "n+-8", "b61.*", "x+8")),
    *((AB, [], f"{ONE}{it}\n") for it in ("state 01 0 0", "pair 0 0 -\nstate 01 0 0", "end 07 0", "pair 00 7 -", "end 1 0\n", "end 1 0\nx")),
    *((AB, [], it) for it in ("BRLCERT 4294967295\n", "BRLCERT 4294967296\n", f"BRLCERT {'0' * 5000}3\n", f"BRLCERT {'1' * 5000}\n")),
    *((AB, [], it) for it in ("", "\n", "BRLCERT 3", "BRLCERT 3\n", "BRLCERT 3\nend 0 0\n", "BRLCERT 0\n", "BRLCERT 3\nBRLCERT 3\n")),
]


@dataclass
class Listed:
    """What a certificate lists: the fields of its states, and its pairs."""

    version: int
    states: list[list[str]]
    pairs: list[tuple[int, int, str]]

    def text(self) -> str:
        states = [f"state {' '.join(it)}\n" for it in self.states]
        pairs = ["pair {} {} {}\n".format(*it) for it in self.pairs]
        return "".join([f"BRLCERT {self.version}\n", *states, *pairs, f"end {len(states)} {len(pairs)}\n"])


def listed(text: str) -> Listed:
    rows = [it.split(" ") for it in text.splitlines()]
    pairs = [(int(it[1]), int(it[2]), it[3]) for it in rows if it[0] == "pair"]
    return Listed(int(rows[0][1]), [it[1:] for it in rows if it[0] == "state"], pairs)


# ---- Certificates that are made here


def condition(cond: Cond) -> str:
    return "*" if cond == ALWAYS else f"{'+' if cond[0] == MEETS else '-'}{cond[1]}"


def spelled(chars: str) -> str:
    return ".".join(f"{ord(it):x}" for it in chars)


def fields_of(version: int, state: State) -> list[str]:
    (before, is_numeric, is_run), *rest = state
    front = [str(before), str(int(is_numeric))]
    if version == 1:
        return [*front, str(int(rest[0])), spelled(rest[1]) or "-"]
    dues = ("nb"[kind] + spelled(chars) + condition(cond) for kind, chars, cond in rest[0])
    return [*front, *[str(int(is_run))][: version - 2], *dues]


def reached(machine: Machine, version: int, chance: random.Random) -> Listed:
    """What a machine reaches, as far as it is listed here."""
    states, pairs, edges = [machine.start], {}, []
    for state in states:  # which grow on the way
        steps = machine.steps(state)
        states += [it for it in dict.fromkeys(it[3] for it in steps) if it not in states][: MOST_STATES - len(states)]
        edges.append([(rule, cells, states.index(to)) for rule, _, cells, to in steps if to in states])
    todo = [it for some in edges for _, it in splits(some)]
    while todo and len(pairs) < MOST_PAIRS:
        ahead, behind, lead = todo.pop()
        if (ahead, behind, lead) in pairs or (not lead and (behind, ahead, lead) in pairs):
            continue
        if not lead and chance.random() < 0.5:
            ahead, behind = behind, ahead
        pairs[ahead, behind, lead] = len(pairs)
        todo += [to for it in edges[behind] if (to := followed((ahead, behind, lead), it))]
    return Listed(version, [fields_of(version, it) for it in states], [(*it[:2], "-".join(it[2]) or "-") for it in pairs])


# ---- Changes of what is listed


def renumbered(cert: Listed, order: list[int]) -> Listed:
    """The states with these numbers, in this order, and the pairs of them."""
    numbers = {number: at for at, number in enumerate(order)}
    pairs = [(numbers[it[0]], numbers[it[1]], it[2]) for it in cert.pairs if it[0] in numbers and it[1] in numbers]
    return Listed(cert.version, [cert.states[it] for it in order], pairs)


def some_states(cert: Listed, chance: random.Random) -> Listed:
    """Without a state, or without all from some on."""
    at, count = chance.randrange(len(cert.states)), len(cert.states)
    return renumbered(cert, [it for it in range(count) if it < at or (it > at and chance.random() < 0.9)])


def other_order(cert: Listed, chance: random.Random) -> Listed:
    mixed = renumbered(cert, chance.sample(range(len(cert.states)), len(cert.states)))
    chance.shuffle(mixed.pairs)
    return mixed


def some_pairs(cert: Listed, chance: random.Random) -> Listed:
    """Without a pair, without all from some on, or with one more."""
    at = chance.randrange(len(cert.pairs) + 1)
    after = chance.choice([cert.pairs[at + 1 :], [], [some_pair(cert, chance), *cert.pairs[at:]]])
    return Listed(cert.version, cert.states, [*cert.pairs[:at], *after])


def some_pair(cert: Listed, chance: random.Random) -> tuple[int, int, str]:
    lead = chance.choice([*(it[2] for it in cert.pairs), "-", "-", "1", "12", "0", "1-2"])
    return chance.randrange(len(cert.states)), chance.randrange(len(cert.states)), lead


def changed_pair(cert: Listed, chance: random.Random) -> Listed:
    """With a pair in the other order, of other states, or with another lead."""
    if not cert.pairs:
        return some_pairs(cert, chance)
    at, other = chance.randrange(len(cert.pairs)), some_pair(cert, chance)
    ahead, behind, lead = cert.pairs[at]
    pair = chance.choice([(behind, ahead, lead), (ahead, other[1], lead), (other[0], behind, lead), (ahead, behind, other[2])])
    pair = chance.choice([pair, pair, (ahead, behind, lead.rpartition("-")[0] or "-"), (ahead, behind, f"{lead}-1".removeprefix("--"))])
    return Listed(cert.version, cert.states, [*cert.pairs[:at], pair, *cert.pairs[at + 1 :]])


def changed_state(cert: Listed, chance: random.Random) -> Listed:
    """With a state that has another field, in its place or after all others."""
    at = chance.randrange(len(cert.states))
    fields, front = [*cert.states[at]], 2 if cert.version == 2 else 3
    change = chance.randrange(3)
    if change == 0:
        fields[0] = str(chance.choice([1, 2, 4, 8, 16, 24, 32, 40, 41, 0, 255]))
    elif change == 1:
        flag = chance.randrange(1, front)
        fields[flag] = "10"[int(fields[flag])]
    elif cert.version == 1:
        known = [it for it in fields[3].split(".") if it != "-"]
        place = chance.randint(0, len(known))
        known[place : place + chance.choice([0, 1])] = chance.choice([[], ["61"], ["62"], ["41"], ["20"], ["7a"]])
        fields[3] = ".".join(known) or "-"
    else:
        dues = {*fields[front:]} - {*chance.sample(fields[front:], min(len(fields) - front, chance.randint(0, 1)))}
        dues |= {some_due(chance) for _ in range(chance.randint(0, 2))}
        fields[front:] = [it for _, it in sorted((second_checker.due(it)[0], it) for it in dues)]
    rest = [fields, *cert.states[at + 1 :]] if chance.random() < 0.5 else [*cert.states[at:], fields]
    return Listed(cert.version, [*cert.states[:at], *rest], cert.pairs)


def some_due(chance: random.Random) -> str:
    chars = ".".join(chance.choices(["61", "62", "63", "41", "20", "31", "7a"], k=chance.randint(1, 3)))
    marked = f"{chance.choice('+-')}{chance.choice([0, 1, 3, 4, 8, 11, 24, 32, 40, 255])}"
    return chance.choice([f"n{marked}", f"n{marked}", f"b{chars}{marked}", f"b{chars}*"])


def other_version(cert: Listed, chance: random.Random) -> Listed:
    """With states of version 3 as those of version 2, or the reverse."""
    if cert.version == 3:
        return Listed(2, [it[:2] + it[3:] for it in cert.states], cert.pairs)
    return Listed(3, [[*it[:2], chance.choice("0001"), *it[2:]] for it in cert.states], cert.pairs) if cert.version == 2 else cert


LISTED = [some_states, other_order, some_pairs, some_pairs, changed_pair, changed_state, changed_state, changed_state, other_version]

# ---- Changes of what is spelled


def other_lines(text: str, chance: random.Random) -> str:
    """With a line dropped, doubled, or in another place."""
    lines = text.splitlines(keepends=True)
    at, to = chance.randrange(len(lines)), chance.randrange(len(lines))
    line = lines[at]
    lines[at : at + 1] = chance.choice([[], [line, line], [lines[to]], [chance.choice(["\n", "end 0 0\n", "pair 0 0 -\n", "state 1 0 0\n"]), line]])
    lines.insert(chance.choice([to, len(lines)]), chance.choice(["", "", line]))
    return "".join(lines)


def other_field(text: str, chance: random.Random) -> str:
    """With a field that is spelled otherwise, or has another value."""
    lines = text.split("\n")[:-1]
    at = chance.randrange(len(lines))
    fields = lines[at].split(" ")
    place = chance.randrange(len(fields))
    fields[place] = chance.choice([spelled_otherwise, spelled_otherwise, other_value])(fields[place], chance)
    lines[at] = " ".join(fields)
    return "\n".join(lines) + "\n"


def spelled_otherwise(field: str, chance: random.Random) -> str:
    """A field with zeros, in upper case, with dots, cells, characters or parts in another order, or doubled."""
    numbers = [*re.finditer(r"[0-9a-f]+", field)]
    if numbers and chance.random() < 0.7:
        number = chance.choice(numbers)
        digits = number[0]
        other = chance.choice([f"0{digits}", f"0{digits}", f"00{digits}", digits.upper(), digits[::-1], digits + digits[-1], "0", ""])
        return field[: number.start()] + other + field[number.end() :]
    mark = chance.choice("-.+*")
    parts = field.split(mark)
    return chance.choice([mark.join(reversed(parts)), mark.join([*parts, parts[-1]]), f"{field} {field}", mark + field, field + mark, field.upper()])


def other_value(field: str, chance: random.Random) -> str:
    """A field with another number."""
    numbers = [*re.finditer(r"[0-9]+", field)]
    if not numbers:
        return chance.choice(["0", "-", "", "n*", "n+8", "b61*", "pair", "state"])
    number = chance.choice(numbers)
    near = [str(int(number[0]) + it) for it in (-1, 1, 1) if int(number[0]) + it >= 0]
    far = ["255", "256", "1024", "4294967295", "4294967296", "18446744073709551616", "d800", "dfff", "110000", "10ffff", "-1", "+1", " ", "9", "x"]
    return field[: number.start()] + chance.choice(near * 4 + far) + field[number.end() :]


def other_bytes(text: str, chance: random.Random) -> str:
    """With a byte more, less or another, or cut short."""
    at = chance.choice([chance.randrange(len(text)), len(text), len(text) - 1])
    byte = chance.choice("\n\n\r \t\0-.*+0129anb\x7f\x85\xa0\xb2\xff")
    return chance.choice([text[:at] + byte + text[at:], text[:at] + text[at + 1 :], text[:at] + byte + text[at + 1 :], text[:at]])


def other_dues(text: str, chance: random.Random) -> str:
    """With the last fields of a state in another order, or one of them again."""
    states = [it for it in text.splitlines() if it.startswith("state ") and len(it.split(" ")) > 4]
    if not states:
        return other_field(text, chance)
    line = chance.choice(states)
    fields = line.split(" ")
    at = chance.randrange(4, len(fields))
    other = [*fields[:at], chance.choice([fields[-1], fields[at].upper()]), *reversed(fields[at:])]
    return text.replace(f"{line}\n", f"{' '.join(chance.choice([other, [*fields[:4], *reversed(fields[4:])]]))}\n", 1)


def other_header(text: str, chance: random.Random) -> str:
    return f"BRLCERT {chance.choice('11223304')}\n{text.partition(chr(10))[2]}"


SPELLED = [other_lines, other_lines, other_field, other_field, other_field, other_dues, other_bytes, other_header]


def changed(cert: Listed, chance: random.Random) -> str:
    """A certificate with one to three changes."""
    for _ in range(chance.choice([0, 1, 1, 1, 2])):
        if cert.states:
            cert = chance.choice(LISTED)(cert, chance)
    text = cert.text()
    for _ in range(chance.choice([0, 0, 1, 1, 2])):
        if "\n" in text:
            text = chance.choice(SPELLED)(text, chance)
    return text


# ---- The comparison


class Comparison:
    """Both checkers, and the answers that came."""

    def __init__(self, program: str, folder: Path) -> None:
        self.program, self.table, self.cert = program, folder / "t.ctb", folder / "t.cert"
        self.answers: Counter[str] = Counter()
        self.failed = 0

    def judge(self, table: str, words: list[str], text: str) -> None:
        """Has both checkers judge a certificate."""
        self.table.write_text(table)
        self.cert.write_bytes(text.encode("latin-1"))
        asked = [*words, str(self.table), str(self.cert)]
        ran = subprocess.run([self.program, "check", *asked], capture_output=True, text=True, timeout=60)
        second = self.second(asked)
        answer = re.match(r"(?:refused: )?(accepted|[AKW]\d)", ran.stdout or ran.stderr)
        self.answers[answer[1] if answer else "else"] += 1
        if second != (ran.returncode, ran.stdout) or not answer:
            self.failed += 1
            print(f"brl check: {ran.returncode} {ran.stdout}{ran.stderr}second: {second}\n{words}\n{table}{text!r}", flush=True)

    def second(self, asked: list[str]) -> tuple[int, str]:
        """The status and the output of the second checker, as a function or as a program."""
        if self.answers.total() % AS_PROGRAM == 0:
            return random_tables.run(sys.executable, SECOND, *asked)
        try:
            return second_checker.answer(asked)
        except Exception as fault:  # which is a difference, too, and must not end the comparison
            return -1, repr(fault)

    def certificates(self, table: str, without: str, words: list[str], chance: random.Random) -> list[Listed]:
        """The certificates of a table that are checked and changed."""
        self.table.write_text(table)
        status, _ = random_tables.run(self.program, "search", *words, self.table, self.cert)
        found = [listed(self.cert.read_text())] if status == 0 else []
        read = Table(str(self.table))
        found.append(reached(DuesMachine(read, without), 3 if read.has_word_capitals() else chance.choice([2, 3]), chance))
        if not read.has_word_capitals() or chance.random() < 0.1:
            found.append(reached(WindowMachine(read, without), 1, chance))
        return found

    def compare(self, table: str, without: str, chance: random.Random) -> None:
        """Judges certificates of a table, and changed ones."""
        words = random_tables.option(table, without)
        for cert in self.certificates(table, without, words, chance):
            self.judge(table, words, cert.text())
            for _ in range(CHANGES):
                self.judge(table, words if chance.random() < 0.9 else [], changed(cert, chance))


def main(words: list[str]) -> int:
    asked = random_tables.asked(__doc__, words)
    with tempfile.TemporaryDirectory() as room:
        comparison, chance = Comparison(asked.program, Path(room)), random.Random(asked.seed)
        for row in ROWS:
            comparison.judge(*row)
        for table, without in random_tables.tables(random.Random(asked.seed), asked.count):
            comparison.compare(table, without, chance)
    answers, failed = comparison.answers, comparison.failed
    wrong = [f"no certificate got the answer {it}" for it in ANSWERS if asked.count >= MANY_TABLES and not answers[it]]
    if len(SECOND.read_text().splitlines()) > MOST_LINES:
        wrong.append(f"the second checker has more than {MOST_LINES} lines")
    shown = ", ".join(f"{it} {answers[it]}" for it in ANSWERS)
    print("\n".join([*wrong, f"seed {asked.seed}: {asked.count} tables, {answers.total()} certificates: {shown}"]))
    print(f"checkers: {answers.total() - failed} passed, {failed + len(wrong)} failed")
    return 1 if failed or wrong else 0


if __name__ == "__main__":
    sys.exit(main(sys.argv[1:]))
