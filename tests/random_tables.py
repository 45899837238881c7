"""Small tables that are made at random, and the kinds of capitals that a table has.

The tests of this folder and bench/foma decide such tables. Each of them prints how many of its
tables have capitals of each kind, and fails where none has, of ENOUGH tables or more.
"""

import argparse
import random
import subprocess
from collections import Counter
from collections.abc import Callable, Iterator
from itertools import cycle
from pathlib import Path

CELLS = ["1", "2", "12", "3", "13", "1-1", "1-2", "2-1", "12-1", "1-12", "1-1-2"]
NUMBER_CELLS = ["1", "2", "12", "3", "13", "1-1", "1-2", "12-1", "1-12", "3456-1"]
PLACES = ["always", "always", "word", "begword", "endword", "midword", "midendword", "partword", "begmidword"]

# Cells that no character has, for some of the rules of tables with capitals.
OWN_CELLS = ["24", "25", "26", "245", "35", "36"]

ALL_PLACES = [*PLACES[1:], "sufword", "prfword", "begnum", "midnum", "endnum"]

# The opcodes that define characters here.
DEFINING = ["space", "punctuation", "litdigit", "letter", "lowercase", "uppercase", "uplow"]

# Of this many tables or more some have capitals of each kind, whatever the seed.
ENOUGH = 1000

# A capital whose fold is itself; one that an `uplow` line has in place of the small letter; one
# with a `litdigit` line; several whose fold is one letter; one in a rule once that is folded.
KINDS = ["own fold", "as a small letter", "with litdigit", "several of a letter", "in a rule"]


# ---- Tables


def letter_table(chance: random.Random) -> str:
    """A table of letters without capitals."""
    letters = "abcd"[: chance.randint(2, 4)]
    lines = ["space \\s 0"] * chance.randint(0, 1)
    lines += [f"letter {it} {chance.choice(CELLS)}" for it in letters]
    return text_of([*lines, *rules(chance, letters, PLACES, CELLS)])


def cased_table(chance: random.Random) -> str:
    """A table of letters with capitals, mostly with word capitals."""
    lines = ["space \\s 0"] * chance.randint(0, 1)
    lines += letter_lines(chance, "abc"[: chance.randint(1, 3)], CELLS)
    known = defined(lines)
    signs = [("capsletter", 0.9, "6"), ("begcapsword", 0.8, "6-6"), ("endcapsword", 0.8, "6-3"), ("begcapsword", 0.1, "2")]
    signs.append(("numsign", 0.8, "3456"))
    lines += list({sign: f"{sign} {cells}" for sign, often, cells in signs if chance.random() < often}.values())
    return text_of([*lines, *rules(chance, known, PLACES, CELLS + OWN_CELLS)])


def numbered_table(chance: random.Random) -> str:
    """A table with digits, punctuation, letters in both cases and rules of all places."""
    lines = ["space \\s 0", f"punctuation . {chance.choice(NUMBER_CELLS)}"][: chance.randint(0, 2)]
    letters, digits = "ab"[: chance.randint(1, 2)], "12"[: chance.randint(1, 2)]
    lines += letter_lines(chance, letters, NUMBER_CELLS)
    lines += [f"litdigit {it} {chance.choice(NUMBER_CELLS)}" for it in digits]
    signs = [("numsign", "3456"), ("nocontractsign", "56"), ("capsletter", "6"), ("begcapsword", "6-6"), ("endcapsword", "6-3")]
    known = defined(lines)
    lines += [f"{sign} {dots}" for sign, dots in signs if chance.random() < 0.6]
    lines += [f"numericnocontchars {letters}"] * (chance.random() < 0.5)
    lines += ["numericmodechars ."] * ("." in known and chance.random() < 0.5)
    return text_of([*lines, *rules(chance, known, ALL_PLACES, [*NUMBER_CELLS, *OWN_CELLS, "="])])


def tables(chance: random.Random, count: int) -> Iterator[tuple[str, str]]:
    """Tables of these three sorts in turn, and with about every third a character that its texts
    leave out, else nothing."""
    for make, _ in zip(cycle([letter_table, cased_table, numbered_table]), range(count)):
        table = make(chance)
        known = defined(table.splitlines()) + " " * ("space" in table)
        yield table, chance.choice(["", "", chance.choice(known)])


# ---- Their lines


def text_of(lines: list[str]) -> str:
    return "\n".join(lines) + "\n"


def defined(lines: list[str]) -> str:
    """The characters that lines define, each once, but for the blank."""
    rows = map(str.split, lines)
    found = "".join(chars for opcode, chars, *_ in rows if opcode in DEFINING)
    return "".join(dict.fromkeys(found.replace("\\s", "")))


def letter_lines(chance: random.Random, letters: str, cells: list[str]) -> list[str]:
    """Lines that define letters, most of them with capitals, now and then of each kind."""
    lines = []
    for it in letters:
        dots, upper = chance.choice(cells), it.upper()
        apart = [f"lowercase {it} {dots}", f"uppercase {upper} {chance.choice([dots, '7'])}"]
        pair = [f"uplow {upper}{it} {dots}"]
        lines += chance.choice([pair, pair, [f"uplow {upper}{it} 7,{dots}"], apart, apart, [f"letter {it} {dots}"]])
    for dots in ["4,14", "5,15"][: chance.choice([0, 0, 1, 1, 2])]:
        upper = chance.choice(letters.upper() + "XY")
        lower = chance.choice(f"{letters}{letters.upper()}X".replace(upper, ""))
        lines.insert(chance.randrange(len(lines) + 1), f"uplow {upper}{lower} {dots}")
    capitals = [it for it in defined(lines) if it.isupper()]
    if capitals and chance.random() < 0.25:
        lines.append(f"litdigit {chance.choice(capitals)} {chance.choice(cells)}")
    return lines


def rules(chance: random.Random, known: str, places: list[str], cells: list[str]) -> list[str]:
    """A few rules of known characters."""
    found = []
    for _ in range(chance.randint(0, 4)):
        chars = "".join(chance.choices(known, k=chance.randint(1, 3)))
        found.append(f"{chance.choice(places)} {chars} {chance.choice(cells)}")
    return found


# ---- Their capitals


def kinds(table: str) -> set[str]:
    """The kinds of capitals that a table has."""
    rows = [it for it in map(str.split, table.splitlines()) if len(it) > 2]
    pairs = [chars for opcode, chars, *_ in rows if opcode == "uplow" and len(chars) == 2]
    folds = {upper: lower for upper, lower in reversed(pairs)}
    capitals = {*folds, *(chars for opcode, chars, *_ in rows if opcode == "uppercase")}
    digits = {chars for opcode, chars, *_ in rows if opcode == "litdigit"}
    in_rules = {folds.get(it, it) for opcode, chars, *_ in rows if opcode in ALL_PLACES for it in chars}
    has = [
        capitals - folds.keys(),
        capitals & {lower for _, lower in pairs},
        capitals & digits,
        len(set(folds.values())) < len(folds),
        capitals & in_rules,
    ]
    return {kind for kind, it in zip(KINDS, has, strict=True) if it}


def shown(counts: Counter[str]) -> str:
    """How many tables have capitals of each kind."""
    return "tables with capitals: " + ", ".join(f"{counts[it]} {it}" for it in KINDS)


def lacking(counts: Counter[str]) -> str:
    """The kinds of capitals that no table has, as a line; nothing where there are none."""
    found = ", ".join(it for it in KINDS if not counts[it])
    return found and f"no table with capitals of the kind: {found}"


# ---- What a program says of such tables

# What a program says of a table for the texts without some characters, and what is wrong with it, if anything.
Difference = Callable[[str, str], tuple[str, str]]


def spelled(chars: str) -> str:
    return chars.replace(" ", "\\s")


def with_ranges(chars: list[str]) -> str:
    """Ascending characters, of which three or more in a row are a range."""
    runs: list[list[str]] = []
    for it in chars:
        if runs and ord(it) == ord(runs[-1][-1]) + 1:
            runs[-1].append(it)
        else:
            runs.append([it])
    return "".join("".join(map(spelled, it)) if len(it) < 3 else f"{spelled(it[0])}..{spelled(it[-1])}" for it in runs)


def option(table: str, without: str) -> list[str]:
    """The option for the texts that use none of some characters: of every other table the one that
    names the characters of which they are made."""
    kept = sorted({*defined(table.splitlines()), *" " * ("space" in table)} - {*without})
    if without and kept and len(table) % 2:
        return ["--only", with_ranges(kept)]
    return ["--without", spelled(without)] if without else []


def option_line(option: list[str]) -> str:
    """The line of an answer that names the characters of an option, if there is one."""
    return f"{option[0].removeprefix('--')}: {option[1]}\n" if option else ""


def asked(doc: str, words: list[str]) -> argparse.Namespace:
    """The program that is compared, and of how many tables of which seed."""
    reader = argparse.ArgumentParser(description=doc.split("\n", 1)[0])
    reader.add_argument("program")
    reader.add_argument("--seed", default="1")
    reader.add_argument("--count", type=int, default=300)
    return reader.parse_args(words)


def run(*words: str | Path) -> tuple[int, str]:
    """The status and the output of a program that is called with these words."""
    ran = subprocess.run([str(it) for it in words], capture_output=True, text=True, timeout=60)
    return ran.returncode, ran.stdout


def compare(asked: argparse.Namespace, wanted: str, difference: Difference) -> tuple[Counter[str], str]:
    """How often the program says what of the tables; and the kinds of capitals that no table has of
    which it says what is wanted, where there are tables enough. Prints what is wrong, and these."""
    counts: Counter[str] = Counter()
    has: Counter[str] = Counter()
    options: Counter[str] = Counter()
    for table, without in tables(random.Random(asked.seed), asked.count):
        came, wrong = difference(table, without)
        counts[came] += 1
        options.update(option(table, without)[:1])
        has.update(kinds(table) if came == wanted else [])
        if wrong:
            print(f"{wrong}\nwithout '{without}':\n{table}", flush=True)
    lacks = lacking(has) if asked.count >= ENOUGH else ""
    print("\n".join(filter(None, [f"seed {asked.seed}: {wanted} {shown(has)}", shown_options(options), lacks])))
    return counts, lacks


def shown_options(options: Counter[str]) -> str:
    """How many tables were asked about with each option."""
    return f"{options['--without']} tables with --without, {options['--only']} with --only"
