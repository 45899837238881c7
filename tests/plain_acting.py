#!/usr/bin/env python3
"""Which lines of a table can act on texts of some characters, written anew and plainly: what tests/acting.py compares
`brl cut --only` with.

  tests/plain_acting.py                             checks itself on small tables, which are written out below
  tests/plain_acting.py TABLE CHARS [--rewrite]     prints the lines of `brl cut --only` from `can act` on; CHARS are characters

A need of a line is a set of characters, of which the texts must have one. A line has a list of needs, and it can act where
each of them is met. Which lines a cut keeps is what tests/plain_cut.py finds.
"""

import contextlib
import re
import sys
import tempfile
from collections.abc import Callable, Iterator
from dataclasses import dataclass
from pathlib import Path

sys.dont_write_bytecode = True
import plain_cut
from plain_cut import Fault, spelled

Need = frozenset[str]
Needs = list[Need]
Find = Callable[[str], Need]

ALWAYS: Needs = []
NEVER: Needs = [frozenset()]

DEFINITIONS = "space punctuation digit letter lowercase uppercase sign math litdigit".split()
PLACED = "word sufword prfword begword begmidword midword midendword endword partword begnum midnum endnum".split()
RULES = [*PLACED, *"""always repeated replace joinnum joinword lowword largesign prepunc postpunc syllable repword rependword
    decpoint hyphen exactdots compdots contraction""".split()]
CAPITALS = """begcaps endcaps begcapsphrase endcapsphrase begcapsword endcapsword capsletter capsign capsmodechars capsnocont
    lencapsphrase""".split()
NUMBERS = "numsign nonumsign nocontractsign".split()
NUMBER_LISTS = "numericmodechars numericnocontchars midendnumericmodechars".split()
MODES = "modeletter begmodeword endmodeword begmode endmode begmodephrase endmodephrase lenmodephrase".split()
SEQUENCES = "seqdelimiter seqbeforechars seqafterchars seqafterpattern seqafterexpression".split()
IDLE = """emphclass begemph endemph noemphchars emphletter begemphword endemphword emphmodechars begemphphrase endemphphrase
    lenemphphrase begcomp endcomp comp6 multind undefined display locale noletsign noletsignbefore noletsignafter swapcc swapcd
    swapdd backmatch""".split()
BLOCKS = "compbrl literal nocont".split()
CLASS_LINES = ["attribute", "class"]
TEXT_TESTS, CELL_TESTS = ["context", "correct"], ["pass2", "pass3", "pass4"]
OTHERS = ["base", "uplow", "grouping", "match", "letsign"]
OPCODES = [
    *DEFINITIONS, *RULES, *CAPITALS, *NUMBERS, *NUMBER_LISTS, *MODES, *SEQUENCES, *IDLE, *BLOCKS, *CLASS_LINES, *TEXT_TESTS,
    *CELL_TESTS, *OTHERS,
]  # fmt: skip

# What a prefix of a line takes beside itself.
PREFIXES = {"noback": 0, "nofor": 0, "nocross": 0, "empmatchbefore": 0, "empmatchafter": 0, "before": 1, "after": 1}

# The classes by their letters in a test; the name of all classes of a table's own is empty.
LETTERS = dict(zip("dDlmpSsUu", "digit litdigit letter math punctuation sign space uppercase lowercase".split())) | dict.fromkeys("wxyz", "")

# An item of a test: a string, cells, classes by letters or by name with their counts, or any other mark.
ITEM = re.compile(r'"(?P<string>(?:[^"\\]|\\.)*)"|@(?P<cells>[0-9a-fA-F-]*)|(?P<kind>[$%])(?P<names>[A-Za-z]*)(?P<count>[A-Za-z0-9.]*)|(?P<mark>.)', re.DOTALL)


# ---- Lines


@dataclass
class Row:
    """A line that does something, with its place, and whether the cut keeps it and a neighbour is joined to it."""

    path: str
    number: int
    words: list[str]
    is_kept: bool
    is_joined: bool

    def __post_init__(self) -> None:
        rest, self.prefixes, self.classes = self.words, set(), []
        while rest and rest[0] in PREFIXES:
            more = 1 + PREFIXES[rest[0]]
            self.prefixes |= set(rest[:more])
            self.classes += [it for it in rest[1:more] if it not in PREFIXES]
            rest = rest[more:]
        self.opcode, self.operands = (rest[0], rest[1:]) if rest else ("", [])

    def operand(self, place: int) -> str:
        return self.operands[place] if place < len(self.operands) else ""

    def chars(self, place: int) -> str | None:
        """The characters of an operand, if it is there and they are known."""
        with contextlib.suppress(Fault, IndexError):
            return spelled(self.operands[place])
        return None

    def pair(self) -> str | None:
        """The characters of a capital and its small letter, in `uplow` and in `base` lines."""
        if self.opcode == "uplow":
            return self.chars(0)
        upper, lower = self.chars(1), self.chars(2)
        return upper + lower if self.opcode == "base" and upper is not None and lower is not None else None


def counted_under(row: Row) -> str:
    """The word under which the program counts a line that can act: the one after its prefixes, or else its first one."""
    return row.opcode or row.words[0]


def is_of_surrogates(word: str) -> bool:
    """Whether a bad escape of a word can only be that of a surrogate, which no text has."""
    return all(re.match(r"x[0-9a-fA-F]{4}", it) for it in word.split("\\")[1:])


def rows_of(files: plain_cut.Files) -> list[Row]:
    """The lines of a table in the order in which they are read, and then the include lines whose file isn't there."""
    rows: list[Row] = []
    missing: list[Row] = []
    others = iter(files.files)

    def visit(file: plain_cut.File) -> None:
        ends = [(it.text + it.end).removesuffix("\n").removesuffix("\r").endswith("\\") for it in file.lines]
        for number, line in enumerate(file.lines, 1):
            if line.is_followed and not line.is_of_made:
                visit(next(others))
            is_joined = ends[number - 1] or (number > 1 and ends[number - 2])
            if line.words[:1] == ["include"] and len(line.words) > 1:
                if line.fault.startswith("L1 "):
                    missing.append(Row(file.path, number, ["include"], False, is_joined))
            elif line.does_something() or line.is_of_made:
                rows.append(Row(file.path, number, re.findall("[^ \t]+", line.text), not line.fault, is_joined))

    visit(next(others))
    return rows + missing


# ---- What is known of a table


class Known:
    """What the lines of a table say of characters, and what texts over an alphabet can have."""

    def __init__(self, rows: list[Row], alphabet: set[str]) -> None:
        self.rows, self.alphabet = rows, alphabet | {" "}
        self.bases = [tuple(it.pair()) for it in rows if len(it.pair() or "") == 2]
        self.members: dict[str, set[str]] = {}
        for row in rows:
            self.add_classes(row)
        self.letters, self.capitals = self.members.get("letter", set()), self.members.get("uppercase", set())
        self.digits = self.members.get("digit", set()) | self.members.get("litdigit", set())
        self.has_capital = bool(self.alphabet & self.capitals)
        self.has_digit = bool(self.alphabet & self.digits)
        self.cells = {cell for row in rows if row.is_kept and "nofor" not in row.prefixes for cell in self.cells_of(row)}
        self.beside = {it for row in rows if row.opcode in ("noletsignbefore", "noletsignafter") for it in row.chars(0) or ""}
        self.letsign = next((place for place, it in enumerate(rows) if it.is_kept and it.opcode == "letsign"), None)
        self.rules = [it for it in rows if it.is_kept and "nofor" not in it.prefixes and it.opcode in RULES and it.chars(0) is not None]

    def signed(self) -> set[str]:
        """The letters before which `letsign` may stand."""
        return self.letters - without_sign(self)

    def odd(self) -> set[str]:
        """The characters of the alphabet beside which, or before which, a rewritten `letsign` isn't exact."""
        apart = self.members.get("space", set()) | self.members.get("punctuation", set())
        return {it for it in self.alphabet if it in self.capitals | self.beside or (it in self.letters) == (it in apart)}

    def add_class(self, name: str, chars: str) -> None:
        names = {name} | ({"letter"} if name in ("uppercase", "lowercase") else set() if name in DEFINITIONS else {""})
        for it in names if chars else ():
            self.members.setdefault(it, set()).update(chars)

    def add_classes(self, row: Row) -> None:
        if row.opcode in DEFINITIONS:
            self.add_class(row.opcode, row.chars(0) or "")
        elif row.opcode in [*CLASS_LINES, "base", "swapcc", "swapcd"]:
            found = row.chars(1)
            self.add_class(row.operand(0), " " if found is None else found)
        elif len(row.pair() or "") == 2:
            self.add_class("uppercase", row.pair()[0])
            self.add_class("lowercase", row.pair()[1])

    # ---- Which characters stand for which

    def above(self, some: set[str], is_up: bool = True) -> set[str]:
        """The capitals of these characters, and their capitals, and so on; or else the small letters."""
        found: set[str] = set()
        more = some
        while more:
            more = {(upper if is_up else lower) for upper, lower in self.bases if (lower if is_up else upper) in more} - found
            found |= more
        return found

    def up(self, chars: str | set[str]) -> Need:
        """The characters that stand for one of these: itself and its capitals."""
        return frozenset({*chars} | self.above({*chars}))

    def either(self, chars: str) -> Need:
        """The characters that stand for one of these, or for one of its small letters."""
        return self.up({*chars} | self.above({*chars}, False))

    def is_near(self, chars: str) -> list[bool]:
        return [bool(self.either(it) & self.alphabet) for it in chars]

    def cells_of(self, row: Row) -> Iterator[str]:
        """The cells that a kept line gives texts over the alphabet."""
        chars, place = row.chars(0) or "", 1
        if row.opcode in (*DEFINITIONS, "uplow"):
            is_given = any(self.is_near(chars))
        elif row.opcode == "contraction":
            # before the cells of its characters those of indicators
            if all(self.is_near(chars)):
                yield from (cell for it in self.rows if it.opcode in ("nocontractsign", "letsign") for cell in self.cells_at(it, 0))
            return
        elif row.opcode in RULES:
            is_given = all(self.is_near(chars))
        else:
            place = 0
            is_given = (row.opcode in CAPITALS and self.has_capital) or (row.opcode in NUMBERS and self.has_digit)
            is_given |= row.opcode == "letsign" and bool(self.signed() & self.alphabet)
        if is_given:
            yield from self.cells_at(row, place)

    def cells_at(self, row: Row, place: int) -> Iterator[str]:
        """The cells of an operand, of one character or of two."""
        for dots in row.operand(place).split(",", 1):
            yield from self.spelled_cells(dots, 16) or ()

    @staticmethod
    def spelled_cells(dots: str, most: int) -> list[str] | None:
        parts = dots.split("-")
        good = all(it == "0" or (re.fullmatch("[1-8]+", it) and len(set(it)) == len(it)) for it in parts)
        return ["".join(sorted(it)) for it in parts] if good and len(parts) <= most else None

    # ---- Needs

    def of_class(self, name: str) -> Needs:
        """A character of a class; no need where there is no such class."""
        return [self.up(self.members[name])] if name in self.members else ALWAYS

    def each(self, row: Row, place: int, find: Find) -> Needs:
        """Each character of an operand."""
        found = row.chars(place)
        if found is None:
            return NEVER if place < len(row.operands) and is_of_surrogates(row.operand(place)) else ALWAYS
        return [find(it) for it in found]

    def has(self, opcode: str, only_kept: bool = True) -> bool:
        return any(it.opcode == opcode and (it.is_kept or not only_kept) for it in self.rows)


def one_of(chars: str | None, find: Find) -> Needs:
    """One of these characters; no need where they aren't known."""
    return ALWAYS if chars is None else [find(chars)]


# ---- Tests


def items(test: str) -> Iterator[re.Match[str]]:
    """The items of a test that no `!` takes away."""
    place, is_negated = 0, False
    while found := ITEM.match(test, place):
        place = found.end()
        if found["mark"] and found["mark"] in "![]`~/":
            is_negated |= found["mark"] == "!"
            continue
        if not is_negated:
            yield found
        is_negated = False


def item_needs(known: Known, it: re.Match[str]) -> Needs:
    """What an item of a test of text needs: the characters of a string as they are, or one of classes."""
    if it["string"] is not None:
        with contextlib.suppress(Fault):
            return [frozenset(char) for char in spelled(it["string"])] if it["string"] else ALWAYS
        return NEVER if is_of_surrogates(it["string"]) else ALWAYS
    if not it["kind"] or it["count"].startswith("0"):
        return ALWAYS
    names = [it["names"]] if it["kind"] == "%" else [LETTERS.get(letter) for letter in it["names"]]
    needs = [known.of_class(name) if name is not None else ALWAYS for name in names]
    return [frozenset().union(*(one for (one,) in needs))] if ALWAYS not in needs else ALWAYS


def test_needs(known: Known, row: Row) -> Needs:
    if not row.operands:
        return ALWAYS
    found = list(items(row.operands[0]))
    if any(it["mark"] == '"' for it in found):
        return ALWAYS
    if row.opcode in TEXT_TESTS:
        return [need for it in found for need in item_needs(known, it)]
    for it in found:
        if it["cells"] is not None:
            cells = known.spelled_cells(it["cells"], 1024)
            if re.search("[9a-fA-F]", it["cells"]) or (cells is not None and not known.cells.issuperset(cells)):
                return NEVER
    return ALWAYS


# ---- Lines that are left out


def needs_of_left_out(known: Known, row: Row) -> Needs:
    opcode = row.opcode
    if opcode in DEFINITIONS:
        found = row.chars(0)
        if found is None:
            return known.each(row, 0, known.either)
        return [known.either(found), *([frozenset(known.capitals)] if known.capitals & {*found} else [])]
    if opcode not in OPCODES:
        return ALWAYS
    if "nofor" in row.prefixes or opcode in IDLE:
        return NEVER
    if opcode in CAPITALS:
        return [frozenset(known.capitals)]
    if opcode in NUMBERS:
        return [frozenset(known.digits)]
    if opcode in NUMBER_LISTS:
        return [frozenset(known.digits), *one_of(row.chars(0), frozenset)]
    if opcode in MODES:
        return [known.up(known.members.get(row.operands[0], set()))] if row.operands else ALWAYS
    if opcode in SEQUENCES:
        return [frozenset(known.alphabet - known.letters - known.members.get("space", set()))]
    if opcode == "letsign":
        return [frozenset(known.signed())] if known.letsign is None else NEVER
    if opcode in CLASS_LINES and len(row.operands) > 1:
        return one_of(row.chars(1), known.up) if row.operands[0] in DEFINITIONS else NEVER
    if opcode == "grouping":
        return one_of(row.chars(1), known.up)
    if opcode in ("base", "uplow"):
        is_of_capital = opcode == "base" and row.operand(0) == "uppercase"
        return [*one_of(row.pair(), known.either), *([frozenset(known.capitals)] if is_of_capital else [])]
    if opcode in [*TEXT_TESTS, *CELL_TESTS]:
        return test_needs(known, row)
    if opcode == "match":
        return known.each(row, 1, known.up)
    if opcode in [*RULES, *BLOCKS]:
        met = [need for it in row.classes for need in known.of_class(it)]
        return [*known.each(row, 0, known.either if opcode in BLOCKS else known.up), *met]
    return ALWAYS


def without_sign(known: Known) -> set[str]:
    """The letters before which `letsign` isn't used."""
    found: set[str] = set()
    for row in known.rows:
        chars = row.chars(0) or ""
        if row.opcode == "noletsign" or (row.opcode in ("word", "largesign") and "nofor" not in row.prefixes and len(chars) == 1):
            found |= {*chars}
    return found


# ---- Lines that are kept


def needs_of_kept(known: Known, row: Row) -> Needs:
    """What a line needs to be read in another way than liblouis does."""
    if "nofor" in row.prefixes:
        return NEVER
    if row.opcode in DEFINITIONS and known.has("numsign", False):
        plain, literary = known.members.get("digit", set()), known.members.get("litdigit", set())
        return one_of(row.chars(0), lambda chars: frozenset({*chars} & (plain ^ literary)))
    if row.opcode in NUMBER_LISTS:
        return [frozenset(known.digits), *one_of(row.chars(0), frozenset)]
    if row.opcode == "begcapsword":
        with_case = known.capitals | {lower for upper, lower in known.bases if upper in known.capitals}
        has_all = known.has("endcapsword") and (known.has("capsletter") or known.has("capsign"))
        return [frozenset(known.capitals), *([frozenset(known.letters - with_case)] if has_all else [])]
    if row.opcode == "letsign":
        return [frozenset(known.signed() | known.capitals), frozenset(known.odd())]
    return needs_of_rule(known, row) if row.opcode in RULES else NEVER


def needs_of_rule(known: Known, row: Row) -> Needs:
    chars = row.chars(0)
    if row.opcode in ("begnum", "midnum", "endnum"):
        return [frozenset(known.digits), *known.each(row, 0, known.up)]
    if chars is None:
        return ALWAYS
    # by number in their table, since two rules can have the same words
    place = [*map(id, known.rows)].index(id(row))
    earlier = [it for it in known.rules if [*map(id, known.rows)].index(id(it)) < place]
    if len(chars) == 1:
        is_beaten = row.opcode in (*PLACED, "contraction") and any(it.opcode == "always" and it.chars(0) == chars for it in earlier)
        # brl uses it for the letter alone, without the sign
        loses_sign = row.opcode in ("sufword", "prfword") and place < (known.letsign or 0) and chars in known.signed()
        return [frozenset(chars)] if is_beaten or loses_sign else [frozenset(known.above({chars}))]
    if row.opcode == "contraction":
        return [frozenset().union(*(known.above({it}) for it in chars)), *known.each(row, 0, known.up)]
    if known.capitals & {*chars}:
        lowered = "".join(next((lower for upper, lower in known.bases if upper == it), it) for it in chars)
        alike = [it for it in known.rules if it.opcode == row.opcode and it.chars(0) == lowered]
        is_same = any(any(it is other for other in earlier) or it.operand(1) == row.operand(1) for it in alike)
        return NEVER if is_same else known.each(row, 0, known.either)
    gets_sign = known.letsign is not None and len(chars) > 1 and chars[0] in known.signed() and chars[1] not in known.letters
    if gets_sign and row.opcode in ("always", "prfword", "begmidword", "partword"):
        return known.each(row, 0, known.up)
    if row.opcode in ("prfword", "endword", "midword", "begmidword", "midendword") and known.has("begcapsword"):
        return [frozenset(known.capitals), *known.each(row, 0, known.up)]
    return NEVER


# ---- Answers


def can_act(known: Known, row: Row) -> bool:
    needs = needs_of_kept(known, row) if row.is_kept else needs_of_left_out(known, row)
    return row.is_joined or all(need & known.alphabet for need in needs)


def judged(root: str, is_rewriting: bool, alphabet: set[str] | None = None) -> tuple[list[tuple[Row, bool]], set[str]]:
    """The lines of a table, each with whether it can act, and the characters that its cut defines; over these, where none are given."""
    files = plain_cut.Files(root, [])
    if is_rewriting:
        plain_cut.rewrite(files)
    plain_cut.cut_lines(files.lines)
    defined = {*plain_cut.first_pass([it for it in files.lines if not it.fault]).chars}
    rows = rows_of(files)
    known = Known(rows, defined if alphabet is None else alphabet)
    made = next((it for it in files.files if it.name == plain_cut.MADE and not it.depth), None)
    # a line that was made and is left out can act
    more = [Row(made.path, number, it.words, False, False) for number, it in enumerate(made.lines, 1) if it.fault] if made else []
    return [(it, can_act(known, it)) for it in rows] + [(it, True) for it in more], defined


def answer(root: str, folder: str, rows: list[tuple[Row, bool]]) -> list[str]:
    """The lines of an answer from those that can act on."""
    acting = [it for it, acts in rows if acts]
    lines = []
    for opcode in dict.fromkeys(counted_under(it) for it in acting):
        some = [it for it in acting if counted_under(it) == opcode]
        lines.append(f"can act: opcode {opcode}: {len(some)}, the first at {some[0].path}:{some[0].number}")
    if acting:
        return [*lines, f"{len(acting)} line{'s' * (len(acting) > 1)} can act on these texts"]
    return [f"no line can act on these texts: what --only decides of {folder}/{root.rpartition('/')[2]} holds of {root}"]


# ---- Its own checks


@dataclass(frozen=True)
class Case:
    """The lines of a table, the characters of texts, and the numbers of the lines that can act."""

    lines: str
    alphabet: str
    acting: tuple[int, ...] = ()
    is_rewriting: bool = False


AB = "space \\s 0; lowercase a 1; lowercase b 12"

CASES = [
    # line 4 has an operand that no cut keeps: a virtual dot
    Case(f"{AB}; always ab 1c", "ab", (4,)),
    Case(f"{AB}; always ab 1c", "a"),
    Case(f"{AB}; nofor letsign 1", "ab"),
    Case(f"{AB}; letsign 56", "ab", (4,)),
    Case(f"{AB}; letsign 56; noletsign ab; word a 1", "ab"),
    # a letter sign that is rewritten
    Case(f"{AB}; letsign 56", "ab", (), True),
    Case(f"{AB}; punctuation . 256; letsign 56", "ab.", (), True),
    Case(f"{AB}; punctuation . 256; letsign 56; noletsignafter .", "ab.", (5,), True),
    Case(f"{AB}; digit 1 1; letsign 56", "ab1", (5,), True),
    Case(f"{AB}; digit 1 1; letsign 56; noletsign ab", "ab1", (), True),
    Case(f"{AB}; punctuation a 1; letsign 56", "a", (5,), True),
    Case(f"{AB}; punctuation a 1; letsign 56", "b", (), True),
    Case(f"{AB}; base uppercase A a; letsign 56", "abA", (5,), True),
    Case(f"{AB}; letsign 46; letsign 56", "ab", (), True),
    Case(f"{AB}; sufword a 2; letsign 56; sufword b 2", "ab", (4,), True),
    Case(f"{AB}; sufword a 2; letsign 56; sufword b 2", "b", (), True),
    Case(f"{AB}; letsign 56; always a\\s 1; prfword bb 1", "ab", (5,), True),
    Case(f"{AB}; letsign 56; word a\\s 1; endword a\\s 1", "ab", (), True),
    Case(f"{AB}; letsign 56; pass2 @56 @1", "ab", (5,), True),
    Case(f"{AB}; letsign 56; noletsign a; pass2 @56 @1", "a", (), True),
    # of a letter with sixteen cells the made line has too many
    Case(f"{AB}; always a {'-'.join(['1'] * 16)}; letsign 56", "b", (1,), True),
    Case(f"{AB}; before space after space nocross word a 1", "a", (4,)),
    Case(f"{AB}; after digit word a 1; digit 1 1", "a"),
    Case(f"{AB}; after digit word a 1", "a", (4,)),
    # a capital stands for its small letter, where its pair is made, and where it isn't
    Case(f"{AB}; base uppercase A a; joinword ab 1", "A", (), True),
    Case(f"{AB}; base uppercase A a; joinword a 1", "A", (5,), True),
    Case(f"{AB}; base uppercase A a; compbrl A", "a", (5,), True),
    Case(f"{AB}; base uppercase A a; joinword A 1", "a", (), True),
    Case(f"{AB}; base uppercase A a; always a 2", "a", (), True),
    Case(f"{AB}; base uppercase A a; always a 2", "A", (5,), True),
    Case(f"{AB}; base uppercase A a", "a", ()),
    Case(f"{AB}; uplow Cc 7,8; always Ca 2", "acC", (5,)),
    Case(f"{AB}; uplow Cc 7,8; always Ca 2; always ca 2", "acC"),
    Case(f"{AB}; uplow Cc 7,8; always ca 2; always Ca 3", "acC"),
    Case(f"{AB}; always a 2; word a 3", "a", (5,)),
    Case(f"{AB}; word a 3; always a 2", "a"),
    Case(f"{AB}; base uppercase A a; base uppercase B A; uppercase B 12; joinword a 1", "B", (5, 7), True),
    # contractions that are rewritten
    Case(f"{AB}; base uppercase A a; contraction ab", "ab", (), True),
    Case(f"{AB}; base uppercase A a; contraction ab", "abA", (5,), True),
    Case(f"{AB}; base uppercase A a; contraction ab", "aA", (), True),
    Case(f"{AB}; always a 2; contraction a", "a", (5,), True),
    Case(f"{AB}; contraction ab; letsign 56; noletsign ab; pass2 @56 @1", "ab", (7,), True),
    # indicators, and what they are for
    Case(f"{AB}; numericmodechars a; digit 1 1", "a"),
    Case(f"{AB}; numericmodechars a; digit 1 1", "a1", (4,)),
    Case(f"{AB}; numericmodechars a; digit 1 1", "1"),
    Case(f"{AB}; numsign 3456; digit 1 1; litdigit 1 1; digit 2 2", "1"),
    Case(f"{AB}; numsign 3456; digit 1 1; litdigit 1 1; digit 2 2", "2", (7,)),
    Case(f"{AB}; uppercase C 14; begcapsword 6-6", "C", (5,)),
    Case(f"{AB}; uppercase C 14; begcapsword 6-6; endcapsword 6-3; capsletter 6", "C"),
    Case(f"{AB}; uppercase C 14; begcapsword 6-6; endcapsword 6-3; capsletter 6", "aC", (5,)),
    Case(f"{AB}; uppercase C 14; begcapsword 6-6; capsletter 6", "C", (5,)),
    Case(f"{AB}; uppercase C 14; capsletter 6; pass2 @6 @1", "C", (6,)),
    Case(f"{AB}; uppercase C 14; capsletter 6; pass2 @6 @1", "a"),
    Case(f"{AB}; begcaps 6", "ab"),
    Case(f"{AB}; modeletter foo 6; attribute foo b", "a"),
    Case(f"{AB}; modeletter foo 6; attribute foo b", "b", (4,)),
    Case(f"{AB}; attribute space b", "b", (4,)),
    Case(f"{AB}; seqdelimiter a; sign + 2", "a"),
    Case(f"{AB}; seqdelimiter a; sign + 2", "+", (4,)),
    Case("letter a 1; seqdelimiter a", "a", (2,)),
    # tests of text, of which an item may be taken away, or be missing in the text, and tests of cells
    Case(f'{AB}; context "b"a @1', "a"),
    Case(f'{AB}; context !"b"$s @1', "a", (4,)),
    Case(f'{AB}; context "a!"$d @1', "a"),
    Case(f'{AB}; digit 1 1; correct $d0-2"a" "b"', "a", (5,)),
    Case(f'{AB}; digit 1 1; correct $d2"a" "b"', "a"),
    Case(f'{AB}; digit 1 1; correct $dw"a" "b"', "a", (5,)),
    Case(f'{AB}; digit 1 1; attribute foo b; correct $w "b"', "a"),
    Case(f'{AB}; correct %foo "b"', "a", (4,)),
    Case(f'{AB}; correct %foo "b"; attribute foo b', "a"),
    Case(f'{AB}; correct "b "a"', "b", (4,)),
    Case(f"{AB}; pass2 @1-0 @2", "a", (4,)),
    Case(f"{AB}; pass2 @1-0 @2; pass3 @12 @1; pass4 @1a @1; pass2 !@12 @1", "a", (4, 7)),
    Case(f"{AB}; always ab 45; pass2 @45 @1", "ab", (5,)),
    Case(f"{AB}; always ab 45; pass2 @45 @1", "a"),
    # definitions that are left out, and what can't be known
    Case(f"{AB}; sign a 1c; sign + 1c", "a", (4,)),
    Case(f"{AB}; nofor sign a 12", "a", (4,)),
    Case(f"{AB}; letter \\xd800 1; letter \\q1 1; letter", "a", (5, 6)),
    Case(f"{AB}; always \\xd800a 1; always \\qb 1", "a", (5,)),
    Case(f"{AB}; nothing a; noback; include", "a", (4, 5, 6)),
    Case(f"{AB}; include u; include h.dic; include t.ctb", "a", (4,)),
    Case(f"{AB}; # x \\; emphclass foo; emphclass bar", "a", (5,)),
    Case(f"{AB} \\; # x; emphclass bar", "a", (3,)),
    Case(f"{AB}; match a b c 1; grouping foo ab 1,2; hyphen b 36", "a", (5,)),
]


def check_itself() -> int:
    """Checks the small tables, and says whether one is wrong."""
    wrong = 0
    with tempfile.TemporaryDirectory() as folder, contextlib.chdir(folder):
        for case in CASES:
            Path("t.ctb").write_text(case.lines.replace("; ", "\n") + "\n")
            rows, _ = judged("t.ctb", case.is_rewriting, {*case.alphabet})
            found = tuple(sorted(it.number for it, acts in rows if acts))
            if found != case.acting:
                wrong += 1
                print(f"{case.lines}\nover {case.alphabet}: {found}, where {case.acting} is wanted")
    print(f"plain acting: {len(CASES) - wrong} passed, {wrong} failed")
    return 1 if wrong else 0


def main() -> int:
    words = [it for it in sys.argv[1:] if it != "--rewrite"]
    if not words:
        return check_itself()
    rows, _ = judged(words[0], "--rewrite" in sys.argv, {*words[1]})
    print(*answer(words[0], "DIR", rows), sep="\n")
    return 1 if any(acts for _, acts in rows) else 0


if __name__ == "__main__":
    sys.exit(main())
