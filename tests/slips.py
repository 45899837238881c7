#!/usr/bin/env python3
"""Compares the slips, habits and twins that `brl slips` lists with the definitions, taken by the word.

  tests/slips.py PROGRAM [--seed SEED] [--count COUNT] [--tables DIR]

Of each table that is made at random all spellings of each rule's characters are made here, and its
cells are compared with those of each of them, kind by kind; nothing of the program's way is used. Both
forms of the answer must be as made here, and the status. Tables have lines that aren't read, capitals
and lines after prefixes; some have the same fault in several rules.

A table that is made to be slow must be listed in time, of its first rules. Of liblouis' tables, where
they are in DIR, lines that were read as plainly wrong must be listed; a line that has another rule by
now is passed over.

The same seed makes the same tables. The exit status is 1 where something differs, which is printed, or
where a kind never came.
"""

import argparse
import random
import subprocess
import sys
import tempfile
from collections import Counter
from pathlib import Path
from typing import NamedTuple

sys.dont_write_bytecode = True

PLACES = "always word sufword prfword begword begmidword midword midendword endword partword begnum midnum endnum".split()
UNREAD = "largesign lowword joinword joinnum prepunc postpunc syllable".split()
PREFIXES = {"noback": 1, "nofor": 1, "nocross": 1, "empmatchbefore": 1, "empmatchafter": 1, "before": 2, "after": 2}
# Letters with capitals, which are taken in fours.
ALPHABET = "abcdefghijklmnopqrstuvwxyzäöüéèê"

KINDS = ("replaced", "exchanged", "too many", "missing", "two replaced")
HABIT = FAMILY = 4
COLUMNS = "kind file line opcode text cells said spelling spelled file2 line2 opcode2 text2 cells2".split()

Cells = tuple[int, ...]


# Lines of liblouis 3.24 that were read as plainly wrong: the table, and the number and the rule's characters of each.
KNOWN = {
    "en-us-g2.ctb": "83 andalusia, 1034 sparerib, 54 fafnir, 999 potherb, 82 andante, 84 andaman, 1007 reaffor, 1044 trinar, 729 timed, 55 hafnium",
    "en-us-interline.ctb": "1088 sparerib, 1053 potherb, 1061 reaffor, 1098 trinar, 1057 predecess, 641 pineapple, 786 timed",
    "es-g2.ctb": "929 vodca",
    "fr-bfu-g2.ctb": "3398 kjökkenmödding, 2991 thioüracile, 3371 zimbabwéen, 3199 calcanéen, 3244 érythréen, 2934 anchoïade, 3076 penghawar,"
    " 3363 yachtsmen, 4258 sertão, 3039 bywater, 3362 yachtmen, 2998 exigü, 3061 iwans, 4206 weiqi, 3307 nietzschéen, 3267 harappéen,"
    " 3243 épitrochléen, 3227 cyclopéen, 1170 commères, 4246 pelles",
    "ga-g2.ctb": "212 uisceadá",
    "hu-hu-g2.ctb": "598 magatartással, 573 identitással, 731 végtelennel, 455 bűnözéssel, 668 aiszóposszal, 629 újsággal, 152 akárcsak,"
    " 682 hollywooddal, 383 betegséggel, 384 dömpinggel, 414 áttöréssel, 215 függésszerű, 717 newtonnal, 1525 látásszez, 1251 résszárnny",
    "ms-my-g2.ctb": "880 berisikokan, 769 memberani, 197 keamalan, 1651 hulukan, 2270 lencanakan, 3571 sukanmu, 577 balanya, 1983 katanama, 3825 temasya",
    "no-no-g2.ctb": "323 følgerne",
}


class Piece(NamedTuple):
    text: str
    cells: Cells


class Rule(NamedTuple):
    line: int
    opcode: str
    text: str
    cells: Cells


class Slip(NamedTuple):
    rule: Rule
    kind: str
    places: tuple[int, ...]
    spelling: tuple[Piece, ...]
    differences: frozenset[tuple[object, ...]]


def dots(cells: Cells) -> str:
    return "-".join("".join(str(dot + 1) for dot in range(8) if cell >> dot & 1) or "0" for cell in cells)


def cells_of(spelled: str) -> Cells:
    return tuple(sum(1 << int(dot) - 1 for dot in cell if dot != "0") for cell in spelled.split("-"))


class Table:
    """What the lines of a table give. All of these lines have good operands."""

    def __init__(self, lines: list[list[str]]) -> None:
        self.own: dict[str, Cells] = {}
        self.letters: set[str] = set()
        self.small: dict[str, str] = {}
        self.pieces: list[Piece] = []
        self.begins: dict[str, list[Piece]] = {}
        self.rules: list[Rule] = []
        for words in lines:
            self.define(words)
        self.pieces = [Piece(it, cells) for it, cells in self.own.items() if self.fold(it) == it]
        for number, words in enumerate(lines, 1):
            self.add(number, words)
        for piece in self.pieces:
            self.begins.setdefault(piece.text, []).append(piece)

    def fold(self, text: str) -> str:
        return "".join(self.small.get(it, it) for it in text)

    def define(self, words: list[str]) -> None:
        match words:
            case ["letter" | "punctuation" | "sign", character, spelled]:
                self.own.setdefault(character, cells_of(spelled))
                if words[0] == "letter":
                    self.letters.add(character)
            case ["uplow", pair, spelled]:
                for character, cells in zip(pair, (spelled.split(",") * 2)[:2] if "," not in spelled else spelled.split(",")):
                    self.own.setdefault(character, cells_of(cells))
                    self.letters.add(character)
                self.small[pair[0]] = pair[1]
            case ["base", "uppercase", upper, lower]:
                self.small.setdefault(upper, lower)

    def add(self, number: int, words: list[str]) -> None:
        is_read = words[0] in PLACES or words[0] == "noback" and words[1] in PLACES
        rest = words
        while rest and rest[0] in PREFIXES:
            rest = rest[PREFIXES[rest[0]] :]
        if rest and rest[0] in PLACES + UNREAD:
            text, spelled = rest[1], rest[2]
        elif rest and rest[0] == "match":
            text, spelled = rest[2], rest[4]
        else:
            return
        text = self.fold(text)
        defined = all(it in self.own for it in text)
        if spelled == "=":
            if not defined:
                return
            cells: Cells = sum((self.own[it] for it in text), ())
        else:
            cells = cells_of(spelled)
        self.pieces.append(Piece(text, cells))
        if is_read and defined:
            self.rules.append(Rule(number, rest[0], text, cells))

    def spellings(self, text: str) -> list[tuple[Piece, ...]]:
        """All rows of pieces, shorter than the text, that make it up: those with longer pieces first, then earlier ones."""
        known: dict[int, list[tuple[Piece, ...]]] = {len(text): [()]}
        for place in range(len(text) - 1, -1, -1):
            known[place] = []
            for length in range(min(len(text) - 1, len(text) - place), 0, -1):
                begins = self.begins.get(text[place : place + length], [])
                known[place] += [(it, *rest) for it in begins for rest in known[place + length]]
        return known[0]

    # ---- slips

    def slip(self, rule: Rule) -> Slip | None:
        text, cells = rule.text, rule.cells
        if len(text) < 4 or not 4 <= len(cells) <= 16 or not set(text) <= self.letters:
            return None
        rows = [(it, sum((piece.cells for piece in it), ())) for it in self.spellings(text)]
        if any(spelled in (cells, cells[1:], cells[2:]) for _, spelled in rows):
            return None
        apart = [[place for place, (one, other) in enumerate(zip(cells, spelled)) if one != other] if len(spelled) == len(cells) else [] for _, spelled in rows]
        for (row, spelled), places in zip(rows, apart):
            if len(places) == 1:
                return self.found(rule, "replaced", places, row, spelled)
        for place in range(len(cells) - 1):
            for row, spelled in rows:
                if spelled == (*cells[:place], cells[place + 1], cells[place], *cells[place + 2 :]):
                    return self.found(rule, "exchanged", [place], row, spelled)
        if len(cells) >= 5:
            for place in range(1, len(cells)):
                for row, spelled in rows:
                    if spelled == cells[:place] + cells[place + 1 :]:
                        return self.found(rule, "too many", [place], row, spelled)
            for place in range(len(cells) + 1):
                for row, spelled in rows:
                    if len(spelled) == len(cells) + 1 and cells == spelled[:place] + spelled[place + 1 :]:
                        return self.found(rule, "missing", [place], row, spelled)
        if len(cells) >= 7:
            for (row, spelled), places in zip(rows, apart):
                if len(places) == 2:
                    return self.found(rule, "two replaced", places, row, spelled)
        return None

    def found(self, rule: Rule, kind: str, places: list[int], row: tuple[Piece, ...], spelled: Cells) -> Slip:
        if kind == "exchanged":
            differences: list[tuple[object, ...]] = [(kind,)]
        elif kind == "too many":
            differences = [(kind, rule.cells[places[0]])]
        elif kind == "missing":
            differences = [(kind, spelled[places[0]])]
        else:
            differences = [("replaced", rule.cells[it], spelled[it]) for it in places]
        return Slip(rule, kind, tuple(places), row, frozenset(differences))

    # ---- twins

    def twins(self) -> list[tuple[Rule, Rule, int]]:
        families: dict[tuple[Cells, int], list[Rule]] = {}
        for rule in self.rules:
            family = families.setdefault((rule.cells, len(rule.text)), [])
            if len(rule.cells) >= 2 and all(it.text != rule.text for it in family):
                family.append(rule)
        pairs = []
        for family in families.values():
            for later, other in enumerate(family if len(family) < FAMILY else []):
                for one in family[:later]:
                    places = [it for it in range(len(one.text)) if one.text[it] != other.text[it]]
                    if len(places) == 1 and len(one.text) > 1:
                        left, right = one.text[places[0]], other.text[places[0]]
                        if {left, right} <= self.letters and self.own[left] != self.own[right]:
                            pairs.append((one, other, places[0]))
        often = Counter(frozenset((one.text[it], other.text[it])) for one, other, it in pairs)
        kept = [(one, other, it) for one, other, it in pairs if often[frozenset((one.text[it], other.text[it]))] < HABIT]
        number = {id(rule): it for it, rule in enumerate(self.rules)}
        return sorted(kept, key=lambda it: (-len(it[0].cells), number[id(it[0])], number[id(it[1])]))

    # ---- what is said

    def name(self, cell: int) -> str:
        alone = [it for it in self.pieces if it.cells == (cell,)]
        letters = [it for it in alone if set(it.text) <= self.letters]
        return dots((cell,)) + "".join(f" {it.text}" for it in (letters or alone)[:1])

    def meant(self, slip: Slip, place: int) -> str:
        at = 0
        for piece in slip.spelling:
            if at == place and len(piece.cells) == 1:
                return f"{dots(piece.cells)} {piece.text}"
            at += len(piece.cells)
        return self.name(sum((it.cells for it in slip.spelling), ())[place])

    def said(self, slip: Slip) -> str:
        cells, place = slip.rule.cells, slip.places[0]
        match slip.kind:
            case "exchanged":
                return f"cells {place + 1} and {place + 2} are exchanged: {self.name(cells[place])}, {self.name(cells[place + 1])}"
            case "too many":
                return f"cell {place + 1}, {self.name(cells[place])}, is too many"
            case "missing":
                return f"no {self.meant(slip, place)} before cell {place + 1}"
        return "; ".join(f"cell {it + 1} is {self.name(cells[it])} for {self.meant(slip, it)}" for it in slip.places)

    def habit(self, difference: tuple[object, ...]) -> str:
        match difference:
            case ("replaced", int(cell), int(other)):
                return f"{self.name(cell)} for {self.name(other)}"
            case ("too many", int(cell)):
                return f"{self.name(cell)} too many"
            case ("missing", int(cell)):
                return f"no {self.name(cell)}"
        return "two cells exchanged"


def group(slip: Slip) -> int:
    if slip.kind == "two replaced":
        return 3
    if len(slip.rule.cells) == 4:
        return 2
    return 1 if slip.kind in ("too many", "missing") else 0


def columns(kind: str, one: Rule, said: str, spelling: tuple[Piece, ...] = (), other: Rule | None = None) -> list[str]:
    def of(rule: Rule | None) -> list[str]:
        return ["t.ctb", str(rule.line), rule.opcode, rule.text, dots(rule.cells)] if rule else [""] * 5

    spelled = dots(sum((it.cells for it in spelling), ())) if spelling else ""
    return [kind, *of(one), said, " ".join(it.text for it in spelling), spelled, *of(other)]


class Wanted(NamedTuple):
    status: int
    text: str
    tsv: str


def wanted(table: Table, counts: Counter[str]) -> Wanted:
    slips = [it for rule in table.rules if (it := table.slip(rule))]
    counts.update(rules=len(table.rules))
    counts.update(it.kind for it in slips)
    often: dict[tuple[object, ...], list[Slip]] = {}
    for slip in slips:
        for difference in ordered(slip):
            often.setdefault(difference, []).append(slip)
    shown = sorted((it for it in slips if all(len(often[d]) < HABIT for d in it.differences)), key=lambda it: (group(it), -len(it.rule.cells)))
    habits = sorted((it for it in often.items() if len(it[1]) >= HABIT), key=lambda it: -len(it[1]))
    twins = table.twins()
    counts.update(shown=len(shown), habits=len(habits), twins=len(twins))
    rows = [(columns(it.kind, it.rule, table.said(it), it.spelling), f"{it.rule.line} {it.rule.opcode} {it.rule.text}") for it in shown if group(it) < 2]
    for one, other, it in twins:
        told = "same cells; " + ", ".join(f"{c} {dots(table.own[c])}" for c in (one.text[it], other.text[it]))
        rows.append((columns("twins", one, told, (), other), f"{one.line} {one.opcode} {one.text}, {other.line} {other.text}"))
    rows += [(columns(it.kind, it.rule, table.said(it), it.spelling), f"{it.rule.line} {it.rule.opcode} {it.rule.text}") for it in shown if group(it) >= 2]
    width = min(34, max((len(head) for _, head in rows), default=0))
    text = ["no likely slips" if not rows else f"likely slips: {len(rows)} line{'' if len(rows) == 1 else 's'}", *["  t.ctb"][: len(rows)]]
    text += [f"    {head.ljust(width)}  {row[6]}" for row, head in rows]
    tsv = [COLUMNS, *(row for row, _ in rows)]
    for difference, having in habits:
        told, first = table.habit(difference), having[0].rule
        text.append(f"    {len(having)} lines alike, perhaps meant: {told}, as t.ctb:{first.line} {first.text}")
        tsv.append(columns("habit", first, f"{len(having)} lines alike: {told}"))
    return Wanted(1 if rows else 0, "".join(it + "\n" for it in text), "".join("\t".join(it) + "\n" for it in tsv))


def ordered(slip: Slip) -> list[tuple[object, ...]]:
    """The differences of a slip in the order of their places."""
    if len(slip.differences) == 1:
        return list(slip.differences)
    spelled = sum((it.cells for it in slip.spelling), ())
    return [("replaced", slip.rule.cells[it], spelled[it]) for it in slip.places]


# ---- Tables at random


def spoiled(chance: random.Random, cells: list[int], most: int) -> list[int]:
    """Cells with up to three faults."""
    for _ in range(chance.choice((0, 1, 1, 1, 2, 3))):
        place = chance.randrange(len(cells))
        match chance.randrange(4):
            case 0 | 1:
                cells[place] = chance.randrange(1, most)
            case 2 if len(cells) > 1:
                del cells[place]
            case _:
                cells.insert(place, chance.randrange(1, most))
    if chance.random() < 0.2 and len(cells) > 1:
        place = chance.randrange(len(cells) - 1)
        cells[place], cells[place + 1] = cells[place + 1], cells[place]
    return cells[:16]


def random_table(chance: random.Random) -> list[list[str]]:
    """Lines of one group of letters, or of several, of which none has a letter of another."""
    most = chance.choice((4, 6, 10, 40))
    groups = chance.choice((1, 1, 8))
    return [words for it in range(groups) for words in random_lines(chance, most, ALPHABET[4 * it :][: chance.choice((2, 3, 4))])]


def random_lines(chance: random.Random, most: int, letters: str) -> list[list[str]]:
    own = {it: [chance.randrange(1, most) for _ in range(chance.choice((1, 1, 1, 2)))] for it in letters}
    lines = [["letter", it, dots(tuple(cells))] for it, cells in own.items()]
    lines.append(["uplow", letters[0].upper() + letters[0], dots(tuple(own[letters[0]]))] if chance.random() < 0.3 else ["punctuation", ".", "256"])
    if chance.random() < 0.3:
        lines.append(["base", "uppercase", letters[1].upper(), letters[1]])
    capitals = [words[1][0] if words[0] == "uplow" else words[2] for words in lines if words[0] in ("uplow", "base")]
    for _ in range(chance.randrange(4, 24)):
        text = "".join(chance.choice(letters) for _ in range(chance.choice((1, 2, 2, 3, 4, 5, 6, 7, 8))))
        spelled = dots(tuple(spoiled(chance, [cell for it in text for cell in own[it]], most)))
        if capitals and chance.random() < 0.1:
            text = text.replace(capitals[0].lower(), capitals[0], 1)
        if chance.random() < 0.05:
            text, spelled = text + ".", "256-" + spelled
        lines.append(random_line(chance, text, spelled))
    return lines


def random_line(chance: random.Random, text: str, spelled: str) -> list[str]:
    """A line that gives a text these dots: mostly a rule, else one behind a prefix, or one that isn't read."""
    opcode = chance.choice(PLACES)
    others = [
        ["noback", opcode, text, spelled],
        ["nofor", opcode, text, spelled],
        [chance.choice(UNREAD), text, spelled],
        ["match", "%", text, "%", spelled],
        [chance.choice(("before", "after")), "vowel", opcode, text, spelled],
        ["nocross", "nofor", opcode, text, spelled],
        ["context", text, spelled],
        [opcode, text, "="],
    ]
    return [opcode, text, spelled] if chance.random() < 0.6 else chance.choice(others)


def run(program: str, *words: str | Path) -> tuple[int, str]:
    ran = subprocess.run([program, "slips", *words], capture_output=True, text=True, cwd=Path(words[-1]).parent)
    return ran.returncode, ran.stdout + ran.stderr


def unlisted(program: str, folder: Path) -> list[str]:
    """The known lines of the tables in a folder that aren't listed; and says how many are, or that there are no tables."""
    lacking, listed = [], 0
    for table, known in KNOWN.items():
        if not (folder / table).is_file():
            print(f"skipped: {folder / table} isn't there")
            continue
        rules = {(it.split("\t")[2], it.split("\t")[4]): Path(it.split("\t")[1]) for it in run(program, "--tsv", folder / table)[1].splitlines()[1:]}
        sources = [it.read_text("utf-8", "replace").split("\n") for it in folder.iterdir() if it.suffix in (".ctb", ".cti", ".utb")]
        for line, text in (it.split() for it in known.split(", ")):
            if (line, text) in rules:
                listed += 1
            elif any(len(it) >= int(line) and text in it[int(line) - 1].lower().split() for it in sources):
                lacking.append(f"{table}: {line} {text}")
    print(f"known lines: {listed} listed, {len(lacking)} not")
    return lacking


def slow_fault(program: str, path: Path) -> str:
    """What is wrong with the answer for a table of many rules of one letter, if anything."""
    chance = random.Random(1)
    rules = [["always", "a" * chance.randrange(1, 33), dots(tuple(chance.choice((1, 2, 3, 9)) for _ in range(chance.randrange(1, 17))))] for _ in range(4096)]
    path.write_text("".join(" ".join(it) + "\n" for it in [["letter", "a", "1"], *rules]))
    ran = subprocess.run([program, "slips", path.name], capture_output=True, text=True, cwd=path.parent, timeout=60)
    last = ran.stdout.splitlines()[-1]
    count = int(last.split()[4]) if last.startswith("slips of the first ") and last.endswith(" rules") else 0
    lines = [int(it.split()[0]) for it in ran.stdout.splitlines() if it.startswith("    ") and it.split()[0].isdigit() and "same cells" not in it]
    return "" if 0 < count < 4096 and all(it <= count + 1 for it in lines) else f"a slow table: {ran.stdout}{ran.stderr}"


def main(words: list[str]) -> int:
    reader = argparse.ArgumentParser(description=__doc__.split("\n", 1)[0])
    reader.add_argument("program")
    reader.add_argument("--seed", default="1")
    reader.add_argument("--count", type=int, default=1000)
    reader.add_argument("--tables", type=Path, default=Path("/usr/share/liblouis/tables"))
    asked = reader.parse_args(words)
    program = str(Path(asked.program).resolve())
    chance = random.Random(asked.seed)
    counts: Counter[str] = Counter()
    with tempfile.TemporaryDirectory() as room:
        path = Path(room) / "t.ctb"
        for _ in range(asked.count):
            lines = random_table(chance)
            path.write_text("".join(" ".join(it) + "\n" for it in lines))
            want = wanted(Table(lines), counts)
            told = run(program, Path(room) / "t.ctb")
            tsv = run(program, "--tsv", Path(room) / "t.ctb")
            full = str(path)
            want_tsv = want.tsv.replace("\tt.ctb\t", f"\t{full}\t")
            if told != (want.status, want.text) or tsv != (want.status, want_tsv):
                counts["failed"] += 1
                print(f"wanted {want.status}\n{want.text}{want_tsv}got {told[0]}\n{told[1]}{tsv[1]}of\n{path.read_text()}", flush=True)
        if wrong := slow_fault(program, path):
            counts["failed"] += 1
            print(wrong)
    for wrong in unlisted(program, asked.tables):
        counts["failed"] += 1
        print(f"not listed: {wrong}")
    print(f"seed {asked.seed}: {asked.count} tables, {counts['rules']} rules; " + ", ".join(f"{counts[it]} {it}" for it in (*KINDS, "shown", "habits", "twins")))
    lacking = [it for it in (*KINDS, "habits", "twins") if not counts[it]] if asked.count >= 1000 else []
    if lacking:
        print(f"never came: {', '.join(lacking)}")
    print(f"slips: {counts['failed']} failed")
    return 1 if counts["failed"] or lacking else 0


if __name__ == "__main__":
    sys.exit(main(sys.argv[1:]))
