#!/usr/bin/env python3
"""A second `brl cut`, written anew and plainly: what tests/cut.py and tests/fuzz compare the program's cuts with.

  tests/plain_cut.py                                               checks itself on small tables, whose cuts are written out below
  tests/plain_cut.py cut TABLE DIR [--rewrite] [--path=FOLDER]..   does what `brl cut` does

A line is read as docs/guide/TABLES.md says, and has the faults of docs/guide/FAULTS.md in their order.
"""

import contextlib
import os
import re
import sys
import tempfile
from collections import Counter
from collections.abc import Iterable, Iterator
from dataclasses import dataclass, field
from functools import cache
from itertools import starmap
from pathlib import Path

sys.dont_write_bytecode = True
from plain_table import CLASSES, PLACES, SIGNS, characters

TOP = Path(__file__).resolve().parent.parent

MARK = b"\xef\xbb\xbf"
DEFINING = [*CLASSES, "uplow"]
LISTS = ["numericmodechars", "numericnocontchars"]
PROFILE = {*DEFINING, *PLACES, *SIGNS, *LISTS, "noback", "nofor", "display", "include"}

MOST_FILE_BYTES, MOST_LINE_BYTES, MOST_DEPTH, MOST_INCLUDES = 16_777_216, 2048, 16, 1024
MOST_BEFORE_BYTES = 1024

# The file that is made for a letter sign; and the escapes of one mark.
MADE = "letsign-made.cti"
ESCAPES = dict(zip("\\\f\n\r \t\v\x1b", "\\fnrstve"))
MOST_CHARACTERS, MOST_RULES, MOST_RULE_CHARACTERS, MOST_CELLS = 1024, 4096, 32, 16

NO_VERDICT = "no verdict: a cut doesn't decide whether two texts have the same cells\n"


class Stop(Exception):
    """A fault that ends the cut, as it is printed."""


class Fault(Exception):
    """The fault of a line, without its place."""


@cache
def liblouis_opcodes() -> set[str]:
    """The opcodes of liblouis, as the program lists them."""
    text = (TOP / "crates/brl_table/src/liblouis.rt").read_text()
    return set(re.findall(r'^    "(\w+)",$', text, re.MULTILINE))


# ---- Operands


def spelled(operand: str) -> str:
    """The characters that an operand spells."""
    if not re.fullmatch(r"(?:[^\\]|\\(?:x[0-9a-fA-F]{4}|y[0-9a-fA-F]{5}|z[0-9a-fA-F]{8}|[\\fnrstve]))+", operand):
        raise Fault(f"B3 BadCharacters {operand}")
    try:
        return characters(operand).encode().decode()
    except (ValueError, OverflowError) as error:
        raise Fault(f"B3 BadCharacters {operand}") from error


def character(operand: str) -> str:
    if len(spelled(operand)) != 1:
        raise Fault(f"B3 BadCharacters {operand}")
    return spelled(operand)


def pair(operand: str) -> str:
    """The two characters of an `uplow` line."""
    found = spelled(operand)
    if len(found) != 2 or found[0] == found[1]:
        raise Fault(f"B3 BadCharacters {operand}")
    return found


def cells(dots: str, operand: str) -> list[str]:
    """The cells that dots spell, each with its dots in order."""
    found = dots.split("-")
    for it in found:
        if it != "0" and not (re.fullmatch("[1-8]+", it) and len(set(it)) == len(it)):
            raise Fault(f"B4 BadDots {operand}")
    if len(found) > MOST_CELLS:
        raise Fault(f"B4 BadDots {operand}")
    return ["".join(sorted(it)) for it in found]


def operands(opcode: str, words: list[str], count: int) -> list[str]:
    if len(words) < count:
        raise Fault(f"B2 MissingOperand {opcode}")
    return words[:count]


# ---- What one line does


@dataclass
class Item:
    """What a good line does: the characters that it defines, or the rule, indicator or list that it is."""

    defined: dict[str, list[str]] = field(default_factory=dict)
    is_literary: bool = False
    capital: str = ""
    sign: str = ""
    rule: str = ""
    is_used: bool = False
    listed: str = ""
    takes_no_digit: bool = False
    # the operand of the characters that other lines must define
    operand: str = ""
    # the opcode that a fault of the limits names
    opcode: str = ""


def rule(opcode: str, words: list[str], is_used: bool) -> Item:
    chars, dots = operands(opcode, words, 2)
    found = spelled(chars)
    if dots != "=":
        cells(dots, dots)
    if len(found) > MOST_RULE_CHARACTERS:
        raise Fault(f"B8 TooMany {opcode}")
    return Item(rule=found, is_used=is_used, operand=chars, opcode=opcode)


def item(opcode: str, *words: str) -> Item:
    """What a line does, by itself."""
    if opcode in CLASSES:
        char, dots = operands(opcode, [*words], 2)
        defined = {character(char): cells(dots, dots)}
        return Item(defined, opcode == "litdigit", character(char) if opcode == "uppercase" else "", opcode=opcode)
    if opcode == "uplow":
        chars, dots = operands(opcode, [*words], 2)
        upper, lower = pair(chars)
        first, comma, second = dots.partition(",")
        return Item({upper: cells(first, dots), lower: cells(second if comma else first, dots)}, capital=upper, opcode=opcode)
    if opcode == "display":
        char, dots = operands(opcode, [*words], 2)
        character(char)
        cells(dots, dots)
        return Item(opcode=opcode)
    if opcode in PLACES:
        return rule(opcode, [*words], True)
    if opcode in ("noback", "nofor"):
        second, *others = [*operands(opcode, [*words], 1), *words[1:]]
        if second not in PLACES:
            raise Fault(f"B1 OutsideProfile {second}")
        return rule(second, others, opcode == "noback")
    if opcode in SIGNS:
        (dots,) = operands(opcode, [*words], 1)
        cells(dots, dots)
        return Item(sign=SIGNS[opcode], opcode=opcode)
    if opcode in LISTS:
        (chars,) = operands(opcode, [*words], 1)
        return Item(listed=spelled(chars), takes_no_digit=opcode == "numericnocontchars", operand=chars, opcode=opcode)
    if opcode == "include":
        operands(opcode, [*words], 1)
    raise Fault(f"B1 OutsideProfile {opcode}")


class Good:
    """What the good lines do together."""

    def __init__(self) -> None:
        self.chars: dict[str, tuple[bool, list[str]]] = {}
        self.capitals: set[str] = set()
        self.signs: set[str] = set()
        self.rules = 0

    def add(self, it: Item) -> None:
        """Adds what a line does, if the limits allow it."""
        if it.sign and it.sign in self.signs:
            raise Fault(f"B9 IndicatorTwice {it.opcode}")
        rules = self.rules + bool(it.rule and it.is_used)
        if len(self.chars.keys() | it.defined.keys()) > MOST_CHARACTERS or rules > MOST_RULES:
            raise Fault(f"B8 TooMany {it.opcode}")
        self.rules = rules
        self.signs |= {it.sign} - {""}
        self.capitals |= {it.capital} - {""}
        for char, given in it.defined.items():
            if char not in self.chars or (it.is_literary and not self.chars[char][0]):
                self.chars[char] = (it.is_literary, given)

    def check(self, it: Item) -> None:
        """The characters of a rule or a list are defined, and a list with letters after numbers has no digit."""
        if not set(it.rule) <= self.chars.keys():
            raise Fault(f"B5 UndefinedInRule {it.operand}")
        if not set(it.listed) <= self.chars.keys():
            raise Fault(f"B6 UndefinedInList {it.operand}")
        if it.takes_no_digit and any(self.chars[char][0] for char in it.listed):
            raise Fault(f"B7 TwoRoles {it.operand}")


# ---- Files


@dataclass
class Line:
    text: str
    end: str
    words: list[str]
    # why it isn't read: its fault, or what the comment of an include says
    fault: str = ""
    # what a line that is rewritten becomes, where that is kept
    rewritten: str = ""
    is_followed: bool = False
    # whether it includes a file that is made
    is_of_made: bool = False

    def does_something(self) -> bool:
        return bool(self.words) and not self.words[0].startswith("#") and not self.is_followed

    def opcode(self) -> str:
        """The opcode that is counted."""
        count = 2 if self.words[0] in ("noback", "nofor") else 1
        return " ".join(self.words[:count])

    def written(self) -> str:
        """The line of the cut."""
        return (commented(self.fault, self.text) if self.fault else self.rewritten or self.text) + self.end


@dataclass
class File:
    path: str
    name: str
    mark: bytes
    lines: list[Line]
    # how many files lead to it, with itself
    depth: int

    def written(self) -> bytes:
        return self.mark + "".join(it.written() for it in self.lines).encode()


def limited(whole: str) -> str:
    """A line of as many bytes as a line may have."""
    if len(whole.encode()) <= MOST_LINE_BYTES:
        return whole
    return whole.encode()[: MOST_LINE_BYTES - 3].decode(errors="ignore") + "..."


def commented(why: str, text: str) -> str:
    """The comment for a line that isn't read."""
    return limited(f"# {why}: {text}")


def marks(plain: dict[str, bytes], got: dict[str, bytes]) -> int | None:
    """How many lines of a cut's files are marked, since they can act; None where these files differ from the plain ones in
    another way."""
    if plain.keys() != got.keys():
        return None
    counts = [marks_of(plain[name], got[name]) for name in plain]
    return None if None in counts else sum(counts)


def marks_of(plain: bytes, got: bytes) -> int | None:
    rows, others = (it.decode().split("\n") for it in (plain.removeprefix(MARK), got.removeprefix(MARK)))
    differ = [(row, other) for row, other in zip(rows, others) if row != other]
    is_of_cut = plain.startswith(MARK) == got.startswith(MARK) and len(rows) == len(others)
    return len(differ) if is_of_cut and all(starmap(is_marked, differ)) else None


def is_marked(row: str, other: str) -> bool:
    """Whether a line is a comment, with a mark and the same end."""
    bare = row.removesuffix("\r")
    return bare.startswith("# ") and other == limited(f"# can act: {bare}") + row[len(bare) :]


def acting(told: str) -> tuple[list[str], int] | None:
    """The lines of a report with `--only` that name lines which can act, by opcodes, and how many it says there are; None
    where their sum is another."""
    named = re.findall(r"^(can act: opcode [^ \n]+: (\d+), the first at .+:\d+)$", told, re.MULTILINE)
    last = re.search(r"^(?:(\d+) lines? can act on these texts|no line can act on these texts: what --only decides of .+)$", told, re.MULTILINE)
    count = sum(int(it[1]) for it in named)
    return ([it[0] for it in named], count) if last and count == int(last[1] or 0) else None


def lines_of(text: str) -> Iterator[Line]:
    *ended, last = text.split("\n")
    for row in ended:
        stripped = row.removesuffix("\r")
        yield Line(stripped, row[len(stripped) :] + "\n", re.findall("[^ \t]+", stripped))
    if last:
        yield Line(last, "", re.findall("[^ \t]+", last))


def read_file(path: str, name: str, place: str, depth: int) -> File:
    """A file, checked whole; FileNotFoundError where there is none."""
    try:
        with open(path, "rb") as file:
            content = file.read(MOST_FILE_BYTES + 1)
    except (FileNotFoundError, NotADirectoryError):
        raise FileNotFoundError from None
    except OSError:
        raise Stop(f"L2 ReadFailed {path}{place}") from None
    if len(content) > MOST_FILE_BYTES:
        raise Stop(f"L9 TooLarge {path}{place}")
    mark = MARK if content.startswith(MARK) else b""
    try:
        text = content[len(mark) :].decode()
    except UnicodeDecodeError:
        raise Stop(f"L3 NotUtf8 {path}{place}") from None
    lines = list(lines_of(text))
    for number, line in enumerate(lines, 1):
        if len(line.text.encode()) > MOST_LINE_BYTES:
            raise Stop(f"L6 LineTooLong {path} at {path}:{number}")
    return File(path, name, mark, lines, depth)


def is_there(path: str) -> bool:
    """Whether something is at a path, also where it can't be read."""
    try:
        open(path, "rb").close()
    except (FileNotFoundError, NotADirectoryError):
        return False
    except OSError:
        return True
    return True


def in_folder(folder: str, name: str) -> str:
    return folder + ("" if not folder or folder.endswith("/") else "/") + name


class Files:
    """The files of a table, in the order in which they are read, and its lines that may be read, in their order."""

    def __init__(self, root: str, folders: list[str]) -> None:
        self.folders = folders
        self.files: list[File] = []
        self.lines: list[Line] = []
        path = self.find(root, root)
        self.folder = path[: path.rfind("/") + 1]
        try:
            file = read_file(path, root.rpartition("/")[2], "", 1)
        except FileNotFoundError:
            raise Stop(f"L1 NotFound {root}") from None
        self.walk(file)

    def find(self, usual: str, name: str) -> str:
        """The path where a file is found; its usual one, where there is none."""
        paths = [usual, *(in_folder(it, name) for it in self.folders if not name.startswith("/"))]
        return next(filter(is_there, paths), usual)

    def walk(self, file: File) -> None:
        """Goes through a file, and those that it includes; the include lines that aren't followed get their comments."""
        self.files.append(file)
        for number, line in enumerate(file.lines, 1):
            if line.words[:1] == ["include"] and len(line.words) > 1:
                line.fault = self.include(line, f"{file.path}:{number}", file.depth)
                line.is_followed = not line.fault
            elif line.does_something():
                self.lines.append(line)

    def include(self, line: Line, place: str, depth: int) -> str:
        """Follows an include line; says why, where it is left out."""
        name = line.words[1]
        if name.endswith(".dic"):
            return f"dictionary {name}"
        if set(name.split("/")) & {"", ".", ".."}:
            raise Stop(f"error: include {name} at {place} leads out of the table's folder")
        if len(self.files) > MOST_INCLUDES:
            raise Stop(f"L8 TooManyIncludes {self.folder + name} at {place}")
        path = self.find(self.folder + name, name)
        if path in [it.path for it in self.files]:
            return f"repeated {name}"
        try:
            file = read_file(path, name, f" at {place}", depth + 1)
        except FileNotFoundError:
            return f"L1 NotFound {name}"
        if depth == MOST_DEPTH:
            raise Stop(f"L5 TooDeep {path} at {place}")
        self.walk(file)
        return ""


# ---- Lines that are read otherwise


def put(line: Line, words: list[str]) -> None:
    """Puts a line before another, which becomes a comment."""
    line.rewritten = limited(f"{' '.join(words)} # {line.text}")
    line.words = line.rewritten.split(" ")


def put_definition(line: Line, words: list[str]) -> None:
    """Puts a line before another, if it defines characters."""
    if defines(words) and len(" ".join([*words, "# "]).encode()) <= MOST_BEFORE_BYTES:
        put(line, words)


def capital(words: list[str], good: Good) -> list[str]:
    """The `uplow` line for `base uppercase U L`, where U is one character, and L one with cells; else nothing."""
    if words[:2] != ["base", "uppercase"] or len(words) < 4:
        return []
    upper, lower = words[2:4]
    with contextlib.suppress(Fault, KeyError):
        character(upper)
        _, given = good.chars[character(lower)]
        return ["uplow", upper + lower, "-".join(given)]
    return []


def givers(opcode: str, lines: list[Line]) -> list[tuple[Line, list[str]]]:
    """The lines of an opcode that give an indicator cells, with these."""
    found = []
    for line in lines:
        if line.words[0] == opcode and len(line.words) > 1:
            with contextlib.suppress(Fault):
                found.append((line, cells(line.words[1], opcode)))
    return found


def contraction(words: list[str], good: Good, signs: list[str]) -> list[str]:
    """The `word` line for `contraction X`, where X is characters with cells and none is a capital; else nothing."""
    if words[0] != "contraction" or len(words) < 2:
        return []
    with contextlib.suppress(Fault):
        chars = spelled(words[1])
        if set(chars) <= good.chars.keys() - good.capitals:
            given = sum((good.chars[it][1] for it in chars), signs)
            return ["word", words[1], "-".join(given)] if len(given) <= MOST_CELLS else []
    return []


def good_of(lines: list[Line]) -> Good:
    """What lines do together, those with a fault apart."""
    good = Good()
    for line in lines:
        with contextlib.suppress(Fault):
            good.add(item(*line.words))
    return good


class Letsign:
    """The last line that gives a letter sign, and what is made of it: the lines of a file, and rules with the sign."""

    def __init__(self, lines: list[Line], good: Good, signs: list[str]) -> None:
        # that program stands on this one
        from plain_acting import Known, Row, without_sign  # noqa: PLC0415

        self.lines, self.good = lines, good
        self.line, self.sign = givers("letsign", lines)[-1]
        known = Known([Row("", 0, it.words, True, False) for it in lines], set())
        self.letters = known.letters
        self.signed = known.letters - known.capitals - without_sign(known)
        self.made = [f"word {spell(char)} {'-'.join(self.alone(char, signs))}" for char in good.chars if char in self.signed]

    def own(self, chars: str) -> list[str]:
        return [cell for it in chars if it in self.good.chars for cell in self.good.chars[it][1]]

    def rule(self, words: list[str]) -> tuple[str, list[str]] | None:
        """The characters and the cells of a rule."""
        with contextlib.suppress(Fault, IndexError):
            chars = spelled(words[1])
            return chars, self.own(chars) if words[2] == "=" else cells(words[2], words[2])
        return None

    def alone(self, letter: str, signs: list[str]) -> list[str]:
        """The cells of a letter alone."""
        for line in self.lines:
            if line.words[0] in ("always", "sufword", "prfword"):
                found = self.rule(line.words)
                if found and found[0] == letter:
                    return self.sign + found[1]
            elif line.words[0] == "contraction":
                with contextlib.suppress(Fault, IndexError):
                    if spelled(line.words[1]) == letter:
                        return signs + self.own(letter)
        return self.sign + self.own(letter)

    def rules(self) -> list[tuple[Line, list[str]]]:
        """The lines with rules that get the sign, and these."""
        found = []
        for line in self.lines:
            rule = self.rule(line.words) if line.words[0] in ("word", "sufword", "begword") else None
            if rule and len(rule[0]) > 1 and rule[0][0] in self.signed and rule[0][1] not in self.letters:
                found.append((line, [*line.words[:2], "-".join(self.sign + rule[1])]))
        return found


def spell(char: str) -> str:
    """A character as an operand of a file that is made spells it."""
    if char in ESCAPES:
        return "\\" + ESCAPES[char]
    return f"\\x{ord(char):04x}" if ord(char) < 32 or ord(char) == 127 else char


def may_make(files: Files, line: Line) -> bool:
    """Whether a line may include a file that is made."""
    path = files.folder + MADE
    (depth,) = (it.depth for it in files.files if any(line is other for other in it.lines))
    has_room = len(files.files) <= MOST_INCLUDES
    is_taken = any(MADE == it.name or path == it.path for it in files.files)
    return not is_taken and depth < MOST_DEPTH and has_room


def make_file(files: Files, letsign: Letsign) -> None:
    """Has a line include a file that is made, with a line for each letter before which the sign may stand."""
    line = letsign.line
    line.rewritten = limited(f"include {MADE} # {line.text}")
    line.is_followed = line.is_of_made = True
    made = list(lines_of("".join(f"{it}\n" for it in letsign.made)))
    files.files.append(File(files.folder + MADE, MADE, b"", made, 0))
    (place,) = (place for place, it in enumerate(files.lines) if it is line)
    files.lines[place : place + 1] = made


def rewrite(files: Files) -> None:
    """
    Puts what a line defines after `noback` before the line; then the `uplow` line before one of a capital; then the `word`
    line before a contraction, and the sign before the rules that get it.
    """
    lines = [*files.lines]
    for line in lines:
        if line.words[0] == "noback":
            put_definition(line, line.words[1:4])
    good = good_of(lines)
    for line in lines:
        put_definition(line, capital(line.words, good))
    good = good_of(lines)
    signs = [cell for _, found in givers("nocontractsign", lines)[:1] + givers("letsign", lines)[-1:] for cell in found]
    edits = [(line, words) for line in lines if (words := contraction(line.words, good, signs))]
    if givers("letsign", lines):
        letsign = Letsign(lines, good, signs)
        if may_make(files, letsign.line):
            edits += letsign.rules()
            make_file(files, letsign)
    for line, words in edits:
        put(line, words)


def defines(words: list[str]) -> bool:
    """Whether these words are a line that defines a character."""
    if len(words) < 3 or words[0] not in DEFINING:
        return False
    with contextlib.suppress(Fault):
        item(*words)
        return True
    return False


# ---- The cut


def first_pass(lines: list[Line]) -> Good:
    """Reads each line after the good lines before it. The others get their faults."""
    good = Good()
    for line in lines:
        try:
            good.add(item(*line.words))
        except Fault as fault:
            line.fault = str(fault)
    return good


def second_pass(lines: list[Line], good: Good) -> None:
    for line in lines:
        try:
            good.check(item(*line.words))
        except Fault as fault:
            line.fault = str(fault)


def cut_lines(lines: list[Line]) -> None:
    """Gives the lines that aren't read their faults, until a survey of the others finds none."""
    left = -1
    while left != len(lines):
        left = len(lines)
        for each_pass in (first_pass, lambda it: second_pass(it, first_pass(it))):
            each_pass(lines)
            lines = [it for it in lines if not it.fault]


def origin(opcode: str) -> str:
    """What a count says of whose opcode it is."""
    *prefix, word = opcode.split(" ")
    if word in (PLACES if prefix else PROFILE):
        return ""
    return " (not in the profile)" if word in liblouis_opcodes() else " (not in liblouis)"


def report(files: list[File], is_rewriting: bool) -> str:
    counted = [[it for it in file.lines if it.does_something()] for file in files]
    whole = sum(counted, [])
    left_out = [it for it in whole if it.fault]
    rewritten = sum(bool(it.rewritten) for it in whole if not it.fault)
    text = f"{len(whole) - len(left_out)} of {len(whole)} lines are kept"
    text += f", {rewritten} of them rewritten\n" if is_rewriting else "\n"
    counts = Counter(it.opcode() for it in left_out)
    for opcode, count in sorted(counts.items(), key=lambda it: (-it[1], it[0].encode())):
        text += f"opcode {opcode}: {count}{origin(opcode)}\n"
    for file, lines in zip(files, counted):
        kept = sum(not it.fault for it in lines)
        if kept < len(lines):
            text += f"file {file.path}: {kept} of {len(lines)} lines are read\n"
    return text + NO_VERDICT


def cut(root: str, is_rewriting: bool, folders: Iterable[str] = ()) -> tuple[dict[str, bytes], str]:
    """The files of a table's cut, by their names in the order in which they are written, and what is printed."""
    files = Files(root, [*folders])
    if is_rewriting:
        rewrite(files)
    cut_lines(files.lines)
    return {it.name: it.written() for it in files.files}, report(files.files, is_rewriting)


def create(path: str, content: bytes) -> None:
    """Makes a file and its folders; what was written of it is removed where it can't be written whole."""
    os.makedirs(os.path.dirname(path), exist_ok=True)
    with open(path, "xb") as file:
        try:
            file.write(content)
            file.flush()
        except OSError:
            os.remove(path)
            raise


def write(folder: str, files: dict[str, bytes]) -> None:
    """Writes new files."""
    paths = [f"{folder}/{name}" for name in files]
    for path in paths:
        if os.path.lexists(path):
            raise Stop(f"error: {path} is there already")
    for number, (path, content) in enumerate(zip(paths, files.values())):
        try:
            create(path, content)
        except OSError:
            before = f"; written before it: {', '.join(paths[:number])}" if number else ""
            raise Stop(f"U7 CannotWrite {path}{before}") from None


def status_of(text: str) -> int:
    """The status of a cut whose report this is."""
    return 1 if " (not in liblouis)\n" in text else 0


def run(words: list[str]) -> int:
    table, folder = [it for it in words if not it.startswith("--")]
    folders = [it.removeprefix("--path=") for it in words if it.startswith("--path=")]
    try:
        files, text = cut(table, "--rewrite" in words, folders)
        write(folder, files)
    except Stop as fault:
        sys.stderr.buffer.write(f"{fault}\n".encode())
        return 2
    sys.stdout.buffer.write(text.encode())
    return status_of(text)


# ---- Its own checks


@dataclass(frozen=True)
class Case:
    """
    The files of a table whose root is `t.ctb`, those of its cut, and the first lines that are printed; or a fault. Files are
    looked for in the folders too.
    """

    name: str
    files: dict[str, str | bytes]
    cut: dict[str, str | bytes]
    told: str
    is_rewriting: bool = False
    folders: tuple[str, ...] = ()


def one(name: str, table: str | bytes, cut: str | bytes, told: str, is_rewriting: bool = False) -> Case:
    return Case(name, {"t.ctb": table}, {"t.ctb": cut}, told, is_rewriting)


def letsign(name: str, table: str, cut: str, made: str, told: str) -> Case:
    """A case with a file that is made."""
    return Case(name, {"t.ctb": table}, {"t.ctb": cut, MADE: made}, told, True)


def faulty(name: str, files: dict[str, str | bytes], fault: str) -> Case:
    return Case(name, files, {}, fault)


def chain(last: int) -> dict[str, str | bytes]:
    """The root and the files c2 to that, each of which but the last includes the next."""
    names = ["t.ctb", *(f"c{number}" for number in range(2, last + 1))]
    return {name: f"include {after}\n" for name, after in zip(names, names[1:])} | {names[-1]: "letter a 1\n"}


def includes(names: Iterable[int]) -> str:
    """Lines that include files with these names."""
    return "".join(f"include {it}\n" for it in names)


def empty(names: Iterable[int]) -> dict[str, str | bytes]:
    """Files without lines."""
    return {str(it): "" for it in names}


def looking(name: str, folders: str, files: dict[str, str | bytes], cut: dict[str, str | bytes], told: str) -> Case:
    """A case whose files are looked for in some folders too."""
    return Case(name, files, cut, told, folders=tuple(folders.split()))


ABC = "letter a 1\nletter b 12\nletter c 14\n"

CASES = [
    one("an empty table", "", "", "0 of 0 lines are kept\n"),
    one("a table that is read whole", ABC, ABC, "3 of 3 lines are kept\n"),
    one("an opcode outside the profile", "pass2 @1 2\n", "# B1 OutsideProfile pass2: pass2 @1 2\n",
        "0 of 1 lines are kept\nopcode pass2: 1 (not in the profile)\nfile t.ctb: 0 of 1 lines are read\n"),
    one("a word that is no opcode", "lettre a 1\n" + ABC, "# B1 OutsideProfile lettre: lettre a 1\n" + ABC,
        "3 of 4 lines are kept\nopcode lettre: 1 (not in liblouis)\nfile t.ctb: 3 of 4 lines are read\n"),
    one("each fault of a line by itself",
        "letter a\nletter ab 1\nletter a 9\nalways aa,\nnoback\nnofor sign a 1\nnumsign 3\nnumsign 4\ncapsign 6\ncapsletter 7\ninclude\n",
        "# B2 MissingOperand letter: letter a\n# B3 BadCharacters ab: letter ab 1\n# B4 BadDots 9: letter a 9\n"
        "# B2 MissingOperand always: always aa,\n# B2 MissingOperand noback: noback\n# B1 OutsideProfile sign: nofor sign a 1\n"
        "numsign 3\n# B9 IndicatorTwice numsign: numsign 4\ncapsign 6\n# B9 IndicatorTwice capsletter: capsletter 7\n"
        "# B2 MissingOperand include: include\n",
        "2 of 11 lines are kept\nopcode letter: 3\nopcode always: 1\nopcode capsletter: 1\nopcode include: 1\n"
        "opcode noback: 1\nopcode nofor sign: 1 (not in the profile)\nopcode numsign: 1\nfile t.ctb: 2 of 11 lines are read\n"),
    one("a fault makes no other", "numsign 9\nnumsign 3456\n", "# B4 BadDots 9: numsign 9\nnumsign 3456\n",
        "1 of 2 lines are kept\nopcode numsign: 1\nfile t.ctb: 1 of 2 lines are read\n"),
    one("escapes and characters", "letter \\x00e9 1\nletter \\xD800 1\nletter \\ 2\nletter \\z00110000 1\nletter \\q 1\nuplow Aa 1,\nuplow aa 1\n",
        "letter \\x00e9 1\n# B3 BadCharacters \\xD800: letter \\xD800 1\n# B3 BadCharacters \\: letter \\ 2\n"
        "# B3 BadCharacters \\z00110000: letter \\z00110000 1\n# B3 BadCharacters \\q: letter \\q 1\n"
        "# B4 BadDots 1,: uplow Aa 1,\n# B3 BadCharacters aa: uplow aa 1\n",
        "1 of 7 lines are kept\nopcode letter: 4\nopcode uplow: 2\nfile t.ctb: 1 of 7 lines are read\n"),
    one("characters that no line defines, once the other faults are gone",
        "letter a 1\nletter b 9\nalways ab 12\nnofor word c 1\nnumericmodechars b\nlitdigit 1 1\nnumericnocontchars a1\nalways a1 3\n",
        "letter a 1\n# B4 BadDots 9: letter b 9\n# B5 UndefinedInRule ab: always ab 12\n# B5 UndefinedInRule c: nofor word c 1\n"
        "# B6 UndefinedInList b: numericmodechars b\nlitdigit 1 1\n# B7 TwoRoles a1: numericnocontchars a1\nalways a1 3\n",
        "3 of 8 lines are kept\nopcode always: 1\nopcode letter: 1\nopcode nofor word: 1\nopcode numericmodechars: 1\n"
        "opcode numericnocontchars: 1\nfile t.ctb: 3 of 8 lines are read\n"),
    one("the limits of rules", f"letter a 1\nalways {'a' * 32} 1\nalways {'a' * 33} 1\nnoback word {'a' * 33} =\nletter b {'-'.join('1' * 17)}\n",
        f"letter a 1\nalways {'a' * 32} 1\n# B8 TooMany always: always {'a' * 33} 1\n# B8 TooMany word: noback word {'a' * 33} =\n"
        f"# B4 BadDots {'-'.join('1' * 17)}: letter b {'-'.join('1' * 17)}\n",
        "2 of 5 lines are kept\nopcode always: 1\nopcode letter: 1\nopcode noback word: 1\nfile t.ctb: 2 of 5 lines are read\n"),
    one("the limit of characters", "".join(f"sign \\x{it:04x} 1\n" for it in range(0x400, 0x801)) + "litdigit \\x0400 2\n",
        "".join(f"sign \\x{it:04x} 1\n" for it in range(0x400, 0x800)) + "# B8 TooMany sign: sign \\x0800 1\nlitdigit \\x0400 2\n",
        "1025 of 1026 lines are kept\nopcode sign: 1\nfile t.ctb: 1025 of 1026 lines are read\n"),
    one("a line that is rewritten and left out is as it was",
        "".join(f"sign \\x{it:04x} 1\n" for it in range(0x400, 0x7FF)) + "noback sign \\x0800 2 a\n noback  sign\t\\x0801 3\r\n",
        "".join(f"sign \\x{it:04x} 1\n" for it in range(0x400, 0x7FF))
        + "sign \\x0800 2 # noback sign \\x0800 2 a\n# B8 TooMany sign:  noback  sign\t\\x0801 3\r\n",
        "1024 of 1025 lines are kept, 1 of them rewritten\nopcode sign: 1\nfile t.ctb: 1024 of 1025 lines are read\n", True),
    one("the limit of rules that are used", "letter a 1\n" + "always a 1\n" * 4097 + "nofor always a 1\nnoback word a 1\n",
        "letter a 1\n" + "always a 1\n" * 4096 + "# B8 TooMany always: always a 1\nnofor always a 1\n# B8 TooMany word: noback word a 1\n",
        "4098 of 4100 lines are kept\nopcode always: 1\nopcode noback word: 1\nfile t.ctb: 4098 of 4100 lines are read\n"),
    one("the ends of lines and a byte order mark", MARK + b"letter a 1\r\nx\r\n\r\n # c\r\n\ty\r\r\nletter b\t12 z\rz",
        MARK + b"letter a 1\r\n# B1 OutsideProfile x: x\r\n\r\n # c\r\n# B1 OutsideProfile y\r: \ty\r\r\nletter b\t12 z\rz",
        "2 of 4 lines are kept\nopcode x: 1 (not in liblouis)\nopcode y\r: 1 (not in liblouis)\nfile t.ctb: 2 of 4 lines are read\n"),
    one("a comment of 2,048 bytes", "x " + "é" * 1011 + "a", "# B1 OutsideProfile x: x " + "é" * 1011 + "a",
        "0 of 1 lines are kept\nopcode x: 1 (not in liblouis)\nfile t.ctb: 0 of 1 lines are read\n"),
    one("a comment of 2,049 bytes", "x " + "é" * 1012, "# B1 OutsideProfile x: x " + "é" * 1010 + "...",
        "0 of 1 lines are kept\nopcode x: 1 (not in liblouis)\nfile t.ctb: 0 of 1 lines are read\n"),
    Case("includes", {"t.ctb": "include u.ctb and a comment\ninclude parts/v.ctb\ninclude hyph.dic\ninclude ../../x/y.dic\ninclude none.ctb\n"
                               " include\tu.ctb x\ninclude t.ctb\n",
                      "u.ctb": "letter a 1\ninclude parts/v.ctb\ninclude t.ctb", "parts/v.ctb": "pass2 x\ninclude parts/none\n"},
         {"t.ctb": "include u.ctb and a comment\n# repeated parts/v.ctb: include parts/v.ctb\n# dictionary hyph.dic: include hyph.dic\n"
                   "# dictionary ../../x/y.dic: include ../../x/y.dic\n# L1 NotFound none.ctb: include none.ctb\n"
                   "# repeated u.ctb:  include\tu.ctb x\n# repeated t.ctb: include t.ctb\n",
          "u.ctb": "letter a 1\ninclude parts/v.ctb\n# repeated t.ctb: include t.ctb",
          "parts/v.ctb": "# B1 OutsideProfile pass2: pass2 x\n# L1 NotFound parts/none: include parts/none\n"},
         "1 of 10 lines are kept\nopcode include: 8\nopcode pass2: 1 (not in the profile)\nfile t.ctb: 0 of 6 lines are read\n"
         "file u.ctb: 1 of 2 lines are read\nfile parts/v.ctb: 0 of 2 lines are read\n"),
    Case("sixteen files deep", chain(16), chain(16), "1 of 1 lines are kept\n"),
    faulty("seventeen files deep", chain(17), "L5 TooDeep c17 at c16:1\n"),
    faulty("a file that is too deep and isn't UTF-8", {**chain(17), "c17": b"\xff"}, "L3 NotUtf8 c17 at c16:1\n"),
    Case("a file that would be too deep and isn't there", {**chain(16), "c16": "letter a 1\ninclude c17\n"},
         {**chain(16), "c16": "letter a 1\n# L1 NotFound c17: include c17\n"},
         "1 of 2 lines are kept\nopcode include: 1\nfile c16: 1 of 2 lines are read\n"),
    faulty("an include by its whole path", {"t.ctb": "\ninclude /u.ctb\n"}, "error: include /u.ctb at t.ctb:2 leads out of the table's folder\n"),
    *(faulty(f"an include of {name}", {"t.ctb": f"include {name}\n"}, f"error: include {name} at t.ctb:1 leads out of the table's folder\n")
      for name in ("../t.ctb", "a/../b", "./b", "a/./b", "a//b", "a/", "..", ".")),
    faulty("an include that is no file", {"t.ctb": "include parts\n", "parts/u": ""}, "L2 ReadFailed parts at t.ctb:1\n"),
    faulty("an include that isn't UTF-8", {"t.ctb": "include u\n", "u": b"\xff"}, "L3 NotUtf8 u at t.ctb:1\n"),
    faulty("a table that isn't UTF-8", {"t.ctb": b"\xc3"}, "L3 NotUtf8 t.ctb\n"),
    faulty("no table", {}, "L1 NotFound t.ctb\n"),
    faulty("a line of 2,049 bytes in an include", {"t.ctb": "include u\n", "u": "\n" + "#" * 2049}, "L6 LineTooLong u at u:2\n"),
    Case("1,024 includes", {"t.ctb": includes(range(1024)), **empty(range(1024))}, {"t.ctb": includes(range(1024)), **empty(range(1024))},
         "0 of 0 lines are kept\n"),
    faulty("1,025 includes", {"t.ctb": includes(range(1025)), **empty(range(1025))}, "L8 TooManyIncludes 1024 at t.ctb:1025\n"),
    Case("1,024 includes, one of a file that isn't there", {"t.ctb": includes([*range(1024), 7, 1023]), **empty(range(1023))},
         {"t.ctb": includes(range(1023)) + "# L1 NotFound 1023: include 1023\n# repeated 7: include 7\n# L1 NotFound 1023: include 1023\n",
          **empty(range(1023))},
         "0 of 3 lines are kept\nopcode include: 3\nfile t.ctb: 0 of 3 lines are read\n"),
    Case("1,025 includes, one of a file that isn't there", {"t.ctb": includes(range(1025)), **empty(range(1, 1025))},
         {"t.ctb": "# L1 NotFound 0: include 0\n" + includes(range(1, 1025)), **empty(range(1, 1025))},
         "0 of 1 lines are kept\nopcode include: 1\nfile t.ctb: 0 of 1 lines are read\n"),
    faulty("1,024 includes, and one of them again", {"t.ctb": includes([*range(1024), 7]), **empty(range(1024))}, "L8 TooManyIncludes 7 at t.ctb:1025\n"),
    one("lines that could be rewritten", "letter a 1\nnoback sign \\x00a0 7\n",
        "letter a 1\n# B1 OutsideProfile sign: noback sign \\x00a0 7\n",
        "1 of 2 lines are kept\nopcode noback sign: 1 (not in the profile)\nfile t.ctb: 1 of 2 lines are read\n"),
    one("lines that are rewritten", "noback sign \\x00a0 7\n noback\tlowercase a  21-1 words\nnoback uplow Bb 12,3\n",
        "sign \\x00a0 7 # noback sign \\x00a0 7\nlowercase a 21-1 #  noback\tlowercase a  21-1 words\n"
        "uplow Bb 12,3 # noback uplow Bb 12,3\n", "3 of 3 lines are kept, 3 of them rewritten\n", True),
    one("lines that can't be rewritten", "noback sign ab 1\nnoback sign a\nnofor sign a 1\nnoback pass2 a\nnoback\nnoback noback letter a 1\nletter a 1\n"
        "noback capsletter 6\n",
        "# B1 OutsideProfile sign: noback sign ab 1\n# B1 OutsideProfile sign: noback sign a\n# B1 OutsideProfile sign: nofor sign a 1\n"
        "# B1 OutsideProfile pass2: noback pass2 a\n# B2 MissingOperand noback: noback\n# B1 OutsideProfile noback: noback noback letter a 1\nletter a 1\n"
        "# B1 OutsideProfile capsletter: noback capsletter 6\n",
        "1 of 8 lines are kept, 0 of them rewritten\nopcode noback sign: 2 (not in the profile)\n"
        "opcode noback: 1\nopcode noback capsletter: 1 (not in the profile)\nopcode noback noback: 1 (not in the profile)\n"
        "opcode noback pass2: 1 (not in the profile)\nopcode nofor sign: 1 (not in the profile)\nfile t.ctb: 1 of 8 lines are read\n", True),
    one("capitals, before and after their letters are defined", "base uppercase A a\nletter a 21-0\nnoback lowercase b 12\nletter a 3\n base\tuppercase B b words\n"
        "litdigit c 14\nletter c 4\nbase uppercase \\x0043 \\x0063\nletter A 7\n",
        "uplow Aa 12-0 # base uppercase A a\nletter a 21-0\nlowercase b 12 # noback lowercase b 12\nletter a 3\nuplow Bb 12 #  base\tuppercase B b words\n"
        "litdigit c 14\nletter c 4\nuplow \\x0043\\x0063 14 # base uppercase \\x0043 \\x0063\nletter A 7\n",
        "9 of 9 lines are kept, 4 of them rewritten\n", True),
    one("capitals that can't be rewritten", "letter a 1\nletter b 9\nbase uppercase B b\nbase uppercase A\nbase\nbase uppercase AB a\nbase uppercase A ab\n"
        "base uppercase a\\ ta\nbase uppercase a a\nbase italic A a\nnoback base uppercase A a\nbase uppercase A z\nbase uppercase \\q a\n",
        "letter a 1\n# B4 BadDots 9: letter b 9\n# B1 OutsideProfile base: base uppercase B b\n# B1 OutsideProfile base: base uppercase A\n"
        "# B1 OutsideProfile base: base\n# B1 OutsideProfile base: base uppercase AB a\n# B1 OutsideProfile base: base uppercase A ab\n"
        "# B1 OutsideProfile base: base uppercase a\\ ta\n# B1 OutsideProfile base: base uppercase a a\n# B1 OutsideProfile base: base italic A a\n"
        "# B1 OutsideProfile base: noback base uppercase A a\n# B1 OutsideProfile base: base uppercase A z\n# B1 OutsideProfile base: base uppercase \\q a\n",
        "1 of 13 lines are kept, 0 of them rewritten\nopcode base: 10 (not in the profile)\nopcode letter: 1\nopcode noback base: 1 (not in the profile)\n"
        "file t.ctb: 1 of 13 lines are read\n", True),
    one("a capital whose words make another pair", "letter t 2345\nbase uppercase a\\ t\n",
        "letter t 2345\n# B1 OutsideProfile base: base uppercase a\\ t\n",
        "1 of 2 lines are kept, 0 of them rewritten\nopcode base: 1 (not in the profile)\nfile t.ctb: 1 of 2 lines are read\n", True),
    one("a capital of a letter that another line makes a capital", "lowercase \\x00df 2346\nuplow Ss 234,2\nbase uppercase \\x1e9e S\n",
        "lowercase \\x00df 2346\nuplow Ss 234,2\nuplow \\x1e9eS 234 # base uppercase \\x1e9e S\n",
        "3 of 3 lines are kept, 1 of them rewritten\n", True),
    letsign("contractions, with the cells of two indicators",
        "contraction ab x\nletter a 1\nnoback letter b 21\nletsign 5\nletsign 56-6\nletsign 9\nnocontractsign 4\nnocontractsign 3\n contraction\tb\n",
        "word ab 4-56-6-1-12 # contraction ab x\nletter a 1\nletter b 21 # noback letter b 21\n# B1 OutsideProfile letsign: letsign 5\n"
        "include letsign-made.cti # letsign 56-6\n# B1 OutsideProfile letsign: letsign 9\nnocontractsign 4\n"
        "# B9 IndicatorTwice nocontractsign: nocontractsign 3\nword b 4-56-6-12 #  contraction\tb\n",
        "word a 56-6-1\nword b 4-56-6-12\n",
        "7 of 10 lines are kept, 3 of them rewritten\nopcode letsign: 2 (not in the profile)\nopcode nocontractsign: 1\n"
        "file t.ctb: 5 of 8 lines are read\n"),
    letsign("a letter sign before letters that no line takes it from",
        "letter a 1\nlowercase b 12\nbase uppercase B b\nletter c 14\nletter d 145\nletter \\x000e 2\nsign + 3\nnoletsign cx\nlargesign d 5\nnofor word a 2\nletsign 56\n",
        "letter a 1\nlowercase b 12\nuplow Bb 12 # base uppercase B b\nletter c 14\nletter d 145\nletter \\x000e 2\nsign + 3\n"
        "# B1 OutsideProfile noletsign: noletsign cx\n# B1 OutsideProfile largesign: largesign d 5\nnofor word a 2\n"
        "include letsign-made.cti # letsign 56\n",
        "word a 56-1\nword b 56-12\nword \\x000e 56-2\n",
        "11 of 13 lines are kept, 1 of them rewritten\nopcode largesign: 1 (not in the profile)\nopcode noletsign: 1 (not in the profile)\n"
        "file t.ctb: 8 of 10 lines are read\n"),
    letsign("a letter sign before the cells of the first rule",
        "letter a 1\nletter b 12\nletter c 14\nspace \\s 0\nletsign 6\nword ab 3\nprfword a 4-5\nalways a 36\nsufword b =\ncontraction b\ncontraction c\nalways c 2\n",
        "letter a 1\nletter b 12\nletter c 14\nspace \\s 0\ninclude letsign-made.cti # letsign 6\nword ab 3\nprfword a 4-5\nalways a 36\nsufword b =\n"
        "word b 6-12 # contraction b\nword c 6-14 # contraction c\nalways c 2\n",
        "word a 6-4-5\nword b 6-12\nword c 6-14\n",
        "14 of 14 lines are kept, 2 of them rewritten\n"),
    letsign("rules that begin with a letter alone",
        "letter a 1\nletter b 12\nsign + 2\nletsign 6\nword a+ 3\n sufword\ta+b =\nbegword b+ 5 x\nendword a+ 4\nword ab 7\nword +a 8\nword a+\nnoletsign b\nbegword a+x 5\n",
        "letter a 1\nletter b 12\nsign + 2\ninclude letsign-made.cti # letsign 6\nword a+ 6-3 # word a+ 3\nsufword a+b 6-1-2-12 #  sufword\ta+b =\n"
        "begword b+ 5 x\nendword a+ 4\nword ab 7\nword +a 8\n# B2 MissingOperand word: word a+\n# B1 OutsideProfile noletsign: noletsign b\n"
        "# B5 UndefinedInRule a+x: begword a+x 5\n",
        "word a 6-1\n",
        "10 of 13 lines are kept, 2 of them rewritten\nopcode begword: 1\nopcode noletsign: 1 (not in the profile)\nopcode word: 1\n"
        "file t.ctb: 9 of 12 lines are read\n"),
    letsign("a letter sign with too many cells for a rule",
        f"letter a 1\nletter b 12\nletsign 6\nalways a {'-'.join(['1'] * 16)}\n",
        f"letter a 1\nletter b 12\ninclude letsign-made.cti # letsign 6\nalways a {'-'.join(['1'] * 16)}\n",
        f"# B4 BadDots 6{'-1' * 16}: word a 6{'-1' * 16}\nword b 6-12\n",
        "4 of 5 lines are kept, 0 of them rewritten\nopcode word: 1\nfile letsign-made.cti: 1 of 2 lines are read\n"),
    Case("no letter sign where a file has the name of the one that is made",
        {"t.ctb": "letter a 1\nletsign 6\ninclude letsign-made.cti\n", "letsign-made.cti": "letter b 12\n"},
        {"t.ctb": "letter a 1\n# B1 OutsideProfile letsign: letsign 6\ninclude letsign-made.cti\n", "letsign-made.cti": "letter b 12\n"},
        "2 of 3 lines are kept, 0 of them rewritten\nopcode letsign: 1 (not in the profile)\nfile t.ctb: 1 of 2 lines are read\n", True),
    Case("no letter sign at the last depth",
        chain(16) | {"c16": "letter a 1\nletsign 6\n"},
        chain(16) | {"c16": "letter a 1\n# B1 OutsideProfile letsign: letsign 6\n"},
        "1 of 2 lines are kept, 0 of them rewritten\nopcode letsign: 1 (not in the profile)\nfile c16: 1 of 2 lines are read\n", True),
    one("contractions without indicators, of characters of all kinds",
        "lowercase a 1\nbase uppercase A a\ndigit 1 2\nlitdigit 1 3\npunctuation \\x0027 3-4\ncontraction a1'\ncontraction \\x0061\n",
        "lowercase a 1\nuplow Aa 1 # base uppercase A a\ndigit 1 2\nlitdigit 1 3\npunctuation \\x0027 3-4\n"
        "word a1' 1-3-3-4 # contraction a1'\nword \\x0061 1 # contraction \\x0061\n",
        "7 of 7 lines are kept, 3 of them rewritten\n", True),
    one("contractions that can't be rewritten",
        "letter a 1\nletter b 9\nuplow Cc 14\nuppercase D 145\ncontraction\ncontraction ab\ncontraction aC\ncontraction D\ncontraction \\q\n"
        "noback contraction a\nnofor contraction a\n",
        "letter a 1\n# B4 BadDots 9: letter b 9\nuplow Cc 14\nuppercase D 145\n# B1 OutsideProfile contraction: contraction\n"
        "# B1 OutsideProfile contraction: contraction ab\n# B1 OutsideProfile contraction: contraction aC\n# B1 OutsideProfile contraction: contraction D\n"
        "# B1 OutsideProfile contraction: contraction \\q\n# B1 OutsideProfile contraction: noback contraction a\n"
        "# B1 OutsideProfile contraction: nofor contraction a\n",
        "3 of 11 lines are kept, 0 of them rewritten\nopcode contraction: 5 (not in the profile)\nopcode letter: 1\n"
        "opcode noback contraction: 1 (not in the profile)\nopcode nofor contraction: 1 (not in the profile)\n"
        "file t.ctb: 3 of 11 lines are read\n", True),
    one("contractions of sixteen cells, and of more",
        "letter a 1-1-1-1-1-1-1\nletter b 12\nnocontractsign 6\ncontraction aab\ncontraction aabb\n",
        f"letter a 1-1-1-1-1-1-1\nletter b 12\nnocontractsign 6\nword aab 6-{'1-' * 14}12 # contraction aab\n"
        "# B1 OutsideProfile contraction: contraction aabb\n",
        "4 of 5 lines are kept, 1 of them rewritten\nopcode contraction: 1 (not in the profile)\nfile t.ctb: 4 of 5 lines are read\n", True),
    one("a contraction past the limit of rules", "letter a 1\n" + "always a 1\n" * 4095 + "contraction a\n contraction  a\n",
        "letter a 1\n" + "always a 1\n" * 4095 + "word a 1 # contraction a\n# B8 TooMany word:  contraction  a\n",
        "4097 of 4098 lines are kept, 1 of them rewritten\nopcode word: 1\nfile t.ctb: 4097 of 4098 lines are read\n", True),
    one("rewritten lines of 2,048 bytes and of more", f"noback letter a 1 {'x' * 2017}\nnoback letter b 1 {'x' * 2018}\n",
        f"letter a 1 # noback letter a 1 {'x' * 2017}\nletter b 1 # noback letter b 1 {'x' * 2014}...\n",
        "2 of 2 lines are kept, 2 of them rewritten\n", True),
    Case("a line that is rewritten in an include", {"t.ctb": "include u\nletter a 2\n", "u": "noback letter a 1\n"},
         {"t.ctb": "include u\nletter a 2\n", "u": "letter a 1 # noback letter a 1\n"}, "2 of 2 lines are kept, 1 of them rewritten\n", True),
    looking("a file in a folder", "one", {"t.ctb": "include u\nletter b 1\n", "one/u": "letter a 1\npass2 x\n"},
            {"t.ctb": "include u\nletter b 1\n", "u": "letter a 1\n# B1 OutsideProfile pass2: pass2 x\n"},
            "2 of 3 lines are kept\nopcode pass2: 1 (not in the profile)\nfile one/u: 1 of 2 lines are read\n"),
    looking("a file that is there, and in a folder too", "one", {"t.ctb": "include u\n", "u": "letter a 1\n", "one/u": "letter a 2\n"},
            {"t.ctb": "include u\n", "u": "letter a 1\n"}, "1 of 1 lines are kept\n"),
    looking("folders in their order", "none two/ one", {"t.ctb": "include a/u\ninclude v\n", "one/a/u": "letter a 1\n", "two/a/u": "letter a 2\n", "one/v": "letter b 1\n"},
            {"t.ctb": "include a/u\ninclude v\n", "a/u": "letter a 2\n", "v": "letter b 1\n"}, "2 of 2 lines are kept\n"),
    looking("a table in a folder, with an include beside it", "two one",
            {"one/t.ctb": "include u\ninclude v\n", "one/u": "letter a 1\n", "two/u": "letter a 2\n", "two/v": "letter b 1\n"},
            {"t.ctb": "include u\ninclude v\n", "u": "letter a 1\n", "v": "letter b 1\n"}, "2 of 2 lines are kept\n"),
    looking("a file in a folder by two names", "one one/a", {"t.ctb": "include a/u\ninclude u\n", "one/a/u": "letter a 1\ninclude u\n"},
            {"t.ctb": "include a/u\n# repeated u: include u\n", "a/u": "letter a 1\n# repeated u: include u\n"},
            "1 of 3 lines are kept\nopcode include: 2\nfile t.ctb: 0 of 1 lines are read\nfile one/a/u: 1 of 2 lines are read\n"),
    looking("the table by its path in a folder", "a", {"a/u": "letter a 1\n", "t.ctb": "include u\ninclude a/u\n"},
            {"t.ctb": "include u\n# repeated a/u: include a/u\n", "u": "letter a 1\n"},
            "1 of 2 lines are kept\nopcode include: 1\nfile t.ctb: 0 of 1 lines are read\n"),
    looking("a file that is nowhere, and a dictionary in a folder", "one", {"t.ctb": "include u\ninclude h.dic\nletter a 1\n", "one/h.dic": "x\n"},
            {"t.ctb": "# L1 NotFound u: include u\n# dictionary h.dic: include h.dic\nletter a 1\n"},
            "1 of 3 lines are kept\nopcode include: 2\nfile t.ctb: 1 of 3 lines are read\n"),
    Case("a table that is nowhere", {"one/u": ""}, {}, "L1 NotFound t.ctb\n", folders=("one", "two")),
    Case("a file in a folder that is too deep", {**chain(16), "c16": "include u\n", "one/u": ""}, {}, "L5 TooDeep one/u at c16:1\n", folders=("one",)),
    Case("a file in a folder that isn't UTF-8", {"t.ctb": "include u\n", "one/u": b"\xff"}, {}, "L3 NotUtf8 one/u at t.ctb:1\n", folders=("one",)),
    Case("an include that leads out, to a folder", {"t.ctb": "include ../u\n", "one/u": ""}, {},
         "error: include ../u at t.ctb:1 leads out of the table's folder\n", folders=("one/a",)),
    Case("as many files as may be, in a folder", {"t.ctb": includes(range(1024)), **{f"one/{name}": "" for name in range(1024)}},
         {"t.ctb": includes(range(1024)), **empty(range(1024))}, "0 of 0 lines are kept\n", folders=("one",)),
    one("a line that is rewritten makes a digit of a letter", "letter b 12\nnoback litdigit 1 2\nnumericnocontchars 1b\n",
        "letter b 12\nlitdigit 1 2 # noback litdigit 1 2\n# B7 TwoRoles 1b: numericnocontchars 1b\n",
        "2 of 3 lines are kept, 1 of them rewritten\nopcode numericnocontchars: 1\nfile t.ctb: 2 of 3 lines are read\n", True),
]


def as_bytes(text: str | bytes) -> bytes:
    return text if isinstance(text, bytes) else text.encode()


def make(folder: Path, files: dict[str, str | bytes]) -> None:
    for name, text in files.items():
        path = folder / name
        path.parent.mkdir(parents=True, exist_ok=True)
        path.write_bytes(as_bytes(text))


def wrong(case: Case) -> str:
    """What is wrong with the cut of a case, if anything; of a good one also with the cut of its cut."""
    with tempfile.TemporaryDirectory() as folder, contextlib.chdir(folder):
        make(Path(), case.files)
        try:
            files, text = cut("t.ctb", case.is_rewriting, case.folders)
        except Stop as fault:
            return "" if f"{fault}\n" == case.told and not case.cut else f"the fault {fault}"
        want = {name: as_bytes(it) for name, it in case.cut.items()}
        if (files, text) != (want, case.told + NO_VERDICT):
            return f"the files {files}\nwhere {want} are wanted\nand {text}"
        write("cut", files)
        again, text = cut("cut/t.ctb", False)
        return "" if again == files and text.count("\n") == 2 else f"the cut of its cut has {again}, and {text}"


def main(words: list[str]) -> int:
    if words[:1] == ["cut"] and len(words) >= 3:
        return run(words[1:])
    if words:
        print(__doc__, file=sys.stderr)
        return 2
    failed = [(case.name, said) for case in CASES if (said := wrong(case))]
    for name, said in failed:
        print(f"FAILED: {name}: {said}")
    print(f"plain cut: {len(CASES) - len(failed)} passed, {len(failed)} failed")
    return 1 if failed else 0


if __name__ == "__main__":
    sys.exit(main(sys.argv[1:]))
