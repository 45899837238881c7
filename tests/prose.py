#!/usr/bin/env python3
"""Checks the documents: all *.md of the repository, outside of what a script writes into them; and the comments of the
sources, where no document is named.

  tests/prose.py [DOCUMENT..]

- A line has at most 100 columns, outside of tables and blocks of code; a cell of a table at most 120 characters.
- A link leads to a file, and to a heading of it; a path of the repository, or the name of a document, is there.
- What is written `crate::item` is an item that the crate exports, and `crate::Type::item` one of such a type.
- Each entry of DECISIONS.md has a name of its own and at most 80 words, and a name that is cited after `DECISIONS, ` is
  one of these.
- The words that the house doesn't use aren't used, outside of code, nor 'but for' where it isn't a term.
- README.md alone names the kit, and it is the one on the path.

Comments are held to the columns, the names of decisions and the words, and don't begin with 'The same' or 'Those';
scripts to these names.

A line is printed for each fault, with the document and the line, and 'ok: ..' for each check that finds none. The exit
status is 1 where there is a fault.
"""

import functools
import re
import shutil
import subprocess
import sys
from bisect import bisect
from collections.abc import Callable, Iterable, Iterator
from dataclasses import dataclass
from pathlib import Path

TOP = Path(__file__).resolve().parent.parent

MOST_COLUMNS, MOST_CELL = 100, 120

# Between lines that begin so, a script writes the document.
BELOW, ABOVE = "<!-- Below this line ", "<!-- Above this line "

# What a name of a path may be instead.
ANY_NAME = re.compile(r"\b(?:NAME|CRATE|WHAT_IT_GETS_WRONG)\b")

LINK = re.compile(r"\]\(\s*([^()\s]+)\s*\)")
WHOLE_LINK = re.compile(r"\[[^\]]*\]\([^)]*\)")
PATH = re.compile(r"(?<![\w/.~$-])(?:docs|crates|tests|bench|tools|examples|completions|man|specs|src|proofs)/[\w.*/+-]*[\w*]")
PAGE = re.compile(r"(?<![\w/.-])[A-Z][A-Z_]+\.md\b")
# Code in a line, or over the end of one, a link's target, and a comment.
NO_PROSE = (r"(`+)(?:(?!\1)[^\n]|\n(?!\n))+?\1", r"\]\([^)\n]*\)", r"<!--(?:.|\n)*?-->")
# A kit is named by its logic: what one kit proves another with the same logic does.
KIT = re.compile(r"rattle-kit-\w+|\blogic [0-9a-f]{8,}")
README = TOP / "README.md"
# The name of an entry, empty where it has none, and one that is cited.
ENTRY, CITED = re.compile(r"^- (?:\*([^*]+)\.\*$)?", re.MULTILINE), re.compile(r"DECISIONS(?:\.md)?, '([^']+)'")
ITEM = re.compile(r"\b(brl(?:_\w+)?)::(\w+)((?:::\w+)*)")

# Words that the house doesn't use, and what it uses.
WORDS = {
    r"behind": "after, following",
    r"in front of": "before",
    r"stands": "is, appears, holds",
    r"said|tells|told": "defined, reported, gives",
    r"so many": "n, the given number of",
    r"deserves": "the condition itself",
    r"looked at": "tested, read",
    r"memory aside": "unless memory runs out",
    r"comes to": "is, gives",
    r"want of memory": "out of memory",
    r"alike": "to the same cells",
    r"a (?:look|turn)": "a pass, a step",
}

# Where one is used all the same, with why.
ALLOWED = [
    (r"(?:runs?|states?|stays?|stayed|still|as) behind", "the run of a pair that has given fewer cells"),
    (r"steps?(?: that)? (?:are|is) alike|alike steps?", "steps that are the same, or of rules that may be exchanged"),
]

# Where a document has "but for" all the same: terms of the theorems on closed sets, and a text of `brl explain`.
BUT_FOR = "(?:closed|the same|unambiguous|step by step|flags),? but for"

# The most words of an entry of DECISIONS.md, without its name.
MOST_OF_DECISION = 80

# How a comment begins, by the ending of its file.
MARKS = {".rt": r"\s*//[/!]?", ".antt": r"\s*--"}


@dataclass(frozen=True)
class Document:
    path: Path
    lines: tuple[str, ...]
    # The lines that count, and those of them that are in a block of code.
    own: frozenset[int]
    code: frozenset[int]

    @staticmethod
    def read(path: Path) -> "Document":
        lines = tuple(path.read_text().splitlines())
        own, code, fence, is_made = set(), set(), "", False
        for number, line in enumerate(lines):
            is_made = line.startswith(BELOW) or is_made and not line.startswith(ABOVE)
            if is_made:
                continue
            own.add(number)
            mark = re.match(r"\s*(`{3,}|~{3,})", line)
            if fence or mark:
                code.add(number)
            if mark and not fence:
                fence = mark[1]
            elif fence and line.strip() == fence:
                fence = ""
        return Document(path, lines, frozenset(own), frozenset(code))

    @staticmethod
    def comments_of(path: Path) -> "Document":
        """A source, of which the comments count. What begins a comment is blank."""
        mark = re.compile(MARKS[path.suffix])
        lines = path.read_text().splitlines()
        own = frozenset(number for number, line in enumerate(lines) if mark.match(line))
        return Document(path, tuple(mark.sub(lambda it: " " * len(it[0]), line, count=1) for line in lines), own, frozenset())

    def name(self) -> str:
        return str(self.path.relative_to(TOP))

    def prose(self) -> Iterator[tuple[int, str]]:
        """The lines that count outside of blocks of code, by their numbers."""
        return ((number, self.lines[number]) for number in sorted(self.own - self.code))

    def headings(self) -> set[str]:
        """The names by which a link finds its headings."""
        texts = (line.lstrip("#").strip() for _, line in self.prose() if re.match(r"#+ ", line))
        return {re.sub(r"[^\w\- ]", "", text.lower()).replace(" ", "-") for text in texts}


# A fault: the number of the line, from 0, and what is wrong there.
Faults = Iterator[tuple[int, str]]


def is_row(line: str) -> bool:
    return line.lstrip().startswith("|")


def long_lines(it: Document) -> Faults:
    for number, line in it.prose():
        if len(line) > MOST_COLUMNS and not is_row(line):
            yield number, f"a line of {len(line)} columns"


def long_cells(it: Document) -> Faults:
    for number, line in it.prose():
        cells = re.split(r"(?<!\\)\|", line)[1:-1] if is_row(line) else []
        for cell in cells:
            if len(cell.strip()) > MOST_CELL:
                yield number, f"a cell of {len(cell.strip())} characters: {cell.strip()[:40]}.."


@functools.cache
def is_there(path: str) -> bool:
    """Whether the repository has a path; one that begins within a crate, in some crate."""
    pattern = ANY_NAME.sub("*", path)
    pattern = f"crates/*/{pattern}" if re.match(r"(?:specs|src|proofs)/", pattern) else pattern
    return next(TOP.glob(pattern), None) is not None


def dead_links(it: Document) -> Faults:
    for number, line in it.prose():
        for target in LINK.findall(line):
            file, _, heading = target.partition("#")
            if re.match(r"[a-z]+:", target):
                continue
            to = (it.path.parent / file).resolve() if file else it.path
            if not to.exists():
                yield number, f"a link to {target}, which isn't there"
            elif heading and heading not in Document.read(to).headings():
                yield number, f"a link to {target}: {to.name} has no such heading"


def dead_paths(it: Document) -> Faults:
    for number in sorted(it.own):
        line = WHOLE_LINK.sub("", it.lines[number])
        for path in PATH.findall(line):
            if not is_there(path):
                yield number, f"the path {path}, which isn't there"
        for page in PAGE.findall(line):
            if not (it.path.parent / page).exists() and not (TOP / page).exists():
                yield number, f"the document {page}, which isn't there"


@functools.cache
def exported(crate: str) -> frozenset[str]:
    """The names that a crate exports."""
    root = TOP / "crates" / crate / "src" / "lib.rt"
    text = root.read_text() if root.exists() else ""
    lists = re.findall(r"^pub use ([^;]+);", text, re.MULTILINE)
    names = {word for it in lists for word in re.findall(r"(\w+)\s*(?:[,}]|$)", it)}
    return frozenset(names) | set(re.findall(r"^pub (?:const fn|fn|struct|enum|trait|type|const|mod) (\w+)", text, re.MULTILINE))


@functools.cache
def sources() -> tuple[str, ...]:
    return tuple(it.read_text() for it in sorted(TOP.glob("crates/*/src/**/*.rt")))


@functools.cache
def has_item(kind: str, name: str) -> bool:
    """Whether a type or a trait of this name has an item of another one."""
    around = re.compile(rf"^(?:pub )?(?:struct|enum|trait|impl)\b[^{{\n]*\b{kind}\b", re.MULTILINE)
    inside = re.compile(rf"^ +(?:pub )?(?:(?:const )?fn |const |type )?{name}\b", re.MULTILINE)
    return any(around.search(text) and inside.search(text) for text in sources())


def unknown_items(it: Document) -> Faults:
    for number, line in it.prose():
        for crate, name, rest in ITEM.findall(line):
            if name not in exported(crate):
                yield number, f"{crate}::{name}, which isn't exported"
            elif rest and not has_item(name, rest.split("::")[1]):
                yield number, f"{crate}::{name}{rest}: {name} has no {rest.split('::')[1]}"


@functools.cache
def decisions() -> tuple[str, ...]:
    return tuple(ENTRY.findall((TOP / "docs/dev/DECISIONS.md").read_text()))


def unknown_decisions(it: Document) -> Faults:
    for number in sorted(it.own):
        named = ENTRY.findall(it.lines[number]) if it.path.name == "DECISIONS.md" else []
        for name in (*named, *CITED.findall(it.lines[number])):
            if not name or decisions().count(name) != 1:
                yield number, f"'{name}', which isn't the name of just one entry of DECISIONS.md"


def blanked(text: str, pattern: str) -> str:
    """A text with what matches as blanks, so that places stay."""
    return re.sub(pattern, lambda it: re.sub(r"\S", " ", it[0]), text)


def prose_alone(it: Document, allowed: Iterable[str]) -> tuple[str, list[int]]:
    """The text of a document, where code, links and what is allowed are blank, and where its lines start."""
    kept = dict(it.prose())
    text = "\n".join(kept.get(number, "") for number in range(len(it.lines)))
    for pattern in (*NO_PROSE, *(rf"\b{words}\b".replace(" ", r"\s+") for words in allowed)):
        text = blanked(text, pattern)
    return text, [0, *(found.end() for found in re.finditer("\n", text))]


def other_words(it: Document) -> Faults:
    text, starts = prose_alone(it, [words for words, _ in ALLOWED])
    for word, instead in WORDS.items():
        pattern = rf"(?<![\w-])(?:{word})(?![\w-])".replace(" ", r"\s+")
        for found in re.finditer(pattern, text, re.IGNORECASE):
            used = " ".join(found[0].split())
            # a field of a certificate has a name in capitals
            if not used.isupper():
                yield bisect(starts, found.start()) - 1, f"'{used}', for which the house has: {instead}"


def other_exceptions(it: Document) -> Faults:
    text, starts = prose_alone(it, [BUT_FOR])
    for found in re.finditer(r"\bbut\s+for\b", text):
        yield bisect(starts, found.start()) - 1, "'but for', for which the house has: except, without"


def long_decisions(it: Document) -> Faults:
    if it.path.name != "DECISIONS.md":
        return
    begun, count = 0, 0
    for number, line in (*it.prose(), (len(it.lines), "- ")):
        if line.startswith(("- ", "#")):
            if count > MOST_OF_DECISION:
                yield begun, f"an entry of {count} words"
            begun, count = number, 0
        else:
            count += len(line.split())


def other_kits(it: Document) -> Faults:
    """A kit that isn't the one on the path, and each that another document than README.md names."""
    here = shutil.which("rt") and subprocess.run(["rt", "version"], capture_output=True, text=True).stdout.strip()
    for number, line in it.prose():
        for kit in KIT.findall(line):
            if it.path != README:
                yield number, "the kit is named in README.md alone"
            elif here and kit not in here:
                yield number, f"the kit is '{here}'"
            elif not kit.startswith("logic"):
                yield number, "the kit is named by its logic alone"


CHECKS: dict[str, Callable[[Document], Faults]] = {
    f"no line has more than {MOST_COLUMNS} columns": long_lines,
    f"no cell of a table has more than {MOST_CELL} characters": long_cells,
    "each link leads to a file, and to a heading": dead_links,
    "each path and each document that is named is there": dead_paths,
    "each item that is named is exported": unknown_items,
    "each decision that is cited is there, and each has a name": unknown_decisions,
    f"no decision has more than {MOST_OF_DECISION} words": long_decisions,
    "no word is used that the house doesn't use": other_words,
    "'but for' is in terms of theorems alone": other_exceptions,
    "README.md alone names the kit, and it is that of `rt version`": other_kits,
}

def dangling(it: Document) -> Faults:
    """Comments on code and definitions that only mean something after another one."""
    if "proofs" in it.path.relative_to(TOP).parts:
        return
    for number in sorted(it.own):
        if number - 1 not in it.own and re.match(r"\s*(?:the same|those)\b", it.lines[number], re.IGNORECASE):
            yield number, "a comment says itself what it means, and doesn't begin with 'The same' or 'Those'"


def dangling_in_scripts(it: Document) -> Faults:
    """Comments of a script that only mean something after another one."""
    for number, (before, line) in enumerate(zip(("", *it.lines), it.lines)):
        if not before.lstrip().startswith("#") and re.match(r'\s*(?:#|""")\s*(?:the same|those)\b', line, re.IGNORECASE):
            yield number, "a comment says itself what it means, and doesn't begin with 'The same' or 'Those'"


OF_COMMENTS: dict[str, Callable[[Document], Faults]] = {
    f"no comment has more than {MOST_COLUMNS} columns": long_lines,
    "each decision that a comment cites is there": unknown_decisions,
    "no comment has a word that the house doesn't use": other_words,
    "no comment on code or definitions rests on the one before": dangling,
}

OF_SCRIPTS: dict[str, Callable[[Document], Faults]] = {
    "each decision that a script cites is there": unknown_decisions,
    "no comment of a script rests on the one before": dangling_in_scripts,
}


def documents() -> list[Path]:
    """The documents of the repository: those that git knows, or all where there is no git."""
    ran = subprocess.run(["git", "ls-files", "-z", "*.md"], cwd=TOP, capture_output=True, text=True)
    if ran.returncode == 0:
        return sorted(path for it in ran.stdout.split("\0") if it and (path := TOP / it).exists())
    return sorted(it for it in TOP.rglob("*.md") if "out" not in it.relative_to(TOP).parts)


def sources_with_comments() -> list[Path]:
    """The sources, definitions and proofs of all crates."""
    found = (it for room in ("src", "specs", "proofs") for it in TOP.glob(f"crates/*/{room}/**/*"))
    return sorted(it for it in found if it.suffix in MARKS)


def run_checks(checks: dict[str, Callable[[Document], Faults]], read: list[Document], kind: str) -> int:
    """Prints what these checks find in some documents, or that they find nothing. How many faults there are."""
    failed = 0
    for name, check in checks.items():
        found = [f"{it.name()}:{number + 1}: {what}" for it in read for number, what in check(it)]
        print(*found, sep="\n", end="\n" if found else "")
        if not found:
            print(f"ok: {name} ({len(read)} {kind})")
        failed += len(found)
    if failed:
        print(f"FAILED: {failed} faults in {len(read)} {kind}")
    return failed


def main(words: list[str]) -> int:
    if any(it.startswith("-") for it in words):
        print(__doc__, file=sys.stderr)
        return 2
    read = [Document.read(Path(it).resolve()) for it in words] or [Document.read(it) for it in documents()]
    commented = [] if words else [Document.comments_of(it) for it in sources_with_comments()]
    scripts = [] if words else [Document.read(it) for it in sorted(TOP.glob("t*/*.py"))]
    failed = run_checks(CHECKS, read, "documents")
    failed += 0 if words else run_checks(OF_COMMENTS, commented, "sources") + run_checks(OF_SCRIPTS, scripts, "scripts")
    return 1 if failed or not read or not words and not commented else 0


if __name__ == "__main__":
    sys.exit(main(sys.argv[1:]))
