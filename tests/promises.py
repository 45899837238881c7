#!/usr/bin/env python3
"""Compares with the sources what is written by hand in docs/proof/, and what documents name of crates.

  tests/promises.py

In PROMISES.md the rows of types name a ghost fact of each, and those of private functions one of their clauses; the rows
of public functions are made (tools/promises-list). DEFINITIONS.md names each file of specs/ once, but for those that begin
with "Internal." and the lists of modules. In all documents, what is written `crate::name` or `crate::Type::name` is
exported by that crate. The example at the head of each of six crates is the body of a function that a test of `calls` in
brl_tests calls. A failed comparison ends with status 1.
"""

import re
import sys
from collections import Counter
from collections.abc import Iterator
from pathlib import Path
from textwrap import dedent

TOP = Path(__file__).resolve().parent.parent
sys.dont_write_bytecode = True
sys.path.insert(0, str(TOP / "tools"))
from contracts import CLAUSE, CRATES, UNNAMED, Crate

PROMISES, DEFINITIONS = (TOP / "docs" / "proof" / it for it in ("PROMISES.md", "DEFINITIONS.md"))

# The crates that a caller of the library names first, and the functions that their examples are the bodies of.
OUTWARD = ("brl_table", "brl_forward", "brl_cert", "brl_accept", "brl_search", "brl_stream")
EXAMPLES = CRATES / "brl_tests" / "src" / "tests" / "calls" / "examples.rt"


def names_in(cell: str) -> tuple[str, ...]:
    """The names of clauses in a cell; an empty one where a clause has none."""
    return tuple("" if it == UNNAMED else it.strip("`") for it in cell.split(", "))


def wrong_types(crates: dict[str, Crate], page: str) -> Iterator[str]:
    """How the rows of types differ from what is stated of these types."""
    for crate, name, law in re.findall(r"^\| `(\w+)::([A-Z]\w*)` \| `(\w+)` \|", page, re.MULTILINE):
        stated = rf"^(?:pub trait|impl[^{{]*[ <]){name}\b[^{{]*\{{(?:(?!^\}}).)*^    ghost {law}\b"
        if name not in crates[crate].exported or not any(re.search(stated, it, re.MULTILINE | re.DOTALL) for it in crates[crate].texts):
            yield f"{crate}::{name} has no ghost {law}"


def wrong_parts(crates: dict[str, Crate], page: str) -> Iterator[str]:
    """How the rows of private functions differ from these."""
    for names, crate, clause in re.findall(r"^\| (`[^|]*`) \(`(\w+)`\) \| ([^|]*) \|", page, re.MULTILINE):
        for name in names_in(names):
            found = [it for trait, kind, it in crates[crate].parts() if it["name"] == name and not trait and not kind]
            if name in crates[crate].exported or not any(set(names_in(clause)) <= set(CLAUSE.findall(it["head"])) for it in found):
                yield f"{crate} has no private function {name} with the clause {clause}"


def wrong_definitions() -> Iterator[str]:
    files = [it for it in CRATES.glob("*/specs/**/*.antt") if not it.read_text().startswith(("-- Internal.", "pub mod"))]
    there = {it.relative_to(CRATES).as_posix() for it in files}
    named = Counter(re.findall(r"`(\w+/specs/[\w/]+\.antt)`", DEFINITIONS.read_text()))
    yield from (f"{it} isn't named" for it in sorted(there - set(named)))
    yield from (f"{it} is no file of definitions that are for readers" for it in sorted(set(named) - there))
    yield from (f"{it} is named {count} times" for it, count in named.items() if count > 1)


def is_exported(crates: dict[str, Crate], crate: str, path: str) -> bool:
    """Whether a crate exports what is written so: a name, or a function or a variant of a type or a trait."""
    name, _, member = path.partition("::")
    if crate not in crates or name not in crates[crate].exported:
        return False
    texts = (text for it in (crate, *crates[crate].others) for text in crates[it].texts)
    return not member or any(re.search(rf"\bfn {member}\b|^    {member}\b", text, re.MULTILINE) for text in texts)


def wrong_names(crates: dict[str, Crate]) -> Iterator[str]:
    for page in sorted([TOP / "README.md", *TOP.glob("docs/**/*.md")]):
        for crate, path in dict.fromkeys(re.findall(r"`(brl_\w+)::([\w:]+)`", page.read_text())):
            if not is_exported(crates, crate, path):
                yield f"{page.relative_to(TOP)}: {crate}::{path} isn't exported"


def wrong_examples() -> Iterator[str]:
    """How the examples at the heads of crates differ from the functions that a test calls."""
    text = EXAMPLES.read_text()
    bodies = dict(re.findall(r"^fn example_of_(\w+)\(.*?\{\n(.*?)^\}", text, re.MULTILINE | re.DOTALL))
    for crate in OUTWARD:
        head = re.match(r"(?://!.*\n)+", (CRATES / crate / "src" / "lib.rt").read_text())
        shown = re.findall(r"^//! ```\n((?://!.*\n)*?)//! ```$", head[0] if head else "", re.MULTILINE)
        body = bodies.pop(crate.removeprefix("brl_"), None)
        if [re.sub("^//! ?", "", it, flags=re.MULTILINE) for it in shown] != [dedent(body or "")]:
            yield f"{crate}: the example at its head isn't the body of a function of {EXAMPLES.relative_to(TOP)}"
        elif len(re.findall(rf"\bexample_of_{crate.removeprefix('brl_')}\(", text)) < 2:
            yield f"{crate}: nothing calls its example"
    yield from (f"example_of_{it}: no crate shows it" for it in bodies)


def main() -> int:
    crates = {it.name: Crate(it.name) for it in sorted(CRATES.iterdir()) if it.is_dir()}
    page = PROMISES.read_text()
    wrong = [*wrong_types(crates, page), *wrong_parts(crates, page), *wrong_definitions(), *wrong_names(crates)]
    examples = list(wrong_examples())
    if wrong:
        print("FAILED: docs/proof/", *wrong, sep="\n")
    else:
        print("ok: docs/proof/ has what types and private functions keep, and the files of definitions")
    if examples:
        print("FAILED: examples", *examples, sep="\n")
    else:
        print(f"ok: {len(OUTWARD)} crates show an example that a test runs")
    return 1 if wrong or examples else 0


if __name__ == "__main__":
    sys.exit(main())
