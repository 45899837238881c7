"""Reads out of the sources of crates which functions are public, their clauses, and what their doc comments promise."""

import re
from collections.abc import Iterator
from pathlib import Path
from typing import NamedTuple

CRATES = Path(__file__).resolve().parent.parent / "crates"

# The crates whose calls are promised to nobody: the program's `main`, and tests.
OTHERS = re.compile(r"brl|brl_test.*")

# A dash, of a clause without a name.
UNNAMED = "–"

# The head of an impl or a trait, the end of one, and the head of a function; code is formatted.
PARTS = re.compile(
    r"^(?:pub )?(?P<kind>impl|trait)(?:<.*?>)? (?P<what>[^{]+?) (?:where [^{]*)?\{"
    r"|^(?P<end>\}|mod \w+ \{)"
    r"|^(?P<indent> *)(?P<visible>pub )?(?:const )?fn (?P<name>\w+)(?P<head>.*?)(?:;$|^(?P=indent)\{|\{$)",
    re.MULTILINE | re.DOTALL,
)
CLAUSE = re.compile(r"^ *ensures (?:(\w+) )?\{", re.MULTILINE)

# The doc comment at the end of what is before a function, and the first sentence of one: a dot in code ends none.
DOC = re.compile(r"((?:^ *///.*\n)+)(?:^ *#\[.*\n)*\Z", re.MULTILINE)
SENTENCE = re.compile(r"(?:`[^`]*`|[^`])+?\.(?=\s|$)")


class Call(NamedTuple):
    """A function, by its crate and the path of its name there, with the names of its clauses and its promise.

    The promise is the first sentence of its doc comment, and empty where it has none."""

    crate: str
    path: str
    clauses: tuple[str, ...]
    promise: str

    def __str__(self) -> str:
        return f"{self.crate}::{self.path}"


def bare(type_text: str) -> str:
    """The name of a type, without its path and its parameters."""
    return re.sub(r"<.*", "", type_text, flags=re.DOTALL).split("::")[-1].lstrip("&").strip()


def promise_before(text: str) -> str:
    """The first sentence of the doc comment with which a text ends."""
    doc = DOC.search(text)
    lines = [re.sub(r"^ */// ?", "", it) for it in doc[1].splitlines()] if doc else []
    paragraph = "\n".join(lines).strip().split("\n\n")[0]
    sentence = SENTENCE.match(" ".join(paragraph.split()))
    return sentence[0] if sentence else ""


class Crate:
    """The sources of a crate, and what it exports."""

    def __init__(self, name: str) -> None:
        self.name = name
        self.texts = [it.read_text() for it in sorted((CRATES / name / "src").glob("**/*.rt"))]
        root = CRATES / name / "src" / "lib.rt"
        text = root.read_text() if root.is_file() else ""
        uses = re.findall(r"^pub use [\w:]+::(?:\{([^}]*)\}|(\w+));", text, re.MULTILINE)
        own = re.findall(r"^pub (?:struct|enum|trait|const|fn) (\w+)", text, re.MULTILINE)
        self.exported = {it.strip() for many, one in uses for it in (many or one).split(",") if it.strip()} | set(own)
        self.others = set(re.findall(r"^pub use (brl_\w+)::", text, re.MULTILINE))

    def parts(self) -> Iterator[tuple[str, str, re.Match[str]]]:
        """Each function with the trait and the type of its impl, none of which a free one has."""
        for text in self.texts:
            trait = kind = ""
            for it in PARTS.finditer(text):
                if it["kind"] == "trait":
                    trait, kind = bare(it["what"].split(":")[0]), ""
                elif it["kind"]:
                    *traits, owner = it["what"].split(" for ")
                    trait, kind = (bare(traits[0]) if traits else ""), bare(owner)
                elif it["end"]:
                    trait = kind = ""
                elif it["indent"]:
                    yield trait, kind, it
                else:
                    yield "", "", it

    def calls(self) -> Iterator[Call]:
        """The public functions with a clause, by the names of their files. A trait's own are as public as the trait, and so
        are those of its impls."""
        for trait, kind, it in self.parts():
            name, clauses = it["name"], tuple(CLAUSE.findall(it["head"]))
            owner = kind or trait
            if trait and kind:
                path = f"<{kind} as {trait}>::{name}"
            elif owner:
                path = f"{owner}::{name}" if owner in self.exported and (trait or it["visible"]) else ""
            else:
                path = name if it["visible"] and name in self.exported else ""
            if path and clauses:
                yield Call(self.name, path, clauses, promise_before(it.string[: it.start()]))
