"""Where the functions of formatted Rattle code are, and what they promise their callers."""

import re
from dataclasses import dataclass
from pathlib import Path

FUNCTION = re.compile(r"^( *)(?:[a-z()]+ )*fn (\w+)", re.MULTILINE)


def function_at(text: str, place: int) -> int | None:
    """The place of the function around a place of formatted code, if there is one: it ends at a brace below its `fn`."""
    for head in reversed(list(FUNCTION.finditer(text[:place]))):
        end = re.compile(rf"^{head[1]}\}}$", re.MULTILINE).search(text, head.end())
        if end and end.start() > place:
            return head.start()
    return None


def text_of(text: str, head: int) -> str:
    """The function with this head."""
    indent = FUNCTION.match(text, head)[1]
    return text[head : re.compile(rf"^{indent}\}}$", re.MULTILINE).search(text, head).end()]


def function_of_line(text: str, line: int) -> str:
    """The name of the function around a line, counted from 1."""
    place = function_at(text, sum(len(it) for it in text.splitlines(keepends=True)[:line]))
    return "" if place is None else re.search(r"fn (\w+)", text[place:])[1]


@dataclass(frozen=True)
class Function:
    """A function, or a method of a type's own impl, of a formatted file, with the places of its parts there."""

    path: str
    # The modules and the type that it is in, and its name.
    names: tuple[str, ...]
    indent: str
    # From its comment on, its `fn`, its name, the end of its name, the end of the brace before its body, the brace behind it.
    begin: int
    head: int
    name: int
    name_end: int
    body: int
    end: int

    def label(self, name: str = "") -> str:
        return "::".join((*self.names[:-1], name or self.names[-1]))

    def folder(self, name: str = "") -> str:
        return "/".join(("proofs", *self.names[:-1], name or self.names[-1]))

    def call(self) -> str:
        """A pattern of most of its calls."""
        before = rf"\b(?:self\.|Self::|{self.names[-2]}::)" if self.indent else r"(?<![.\w])"
        return rf"{before}{self.names[-1]}\("

    def brace(self) -> int:
        """The place behind its last brace."""
        return self.end + len(self.indent) + 1


def type_around(text: str, place: int) -> str | None:
    """The type whose own impl has a method at this place, if it stands in one."""
    heads = [it for it in re.finditer(r"^(?:pub(?:\(\w+\))? )?(?:impl|trait|mod)\b[^{]*", text, re.MULTILINE) if it.start() < place]
    if not heads or not heads[-1][0].startswith("impl") or " for " in heads[-1][0]:
        return None
    found = re.match(r"impl(?:<[^{]*?>)? (\w+)", heads[-1][0])
    return found and found[1]


def begin_of(text: str, head: int) -> int:
    """Where the comment and the attributes of the function with this head begin."""
    begin = head
    while begin:
        line = text.rindex("\n", 0, begin - 1) + 1 if "\n" in text[: begin - 1] else 0
        words = text[line:begin].strip()
        if not words or not words.startswith("//") and words.endswith(("{", "}", ";")):
            break
        begin = line
    return begin


def modules_of(path: str) -> tuple[str, ...]:
    inside = Path(path).with_suffix("").parts[1:]
    return () if inside in (("lib",), ("main",)) else inside


def homes_of(texts: dict[str, str]) -> dict[str, tuple[str, ...]]:
    """The modules that types of these files stand in, where their methods are counted, wherever these stand."""
    type_of = re.compile(r"^(?:pub(?:\(\w+\))? )?(?:struct|enum) (\w+)", re.MULTILINE)
    return {it[1]: modules_of(path) for path, text in texts.items() for it in type_of.finditer(text)}


def functions_of(path: str, text: str, homes: dict[str, tuple[str, ...]]) -> list[Function]:
    """The functions and the methods of types' own impls in a file; not those that constants can call."""
    found = []
    for it in FUNCTION.finditer(text):
        owner = type_around(text, it.start()) if it[1] else ""
        end = re.compile(rf"^{it[1]}\}}$", re.MULTILINE).search(text, it.end())
        if owner is None or len(it[1]) > 4 or not end or "const " in it[0]:
            continue
        body = re.compile(rf"^{it[1]}\{{$", re.MULTILINE).search(text, it.end(), end.start())
        body = body or re.compile(r"\{$", re.MULTILINE).search(text, it.end(), end.start())
        names = (*homes.get(owner, ()), owner, it[2]) if owner else (*modules_of(path), it[2])
        if body and (not found or found[-1].end < it.start()):
            places = (begin_of(text, it.start()), it.start(), it.start(2), it.end(2), body.end(), end.start())
            found.append(Function(path, names, it[1], *places))
    return found
