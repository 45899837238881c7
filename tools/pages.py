"""Writes what a script makes of a page of docs/, or compares it with the page."""

import difflib
from collections.abc import Callable, Iterable
from pathlib import Path

TOP = Path(__file__).resolve().parent.parent


class Wrong(Exception):
    """Why nothing can be made of a page."""


def between(text: str, script: str, lines: Iterable[str]) -> str:
    """A page with these lines between the two lines that name the script."""
    begin, end = (f"<!-- {it} this line {script} writes the page. -->\n" for it in ("Below", "Above"))
    before, begins, rest = text.partition(begin)
    _, ends, after = rest.partition(end)
    if not begins or not ends:
        raise Wrong(f"the page of {script} must have these two lines:\n{begin}{end}")
    return f"{before}{begin}\n" + "".join(f"{line}\n" for line in lines) + f"\n{end}{after}"


def keep(words: list[str], doc: str, page: Path, made: Callable[[str], str], what: str) -> int:
    """Writes the page that is made of its text, or with --check says where it is another; gives the exit status."""
    name = page.relative_to(TOP)
    if words not in ([], ["--check"]):
        print(doc)
        return 2
    try:
        old = page.read_text()
        new = made(old)
        if not words:
            page.write_text(new)
        elif old != new:
            print(*difflib.unified_diff(old.splitlines(), new.splitlines(), str(name), what, lineterm="", n=0), sep="\n")
            print(f"FAILED: {name} hasn't {what}, as they are")
            return 1
        else:
            print(f"ok: {name} has {what}, as they are")
    except (Wrong, OSError, UnicodeError) as why:
        print(f"FAILED: {why}")
        return 2
    return 0
