#!/usr/bin/env python3
"""What a terminal shows of the program named while it searches and checks for long, and that nothing is added elsewhere.

A table is made larger until a search takes longer than work that isn't shown, and a certificate until a check does."""

import os
import pty
import random
import re
import subprocess
import sys
import tempfile
import time
from pathlib import Path

CLEAR = b"\r\x1b[K"
SHOWN = {
    "search": re.compile(rb"searching: (\d+) states, (\d+) pairs, (\d+) s"),
    "check": re.compile(rb"checking: (\d+) of \d+ states, (\d+) pairs, (\d+) s"),
}
# After so many seconds work is shown, and so many a search must take here.
QUIET, LONG = 2, 4
MAKE_WORST = Path(__file__).parent.parent / "bench" / "make-worst"
LETTERS = {"a": "1", "b": "12", "c": "14", "d": "145", "e": "15", "f": "124", "g": "1245", "h": "125"}


def need(holds: object, text: str) -> None:
    if not holds:
        sys.exit(f"terminal: {text}")


def table_of(count: int, longest: int) -> str:
    """A table of eight letters, and of rules for groups of at most `longest` of them, `count` or a few less. No cells of a rule
    begin those of another."""
    chance = random.Random(count)
    groups = {"".join(chance.choices(list(LETTERS), k=chance.randint(2, longest))) for _ in range(count)}
    rows = [f"letter {letter} {dots}" for letter, dots in LETTERS.items()]
    for number, group in enumerate(sorted(groups)):
        digits = "-".join(list(LETTERS.values())[number >> shift & 7] for shift in (9, 6, 3, 0))
        rows.append(f"always {group} 56-{digits}")
    return "\n".join(rows) + "\n"


def run(words: list[str]) -> tuple[float, bytes]:
    """The seconds and the output of a run that has no terminal, and that ends well."""
    began = time.monotonic()
    ran = subprocess.run(words, capture_output=True)
    need((ran.returncode, ran.stderr) == (0, b""), f"a {words[1]} ends with status {ran.returncode} and writes {ran.stderr!r}")
    return time.monotonic() - began, ran.stdout


def run_on_terminal(words: list[str]) -> tuple[int, bytes, bytes]:
    """The status, the output, and what a terminal gets that is standard error."""
    ours, theirs = pty.openpty()
    ran = subprocess.Popen(words, stdout=subprocess.PIPE, stderr=theirs)
    os.close(theirs)
    shown = b""
    while True:
        try:
            part = os.read(ours, 4096)
        except OSError:  # Linux: the other end is closed
            break
        if not part:
            break
        shown += part
    os.close(ours)
    output = ran.stdout.read()
    return ran.wait(), output, shown


def check_shown(command: str, shown: bytes) -> None:
    """Each line is written over the one before it, with numbers that don't fall, and the last is cleared."""
    first, *lines, last = shown.split(CLEAR)
    need(first == b"" and last == b"" and lines, f"{command} shows {shown!r}")
    found = [SHOWN[command].fullmatch(line) for line in lines]
    need(all(found), f"{command} shows {shown!r}")
    numbers = [tuple(map(int, it.groups())) for it in found]
    need(numbers[0][2] >= QUIET, f"{command} shows work too early: {shown!r}")
    for before, after in zip(numbers, numbers[1:]):
        need(all(one <= other for one, other in zip(before, after)), f"{command} counts back: {shown!r}")


def make_search_longer(table: str, step: int) -> None:
    """A table that takes a search longer with each step: longer words make more states."""
    Path(f"{table}.ctb").write_text(table_of(2800, 5 + step))


def make_check_longer(table: str, step: int) -> None:
    """A certificate that takes a check longer with each step. It has states whose parts differ, since one that takes long by
    its length alone is larger than a check reads."""
    subprocess.run([MAKE_WORST, "parts", table, str(64 << step)], check=True)


LONGER = {"search": make_search_longer, "check": make_check_longer}


def run_long(command: str, words: list[str], table: str) -> bytes:
    """What this command prints without a terminal, where that takes long."""
    for step in range(20):
        LONGER[command](table, step)
        seconds, found = run(words)
        if seconds >= LONG:
            return found
    sys.exit(f"terminal: no {command} takes {LONG} seconds")


def main(program: str) -> None:
    with tempfile.TemporaryDirectory() as folder:
        table = f"{folder}/t"
        words = {command: [program, command, f"{table}.ctb", f"{table}.cert"] for command in SHOWN}
        for command in words:
            want = run_long(command, words[command], table)
            status, output, shown = run_on_terminal(words[command])
            need((status, output) == (0, want), f"{command} differs on a terminal")
            check_shown(command, shown)
        Path(f"{table}.ctb").write_text(table_of(5, 5))
        for command in words:
            need(run_on_terminal(words[command])[2] == b"", "work that isn't long is shown")
    print("terminal: a search and a check show how far they are, and clear what they show")


if __name__ == "__main__":
    main(*sys.argv[1:])
