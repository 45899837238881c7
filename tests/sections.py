#!/usr/bin/env python3
"""Each section of a list of clashes is there before the next is found, by the program named.

The table has one pair of rules of small letters, and is made larger until its other section, of texts with marks, takes long."""

import random
import subprocess
import sys
import tempfile
import time
from pathlib import Path

from terminal import CLEAR, LETTERS, run_on_terminal

# So many seconds a list must take here. The first section may take a third of its time.
LONG = 3
FIRST = b"small letters: 1 pair of rules diverges, and no others\n"
LAST = b"\n1 pair of rules diverges, and no others\n"
SECOND = b"\nwith marks: "


def need(holds: object, text: str) -> None:
    if not holds:
        sys.exit(f"sections: {text}")


def table_of(count: int, longest: int) -> str:
    """A table of eight letters, of one with the cells of two others, and of rules that have a comma, `count` or a few less. No
    cells of a rule begin those of another."""
    chance = random.Random(count)
    groups = {"".join(chance.choices(list(LETTERS), k=chance.randint(2, longest))) for _ in range(count)}
    rows = [f"letter {letter} {dots}" for letter, dots in LETTERS.items()]
    rows += ["letter x 1-12", "punctuation , 6"]
    for number, group in enumerate(sorted(groups)):
        digits = "-".join(list(LETTERS.values())[number >> shift & 7] for shift in (9, 6, 3, 0))
        rows.append(f"always ,{group} 56-{digits}")
    return "\n".join(rows) + "\n"


def make_long(words: list[str], table: Path) -> bytes:
    """The output of a list that takes long."""
    for step in range(20):
        table.write_text(table_of(2800, 8 + 6 * step))
        began = time.monotonic()
        ran = subprocess.run(words, capture_output=True)
        long = time.monotonic() - began >= LONG
        need((ran.returncode, ran.stderr) == (1, b""), f"status {ran.returncode}, {ran.stderr!r}")
        if long:
            return ran.stdout
    sys.exit(f"sections: no list takes {LONG} seconds")


def show(words: list[str], table: Path) -> bytes:
    """What a terminal shows of a list. What takes no time isn't shown, and a busy machine may be a fast one a moment later: so the
    first table counts of which something is shown."""
    for step in range(20):
        table.write_text(table_of(2800, 8 + 6 * step))
        status, output, shown = run_on_terminal(words)
        need((status, output) == (1, subprocess.run(words, capture_output=True).stdout), "the list differs on a terminal")
        if shown:
            return shown
    sys.exit("sections: a terminal shows nothing")


def started(words: list[str]) -> subprocess.Popen:
    return subprocess.Popen(words, stdout=subprocess.PIPE, stderr=subprocess.PIPE)


def main(program: str) -> None:
    with tempfile.TemporaryDirectory() as folder:
        table = Path(folder, "t.ctb")
        words = [program, "clashes", str(table)]
        want = make_long(words, table)
        need(want.startswith(FIRST) and SECOND in want and want.endswith(LAST), f"the list is {want!r}")

        # The first section is there early, and nothing of the second.
        began = time.monotonic()
        ran = started(words)
        early = ran.stdout.read1()
        first = time.monotonic() - began
        need(early.startswith(FIRST) and SECOND not in early, f"the first section is {early!r}")
        need(early + ran.stdout.read() == want and ran.wait() == 1, "the parts aren't the whole")
        need(first < (time.monotonic() - began) / 3, "the first section comes late")

        # A reader that reads the first section alone ends the work, and nothing is said of it.
        ran = started(words)
        ran.stdout.read1()
        ran.stdout.close()
        need((ran.wait(), ran.stderr.read()) == (2, b""), "a reader that closes isn't passed over in silence")

        # A limit that is passed in the second section leaves the first.
        ran = subprocess.run([*words, "--limit", "1000"], capture_output=True)
        need(ran.returncode == 3 and ran.stdout.startswith(early) and b"\nlimit: " in ran.stdout, f"with a limit: {ran.stdout!r}")

        # A terminal shows which section is searched, and that is cleared before more is printed.
        shown = show(words, table)
        parts = shown.split(CLEAR)
        need(parts[0] == parts[-1] == b"" and all(part.startswith(b"with marks: searching: ") for part in parts[1:-1]) and len(parts) > 2, f"a terminal shows {shown!r}")
    print("sections: each section of a list is printed when it is found")


if __name__ == "__main__":
    main(*sys.argv[1:])
