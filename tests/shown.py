#!/usr/bin/env python3
"""Runs the commands that documents show, and compares what they print with what is shown.

Usage: tests/shown.py PROGRAM DOCUMENT..

In a document in Markdown, a block that begins with three backquotes and `console` has commands,
each after `$ ` and followed by the lines that it prints; one that begins with three backquotes and
`text NAME` is the whole file NAME. One of `diff NAME` is an edit of that file: lines that go are
after `-`, lines that come after `+`, others after a blank; an empty line parts two places. Without
lines that are there before, the new ones come at the end. In a manual page, the literal displays
have commands in the same form. All commands of a document run in one folder and one shell, in the
order of the page: `cd` and `$?` mean what they mean to a reader. `brl` is the program that is given.

`tests/shown.py --edit NAME` makes such an edit, of which standard input has the lines.
"""

import re
import shlex
import subprocess
import sys
import tempfile
from dataclasses import dataclass
from pathlib import Path

# What the shell prints after each command, so that outputs can be told apart.
MARK = "@@ the next command @@"


@dataclass
class Command:
    """A command of a document, at a line of it, and what is shown below it."""

    line: int
    words: str
    shown: str


@dataclass
class NewFile:
    """A file of which a document shows all lines."""

    name: str
    text: str


@dataclass
class Edit:
    """An edit of a file, of which a document shows the lines before and after."""

    name: str
    change: str


def blocks(path: Path) -> list[tuple[int, str, list[str]]]:
    """The blocks of a document: the line before each, what follows its backquotes, and its lines."""
    lines = path.read_text(encoding="utf-8").split("\n")
    is_manual = path.suffix != ".md"
    begins, ends = (r"\.Bd -literal", r"\.Ed$") if is_manual else (r"```(.+)", r"```$")
    found, at = [], 0
    while at < len(lines):
        begin = re.match(begins, lines[at])
        if begin:
            end = next(n for n in range(at + 1, len(lines)) if re.match(ends, lines[n]))
            inside = lines[at + 1 : end]
            about = "console" if is_manual else begin[1]
            found.append((at + 1, about, [it.replace("\\e", "\\") for it in inside] if is_manual else inside))
            at = end
        elif lines[at] == "```":
            at += 1 + lines[at + 1 :].index("```")
        at += 1
    return found


def commands(start: int, lines: list[str]) -> list[Command]:
    found: list[Command] = []
    for number, line in enumerate(lines, start + 1):
        if line.startswith("$ "):
            found.append(Command(number, line[2:], ""))
        elif line.startswith("> ") and found and not found[-1].shown:
            found[-1].words += "\n" + line[2:]
        elif found:
            found[-1].shown += line + "\n"
        else:
            raise ValueError(f"line {number}: the block doesn't begin with a command")
    return found


Step = Command | NewFile | Edit


def steps(path: Path) -> list[Step]:
    """The commands, files and edits of a document, in its order."""
    found: list[Step] = []
    for start, about, lines in blocks(path):
        kind, _, name = about.partition(" ")
        if kind == "console":
            found += commands(start, lines)
        elif kind == "text" and name:
            found.append(NewFile(name, "".join(f"{it}\n" for it in lines)))
        elif kind == "diff" and name:
            found.append(Edit(name, "".join(f"{it}\n" for it in lines)))
    return found


def edited(text: str, change: str) -> str:
    """The text of a file after an edit."""
    for place in change.rstrip("\n").split("\n\n"):
        rows = place.split("\n")
        old, new = ("".join(f"{row[1:]}\n" for row in rows if row[0] in kept) for kept in ("- ", "+ "))
        if old and f"\n{text}".count(f"\n{old}") != 1:
            raise ValueError(f"these lines aren't there just once:\n{old}")
        text = f"\n{text}".replace(f"\n{old}", f"\n{new}")[1:] if old else text + new
    return text


def script(all_steps: list[Step]) -> str:
    """One script of all steps. The status of each command is there for the next one."""
    parts = ["status=0"]
    for it in all_steps:
        match it:
            case Command(words=words):
                parts += ["(exit $status)", words, "status=$?", f"printf '\\n%s\\n' '{MARK}'"]
            case NewFile(name, text):
                parts += [f"cat >{name} <<'{MARK}'", text + MARK]
            case Edit(name, change):
                editor = shlex.join([sys.executable, str(Path(__file__).resolve()), "--edit", name])
                parts += [f"{editor} <<'{MARK}'", change + MARK]
    return "\n".join(parts) + "\n"


def differences(program: Path, path: Path) -> tuple[list[str], int]:
    """What is printed otherwise than a document shows it, and how many commands it has."""
    all_steps = steps(path)
    shown = [it for it in all_steps if isinstance(it, Command)]
    with tempfile.TemporaryDirectory() as room:
        folder = Path(room, "folder")
        (folder / "bin").mkdir(parents=True)
        (folder / "bin" / "brl").symlink_to(program)
        work = folder / "work"
        work.mkdir()
        known = {"PATH": f"{folder}/bin:/usr/bin:/bin", "HOME": str(work), "LC_ALL": "C.UTF-8"}
        ran = subprocess.run(["sh", "-s"], input=script(all_steps), cwd=work, env=known, text=True, stdout=subprocess.PIPE,
                             stderr=subprocess.STDOUT, timeout=300)
    # a command without output leaves the line feed before the mark alone
    *outputs, rest = ran.stdout.split(f"\n{MARK}\n")
    wrong = [f"{path}: printed at the end:\n{rest}"] if rest else []
    if len(outputs) != len(shown):
        wrong.append(f"{path}: {len(shown)} commands, of which {len(outputs)} ended")
    for command, printed in zip(shown, outputs):
        if printed != command.shown:
            wrong.append(f"{path}:{command.line}: $ {command.words}\nshown:\n{command.shown}printed:\n{printed}")
    return wrong, len(shown)


def main(words: list[str]) -> int:
    if len(words) < 2:
        print(__doc__, file=sys.stderr)
        return 2
    if words[0] == "--edit":
        file = Path(words[1])
        file.write_text(edited(file.read_text(encoding="utf-8"), sys.stdin.read()), encoding="utf-8")
        return 0
    program = Path(words[0]).resolve()
    for name in words[1:]:
        wrong, count = differences(program, Path(name))
        if wrong or not count:
            print(f"FAILED: {name}", *wrong or ["it has no commands"], sep="\n")
            return 1
        print(f"ok: {name}, {count} commands print what it shows")
    return 0


if __name__ == "__main__":
    sys.exit(main(sys.argv[1:]))
