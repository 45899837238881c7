#!/usr/bin/env python3
"""Cuts tables with the built program, and compares its files and what it prints with those of tests/plain_cut.py.

  tests/cut.py PROGRAM

Each table is cut with and without `--rewrite`, by its name and by a path with a folder. Nothing but the files of the cut
is written. The cut is read by `brl survey` without a fault and by `brl search`, and cutting it again gives the same
bytes. With `--only` its files are the same but for marks before comments, and it is read, too. The tables are those of tests/plain_cut.py, whose cuts are written out there, those of the examples, and some here
with lines near the limit of 2,048 bytes. Then come folders and files that are there already, or can't be made.

A line is printed for each case that failed. The last line is 'cut: N passed, M failed'.
"""

import contextlib
import os
import re
import resource
import signal
import subprocess
import sys
import tempfile
from collections.abc import Callable, Iterator
from dataclasses import dataclass
from functools import partial
from pathlib import Path

sys.dont_write_bytecode = True
import plain_cut
from plain_cut import ABC, NO_VERDICT, Stop
from plain_table import Table

EXAMPLES = Path(__file__).resolve().parent.parent / "examples"

# So many states and pairs the search of a cut may find.
LIMIT = "40"


# A table of more files is cut by its name alone, without `--rewrite`: it takes seconds.
MANY_FILES = 100


# What a table's notices are on standard error.
NOTICES = re.compile(rb"(notice DefinedAgain [^\n]*\n)*")


class Wrong(Exception):
    """What must hold of a case doesn't."""


@dataclass(frozen=True)
class Answer:
    out: bytes
    err: bytes
    status: int


def need(holds: object, said: str) -> None:
    if not holds:
        raise Wrong(said)


def tree(folder: Path) -> dict[str, object]:
    """What is in a folder, by its paths: the bytes of files, where links lead, and which are folders."""
    found: dict[str, object] = {}
    for path in sorted(folder.rglob("*")):
        name = str(path.relative_to(folder))
        found[name] = os.readlink(path) if path.is_symlink() else path.read_bytes() if path.is_file() else path.is_dir()
    return found


def folders(paths: list[str]) -> dict[str, object]:
    """The folders of some paths."""
    return {str(it): True for path in paths for it in Path(path).parents if str(it) != "."}


class Room:
    """The program, in a folder of its own with files."""

    def __init__(self, program: Path, folder: str, files: dict[str, str | bytes]) -> None:
        self.program, self.folder = program, Path(folder)
        plain_cut.make(self.folder, files)

    def run(self, *words: str | Path, input: bytes = b"", out: int | None = None) -> Answer:
        streams = {"stdout": out or subprocess.PIPE, "stderr": subprocess.PIPE}
        ran = subprocess.run([self.program, *words], cwd=self.folder, input=input, timeout=60, **streams)
        return Answer(ran.stdout or b"", ran.stderr, ran.returncode)

    def expected(self, table: str, folder: str, is_rewriting: bool, looked: list[str]) -> tuple[Answer, dict[str, bytes]]:
        """The answer of the plain program, and the files that it would write."""
        with contextlib.chdir(self.folder):
            try:
                files, text = plain_cut.cut(table, is_rewriting, looked)
            except Stop as fault:
                return Answer(b"", f"{fault}\n".encode(), 2), {}
        return Answer(text.encode(), b"", plain_cut.status_of(text)), {f"{folder}/{name}": it for name, it in files.items()}

    def cut(self, table: str, folder: str, is_rewriting: bool, looked: list[str]) -> dict[str, bytes]:
        """Cuts a table. The answer, the files of the cut and all others are as the plain program has them."""
        before = tree(self.folder)
        want, files = self.expected(table, folder, is_rewriting, looked)
        got = self.run("cut", table, folder, *(["--rewrite"] if is_rewriting else []), *(f"--path={it}" for it in looked))
        need(got == want, f"{got}\nwhere {want} is wanted")
        after, wanted = tree(self.folder), before | folders([*files]) | files
        for path in sorted(after.keys() | wanted.keys()):
            need(after.get(path) == wanted.get(path), f"{path} is {after.get(path)!r}\nwhere {wanted.get(path)!r} is wanted")
        return files

    def check_cut(self, root: str, kept: int) -> None:
        """A cut is read, as `brl survey` and `brl search` say."""
        surveyed = self.run("survey", root)
        status = 1 if b"no line defines a character\n" in surveyed.out else 0
        need(surveyed.status == status and NOTICES.fullmatch(surveyed.err), f"survey of the cut: {surveyed}")
        notes = {b"no line defines a character", f"{kept} of {kept} lines are read".encode()}
        others = set(surveyed.out.splitlines()[:-1]) - notes
        need(not others and f"{kept} of {kept} lines".encode() in surveyed.out, f"survey of the cut: {surveyed.out!r}")
        found = self.run("search", "--limit", LIMIT, root, "/dev/null")
        need(found.status in (0, 1, 3) and found.out and NOTICES.fullmatch(found.err), f"search of the cut: {found}")
        need(surveyed.err == found.err, f"the notices of a survey: {surveyed.err!r}\nand of a search: {found.err!r}")

    def check_only(self, table: str, files: dict[str, bytes], is_rewriting: bool, looked: list[str], status: int) -> None:
        """A cut that judges lines has the same files, where lines that can act are marked, and is read. A survey names the
        same lines."""
        root = next(iter(files))
        chars = "".join(f"\\z{ord(it):08x}" for it in Table(str(self.folder / root)).chars)
        if not chars:
            return
        options = [f"--only={chars}", *(f"--path={it}" for it in looked)]
        got = self.run("cut", table, "only", *options, *(["--rewrite"] if is_rewriting else []))
        named = plain_cut.acting(got.out.decode())
        need(named and got.status == max(status, named[1] > 0), f"cut --only: {got}")
        found = {name: self.folder.joinpath("only", name).read_bytes() for name in (it.partition("/")[2] for it in files)}
        marked = plain_cut.marks({path.partition("/")[2]: it for path, it in files.items()}, found)
        need(marked is not None and marked <= named[1], f"the files of cut --only: {found}")
        if is_rewriting:
            surveyed = self.run("survey", table, *options)
            need(plain_cut.acting(surveyed.out.decode()) == named and surveyed.status == got.status, f"survey --only: {surveyed}")
        self.check_cut(f"only/{root.partition('/')[2]}", kept_lines(got))

    def check_again(self, root: str, files: dict[str, bytes], is_rewriting: bool) -> None:
        """Cutting a cut again gives the same bytes, and leaves nothing out."""
        first = {path.partition("/")[2]: it for path, it in files.items()}
        again = self.cut(root, "again", is_rewriting, [])
        need({path.partition("/")[2]: it for path, it in again.items()} == first, f"the cut of the cut: {again}")


def kept_lines(answer: Answer) -> int:
    return int(answer.out.split(b" ", 1)[0])


# ---- Tables


def check_table(room: Room, table: str, is_rewriting: bool, looked: list[str]) -> None:
    """All that must hold of the cut of a table, whose files are looked for in some folders too."""
    want, _ = room.expected(table, "cut", is_rewriting, looked)
    files = room.cut(table, "cut", is_rewriting, looked)
    if files:
        root = f"cut/{table.rpartition('/')[2]}"
        room.check_cut(root, kept_lines(want))
        room.check_again(root, files, False)
        room.check_only(table, files, is_rewriting, looked, want.status)


def long_lines() -> str:
    """Lines of all lengths near the limit, of characters of one to four bytes."""
    lines = []
    for char in "aé€😀":
        size = len(char.encode())
        for count in range(2000 // size, 2046 // size + 1):
            lines += [f"x {char * count}", f"letter a 1 {char * ((count * size - 9) // size)}"]
    return "\n".join(lines) + "\n"


def long_rewritten() -> str:
    """Lines whose rewritten form has all lengths near the limit, of characters of one to four bytes."""
    lines = ["letter a 1"]
    for char in "aé€😀":
        size = len(char.encode())
        for count in range(1990 // size, 2040 // size + 1):
            lines += [f"noback letter b 12 {char * count}", f"base uppercase A a {char * count}"]
    return "\n".join(lines) + "\n"


MORE = {
    "lines near the limit of a comment": {"t.ctb": long_lines()},
    "lines near the limit that could be rewritten": {"t.ctb": long_rewritten()},
    "lines near the limit with a byte order mark and CRLF": {"t.ctb": b"\xef\xbb\xbf" + long_lines().replace("\n", "\r\n").encode()},
    "a comment that begins with blanks": {"t.ctb": f"\t x {'é' * 1020}\n \t\n\t# y\n"},
    "carriage returns alone": {"t.ctb": "letter a 1\rletter b 2\r"},
    "a file of nothing but a byte order mark": {"t.ctb": b"\xef\xbb\xbf"},
    "two byte order marks": {"t.ctb": b"\xef\xbb\xbf\xef\xbb\xbfletter a 1\nletter b 1\n"},
    "a byte order mark in an include": {"t.ctb": "include u\nx\n", "u": b"\xef\xbb\xbfx\r\nletter a 1"},
    "an include without a name": {"t.ctb": "include\ninclude \t\n"},
    "an include of a folder's file, twice": {"t.ctb": "include a/b/u\ninclude a/v\ninclude a/b/u\n", "a/b/u": "include a/v", "a/v": "x\n"},
    "files that include each other": {"t.ctb": "include u\nletter a 1\n", "u": "include v\n", "v": "include t.ctb\ninclude u\ninclude v\n"},
    "a dictionary that is there": {"t.ctb": "include h.dic\ninclude d.dic/u\n", "h.dic": "ISO8859-1\n", "d.dic/u": "letter a 1\n"},
    "opcodes as often, in the order of their bytes": {"t.ctb": "y\nX\nx\nÄ\nX1\n~\nnofor y\nnofor\nnofor Y\n"},
    "a table without lines that are read": {"t.ctb": "pass2 x y\ncorrect x y\n"},
    "a bad dictionary isn't read": {"t.ctb": "include /h.dic\ninclude a//h.dic\n"},
    "a fault after an include that leads out": {"t.ctb": "include u\ninclude ../x\ninclude w\n", "u": "", "w": b"\xff"},
    "an include that leads out after a fault": {"t.ctb": "include u\ninclude w\ninclude ../x\n", "u": "", "w": b"\xff"},
    "names with blanks and other marks": {"t.ctb": "include ü.cti x\ninclude \\x0041\n", "ü.cti": "letter a 1\n", "\\x0041": "x\n"},
    "capitals of a letter without cells": {"t.ctb": "base uppercase Á á\nletter á 9\nbase uppercase A a\nnoback letter a 9\nletter a 2\n"},
    "capitals of capitals": {"t.ctb": "base uppercase B A\nbase uppercase A a\nuplow Cc 14,1\nbase uppercase D C\nletter a 1\n"},
    "a capital that is written by an escape": {"t.ctb": "letter \\x0061 1\nbase uppercase \\x0041 a\nbase uppercase A \\x0061\n"},
    "contractions by signs of other files": {"t.ctb": "contraction a\ninclude u\nletsign 4\n", "u": "letsign 5\nletter a 1\nletsign x\nnocontractsign 6\ncontraction a\n"},
    "a letter sign of another file": {"t.ctb": "letter a 1\ninclude u\nletter b 12\nword b+ 3\nsign + 2\n", "u": "letsign 6\nletsign 5\ncontraction ab\nprfword a 2\n"},
    "a letter sign in a folder": {"t.ctb": "include d/u\nnoletsign b\n", "d/u": "letter a 1\nletter b 2\nletsign 6\n"},
    "a letter sign beside the file for it": {"t.ctb": "letter a 1\nletsign 6\n", "letsign-made.cti": "letter b 12\n"},
    "a letter sign of letters that are escaped": {"t.ctb": "letter \\s 1\nletter \\x007f 2\nletter \\\\ 3\nlowercase \\x00e9 4\nletsign 6\nalways \\y000e9 5\n"},
    "contractions of capitals": {"t.ctb": "base uppercase A a\nletter a 1\nlowercase A 1\ncontraction A\ncontraction a\ncontraction aA\n"},
    "contractions of digits and marks": {"t.ctb": "digit 1 2\nlitdigit 1 3\nsign # 4\nspace \\s 0\ncontraction 1#\ncontraction #\\s x\ncontraction =\nmath = 5\n"},
    "a definition that is rewritten and left out": {"t.ctb": "noback space \\s 0\nnoback\tsign  \\s\t9 x\n noback  math\t+  6 y\n"},
}


def tables() -> Iterator[tuple[str, dict[str, str | bytes], tuple[str, ...]]]:
    """Tables by their names and files, and the folders in which these are looked for too."""
    for case in plain_cut.CASES:
        yield case.name, case.files, case.folders
    for name, files in MORE.items():
        yield name, files, ()
    for path in sorted(EXAMPLES.glob("*.ctb")):
        texts = {it.name: it.read_bytes() for it in EXAMPLES.glob("*.ct[bi]")}
        yield f"the example {path.name}", {**texts, "t.ctb": path.read_bytes()}, ()


def within(folder: str, files: dict[str, str | bytes]) -> dict[str, str | bytes]:
    return {f"{folder}/{name}": it for name, it in files.items()}


# ---- Folders and files

TABLE = {"t.ctb": "include a/u\nx\n" + ABC, "a/u": "space \\s 0\n", "v": "y\n"}
CUT = {"d/t.ctb": b"include a/u\n# B1 OutsideProfile x: x\n" + ABC.encode(), "d/a/u": b"space \\s 0\n"}
CUT_TEXT = f"4 of 5 lines are kept\nopcode x: 1 (not in liblouis)\nfile t.ctb: 3 of 4 lines are read\n{NO_VERDICT}".encode()


def refused(room: Room, said: str, folder: str = "d") -> None:
    """The table isn't cut into a folder: this is the fault, and nothing is written."""
    before = tree(room.folder)
    got = room.run("cut", "t.ctb", folder)
    need(got == Answer(b"", f"{said}\n".encode(), 2), f"{got}\nwhere {said} is wanted")
    need(tree(room.folder) == before, "something was written")


def file_is_there(room: Room) -> None:
    plain_cut.make(room.folder, {"d/t.ctb": "kept"})
    refused(room, "error: d/t.ctb is there already")


def second_file_is_there(room: Room) -> None:
    plain_cut.make(room.folder, {"d/a/u": "kept"})
    refused(room, "error: d/a/u is there already")


def same_cut_twice(room: Room) -> None:
    room.cut("t.ctb", "d", False, [])
    refused(room, "error: d/t.ctb is there already")


def own_folder(room: Room) -> None:
    refused(room, "error: ./t.ctb is there already", ".")


def folder_is_there(room: Room) -> None:
    plain_cut.make(room.folder, {"d/a/u/w": "kept"})
    refused(room, "error: d/a/u is there already")


def link_is_there(room: Room) -> None:
    (room.folder / "d").mkdir()
    (room.folder / "d/t.ctb").symlink_to("../v")
    refused(room, "error: d/t.ctb is there already")


def link_to_nothing(room: Room) -> None:
    (room.folder / "d").mkdir()
    (room.folder / "d/t.ctb").symlink_to("../nothing")
    refused(room, "error: d/t.ctb is there already")


def other_files_stay(room: Room) -> None:
    plain_cut.make(room.folder, {"d/w": "kept", "d/a/w": "kept"})
    room.cut("t.ctb", "d", False, [])


def folder_in_folders(room: Room) -> None:
    room.cut("t.ctb", "e/f/g", False, [])


def whole_path(room: Room) -> None:
    got = room.run("cut", str(room.folder / "t.ctb"), str(room.folder / "d"))
    told = CUT_TEXT.replace(b"file t.ctb", f"file {room.folder}/t.ctb".encode())
    need(got == Answer(told, b"", 1), f"{got}")
    need({name: it for name, it in tree(room.folder).items() if name in CUT} == CUT, "the files differ")


def link_to_folder(room: Room) -> None:
    (room.folder / "e").mkdir()
    (room.folder / "d").symlink_to("e")
    got = room.run("cut", "t.ctb", "d")
    need(got == Answer(CUT_TEXT, b"", 1), f"{got}")
    need((room.folder / "e/t.ctb").read_bytes() == CUT["d/t.ctb"], "the file behind the link")


def folder_is_file(room: Room) -> None:
    refused(room, "U7 CannotWrite v/t.ctb", "v")


def folder_below_file(room: Room) -> None:
    refused(room, "U7 CannotWrite v/d/t.ctb", "v/d")


def second_folder_is_file(room: Room) -> None:
    """The first file stands where the second one can't be written, and is named."""
    plain_cut.make(room.folder, {"d/a": "kept"})
    before = tree(room.folder)
    got = room.run("cut", "t.ctb", "d")
    need(got == Answer(b"", b"U7 CannotWrite d/a/u; written before it: d/t.ctb\n", 2), f"{got}")
    need(tree(room.folder) == {**before, "d/t.ctb": CUT["d/t.ctb"]}, "other files are there")


def closed_folder(room: Room) -> None:
    (room.folder / "e").mkdir(mode=0o500)
    refused(room, "U7 CannotWrite e/t.ctb", "e")
    refused(room, "U7 CannotWrite e/d/t.ctb", "e/d")


def device_as_folder(room: Room) -> None:
    refused(room, "U7 CannotWrite /dev/full/t.ctb", "/dev/full")


def mounting(script: str) -> list[str]:
    """The words that run a script where a small file system may be mounted, which nobody else sees."""
    return ["unshare", "-m" if os.geteuid() == 0 else "-rm", "sh", "-c", script, "sh"]


def can_mount() -> bool:
    with tempfile.TemporaryDirectory() as folder, contextlib.suppress(OSError):
        words = mounting('mount -t tmpfs -o size=4k none "$1"')
        return subprocess.run([*words, folder], capture_output=True).returncode == 0
    return False


def full_device(room: Room) -> None:
    """On a device with room for one file the first one is whole, and of the second one nothing is left."""
    (room.folder / "d").mkdir()
    words = mounting('mount -t tmpfs -o size=4k none d; "$@"; status=$?; cp -r d seen; exit $status')
    ran = subprocess.run([*words, room.program, "cut", "t.ctb", "d"], cwd=room.folder, capture_output=True, timeout=60)
    got = Answer(ran.stdout, ran.stderr, ran.returncode)
    need(got == Answer(b"", b"U7 CannotWrite d/a/u; written before it: d/t.ctb\n", 2), f"{got}")
    need(tree(room.folder / "seen") == {"a": True, "t.ctb": CUT["d/t.ctb"]}, f"{tree(room.folder / 'seen')}")


def ended_while_writing(room: Room) -> None:
    """A cut that the system ends in the middle of its second file leaves the first one whole, and the part by its own name."""
    text = f"space \\s 0\n#{'x' * 1000}\n"
    (room.folder / "a/u").write_text(text)
    before = tree(room.folder)
    limit = partial(resource.setrlimit, resource.RLIMIT_FSIZE, (500, 500))
    ran = subprocess.run([room.program, "cut", "t.ctb", "d"], cwd=room.folder, capture_output=True, preexec_fn=limit, timeout=60)
    need(ran.returncode == -signal.SIGXFSZ or b"U7 CannotWrite d/a/u" in ran.stderr, f"{ran}")
    after = tree(room.folder)
    part = after.pop("d/a/u.part1", b"")
    need(isinstance(part, bytes) and text.encode().startswith(part), f"the part: {part!r}")
    need(after == before | {"d": True, "d/a": True, "d/t.ctb": CUT["d/t.ctb"]}, f"{after}")


def beside_a_part(room: Room) -> None:
    """A part that an earlier cut left stays, and is no file of the cut."""
    plain_cut.make(room.folder, {"d/t.ctb.part1": "somebody else"})
    room.cut("t.ctb", "d", False, [])


def full_output(room: Room) -> None:
    """A full standard output changes nothing of the files."""
    with open("/dev/full", "wb") as full:
        got = room.run("cut", "t.ctb", "d", out=full.fileno())
    need(got == Answer(b"", b"U4 OutputFailed\n", 2), f"{got}")
    need({name: it for name, it in tree(room.folder).items() if name in CUT} == CUT, "the files differ")


def table_from_input(room: Room) -> None:
    got = room.run("cut", "/dev/stdin", "d", input=b"letter a 1\nx")
    need(got.status == 1 and got.out.startswith(b"1 of 2 lines are kept\n"), f"{got}")
    need((room.folder / "d/stdin").read_bytes() == b"letter a 1\n# B1 OutsideProfile x: x", "the file differs")


def bad_words(room: Room) -> None:
    for words in ([], ["t.ctb"], ["t.ctb", "d", "e"], ["t.ctb", "d", "--nothing"]):
        before = tree(room.folder)
        got = room.run("cut", *words)
        need(got.status == 2 and got.err and not got.out, f"{words}: {got}")
        need(tree(room.folder) == before, f"{words}: something was written")


DEVICES = [device_as_folder, full_output, table_from_input]
PLACES: list[Callable[[Room], None]] = [
    file_is_there, second_file_is_there, same_cut_twice, own_folder, folder_is_there, link_is_there, link_to_nothing,
    other_files_stay, folder_in_folders, whole_path, link_to_folder, folder_is_file, folder_below_file, second_folder_is_file,
    closed_folder, device_as_folder, full_device, ended_while_writing, beside_a_part, full_output, table_from_input, bad_words,
]


def is_skipped(case: Callable[[Room], None]) -> bool:
    if case == closed_folder:
        return os.geteuid() == 0
    if case == full_device:
        return not can_mount()
    return case in DEVICES and not Path("/dev/full").exists()


# ---- All cases

Case = tuple[str, dict[str, str | bytes], Callable[[Room], None]]


def cases() -> Iterator[Case]:
    for name, files, looked in tables():
        ways = [(False, ""), (True, ""), (False, "tables/sub"), (True, "tables/sub")]
        for is_rewriting, folder in ways[:1] if len(files) > MANY_FILES else ways:
            path, *there = (f"{folder}/{it}".lstrip("/") for it in ("t.ctb", *looked))
            told = f"{name}, {path}{', --rewrite' if is_rewriting else ''}"
            placed = within(folder, files) if folder else files
            yield told, placed, partial(check_table, table=path, is_rewriting=is_rewriting, looked=there)
    for case in PLACES:
        if is_skipped(case):
            print(f"skipped: {case.__name__}")
        else:
            yield case.__name__, TABLE, case


def said_of(program: Path, case: Case) -> str:
    """What is wrong with a case, if anything."""
    _, files, holds = case
    with tempfile.TemporaryDirectory() as folder:
        try:
            holds(Room(program, folder, files))
        except (Wrong, subprocess.TimeoutExpired) as wrong:
            return str(wrong)
        finally:
            for path in Path(folder).glob("**/"):
                path.chmod(0o700)
    return ""


def main(words: list[str]) -> int:
    if len(words) != 1:
        print(__doc__, file=sys.stderr)
        return 2
    if plain_cut.main([]):
        return 1
    program, passed, failed = Path(words[0]).resolve(), 0, 0
    for case in cases():
        said = said_of(program, case)
        passed, failed = passed + (not said), failed + bool(said)
        if said:
            print(f"FAILED: {case[0]}: {said[:2000]}", flush=True)
    print(f"cut: {passed} passed, {failed} failed")
    return 1 if failed else 0


if __name__ == "__main__":
    sys.exit(main(sys.argv[1:]))
