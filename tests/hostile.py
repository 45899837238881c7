#!/usr/bin/env python3
"""Runs the built program with requests that fail, and on files that were cut off.

  tests/hostile.py PROGRAM [TESTS..]

*Refused allocations.* Each run is made once for each allocation that it makes, that one refused.
Where that comes while the words are read, the program ends with status 2 or 3 and prints nothing to
standard output. After that it prints `Memory` and ends with status 3, with no more on standard output
than whole lines that it wrote before, and with no certificate written; of a cut it may have written
the first files, each whole. Or it asks for less, as a list that grows may do, and has its full answer.
The same run with nothing refused has its full answer.

*Calls that are made again.* TESTS are test programs. Their tests of the module `again` make a call, in
which memory may run out, and make it again in the same process: then it must have its answer. Each is
run once for each allocation of the first call, that one refused.

*Reads and writes that fail*, and the run after them, which has its full answer: of a cut each of its
writes. A search and a cut that are killed while they write. *Certificates and tables that are cut
off* at every byte. *Limits*, just kept and just passed.

tests/faulty.c is what lets a request fail; `cc` compiles it. A line is printed for each case. The last
line is 'hostile: N passed, M failed; K allocations refused'.
"""

import os
import re
import signal
import subprocess
import sys
import tempfile
from collections.abc import Iterator
from concurrent.futures import ThreadPoolExecutor
from dataclasses import dataclass, field
from itertools import accumulate
from pathlib import Path

TESTS = Path(__file__).resolve().parent

# Files of a run are in memory where the system has such a place.
FAST = "/dev/shm" if os.access("/dev/shm", os.W_OK) else None

FIRST = "space \\s 0\nletter a 1\nletter b 12\nletter c 14\n"
TWO = "letter a 1\nletter b 12\n"
ALIKE = TWO + "letter x 1-12\n"
APART = ALIKE + "always ab 14\n"
WORD = "space \\s 0\nletter b 12\nletter u 136\nletter t 2345\nword but 12\nword b 56-12\n"
NUMBERS = "letter a 1\nlitdigit 1 1\nnumsign 3456\nnocontractsign 56\nnumericnocontchars a\n"
LARGE = WORD + NUMBERS + "uplow Éé 123456\nletter q 1\n"
EMPTY_CERT = "BRLCERT 3\nstate 1 0 0\nend 1 0\n"
TWO_CERT = "BRLCERT 3\nstate 1 0 0\nstate 8 0 0\nend 2 0\n"
APART_CERT = "BRLCERT 2\nstate 1 0\nstate 8 0\nstate 8 0 b62*\npair 1 2 12\nend 3 1\n"
LETTER_CERT = "BRLCERT 1\nstate 1 0 0 -\nstate 8 0 0 61\nstate 8 0 1 -\npair 1 2 -\nend 3 1\n"
REPORT = """\
left: ab
right: x
cells: 1-12
left from 0:
  a  1   t.ctb:1
  b  12  t.ctb:2
right from 0:
  x  1-12  t.ctb:3
"""
LINES_REPORT = """\
left: ab
right: x
cells: 1-12
left from 0:
  a  1   t.ctb:1
    t.ctb:1: letter a 1
  b  12  t.ctb:2
    t.ctb:2: letter b 12
right from 0:
  x  1-12  t.ctb:3
    t.ctb:3: letter x 1-12
"""

SURVEY = """\
table: t.ctb
B1 OutsideProfile pass2 at t.ctb:3
B4 BadDots 9 at t.ctb:4
opcode letter: 1
opcode pass2: 1 (not in the profile)
file t.ctb: 2 of 4 lines are read
undefined characters (B5 to B7) are looked for once no line has another fault
2 of 4 lines are read
table: u.ctb
no line defines a character
0 of 0 lines are read
no verdict: a survey doesn't decide whether two texts have the same cells
"""
# A table of three files, and the files of its cut, of which one is made, with what is printed.
WHOLE = {
    "t.ctb": "include p/u.cti\nbase uppercase A a\npass2 x\ninclude v.cti\ninclude v.cti\n",
    "p/u.cti": "noback letter a 1\nalways ab 9\n",
    "v.cti": "letter b 12\nletsign 56\nalways abc 3\ninclude none\n",
}
CUT = {
    "t.ctb": "include p/u.cti\nuplow Aa 1 # base uppercase A a\n# B1 OutsideProfile pass2: pass2 x\ninclude v.cti\n# repeated v.cti: include v.cti\n",
    "p/u.cti": "letter a 1 # noback letter a 1\n# B4 BadDots 9: always ab 9\n",
    "v.cti": "letter b 12\ninclude letsign-made.cti # letsign 56\n# B5 UndefinedInRule abc: always abc 3\n# L1 NotFound none: include none\n",
    "letsign-made.cti": "word a 56-1\nword b 56-12\n",
}
CUT_ANSWER = """\
5 of 10 lines are kept, 2 of them rewritten
opcode always: 2
opcode include: 2
opcode pass2: 1 (not in the profile)
file t.ctb: 1 of 3 lines are read
file p/u.cti: 1 of 2 lines are read
file v.cti: 1 of 3 lines are read
no verdict: a cut doesn't decide whether two texts have the same cells
"""
# A rule of each kind, rules that are none, and lines that aren't read.
FOUR = "letter a 1\nletter b 12\nletter c 14\nletter d 145\n"
SLIPS = FOUR + (
    "always dad 3\nlargesign bad 5\nbase uppercase A a\nword cabba 14-1-12-14-1\nword bacca 12-14-1-14-1\nnofor word accca 2\n"
    "word abcba 1-12-14-6-12-1\nword acbcac 1-14-12-14-14\nword abcabca 1-12-14-2-12-14-2\nword Abab 1-12-1-12\nalways bdc 46-3\n"
    "noback always bdb 46-3\nword baad 12-1-4-145\n"
)
SLIPS_TEXT = """likely slips: 7 lines
  t.ctb
    8 word cabba           cell 4 is 14 c for 12 b
    9 word bacca           cells 2 and 3 are exchanged: 14 c, 1 a
    11 word abcba          cell 4, 6, is too many
    12 word acbcac         no 1 a before cell 5
    15 always bdc, 16 bdb  same cells; c 14, b 12
    17 word baad           cell 3 is 4 for 1 a
    13 word abcabca        cell 4 is 2 accca for 1 a; cell 7 is 2 accca for 1 a
"""
SLIP = FOUR + "word cabba 14-1-12-14-1\n"
SLIP_COLUMNS = (
    "kind\tfile\tline\topcode\ttext\tcells\tsaid\tspelling\tspelled\tfile2\tline2\topcode2\ttext2\tcells2\n"
    "replaced\tu.ctb\t5\tword\tcabba\t14-1-12-14-1\tcell 4 is 14 c for 12 b\tc a b b a\t14-1-12-12-1\t\t\t\t\t\n"
)
HABITS = FOUR + "word abcda 1-12-6-145-1\nword bacdb 12-1-6-145-12\nword dbcab 145-12-6-1-12\nword bbcdd 12-12-6-145-145\n"
HABITS_TEXT = "no likely slips\n    4 lines alike, perhaps meant: 6 for 14 c, as t.ctb:5 abcda\n"

RULES = """\
0  always  ab  14  t.ctb:2
1  letter  a  1  u.ctb:1
2  letter  b  12  u.ctb:2
"""
EXPLANATION = """\
B2 MissingOperand
When: the opcode needs another operand
Named: the opcode, or a prefix that ends its line
What to do: Add it.
"""
TRACE = """\
text: 1a
cells: 3456-1-56-1
  1  3456  1  t.ctb:2
  a  56    1  t.ctb:1
"""
LINES_TRACE = """\
text: 1a
cells: 3456-1-56-1
  1  3456  1  t.ctb:2
    t.ctb:3: numsign 3456
    t.ctb:2: litdigit 1 1
  a  56    1  t.ctb:1
    t.ctb:4: nocontractsign 56
    t.ctb:1: letter a 1
"""


@dataclass(frozen=True)
class Run:
    """A run of the program, and its answer. Where `out` has no line feed at its end, it is how the output begins."""

    name: str
    words: list[str]
    files: dict[str, str | bytes]
    out: str = ""
    status: int = 0
    input: str = ""
    err: str = ""
    # the certificate in the file `o`, or how it begins
    written: str | None = None
    # the files of the folder `d`, by their names, in the order in which they are written
    tree: dict[str, str] = field(default_factory=dict)


@dataclass(frozen=True)
class Ended:
    """What came of a run, and what failed in it."""

    out: str
    err: str
    status: int
    written: str | None
    # the files of the folder `d`
    tree: dict[str, str] = field(default_factory=dict)
    # other files that the run made
    left: list[str] = field(default_factory=list)
    allocations: int = 0
    refused: int = 0
    opened: int = 0
    failed: int = 0

    def answer(self) -> tuple[str, str, int, str | None, dict[str, str]]:
        return self.out, self.err, self.status, self.written, self.tree

    def is_of(self, run: Run) -> bool:
        is_exact = run.out.endswith("\n") or not run.out
        is_out = self.out == run.out if is_exact else self.out.startswith(run.out)
        is_written = (self.written is None) == (run.written is None) and (self.written or "").startswith(run.written or "")
        return is_out and is_written and not self.left and (self.status, self.err, self.tree) == (run.status, run.err, run.tree)


@dataclass
class Result:
    name: str
    refused: int = 0
    wrong: list[str] = field(default_factory=list)


class Machine:
    """The program, and the library that lets its requests fail."""

    def __init__(self, program: Path, library: Path) -> None:
        self.program, self.library = program, library

    def run(self, run: Run, **fails: int) -> Ended:
        with tempfile.TemporaryDirectory(dir=FAST) as folder:
            for name, text in run.files.items():
                Path(folder, name).parent.mkdir(parents=True, exist_ok=True)
                Path(folder, name).write_bytes(text if isinstance(text, bytes) else text.encode())
            log, written = Path(folder, "log"), Path(folder, "o")
            known = {"LD_PRELOAD": str(self.library), "FAULTY_LOG": str(log), **{name: str(it) for name, it in fails.items()}}
            ran = subprocess.run([self.program, *run.words], cwd=folder, env=known, input=run.input, capture_output=True,
                                 text=True, timeout=120)
            text = written.read_text() if written.exists() else None
            tree = {str(it.relative_to(Path(folder, "d"))): it.read_text() for it in Path(folder, "d").rglob("*") if it.is_file()}
            left = sorted({it.name for it in Path(folder).iterdir()} - {*(Path(it).parts[0] for it in run.files), "log", "o", "d"})
            # a program that was killed leaves no numbers
            numbers = map(int, log.read_text().split()) if log.exists() else ()
            return Ended(ran.stdout, ran.stderr, ran.returncode, text, tree, left, *numbers)

    def answers(self, run: Run, **fails: int) -> Result:
        """The run has its answer."""
        ended = self.run(run, **fails)
        return Result(run.name, wrong=[] if ended.is_of(run) else [f"{ended.answer()}"])

    def refuses_in_turn(self, run: Run) -> Result:
        """Each allocation of the run is refused in turn."""
        whole, ends = self.run(run), 0
        result = Result(run.name, whole.allocations)
        if not whole.is_of(run):
            result.wrong.append(f"nothing refused: {whole.answer()}")
        for number in range(1, whole.allocations + 1):
            ended = self.run(run, FAIL_ALLOCATION=number)
            if ended.answer() != whole.answer():
                ends += 1
                if not is_ended_by_memory(run, ended, whole):
                    result.wrong.append(f"allocation {number} refused: {ended.answer()}")
            if ended.refused != 1:
                result.wrong.append(f"allocation {number}: {ended.refused} were refused")
        if self.run(run, FAIL_ALLOCATION=whole.allocations + 1).answer() != whole.answer():
            result.wrong.append("it makes more allocations than it did")
        if ends < 0.85 * whole.allocations or not whole.allocations:
            result.wrong.append(f"of {whole.allocations} refusals {ends} ended the run")
        return result

    def fails_once(self, run: Run, after: Run, fails: dict[str, int]) -> Result:
        """A request fails, and the run has this answer; where none does, it has its full one."""
        ended = self.run(run, **fails)
        wrong = [] if ended.is_of(run) and ended.failed else [f"{ended.answer()}, {ended.failed} requests failed"]
        again = self.run(after)
        return Result(run.name, wrong=wrong + ([] if again.is_of(after) and not again.failed else [f"again: {again.answer()}"]))


def is_ended_by_memory(run: Run, ended: Ended, whole: Ended) -> bool:
    """Whether a run has ended as one does in which an allocation was refused."""
    if ended.written is not None or ended.left or not whole.out.startswith(ended.out) or (ended.out and not ended.out.endswith("\n")):
        return False
    if ended.tree != first_files(run, len(ended.tree)):
        return False
    if ended.opened == 0:
        return ended.status in (2, 3) and not ended.out and bool(ended.err)
    # All of standard output may be there where what standard error gets after it isn't.
    is_short = ended.out != whole.out or not ended.out or bool(run.err) and ended.err == "Memory\n"
    return ended.status == 3 and ended.err in ("Memory\n", run.err + "Memory\n") and is_short


def first_files(run: Run, count: int) -> dict[str, str]:
    """The first files that a run writes into its folder."""
    return dict(list(run.tree.items())[:count])


def chain(last: int) -> dict[str, str]:
    """The files c1 to that, each of which but the last includes the next."""
    return {f"c{n}": f"include c{n + 1}\n" for n in range(1, last)} | {f"c{last}": "letter a 1\n"}


def translate(name: str, table: str, text: str, out: str, status: int = 0, err: str = "") -> Run:
    return Run(name, ["translate", "t.ctb"], {"t.ctb": table}, out, status, text, err)


def search(name: str, table: str, out: str, status: int = 0, err: str = "", written: str | None = None) -> Run:
    return Run(name, ["search", "t.ctb", "o"], {"t.ctb": table}, out, status, err=err, written=written)


def check(name: str, table: str, cert: str, out: str, status: int = 1, err: str = "") -> Run:
    return Run(name, ["check", "t.ctb", "c"], {"t.ctb": table, "c": cert}, out, status, err=err)


def refusal(name: str, cert: str, fault: str) -> Run:
    return check(name, APART, cert, f"refused: {fault}\n")


# A list of the pairs of rules of a table, and the same beside a file of these.
PAIRS, STALE = "letter a 1 / letter x 1-12\n", "letter a 1 / letter b 12\n"
SPACES, SET = "space \\s 0\nspace \\t 0\nletter a 1\n", "exchange \\s\\t\n"
SECTION = "small letters: 1 pair of rules diverges, and no others\n  x / ab  1-12  t.ctb:3 letter x  t.ctb:1 letter a\n"
WRITTEN = Run("", ["clashes", "--write", "o", "t.ctb"], {"t.ctb": ALIKE}, SECTION + "1 pair of rules diverges, and no others\n", 1, written=PAIRS)
ACCEPTED_SECTION = "small letters: 0 pairs of rules diverge, and no others but for the accepted ones\n"
ACCEPTED = Run("", ["clashes", "--accept", "p", "--write", "o", "t.ctb"], {"t.ctb": ALIKE, "p": "# meant\n" + PAIRS},
               ACCEPTED_SECTION + "0 pairs of rules diverge, and no others but for the accepted ones\n"
               "but for: 1 pair of rules, 0 sets of characters\n", written="")

RUNS = [
    translate("a text is translated", FIRST, "abc a\n", "ABC A\n"),
    translate("three lines are translated", FIRST, "abc a\nb\nc\n", "ABC A\nB\nC\n"),
    translate("an empty table translates nothing", "", "", ""),
    Run("characters are listed that a table doesn't define", ["translate", "--lacking", "t.ctb"], {"t.ctb": FIRST}, "B\n", 2, "az\nb\nz\n",
        "lacking z U+007A: count 2, first line 1\n"),
    translate("a rule is used", APART, "aab\n", "AC\n"),
    translate("a word is translated", WORD, "b but\n", ";B B\n"),
    translate("a number is translated", NUMBERS, "1a\n", "#A;A\n"),
    search("an empty table is searched", "", "certified: 1 states, 0 pairs\n", written=EMPTY_CERT),
    search("a table of two letters is searched", TWO, "certified: 2 states, 0 pairs\n", written=TWO_CERT),
    search("a clash is found", ALIKE, "left: ", 1),
    search("a table with a word rule is searched", WORD, "certified: ", written="BRLCERT 3\n"),
    search("a table with numbers is searched", NUMBERS, "certified: ", written="BRLCERT 3\n"),
    search("a table with a notice is searched", "letter a 1\nletter a 12\n", "certified: 2 states, 0 pairs\n",
           err="notice DefinedAgain a at t.ctb:2\n", written="BRLCERT 3\n"),
    Run("a limit is passed", ["search", "--limit", "1", "t.ctb", "o"], {"t.ctb": TWO}, "limit: 2 states, 0 pairs\n", 3),
    Run("clashes are listed", ["clashes", "t.ctb"], {"t.ctb": ALIKE}, WRITTEN.out, 1),
    Run("a set of characters is listed", ["clashes", "t.ctb"], {"t.ctb": SPACES},
        "1 set of characters has the same cells, classes and flags, and is in no rule; "
        "below, its first represents it:\n  0  \\s \\t\n"
        "small letters: 1 pair of rules diverges, and no others\n"
        "  1 of other characters of the sets\n1 pair of rules diverges, and no others\n", 1),
    Run("no clash is listed", ["clashes", "t.ctb"], {"t.ctb": TWO},
        "small letters: 0 pairs of rules diverge, and no others\nunambiguous: 2 states, 0 pairs\n"),
    Run("a list of clashes passes a limit", ["clashes", "--limit", "1", "t.ctb"], {"t.ctb": TWO},
        "small letters: 0 pairs of rules diverge, and maybe others\nlimit: 2 states, 0 pairs\n"
        "0 pairs of rules diverge, and maybe others\n", 3),
    Run("pairs of rules are written", WRITTEN.words, WRITTEN.files, WRITTEN.out, 1, written=PAIRS),
    Run("pairs of rules are accepted", ACCEPTED.words, ACCEPTED.files, ACCEPTED.out, written=""),
    Run("a line of accepted pairs is stale", ["clashes", "--accept", "p", "t.ctb"], {"t.ctb": ALIKE, "p": PAIRS + STALE},
        ACCEPTED.out.replace("but for:", "stale: 1 line\nbut for:"), 2, err=f"P2 NotListed {STALE.strip()} at p:2\n"),
    Run("a line of accepted pairs names no rules", ["clashes", "--accept", "p", "t.ctb"], {"t.ctb": TWO, "p": PAIRS},
        "small letters: 0 pairs of rules diverge, and no others\nunambiguous: 2 states, 0 pairs\nstale: 1 line\n"
        "but for: 0 pairs of rules, 0 sets of characters\n", 2, err=f"P1 NoSuchRules {PAIRS.strip()} at p:1\n"),
    Run("a stale line is taken out", ["clashes", "--accept", "p", "--prune", "t.ctb"], {"t.ctb": ALIKE, "p": STALE + PAIRS},
        ACCEPTED.out.replace("but for:", "pruned: 1 line\nbut for:"), err=f"P2 NotListed {STALE.strip()} at p:1\n"),
    Run("pairs would overwrite those that are accepted", ["clashes", "--accept", "p", "--write", "p", "t.ctb"],
        {"t.ctb": ALIKE, "p": PAIRS}, status=2, err="error: the pairs of rules would overwrite p, a file that is read\n"),
    Run("a table is searched but for accepted pairs", ["search", "--accept", "p", "t.ctb", "o"], {"t.ctb": ALIKE, "p": PAIRS},
        "certified: 2 states, 0 pairs\nbut for: 1 pair of rules, 0 sets of characters\n", written="BRLCERT 3\n"),
    Run("a table is searched but for a set of characters", ["search", "--accept", "p", "t.ctb", "o"], {"t.ctb": SPACES, "p": SET},
        "certified: 2 states, 0 pairs\nbut for: 0 pairs of rules, 1 set of characters\n", written="BRLCERT 3\n"),
    Run("a clash beside accepted pairs is found", ["search", "--accept", "p", "t.ctb", "o"], {"t.ctb": ALIKE, "p": ""}, "left: ", 1),
    Run("a limit is passed beside accepted pairs", ["search", "--accept", "p", "--limit", "1", "t.ctb", "o"], {"t.ctb": TWO, "p": ""},
        "limit: 2 states, 0 pairs\n", 3),
    Run("a certificate is accepted but for accepted pairs", ["check", "--accept", "p", "t.ctb", "c"],
        {"t.ctb": TWO, "p": "", "c": TWO_CERT}, "accepted: 2 states, 0 pairs\nbut for: 0 pairs of rules, 0 sets of characters\n"),
    Run("a certificate is refused but for accepted pairs", ["check", "--accept", "p", "t.ctb", "c"],
        {"t.ctb": ALIKE, "p": "", "c": TWO_CERT}, "refused: A3 SplitMissing state 0 rules 0 2\n", 1),
    Run("a line of no set ends a search", ["search", "--accept", "p", "t.ctb", "o"], {"t.ctb": TWO, "p": SET}, status=2,
        err=f"P3 NoSuchSet {SET.strip()} at p:1\n"),
    check("an empty table's certificate is accepted", "", EMPTY_CERT, "accepted: 1 states, 0 pairs\n", 0),
    check("a certificate of version 1 is accepted", "letter a 1\n", LETTER_CERT, "accepted: 3 states, 1 pairs\n", 0),
    check("a certificate of version 2 is accepted", APART, APART_CERT, "accepted: 3 states, 1 pairs\n", 0),
    Run("two texts clash", ["clash", "t.ctb", "ab", "x"], {"t.ctb": ALIKE}, REPORT, 1),
    Run("two tables are surveyed", ["survey", "t.ctb", "u.ctb"], {"t.ctb": TWO + "pass2 x\nletter c 9\n", "u.ctb": ""}, SURVEY, 1),
    Run("a table is cut", ["cut", "t.ctb", "d", "--rewrite"], WHOLE, CUT_ANSWER, tree=CUT),
    Run("a table whose files are in folders is cut", ["cut", "--path", "c", "--path", "e", "t.ctb", "d", "--rewrite"],
        {"t.ctb": WHOLE["t.ctb"], "c/p/u.cti": WHOLE["p/u.cti"], "e/v.cti": WHOLE["v.cti"]},
        CUT_ANSWER.replace("file p/", "file c/p/").replace("file v", "file e/v"), tree=CUT),
    Run("a table whose root is in a folder is cut", ["cut", "--path", "e", "t.ctb", "d", "--rewrite"], {f"e/{name}": text for name, text in WHOLE.items()},
        CUT_ANSWER.replace("file ", "file e/"), tree=CUT),
    Run("a table whose file is in a folder is surveyed", ["survey", "--path", "e", "t.ctb"], {"t.ctb": "include u\n", "e/u": "letter a 1\n"},
        "1 of 1 lines are read\nno verdict: a survey doesn't decide whether two texts have the same cells\n"),
    Run("a cut finds a file that is there", ["cut", "t.ctb", "d"], {**WHOLE, "d/v.cti": "kept\n"}, status=2,
        err="error: d/v.cti is there already\n", tree={"v.cti": "kept\n"}),
    Run("an include leads out of the table's folder", ["cut", "t.ctb", "d"], {"t.ctb": "\ninclude ../u\n"}, status=2,
        err="error: include ../u at t.ctb:2 leads out of the table's folder\n"),
    Run("a text is traced", ["trace", "t.ctb", "1a"], {"t.ctb": NUMBERS}, TRACE),
    Run("two texts with escapes clash", ["clash", "--escapes", "t.ctb", "a\\x0062", "x"], {"t.ctb": ALIKE}, REPORT, 1),
    Run("a text with escapes is traced", ["trace", "--escapes", "t.ctb", "\\x0031a"], {"t.ctb": NUMBERS}, TRACE),
    Run("a text is traced with lines", ["trace", "--lines", "t.ctb", "1a"], {"t.ctb": NUMBERS}, LINES_TRACE),
    Run("two texts with lines clash", ["clash", "--lines", "t.ctb", "ab", "x"], {"t.ctb": ALIKE}, LINES_REPORT, 1),
    Run("a text has a bad escape", ["clash", "--escapes", "t.ctb", "a", "\\q"], {"t.ctb": ALIKE}, status=2, err="F2 BadText \\q\n"),
    Run("rules are listed", ["rules", "t.ctb"], {"t.ctb": "include u.ctb\nalways ab 14\n", "u.ctb": TWO}, RULES),
    Run("a rule is listed", ["rules", "t.ctb", "0"], {"t.ctb": TWO + "noback always ab 14\n"}, "0  always  ab  14  t.ctb:3\n"),
    Run("no rule has a number", ["rules", "t.ctb", "0", "9"], {"t.ctb": TWO}, status=2, err="error: the table has no rule 9\n"),
    Run("rules that no text uses are listed", ["unused", "t.ctb"], {"t.ctb": TWO + "always ab 14\nalways ab 3\n"},
        "1  always  ab  3  t.ctb:4  in its place:  t.ctb:3 always ab\n1 of 4 rules is used by no text\n", 1),
    Run("some text uses each rule", ["unused", "t.ctb"], {"t.ctb": TWO}, "each of 2 rules is used by some text\n"),
    Run("a list of unused rules passes a limit", ["unused", "--limit", "1", "t.ctb"], {"t.ctb": TWO}, "limit: 2 states\n", 3),
    Run("slips are listed", ["slips", "t.ctb"], {"t.ctb": SLIPS}, SLIPS_TEXT, 1),
    Run("slips are listed in columns", ["slips", "--tsv", "t.ctb"], {"t.ctb": "include u.ctb\n", "u.ctb": SLIP}, SLIP_COLUMNS, 1),
    Run("rules with the same difference are listed", ["slips", "t.ctb"], {"t.ctb": HABITS}, HABITS_TEXT),
    Run("no slip is listed", ["slips", "--path", "e", "t.ctb"], {"t.ctb": "include u\n", "e/u": TWO}, "no likely slips\n"),
    Run("slips of a table that can't be loaded", ["slips", "t.ctb"], {"t.ctb": "include u.ctb\n"}, status=2, err="L1 NotFound u.ctb at t.ctb:1\n"),
    Run("a fault is explained", ["explain", "B2 MissingOperand letter at t.ctb:1"], {}, EXPLANATION),
    Run(
        "a fault is explained with the line of its file",
        ["explain", "B2 MissingOperand letter at t.ctb:2"],
        {"t.ctb": "letter a 1\nletter\n"},
        EXPLANATION + "Line:\n    t.ctb:2: letter\nMissing: characters and dots\n",
    ),
    Run("a line is no fault's", ["explain", "B10"], {}, status=2, err="error: no fault is written as B10\n"),
    Run("one text twice is no clash", ["clash", "t.ctb", "ab", "ab"], {"t.ctb": ALIKE}, "no clash\n"),
    Run("two files include each other", ["translate", "t.ctb"], {"t.ctb": "include u.ctb\n", "u.ctb": "include t.ctb\n"},
        status=2, err="L4 Cycle t.ctb at u.ctb:1\n"),
    Run("16 files, each included by the one before", ["translate", "c1"], chain(16), "A\n", input="a\n"),
    Run("17 files", ["translate", "c1"], chain(17), status=2, err="L5 TooDeep c17 at c16:1\n"),
    refusal("a certificate without its last line", APART_CERT[:57], "K8 Truncated line 6"),
    refusal("a blank at its end", APART_CERT[:-1] + " \n", "K2 Syntax line 6"),
    refusal("a leading zero", APART_CERT.replace("state 1 0", "state 01 0"), "K3 NotCanonical line 2"),
    refusal("dots in another order", APART_CERT.replace("pair 1 2 12", "pair 1 2 21"), "K3 NotCanonical line 5"),
    refusal("a wrong count of pairs", APART_CERT.replace("end 3 1", "end 3 2"), "K7 WrongCount line 6"),
    refusal("an unknown version", APART_CERT.replace("BRLCERT 2", "BRLCERT 9"), "K1 Version line 1"),
    refusal("a state that isn't there", APART_CERT.replace("pair 1 2 12", "pair 1 3 12"), "K6 NoSuchState line 5"),
    refusal("a state twice", APART_CERT.replace("state 8 0\n", "state 8 0\nstate 8 0\n", 1), "K4 DuplicateState line 4"),
    refusal("a pair twice", APART_CERT.replace("pair 1 2 12\n", "pair 1 2 12\npair 1 2 12\n"), "K5 DuplicatePair line 6"),
    Run("help is printed", ["--help"], {}, "Translates text into braille"),
    Run("the version is printed", ["--version"], {}, "brl "),
]

# The table of the file t.ctb includes a file, which includes another.
NESTED = {"t.ctb": "include u.ctb\n", "u.ctb": "include v.ctb\n", "v.ctb": "letter a 1\n", "c": LETTER_CERT}
CHECKED = Run("", ["check", "t.ctb", "c"], NESTED, "accepted: 3 states, 1 pairs\n")
TWICE = translate("", FIRST, "abc a\nabc a\n", "ABC A\nABC A\n")
FOUND = search("", TWO, "certified: 2 states, 0 pairs\n", written=TWO_CERT)
KEEPING = Run("", ["search", "t.ctb", "o"], {"t.ctb": TWO, "o": "kept\n"}, FOUND.out, written=TWO_CERT)
PRUNING = Run("", ["clashes", "--accept", "o", "--prune", "t.ctb"], {"t.ctb": ALIKE, "o": STALE + PAIRS},
              ACCEPTED.out.replace("but for:", "pruned: 1 line\nbut for:"), err=f"P2 NotListed {STALE.strip()} at o:1\n", written=PAIRS)
CLASHES = Run("", ["clash", "t.ctb", "ab", "x"], {"t.ctb": ALIKE}, REPORT, 1)
CUTTING = Run("", ["cut", "t.ctb", "d", "--rewrite"], WHOLE, CUT_ANSWER, tree=CUT)
CUTTING_INTO = Run("", CUTTING.words, {**WHOLE, "d/w": "kept\n"}, CUT_ANSWER, tree={**CUT, "w": "kept\n"})


def failing(name: str, run: Run, fails: dict[str, int], err: str, out: str = "", written: str | None = None,
            tree: dict[str, str] | None = None) -> tuple[Run, Run, dict[str, int]]:
    return Run(name, run.words, run.files, out, 2, run.input, err, written, tree or {}), run, fails


FAILING = [
    failing("the certificate can't be read", CHECKED, {"FAIL_READ": 1}, "L2 ReadFailed c\n"),
    failing("the table can't be read", CHECKED, {"FAIL_READ": 2}, "L2 ReadFailed t.ctb\n"),
    failing("an included file can't be read", CHECKED, {"FAIL_READ": 3}, "L2 ReadFailed u.ctb at t.ctb:1\n"),
    failing("a file that it includes can't be read", CHECKED, {"FAIL_READ": 4}, "L2 ReadFailed v.ctb at u.ctb:1\n"),
    failing("the input fails at the start", TWICE, {"FAIL_INPUT": 0}, "U3 InputFailed at line 1\n"),
    failing("the input fails after the first line", TWICE, {"FAIL_INPUT": 6}, "U3 InputFailed at line 2\n", "ABC A\n"),
    failing("the input fails in the second line", TWICE, {"FAIL_INPUT": 8}, "U3 InputFailed at line 2\n", "ABC A\n"),
    failing("the output fails at once", TWICE, {"FAIL_OUTPUT": 0}, "U4 OutputFailed at line 1\n"),
    failing("the output fails at the second line", TWICE, {"FAIL_OUTPUT": 6}, "U4 OutputFailed at line 2\n", "ABC A\n"),
    failing("an acceptance can't be written", CHECKED, {"FAIL_OUTPUT": 0}, "U4 OutputFailed\n"),
    failing("a report can't be written", CLASHES, {"FAIL_OUTPUT": 0}, "U4 OutputFailed\n"),
    failing("a verdict can't be written", FOUND, {"FAIL_OUTPUT": 0}, "U4 OutputFailed\n", written=TWO_CERT),
    failing("a certificate can't be written", FOUND, {"FAIL_FILE": 0}, "U7 CannotWrite o\n"),
    failing("a part of a certificate can't be written", FOUND, {"FAIL_FILE": 20}, "U7 CannotWrite o\n"),
    failing("a certificate can't be put in its place", FOUND, {"FAIL_RENAME": 1}, "U7 CannotWrite o\n"),
    failing("a certificate over another can't be written", KEEPING, {"FAIL_FILE": 20}, "U7 CannotWrite o\n", written="kept\n"),
    failing("a certificate can't be put in another's place", KEEPING, {"FAIL_RENAME": 1}, "U7 CannotWrite o\n", written="kept\n"),
    failing("a file of accepted pairs can't be read", ACCEPTED, {"FAIL_READ": 2}, "L2 ReadFailed p\n"),
    # A file is written after the sections are printed, and before the verdict.
    failing("pairs of rules can't be written", WRITTEN, {"FAIL_FILE": 0}, "U7 CannotWrite o\n", SECTION),
    failing("a part of the pairs can't be written", WRITTEN, {"FAIL_FILE": 20}, "U7 CannotWrite o\n", SECTION),
    failing("pairs of rules can't be put in their place", WRITTEN, {"FAIL_RENAME": 1}, "U7 CannotWrite o\n", SECTION),
    failing("stale lines can't be taken out", PRUNING, {"FAIL_FILE": 20}, PRUNING.err + "U7 CannotWrite o\n", ACCEPTED_SECTION, STALE + PAIRS),
    failing("a section beside accepted pairs can't be printed", PRUNING, {"FAIL_OUTPUT": 0}, "U4 OutputFailed\n", written=STALE + PAIRS),
    failing("a verdict beside accepted pairs can't be printed", PRUNING, {"FAIL_OUTPUT": len(ACCEPTED_SECTION)}, PRUNING.err + "U4 OutputFailed\n",
            ACCEPTED_SECTION, PAIRS),
    failing("a section can't be printed", WRITTEN, {"FAIL_OUTPUT": 0}, "U4 OutputFailed\n"),
    failing("a verdict after the sections can't be printed", WRITTEN, {"FAIL_OUTPUT": len(SECTION)}, "U4 OutputFailed\n", SECTION, PAIRS),
    failing("a table that is cut can't be read", CUTTING, {"FAIL_READ": 1}, "L2 ReadFailed t.ctb\n"),
    failing("an included file of it can't be read", CUTTING, {"FAIL_READ": 2}, "L2 ReadFailed p/u.cti at t.ctb:1\n"),
    failing("a folder can't be made", CUTTING, {"FAIL_FOLDERS": 1}, "U7 CannotWrite d/t.ctb\n"),
    failing("a folder in it can't be made", CUTTING_INTO, {"FAIL_FOLDERS": 1}, "U7 CannotWrite d/p/u.cti; written before it: d/t.ctb\n",
            tree={"t.ctb": CUT["t.ctb"], "w": "kept\n"}),
    failing("the report of a cut can't be written", CUTTING, {"FAIL_OUTPUT": 0}, "U4 OutputFailed\n", tree=CUT),
]


def cut_certificates() -> Iterator[Run]:
    """A certificate, cut off after each number of bytes."""
    for size in range(len(APART_CERT)):
        cut = APART_CERT[:size]
        yield check(f"{size} bytes of a certificate", APART, cut, f"refused: K8 Truncated line {1 + cut.count(chr(10))}\n")


def cut_tables() -> Iterator[Run]:
    """The table of one letter, cut off after each number of bytes."""
    whole = "letter b 12"
    for size in range(len(whole) + 1):
        cut, name = whole[:size], f"{size} bytes of a table"
        if size in range(1, 6):
            yield translate(name, cut, "b\n", "", 2, f"B1 OutsideProfile {cut} at t.ctb:1\n")
        elif size in range(6, 10):
            yield translate(name, cut, "b\n", "", 2, "B2 MissingOperand letter at t.ctb:1\n")
        elif size == 0:
            yield translate(name, cut, "b\n", "", 2, "F1 UnknownChar 0 at line 1\n")
        else:
            yield translate(name, cut, "b\n", "A\n" if size == 10 else "B\n")
    yield translate("a table that is cut off inside a character", "letter é 12\n".encode()[:8], "b\n", "", 2, "L3 NotUtf8 t.ctb\n")


def limits() -> Iterator[Run]:
    most = 16_777_216
    lead = lambda cells: f"BRLCERT 2\nstate 1 0\npair 0 0 {'-'.join(['1'] * cells)}\nend 1 1\n"
    yield check("a state's class is at most 255", "letter a 1\n", "BRLCERT 2\nstate 256 0\nend 1 0\n", "refused: K2 Syntax line 2\n")
    yield check("a state's number has 32 bits", "letter a 1\n", "BRLCERT 2\nstate 1 0\npair 4294967296 0 -\nend 1 1\n", "refused: K2 Syntax line 3\n")
    yield check("a lead of 1,024 cells is read", "letter a 1\n", lead(1024), "refused: A2 StateMissing state 0 rule 0\n")
    yield check("a lead of 1,025 cells isn't", "letter a 1\n", lead(1025), "refused: K2 Syntax line 3\n")
    yield check("a certificate of 16,777,216 bytes is read", "letter a 1\n", "x" * most, "refused: K8 Truncated line 1\n")
    yield check("one of 16,777,217 bytes isn't", "letter a 1\n", "x" * (most + 1), "", 2, "L9 TooLarge c\n")
    yield translate("16,777,216 bytes of input are translated", "letter a 1\n", "a\n" * (most // 2), "A\n" * (most // 2))
    yield translate("one more line isn't", "letter a 1\n", "a\n" * (most // 2 + 1), "A\n" * (most // 2), 2, "U6 InputTooLong at line 8388609\n")
    yield translate("a line of 65,537 bytes isn't", "letter a 1\n", "a" * 65_537, "", 2, "U5 InputLineTooLong at line 1\n")


def cuts_of_search(machine: Machine, table: str) -> Result:
    """A certificate that a search wrote, cut off after each number of bytes, is never accepted."""
    cert = machine.run(search("", table, "")).written or ""
    result = Result(f"each cut of a certificate of {len(cert)} bytes")
    for size in range(len(cert)):
        ended = machine.run(check("", table, cert[:size], ""))
        if ended.status != 1 or not re.fullmatch(r"refused: K\d \w+ line \d+\n", ended.out):
            result.wrong.append(f"{size} bytes: {ended.answer()}")
    if not machine.run(check("", table, cert, "")).out.startswith("accepted: "):
        result.wrong.append("the whole of it isn't accepted")
    return result


def cuts_of_table(machine: Machine) -> Result:
    """A table, cut off before the letter that a text has, gives a fault and no verdict on two texts."""
    table = LARGE.removesuffix("\n").encode()
    result = Result(f"each cut of a table of {len(table)} bytes")
    for size in range(len(table)):
        ended = machine.run(Run("", ["clash", "t.ctb", "q", "b"], {"t.ctb": table[:size]}))
        if (ended.out, ended.status) != ("", 2) or not re.fullmatch(r"[BFL]\d \w+ .*\n", ended.err):
            result.wrong.append(f"{size} bytes: {ended.answer()}")
    whole = machine.run(Run("", ["clash", "t.ctb", "q", "b"], {"t.ctb": table}))
    if whole.answer() != ("no clash\n", "", 0, None, {}):
        result.wrong.append(f"the whole of it: {whole.answer()}")
    return result


def endless(machine: Machine) -> Result:
    """An input without end: the program stops reading at its limit."""
    run = translate("an input without an end", "letter a 1\n", "", "A\n" * 8_388_608, 2, "U6 InputTooLong at line 8388609\n")
    with tempfile.TemporaryDirectory(dir=FAST) as folder:
        Path(folder, "t.ctb").write_text(run.files["t.ctb"])
        endless = subprocess.Popen(["yes", "a"], stdout=subprocess.PIPE)
        ran = subprocess.run([machine.program, *run.words], cwd=folder, stdin=endless.stdout, capture_output=True, text=True, timeout=120)
        endless.kill()
        endless.wait()
        ended = Ended(ran.stdout, ran.stderr, ran.returncode, None)
        return Result(run.name, wrong=[] if ended.is_of(run) else [f"status {ended.status}, {ended.err!r}, {len(ended.out)} bytes"])


def made_again(machine: Machine, tests: Path, name: str) -> Result:
    """A test that makes a call again passes, whichever allocation of the first call is refused."""
    again = Machine(tests, machine.library)
    run = Run(f"{tests.name}: {name}", [name], {})
    whole = again.run(run, FAIL_MARKED=1)
    result = Result(run.name, whole.allocations)
    if whole.status or not whole.allocations:
        result.wrong.append(f"nothing refused: {whole.answer()}")
    for number in range(1, whole.allocations + 1):
        ended = again.run(run, FAIL_MARKED=1, FAIL_ALLOCATION=number)
        if ended.status or ended.refused != 1:
            result.wrong.append(f"allocation {number} refused: {ended.answer()}, {ended.refused} were refused")
    return result


def tests_of(program: Path) -> list[str]:
    """The names of a test program's tests that make a call again."""
    listed = subprocess.run([program, "--list"], capture_output=True, text=True, check=True).stdout.splitlines()
    names = [it.removesuffix(": test") for it in listed if "::again::" in it]
    if not names:
        sys.exit(f"hostile.py: {program} has no test that makes a call again")
    return names


def interrupted(machine: Machine) -> Result:
    """A search that is killed while it writes a certificate leaves the file that was there as it was."""
    result = Result("a certificate's writing is interrupted after each number of bytes")
    for size in range(len(TWO_CERT)):
        ended = machine.run(KEEPING, KILL_FILE=size)
        if (ended.status, ended.out, ended.written) != (-signal.SIGKILL, "", "kept\n"):
            result.wrong.append(f"{size} bytes: {ended.answer()}")
    return result


def stands(machine: Machine, number: int, fails: dict[str, int]) -> list[str]:
    """What is wrong where a cut's file of this number, from 0, can't be written: those before it stand, and the fault names them."""
    standing = first_files(CUTTING, number)
    before = f"; written before it: {', '.join(f'd/{it}' for it in standing)}" if standing else ""
    failed = failing("", CUTTING, fails, f"U7 CannotWrite d/{[*CUT][number]}{before}\n", tree=standing)
    return [f"{fails}: {it}" for it in machine.fails_once(*failed).wrong]


def refused_writes(machine: Machine) -> Result:
    """Each write of a cut is refused in turn, after each number of bytes, and each file is."""
    result = Result("each write of a cut is refused")
    ends = list(accumulate(map(len, CUT.values())))
    for size in range(ends[-1]):
        result.wrong += stands(machine, sum(end <= size for end in ends), {"FAIL_FILE": size})
    for number in range(len(CUT)):
        result.wrong += stands(machine, number, {"FAIL_CREATE": number + 1})
    return result


def interrupted_cut(machine: Machine) -> Result:
    """A cut that is killed while it writes leaves the files whole that it wrote before, and at most a part of one more by its name."""
    result = Result("a cut's writing is interrupted after each number of bytes")
    ends = list(accumulate(map(len, CUT.values())))
    for size in range(ends[-1]):
        ended = machine.run(CUTTING, KILL_FILE=size)
        number = sum(end <= size for end in ends)
        rest = {name: text for name, text in ended.tree.items() if name not in first_files(CUTTING, number)}
        next_name = [*CUT][number]
        is_start = all(name == f"{next_name}.part1" and CUT[next_name].startswith(text) for name, text in rest.items())
        is_first = {**ended.tree, **first_files(CUTTING, number)} == ended.tree
        if (ended.status, ended.out, ended.err, ended.left) != (-signal.SIGKILL, "", "", []) or not is_start or not is_first:
            result.wrong.append(f"{size} bytes: {ended.answer()}")
    return result


def main(words: list[str]) -> int:
    if not words:
        print(__doc__, file=sys.stderr)
        return 2
    with tempfile.TemporaryDirectory() as room, ThreadPoolExecutor(len(os.sched_getaffinity(0))) as pool:
        library = Path(room, "faulty.so")
        subprocess.run(["cc", "-O2", "-shared", "-fPIC", "-o", library, TESTS / "faulty.c"], check=True)
        machine = Machine(Path(words[0]).resolve(), library)
        tasks = [pool.submit(machine.refuses_in_turn, it) for it in RUNS]
        tasks += [pool.submit(machine.fails_once, *it) for it in FAILING]
        tasks += [pool.submit(machine.answers, it) for it in [*cut_certificates(), *cut_tables(), *limits()]]
        tasks += [pool.submit(cuts_of_search, machine, it) for it in (WORD, NUMBERS)]
        tasks += [pool.submit(it, machine) for it in (cuts_of_table, endless, interrupted, refused_writes, interrupted_cut)]
        tests = [Path(it).resolve() for it in words[1:]]
        tasks += [pool.submit(made_again, machine, it, name) for it in tests for name in tests_of(it)]
        failed = refused = 0
        for it in (task.result() for task in tasks):
            refused += it.refused
            failed += bool(it.wrong)
            said = f": {it.refused} allocations refused" if it.refused else ""
            print(f"{'FAILED' if it.wrong else 'ok'}: {it.name}{said}", *(line[:400] for line in it.wrong[:5]), sep="\n  ", flush=True)
    print(f"hostile: {len(tasks) - failed} passed, {failed} failed; {refused} allocations refused")
    return 1 if failed else 0


if __name__ == "__main__":
    sys.exit(main(sys.argv[1:]))
