"""What the benches share: tables, the processor seconds of a command, and runs with bounds."""

import os
import subprocess
import tempfile
import threading
from pathlib import Path
from typing import NamedTuple

TOP = Path(__file__).resolve().parent.parent

# The tables of a bench that is given none: a name, and what bench/make-table is asked for.
MADE = [
    ("100 rules", ["words", "100"]),
    ("900 rules", ["words", "900"]),
    ("900 rules, two with the same cells", ["clash", "900"]),
    ("4,096 rules of three letters", ["flat"]),
]

# A run that takes longer is ended, and no verdict is told.
MOST_SECONDS = 300


def program() -> Path:
    """The program, which is made first where a source has changed. Standard error says whether it is the proved one."""
    subprocess.run([TOP / "build", "--quick"], check=True)
    subprocess.run([TOP / "brl", "--version"], stdout=subprocess.DEVNULL, check=True)
    found = ["sh", "-c", 'top=$1; . "$top/tools/made"; find_made && echo "$way"', "sh", TOP]
    return TOP / "out" / subprocess.run(found, check=True, capture_output=True, text=True).stdout.strip() / "brl"


def tables(given: list[str], folder: str) -> list[tuple[str, str]]:
    """The tables that were given, or those that are made for the bench, each with its name."""
    if given:
        return [(it, os.path.abspath(it)) for it in given]
    found = []
    for at, (name, words) in enumerate(MADE):
        path = f"{folder}/{at}.ctb"
        with open(path, "w") as out:
            subprocess.run([TOP / "bench" / "make-table", *words], stdout=out, check=True)
        found.append((name, path))
    return [*found, ("examples/mended.ctb", str(TOP / "examples" / "mended.ctb"))]


class Run(NamedTuple):
    """What a run took, and the first line that it printed."""

    seconds: float
    megabytes: int
    line: str

    def __str__(self) -> str:
        return f"{self.seconds:.3f} s, {self.megabytes} MB: {self.line}"


def run(words: list[object], given: str = os.devnull) -> Run:
    """Runs a command on the input of a file, for MOST_SECONDS at most: its processor seconds, its memory, its first line."""
    with open(given) as source, tempfile.TemporaryFile("w+", errors="replace") as out:
        started = subprocess.Popen([str(it) for it in words], stdin=source, stdout=out, stderr=subprocess.DEVNULL)
        watch = threading.Timer(MOST_SECONDS, started.kill)
        watch.start()
        _, status, used = os.wait4(started.pid, 0)
        started.returncode = os.waitstatus_to_exitcode(status)
        watch.cancel()
        out.seek(0)
        line = out.readline().rstrip("\n")
    told = line or f"no verdict, status {started.returncode}"
    return Run(used.ru_utime + used.ru_stime, used.ru_maxrss // 1024, told)


class Bounded:
    """A program whose runs have bounds: processor seconds, and megabytes of memory."""

    def __init__(self, program: Path, seconds: int, megabytes: int) -> None:
        self.program, self.bounds = program, [str(seconds), str(megabytes * 1000)]

    def run(self, *words: str | Path, given: str = "") -> tuple[int, str, str]:
        """The status of a run with this input, its output, and its standard error."""
        bounded = ["sh", "-c", 'ulimit -t "$1" && ulimit -v "$2" || exit; shift 2; exec "$@"', "sh", *self.bounds, self.program, *words]
        ran = subprocess.run(bounded, capture_output=True, text=True, errors="replace", input=given)
        return ran.returncode, ran.stdout, ran.stderr


def best(words: list[object], given: str = os.devnull) -> Run:
    """The run of three that took least; a long run is not repeated."""
    runs = [run(words, given)]
    while len(runs) < 3 and runs[0].seconds < 60:
        runs.append(run(words, given))
    return min(runs)
