#!/usr/bin/env python3
"""Plants the wrong bodies crates/NAME/must-fail/*.edit, and shows that the prover refuses each. Right bodies are planted
beside them, and must be accepted.

Whether a body meets its function's contract rests on the contracts of what it calls, and on no other body. So a
wrong body is planted in a copy of its function, which stands beside it in a copy of the crate, with its clauses and
its proof files, under a name of its own; and in one check the prover is asked for all the copies of the crate. The
bodies of the crate's own functions are left out there, and their theorems are taken as they stand (each is a hole),
so nothing but the copies is proved.

A wrong body counts as refused only where its copy has a goal of its own that isn't proved. That a function it calls
isn't proved doesn't count, nor does a proof file that names what the edit took away. That the proof files still
prove under the copy's name what they prove of the right body is seen by controls in the same check: copies of
functions with proof files, and of functions that call others, whose bodies are right. Those of
crates/NAME/must-pass/*.edit are right bodies that are written otherwise; their line `accepted:` names the function.
Where a crate has none of a function of that kind, the control's body is the function's own. Controls must be proved,
and no other proof file than that of a wrong body may be wrong, or the check counts for nothing.

What has no copy is planted in its own place: a method of a trait's impl, a function that calls itself, an edit of
several functions, or one that turns another function than that of its line `refused:`. Several are in one check,
each in functions of its own; what isn't inside of functions is alone. The function that the line names keeps its
body and its files there. What isn't refused in its copy, or beside others, is tried again in its own place and at
last alone, before it counts as not refused.

Refused means not proved as it is: a right body that needs other proof files is refused too. Where the prover found
values at which all that is known there holds and a goal fails, no proof file helps, and this is printed after the
goal. It isn't printed of a function with a loop: after a loop only its invariant is known, so a right body whose
loop needs another invariant fails at some values too.

  tests/wrong_bodies.py [--after-ci ROOT] [NAME..]

It tries the bodies of all crates, or of those with these names. The libraries that they stand on are built first, or with
--after-ci taken from a copy of the sources in which `rt ci` has built them. The last lines say how many were tried, and
'wrong bodies: N refused, M not'.
"""

import os
import re
import shutil
import subprocess
import sys
import tempfile
from concurrent.futures import ThreadPoolExecutor, as_completed
from dataclasses import dataclass, replace
from pathlib import Path
from types import ModuleType, SimpleNamespace

TOP = Path(__file__).resolve().parent.parent

sys.dont_write_bytecode = True
sys.path.insert(0, str(TOP))
from functions import Function, function_at, function_of_line, functions_of, homes_of, modules_of, text_of
from kit import kit

# The memory that the check of one crate may take.
CHECK_BYTES = 4_000_000_000

# The function whose goals aren't proved, or whose proof rests on a hole alone; a goal that a proof file doesn't prove; one that nothing proves.
TOLD = re.compile(r"fn (?P<name>\S+): (?:not proved|no proof)(?P<why>.*)")
PROVED = re.compile(r"fn (?P<name>\S+): (?:no holes|depends on a hole)")
REFUSED = re.compile(r"(?:\./)?proofs/(?P<path>\S+)/\w+\.antt:\d+:\d+: error: `(?P<goal>\S+)`: (?P<why>.*)")
OPEN = re.compile(r"note: (?P<path>src/\S+):(?P<line>\d+):\d+: it is not proved .*\(`(?P<goal>\S+)`\)(?P<why>.*)")

# Why a goal is open that the prover showed to fail at some values.
FALSE = "the facts known there allow values at which this goal is false"

# A lemma that doesn't hold, such as one that is computed over a table of the code. It tells of no function by itself.
LEMMA = re.compile(r"(?:\./)?proofs/\w+\.antt:\d+:\d+: error: `(?P<goal>\S+)`: (?P<why>.*)")

# Why a proof file fails that names what an edit took away: that says nothing of a contract.
NAMES = re.compile(r"has no field|is not in scope|has no `|was not admitted")

# Where a proof file isn't right, of whichever kind; the proof files of a copy.
WRONG = re.compile(r"(?:\./)?proofs/\S+\.antt:\d+:\d+: error")
COPIED = re.compile(r"(?:\./)?proofs/(?:\w+/)*\w+_wrong_\d+/")

# Where code can't be read: by the compiler, which says the kind of error, or by the prover.
UNREAD = re.compile(r"(?:\./)?(?P<path>src/\S+?):(?P<line>\d+):\d+: error(?P<kind>\[)?")

# The last line of a check that was asked for some functions.
ENDED = re.compile(r"only=\d+ holes=\d+$")

LOOP = re.compile(r"^(?!\s*//).*\b(?:for .+ in|while|loop) ", re.MULTILINE)


@dataclass(frozen=True)
class Change:
    path: str
    begin: int
    end: int
    new: str


@dataclass(frozen=True)
class Body:
    """A body that an edit makes: a wrong one, or a right one that is a control."""

    label: str
    number: int
    is_right: bool
    # The function that its line names, without the crate.
    function: str
    changes: tuple[Change, ...]
    # The places of the functions around its changes.
    places: frozenset[tuple[str, int | None]]
    # The function whose copy is to have it, if one does.
    copied: Function | None = None

    def name(self) -> str:
        """The name of the function that has its changes."""
        kind = "right" if self.is_right else "wrong"
        return f"{self.copied.names[-1]}_{kind}_{self.number}" if self.copied else self.function.rpartition("::")[2]

    def asked(self) -> str:
        """The function that the prover is to refuse, or to prove, where this stands beside others."""
        return self.copied.label(self.name()) if self.copied else self.function

    def is_inside(self) -> bool:
        return all(place is not None for _, place in self.places)

    def may_stand_beside(self, other: "Body") -> bool:
        """Whether both can be in one check, each in its own place."""
        return self.is_inside() and other.is_inside() and not self.places & other.places and self.function != other.function


def read_body(label: str, number: int, edit: str, crate: str, folder: str) -> Body:
    """Reads an edit of a crate in this folder, each of whose texts stands there once."""
    path, text, kind, function, changes, places = "", "", "", "", [], set()
    for line in edit.splitlines():
        match line.partition(": "):
            case ("file", _, path):
                text = Path(folder, path).read_text()
            case ("refused" | "accepted" as kind, _, function):
                pass
            case ("old", _, old):
                begin = text.index(old)
            case ("new", _, new):
                changes.append(Change(path, begin, begin + len(old), new))
                places.add((path, function_at(text, begin)))
    return Body(label, number, kind == "accepted", function.removeprefix(f"{crate}::"), tuple(changes), frozenset(places))


def copy_of(text: str, it: Function, name: str, changes: tuple[Change, ...]) -> str:
    """The text of a function under another name, with these changes."""
    copy = text
    for change in sorted((*changes, Change(it.path, it.name, it.name_end, name)), key=lambda it: it.begin, reverse=True):
        copy = copy[: change.begin] + change.new + copy[change.end :]
    return "\n" + copy[it.begin : len(copy) - len(text) + it.brace()] + "\n"


def refusals(said: str, folder: str, is_alone: bool) -> dict[str, dict[str, bool]]:
    """The functions of the crate in this folder with goals of their own that aren't proved, and these goals, each with
    whether the prover found values at which it fails. Where one wrong body is planted alone, a function that isn't proved
    since a lemma doesn't hold is among them."""
    # why a proof file fails may go on in the next line
    said = re.sub(r"^(\S+\.antt:\d+:\d+: error: .*)\n +", r"\1 ", said, flags=re.MULTILINE)
    told = [it for it in map(TOLD.match, said.splitlines()) if it]
    unproved = {it["name"] for it in told}
    told = [it for it in told if not unproved & set(re.findall(r"`([^`]*)`", it["why"].partition("it calls ")[2]))]
    goals_of = lambda why: re.findall(r"`([^`]*)`", why.partition("did not prove ")[2].partition(";")[0])
    found = {it["name"]: dict.fromkeys(goals_of(it["why"]), False) for it in told}
    for line in said.splitlines():
        if (it := REFUSED.match(line)) and not NAMES.search(it["why"]):
            own, home = it["path"].replace("+", "").replace("/", "::"), ""
        elif it := OPEN.match(line):
            own, home = function_of_line(Path(folder, it["path"]).read_text(), int(it["line"])), "::".join(modules_of(it["path"]))
        else:
            continue
        names = [name for name in found if name.endswith(f"::{own}")]
        names = [name for name in names if len(names) == 1 or f"::{home}::" in name]
        if len(names) == 1:
            goals = found[names[0]]
            goals[it["goal"]] = goals.get(it["goal"], False) or it["why"].endswith(FALSE)
    if is_alone:
        lemmas = {it["goal"]: False for it in map(LEMMA.match, said.splitlines()) if it and not NAMES.search(it["why"])}
        found = {name: goals or lemmas for name, goals in found.items()}
    return {name.partition("::")[2]: goals for name, goals in found.items() if goals}


@dataclass(frozen=True)
class Answer:
    """What a check said of the functions that it was asked for."""

    # The functions that are refused, with their goals and whether these were shown to be false, and those that are proved.
    refused: dict[str, dict[str, bool]]
    proved: set[str]
    # The functions of code that can't be read, by the names that they have in their files, with why.
    unread: dict[str, str]
    # What is wrong in proof files that aren't those of a copy.
    wrong: list[str]
    # Why there are none.
    why: str


class Trial:
    """The wrong bodies of one crate, and its right ones."""

    def __init__(self, rt: ModuleType, crate) -> None:
        self.rt, self.crate = rt, crate
        self.refused: list[str] = []
        self.accepted: list[str] = []
        # How many of those that are refused have a goal that was shown to be false at some values.
        self.shown_false = 0
        self.texts = {str(it.relative_to(crate.folder)): it.read_text() for it in sorted(Path(crate.folder, "src").rglob("*.rt"))}
        homes = homes_of(self.texts)
        self.functions = [it for path, text in self.texts.items() for it in functions_of(path, text, homes)]
        own = TOP / "crates" / crate.name
        good, bad = rt.edits_of(SimpleNamespace(folder=str(own)))
        self.failed = [f"{it}: an edit stands right in must-fail/, and its name ends in .edit" for it in bad]
        self.bodies = [it for it in self.read([*map(Path, good)]) if not self.is_misplaced(it, False)]
        self.rewritten = [it for it in self.read(sorted(Path(own, "must-pass").glob("*.edit"))) if not self.is_misplaced(it, True)]

    def read(self, files: list[Path]) -> list[Body]:
        found = []
        for number, file in enumerate(files, 1):
            label = f"{self.crate.name}/{file.stem}"
            _, why = self.rt.read_edit(str(file), self.crate.folder)
            if why:
                self.failed.append(f"{label}: {why}")
            else:
                found.append(self.with_copy(read_body(label, number, file.read_text(), self.crate.name, self.crate.folder)))
        return found

    def is_misplaced(self, it: Body, is_right: bool) -> bool:
        """Whether it stands among bodies of the other kind, or is a right one without a copy."""
        if it.is_right == is_right and (it.copied or not is_right):
            return False
        line = "`accepted:`, of a function that can have a copy" if is_right else "`refused:`"
        self.failed.append(f"{it.label}: it has no line {line}")
        return True

    def with_copy(self, body: Body) -> Body:
        """The body with the function whose copy is to have it, where it changes the body of the function that it names alone."""
        for it in self.functions:
            is_around = all(change.path == it.path and it.body <= change.begin and change.end <= it.end for change in body.changes)
            if is_around and it.label() == body.function and not self.is_cycle(it) and not self.has_proof_by_hand(it):
                return replace(body, copied=it)
        return body

    def is_cycle(self, it: Function) -> bool:
        return Path(self.crate.folder, it.folder(f"+{it.names[-1]}")).is_dir()

    def has_proof_by_hand(self, it: Function) -> bool:
        """Whether its theorem stands in its proof files, under its own name."""
        return Path(self.crate.folder, it.folder(), "Proof.antt").exists()

    def work(self) -> int:
        """How much there is to do, to begin with the crate that takes longest."""
        return len(self.bodies) * self.crate.count(rb"\n")

    def controls(self, bodies: list[Body]) -> list[Body]:
        """The right bodies that are written otherwise, and the own bodies of functions whose copies these are: of the shortest
        that has proof files, and of the shortest that calls a function of the crate. One alone where it is both, and none of
        a kind that another right body is of."""
        copied = [it.copied for it in (*bodies, *self.rewritten) if it.copied]
        calls = re.compile("|".join(it.call() for it in self.functions))
        having = {it for it in copied if Path(self.crate.folder, it.folder()).is_dir()}
        calling = {it for it in copied if calls.search(self.texts[it.path], it.body, it.end)}
        kinds = [having & calling] if having & calling else [it for it in (having, calling) if it] or [copied]
        rewritten = {it.copied for it in self.rewritten}
        own = [min(it, key=lambda it: (it.end - it.head, it.label())) for it in kinds if it and not rewritten & {*it}]
        return self.rewritten + [Body(f"the body of {it.label()}", 0, True, it.label(), (), frozenset(), it) for it in own]

    def copy_proofs(self, room: str, it: Function, name: str) -> None:
        """Gives a function's copy the proof files of the function."""
        own = "\\.".join(it.names)
        told = re.compile(rf"(Rattle\.{self.crate.name}\.(?:proofs|specs\.contracts)\.){own}(?![\w+-])")
        new = ".".join((*it.names[:-1], name))
        for file in sorted(Path(self.crate.folder, it.folder()).glob("*.antt")):
            to = Path(room, it.folder(name), file.name)
            to.parent.mkdir(parents=True, exist_ok=True)
            to.write_text(told.sub(rf"\g<1>{new}", file.read_text()))

    def leave_out(self, room: str, it: Function) -> Change:
        """Takes a function's theorem as it stands, and gives the change that leaves its body out."""
        for name in (it.names[-1], f"+{it.names[-1]}"):
            shutil.rmtree(Path(room, it.folder(name)), ignore_errors=True)
        file, name = Path(room, it.folder(), "Proof.antt"), it.names[-1]
        file.parent.mkdir(parents=True)
        statement = f"Rattle.{self.crate.name}.proofs.{'.'.join(it.names)}.Statement"
        file.write_text(f"use {statement}.{{statement}}\n\npub {name}_spec : {{M : Type 1}} → statement M\n{name}_spec = ?\n")
        return Change(it.path, it.body, it.end, f"\n{it.indent}    loop {{}}\n")

    def plant(self, room: str, copied: list[Body], placed: list[Body]) -> None:
        """Writes the crate with these copies, and these in their own places, into a folder."""
        for part in self.rt.rtlib.PARTS:
            if os.path.isdir(f"{self.crate.folder}/{part}"):
                shutil.copytree(f"{self.crate.folder}/{part}", f"{room}/{part}")
        kept = {it.function for it in placed}
        places = frozenset().union(*(it.places for it in placed))
        changes = [change for it in placed for change in it.changes]
        for it, name, changed in ((it.copied, it.name(), it.changes) for it in copied):
            place = it.brace() + 1
            changes.append(Change(it.path, place, place, copy_of(self.texts[it.path], it, name, changed)))
            self.copy_proofs(room, it, name)
        for it in self.functions:
            if it.label() not in kept and (it.path, it.head) not in places:
                changes.append(self.leave_out(room, it))
        texts = dict(self.texts)
        # from the end on, so that the places before stay
        for it in sorted(changes, key=lambda it: it.begin, reverse=True):
            text = texts.setdefault(it.path, Path(self.crate.folder, it.path).read_text())
            texts[it.path] = text[: it.begin] + it.new + text[it.end :]
        for path, text in texts.items():
            Path(room, path).write_text(text)

    def ask(self, copied: list[Body], placed: list[Body], controls: list[Body]) -> Answer:
        """Plants these, and asks the prover for the functions that are to be refused and for the controls."""
        with tempfile.TemporaryDirectory(prefix="wrong-bodies-") as room:
            self.plant(room, copied + controls, placed)
            asked = {it.asked() for it in (*copied, *placed, *controls)}
            flags = ["--jobs", "1", "--allow-holes", "--short-goals", *(word for it in sorted(asked) for word in ("--only", it))]
            words = [*self.rt.rtlib.guarded(), self.rt.rtlib.RATTLE, "check", *self.crate.words(flags, keeps=False)]
            how = {"cwd": room, "stdin": subprocess.DEVNULL, "stdout": subprocess.PIPE, "stderr": subprocess.STDOUT, "errors": "replace"}
            ran = subprocess.run(words, **how)
            return self.answer(ran.stdout, room, len(copied) + len(placed) == 1)

    def answer(self, said: str, room: str, is_alone: bool) -> Answer:
        lines = said.rstrip("\n").split("\n")
        unread: dict[str, str] = {}
        for line in lines:
            if (it := UNREAD.match(line)) and (it["kind"] or self.rt.unread(line, {})):
                unread.setdefault(function_of_line(Path(room, it["path"]).read_text(), int(it["line"])), line)
        if unread or not ENDED.match(lines[-1]):
            return Answer({}, set(), unread, [], next(iter(unread.values()), lines[-1]))
        proved = {it["name"].partition("::")[2] for it in map(PROVED.match, lines) if it}
        wrong = [it for it in lines if WRONG.match(it) and not COPIED.match(it)]
        return Answer(refusals(said, room, is_alone), proved, {}, wrong, "none has a goal that isn't proved")

    def count(self, it: Body, goals: dict[str, bool]) -> None:
        shown = [goal for goal, is_false in goals.items() if is_false and not self.has_loop(it)]
        told = (f"{goal} (false at some values)" if goal in shown else goal for goal in goals)
        self.refused.append(f"{it.label}: refused by {self.crate.name}::{it.function}: {', '.join(told)}")
        self.shown_false += bool(shown)

    def has_loop(self, body: Body) -> bool:
        """Whether the body, or the function that its line names, has a loop."""
        places = [(it.path, it.head) for it in self.functions if it.label() == body.function]
        places += [(path, head) for path, head in body.places if path in self.texts and head is not None]
        texts = [text_of(self.texts[path], head) for path, head in places]
        return any(LOOP.search(text) for text in (*texts, *(change.new for change in body.changes)))

    def why_unproved(self, it: Body, found: Answer) -> str:
        """Why a control isn't proved."""
        goals = ", ".join(found.refused.get(it.asked(), {}))
        wrong = next((line for line in found.wrong if f"/{it.name()}/" in line), found.why)
        return f"{it.label} is to be accepted, and isn't proved: {goals or found.unread.get(it.name()) or wrong}"

    def try_copies(self) -> list[Body]:
        """Tries in one check those that have copies, with the controls; gives all that aren't refused in it."""
        tried = [it for it in self.bodies if it.copied]
        controls = self.controls(tried)
        while tried or self.rewritten:
            found = self.ask(tried, [], controls)
            if not any(it.name() in found.unread for it in tried):
                break
            tried = [it for it in tried if it.name() not in found.unread]
        else:
            return self.bodies
        unproved = sorted((it for it in controls if it.asked() not in found.proved), key=lambda it: it.name() not in found.unread)
        wrong = [self.why_unproved(it, found) for it in unproved] + found.wrong
        if wrong:
            self.failed.append(f"{self.crate.name}: the check of its copies counts for nothing: {wrong[0]}")
            return self.bodies
        self.accepted = [f"{it.label}: accepted by {self.crate.name}::{it.function}" for it in self.rewritten]
        refused = [it for it in tried if it.asked() in found.refused]
        for it in refused:
            self.count(it, found.refused[it.asked()])
        return [it for it in self.bodies if it not in refused]

    def try_in_place(self, left: list[Body]) -> None:
        """Tries these in their own places, as many at a time as may stand in one check, and at last each alone."""
        is_shared = True
        while left:
            tried: list[Body] = []
            for it in left:
                if not tried or is_shared and all(it.may_stand_beside(other) for other in tried):
                    tried.append(it)
            found = self.ask([], tried, [])
            refused = [it for it in tried if it.function in found.refused]
            for it in refused:
                self.count(it, found.refused[it.function])
            if len(tried) == 1 and not refused:
                told = ", ".join(found.refused) or found.why
                self.failed.append(f"{tried[0].label}: NOT REFUSED by {tried[0].function or 'a function that it names'}; refused: {told}")
                left = left[1:]
            left = [it for it in left if it not in refused]
            is_shared = is_shared and (bool(refused) or len(tried) == 1)

    def run(self) -> "Trial":
        self.try_in_place([replace(it, copied=None) for it in self.try_copies()])
        return self


def free_memory() -> int:
    rows = dict(row.split(":") for row in Path("/proc/meminfo").read_text().splitlines())
    return 1024 * int(rows["MemAvailable"].split()[0])


def try_all(trials: list[Trial]) -> None:
    """Tries these side by side, as processors and memory allow, and prints what came of each."""
    lanes = max(1, min(len(os.sched_getaffinity(0)), free_memory() // CHECK_BYTES))
    with ThreadPoolExecutor(lanes) as pool:
        for ended in as_completed(pool.submit(it.run) for it in sorted(trials, key=Trial.work, reverse=True)):
            it = ended.result()
            print(*it.accepted, *it.refused, *it.failed, sep="\n", flush=True)


def report(trials: list[Trial]) -> int:
    """Prints the last lines, and gives how many bodies aren't as they should be."""
    refused, failed = sum(len(it.refused) for it in trials), sum(len(it.failed) for it in trials)
    accepted = sum(len(it.accepted) for it in trials)
    print(f"right bodies: {accepted} accepted, {sum(len(it.rewritten) for it in trials) - accepted} not")
    print(f"false at some values: {sum(it.shown_false for it in trials)} of {refused} refused")
    print(f"wrong bodies: {refused} refused, {failed} not")
    return failed


def main(words: list[str]) -> int:
    built = None
    if words[:1] == ["--after-ci"] and len(words) > 1:
        built, words = Path(words[1]).resolve(), words[2:]
    if any(it.startswith("-") for it in words):
        print(__doc__, file=sys.stderr)
        return 2
    rt = kit()
    if not rt:
        sys.exit("wrong_bodies.py: this needs the command rt of the Rattle kit")
    rt.rtlib.guarded()
    crates = rt.rtlib.crates_below(str(built or TOP))
    if unknown := set(words) - {it.name for it in crates}:
        sys.exit(f"wrong_bodies.py: there is no crate {min(unknown)}")
    chosen = [it for it in crates if not words or it.name in words]
    trials = [it for it in (Trial(rt, it) for it in chosen) if it.bodies or it.rewritten or it.failed]
    held = rt.rtlib.lock([it.crate for it in trials])
    if not built and any(dep.build_rlib(["--jobs", "1"], anew=False) for it in trials for dep in it.crate.below()):
        return 1
    try_all(trials)
    for it in held:
        os.close(it)
    return 1 if report(trials) else 0


if __name__ == "__main__":
    sys.exit(main(sys.argv[1:]))
