#!/usr/bin/env python3
"""A second checker of certificates: it prints what `brl check` prints, and ends with the same status.

  tools/second_checker.py [--without CHARS | --only CHARS] TABLE CERT

It follows docs/proof/CERTIFICATES.md and docs/proof/MACHINES.md, and has nothing of the program;
tests/checkers.py compares both. tests/plain_table.py reads the table, by docs/guide/TABLES.md, and
finds no faults: so a table must be one that `brl survey` finds good.
"""

import re
import sys
from collections import defaultdict
from collections.abc import Iterable, Iterator
from itertools import product, takewhile
from pathlib import Path

sys.dont_write_bytecode = True
sys.path.insert(0, str(Path(__file__).resolve().parent.parent / "tests"))
from plain_table import ALWAYS, AVOIDS, ESCAPES, LETTER, MEETS, PLACES, SPACE, UPPERCASE, Character, Cond, Fault, Rule, Table, after_of, characters, holds

# A due is its kind, characters and condition, in the order of dues. A context is the classes before,
# numeric mode and whether a run of capitals precedes. A state is a context, and whether the text
# ends and what is known; or a context and dues. A pair is the numbers of two states and a lead. A
# step is its rule, what it reads, its cells and the next state; an edge a step without what it reads.
Due, State, Pair, Step, Edge = tuple[int, str, Cond], tuple, tuple[int, int, tuple[str, ...]], tuple, tuple
NEED, BAR, K2, K3, MOST = 0, 1, "K2 Syntax", "K3 NotCanonical", 4_294_967_295


class Refused(Exception):
    """Why a certificate is refused."""


def refuse(fault: str, is_so: bool) -> None:
    if is_so:
        raise Refused(fault)


# ---- Certificates: each field is read leniently, and compared with its one spelling
def number(field: str, most: int, pattern: str = "[0-9]+", radix: int = 10) -> int:
    digits = field.lstrip("0") or "0"
    refuse(K2, not re.fullmatch(pattern, field) or len(digits) > 10 or int(digits, radix) > most)
    return int(digits, radix)


def code_points(field: str) -> tuple[str, str]:
    """Characters, and their one spelling."""
    codes = [number(it, 0x10FFFF, "[0-9a-fA-F]+", 16) for it in field.split(".")]
    refuse(K2, any(0xD800 <= it < 0xE000 for it in codes))
    return "".join(map(chr, codes)), ".".join(f"{it:x}" for it in codes)


def due(field: str) -> tuple[Due, str]:
    """A due, and its one spelling."""
    found = re.fullmatch(r"(?:n|b([^+*-]+))(?:\*|([+-])([^+*-]+))", field)
    refuse(K2, not found or field == "n*")
    cond = (MEETS if found[2] == "+" else AVOIDS, number(found[3], 255)) if found[2] else ALWAYS
    kind, chars, spelled = (BAR, *code_points(found[1])) if found[1] else (NEED, "", "")
    return (kind, chars, cond), "nb"[kind] + spelled + (f"{found[2]}{cond[1]}" if found[2] else "*")


def lead(field: str) -> tuple[str, ...]:
    cells = field.split("-") if field != "-" else []
    refuse(K2, len(cells) > 1024 or not all(it == "0" or re.fullmatch(r"(?:([1-8])(?!.*\1))+", it) for it in cells))
    return tuple("".join(sorted(it)) for it in cells)


def state(version: int, fields: list[str]) -> tuple[State, list[str]]:
    """A state, and the one spelling of its fields."""
    refuse(K2, len(fields) != 4 if version == 1 else len(fields) < version)
    before, flags = number(fields[0], 255), [number(it, 1, "[01]") for it in fields[1 : 2 if version == 2 else 3]]
    front = [str(it) for it in (before, *flags)]
    if version == 1:
        known, spelled = ("", "-") if fields[3] == "-" else code_points(fields[3])
        return ((before, flags[0] == 1, False), flags[1] == 1, known), [*front, spelled]
    dues = dict(sorted(map(due, fields[len(front) :])))
    return ((before, flags[0] == 1, flags[1:] == [1]), (*dues,)), [*front, *dues.values()]


def read(data: bytes) -> tuple[int, dict[State, int], dict[Pair, int]]:
    """The version, and the numbers of the states and of the pairs."""
    version, word, states, pairs = 0, "", {}, {}
    *lines, rest = [it.split(" ") for it in data.decode("latin-1").split("\n")]
    for at, line in enumerate(lines, 1):
        try:
            refuse(K2, word == "end")
            word, *fields = line
            if at == 1:
                refuse(K2, word != "BRLCERT" or len(fields) != 1)
                version = number(fields[0], MOST)
                refuse(K3, fields[0] != str(version))
                refuse("K1 Version", not 1 <= version <= 3)
            elif word == "state":
                value, spelling = state(version, fields)
                refuse(K2, bool(pairs))
                refuse(K3, fields != spelling)
                refuse("K4 DuplicateState", value in states)
                states[value] = len(states)
            else:
                refuse(K2, (word, len(fields)) not in (("pair", 3), ("end", 2)))
                one, two, *cells = *(number(it, MOST) for it in fields[:2]), *map(lead, fields[2:])
                refuse(K3, fields != [str(one), str(two), *("-".join(it) or "-" for it in cells)])
                refuse("K7 WrongCount", word == "end" and (one, two) != (len(states), len(pairs)))
                refuse("K6 NoSuchState", word == "pair" and max(one, two) >= len(states))
                refuse("K5 DuplicatePair", (one, two, *cells) in pairs)
                pairs.update({(one, two, it): len(pairs) for it in cells})
        except Refused as fault:
            raise Refused(f"{fault} line {at}") from None
    refuse(f"{K2 if word == 'end' else 'K8 Truncated'} line {len(lines) + 1}", word != "end" or rest != [""])
    return version, states, pairs


# ---- The machines of a table
class Machine:
    """What both machines ask of a table. An undefined character has no class, and is its own fold."""

    def __init__(self, table: Table, left_out: Iterable[str]) -> None:
        self.own = {char: Rule("", char, tuple(it.cells), 0) for char, it in table.chars.items()}
        table.chars = defaultdict(Character, table.chars)
        self.table, self.chars, self.left_out, self.kept = table, table.chars, {*left_out}, {}
        self.width = max((len(it.chars) for it in table.rules), default=1) + 1

    def rules(self, before: int) -> list[tuple[int, Rule, Cond]]:
        """Rules and own definitions that may be used after these classes: number, rule, condition after."""
        every = enumerate([*self.table.rules, *self.own.values()])
        return [(at, it, after_of(it.place or "always", before)) for at, it in every if holds(PLACES[it.place or "always"][0], before)]

    def step(self, here: tuple, rule: int, reads: str, is_run: bool, cells: Iterable[str], *rest: object) -> Step:
        """The step that reads these characters, to a state with this beside its context."""
        before, is_numeric, is_run_before = here
        first, is_capital, has_runs = self.chars[reads[0]], self.table.is_capital(reads[0]), self.table.has_word_capitals()
        is_used = {
            "endcapsword": has_runs and is_run_before and first.classes & LETTER and not is_capital,
            "nocontractsign": is_numeric and first.is_nocont,
            "numsign": first.is_literary and not is_numeric,
            "begcapsword": is_capital and is_run and not before & UPPERCASE,
            "capsletter": is_capital and not is_run,
        }
        signs = [cell for sign, it in is_used.items() if it for cell in self.table.signs.get(sign, ())]
        for it in map(self.chars.__getitem__, reads):
            is_run_before, is_numeric = has_runs and bool(before & it.classes & UPPERCASE), it.is_literary or (it.is_mode and is_numeric)
            before = it.classes
        return rule, reads, (*signs, *cells), ((before, is_numeric, is_run_before), *rest)

    def steps(self, state: State) -> list[Step]:
        return [it for it in dict.fromkeys(self.all_steps(state)) if not self.left_out & {*it[1]}]


class WindowMachine(Machine):
    start = ((SPACE, False, False), False, "")

    def is_final(self, state: State) -> bool:
        return not state[2]

    def windows(self, is_ended: bool, known: str) -> list[tuple[bool, str]]:
        """What a state may know once it has read on."""
        if is_ended or len(known) >= self.width:
            return [(is_ended, known)]
        return [(True, known), *(it for char in self.own for it in self.windows(False, known + char))]

    def all_steps(self, state: State) -> Iterator[Step]:
        rules = self.rules(state[0][0])
        for is_ended, known in self.windows(*state[1:]):
            if known[:1] in self.own:
                folded, classes = self.table.fold(known[0]) + known[1:], [*(self.chars[it].classes for it in known), SPACE]
                begins = (it for it in rules if (folded if it[1].place else known).startswith(it[1].chars))
                number, rule, _ = next(it for it in begins if holds(it[2], classes[len(it[1].chars)]))
                size = len(rule.chars)
                yield self.step(state[0], number, known[:size], False, rule.cells, is_ended, known[size:])


def barred(chars: str, cond: Cond) -> Due | None:
    """The due that a text doesn't go on so; None where every text does."""
    return (BAR, chars, cond) if chars else None if cond == ALWAYS else (NEED, "", (MEETS + AVOIDS - cond[0], cond[1]))


class DuesMachine(Machine):
    start = ((SPACE, False, False), ())

    def is_final(self, state: State) -> bool:
        return all(kind == BAR or holds(cond, SPACE) for kind, _, cond in state[1])

    def further(self, before: int, reads: str, is_run: bool) -> Cond | None:
        """What must follow for these to begin in a run of capitals, or out of one; None: they can't."""
        if not self.table.has_word_capitals() or not self.table.is_capital(reads[0]):
            return None if is_run else ALWAYS
        if not before & UPPERCASE and len(reads) == 1:
            return MEETS if is_run else AVOIDS, UPPERCASE
        return ALWAYS if is_run == bool(before & UPPERCASE or self.table.is_capital(reads[1])) else None

    def forms(self, before: int) -> Iterator[tuple[int, str, bool, tuple[str, ...], set[Due]]]:
        """After these classes: the rule, what it reads, whether in a run, its cells, what it owes."""
        for is_run in (False, True):
            unfolded, owed = defaultdict(list), defaultdict(set)
            for it in self.own:
                unfolded[self.table.fold(it)] += [it] if self.table.is_capital(it) or not is_run else []
            for number, rule, after in self.rules(before):
                chars = [unfolded[it] if rule.place and (is_run or not at) else [it] for at, it in enumerate(rule.chars)]
                texts = [(it, cond) for it in map("".join, product(*chars)) if (cond := self.further(before, it, is_run))]
                for it, cond in texts:
                    owes = owed[it].union((NEED, "", some) for some in (cond, after) if some != ALWAYS)
                    if None not in owes:
                        yield number, it, is_run, rule.cells, owes
                for text, size in ((it, size) for it, _ in texts for size in range(1, len(it) + 1)):
                    owed[text[:size]].add(barred(text[size:], after))

    def carry(self, due: Due, reads: str) -> set[Due | None]:
        """What is left of a due once these characters are read; None where they break it."""
        kind, chars, cond = due
        if kind == BAR and chars.startswith(reads):
            return {barred(chars[len(reads) :], cond)}
        is_kept = (kind == BAR and not reads.startswith(chars)) or holds(cond, self.chars[reads[len(chars)]].classes) == (kind == NEED)
        return set() if is_kept else {None}

    def all_steps(self, state: State) -> Iterator[Step]:
        before = state[0][0]
        self.kept[before] = self.kept.get(before) or [*self.forms(before)]
        for rule, reads, is_run, cells, owed in self.kept[before]:
            left = owed.union(*(self.carry(it, reads) for it in state[1]))
            if None not in left:
                yield self.step(state[0], rule, reads, is_run, cells, tuple(sorted(left)))


# ---- Whether what is listed is closed
def splits(edges: list[Edge]) -> Iterator[tuple[list[int], Pair]]:
    """The two rules, in order, and the pair of each split of a state."""
    in_order = sorted(edges, key=lambda it: it[1])
    for at, (rule, shorter, behind) in enumerate(in_order, 1):
        for other, longer, ahead in takewhile(lambda it: it[1][: len(shorter)] == shorter, in_order[at:]):
            yield sorted((rule, other)), (ahead, behind, longer[len(shorter) :])


def followed(pair: Pair, edge: Edge) -> Pair | None:
    """The pair that follows where the run behind takes a step."""
    (ahead, _, lead), (_, cells, to) = pair, edge
    if lead[: len(cells)] == cells:
        return ahead, to, lead[len(cells) :]
    return (to, ahead, cells[len(lead) :]) if cells[: len(lead)] == lead else None


def close(machine: Machine, states: dict[State, int], pairs: dict[Pair, int]) -> None:
    """Refuses by the first test that fails."""
    edges, there = [], {*pairs, *((behind, ahead, lead) for ahead, behind, lead in pairs if not lead)}
    refuse("A1 NoStart", machine.start not in states)
    for state, at in states.items():
        steps = machine.steps(state)
        missing = [rule for rule, _, _, to in steps if to not in states]
        refuse(f"A2 StateMissing state {at} rule {min(missing, default=0)}", missing != [])
        edges.append([(rule, cells, states[to]) for rule, _, cells, to in steps])
    for at, some in enumerate(edges):
        missing = [rules for rules, it in splits(some) if it not in there]
        refuse("A3 SplitMissing state {} rules {} {}".format(at, *min(missing, default=[0, 0])), missing != [])
    for pair, at in pairs.items():
        missing = [it[0] for it in edges[pair[1]] if (to := followed(pair, it)) and to not in there]
        refuse(f"A4 PairMissing pair {at} rule {min(missing, default=0)}", missing != [])
    final = [machine.is_final(it) for it in states]
    for (ahead, behind, lead), at in pairs.items():
        refuse(f"A5 BothEnd pair {at}", lead == () and final[ahead] and final[behind])


def alphabet(table: Table, option: str, chars: str) -> tuple[set[str], str]:
    """The characters that an option leaves out, and the line of an acceptance that says so."""
    seen = str.maketrans({it: f"\\{mark}" for mark, it in ESCAPES.items()})
    given = re.findall({"--without": "(?s).", "--only": r"(?s).\.\..|."}[option], characters(chars))
    named = [{it for it in table.chars if some[0] <= it <= some[-1]} for some in given]
    if not all(named) or (option == "--only" and not named):
        raise Fault("the table doesn't define a character of the option, or it has none")
    if option == "--without":
        return set().union(*named), f"without: {' '.join(it.translate(seen) for it in given)}\n" if given else ""
    for at in reversed(range(1, len(given))):
        if ord(given[at - 1][-1]) + 1 == ord(given[at][0]):
            given[at - 1 : at + 1] = [given[at - 1][0] + given[at][-1]]
    shown = "".join(f"{it[0]}{'..' * (ord(it[-1]) - ord(it[0]) > 1)}{it[-1] if it[0] != it[-1] else ''}" for it in given)
    return {*table.chars}.difference(*named), f"only: {shown.translate(seen)}\n"


def answer(words: list[str]) -> tuple[int, str]:
    """The status, and what is printed."""
    try:
        *option, path, cert = words
        data, table = Path(cert).read_bytes(), Table(path)
        left_out, line = alphabet(table, *(option or ["--without", ""]))
        version, states, pairs = read(data)
        refuse("K9 OldVersion line 1", version < 3 and table.has_word_capitals())
        machine = (WindowMachine if version == 1 else DuesMachine)(table, left_out)
        if version == 1 and sum(len(machine.own) ** it for it in range(1, machine.width + 1)) > 10_000:
            return 3, ""
        close(machine, states, pairs)
        return 0, f"accepted: {len(states)} states, {len(pairs)} pairs\n{line}"
    except Refused as fault:
        return 1, f"refused: {fault}\n"
    except (OSError, KeyError, TypeError, ValueError, Fault) as fault:
        print(f"not judged: {fault}", file=sys.stderr)
        return 2, ""


if __name__ == "__main__":
    STATUS, TEXT = answer(sys.argv[1:])
    print(TEXT, end="")
    sys.exit(STATUS)
