"""Finds what a contract needs: files of definitions, the definitions in them, and the types of the code that these name."""

import re
from collections.abc import Iterable, Iterator
from pathlib import Path
from typing import NamedTuple

from pages import Wrong

CALL, CLAUSE, UNNEEDED = "judge", "accepted", "IsAccepted"

# An import of a module: the crate, the path there, and the names from it or a name for it.
IMPORT = re.compile(r"^(?:ghost )?use Rattle\.(\w+)\.(.+?)(?:\.\{([^}]*)\}| as (\w+));?$", re.MULTILINE)

# A clause of a formatted function, with its name.
ENSURES = re.compile(r"^    ensures (\w+) \{.*?\}$", re.MULTILINE | re.DOTALL)

# The head of a definition, a constructor of one, and a name, but for that of a field of a value.
HEAD = re.compile(r"^(?:abbrev pub|unfoldable pub|pub record|pub data) (\S+)", re.MULTILINE)
CONSTRUCTOR = re.compile(r"^  (\w+) : ", re.MULTILINE)
NAME = re.compile(r"(?<![\w)]\.)\b[^\W\d]\w*")

# The operator that `do` means; no definition writes it.
STEPS = "◌>>=◌"

# A type of the code: its doc comment, its attributes, and its declaration with its name.
TYPE = re.compile(
    r"^(?P<doc>(?:///.*\n)*)(?:#\[.*\n)*"
    r"(?P<declared>(?:pub(?:\(crate\))? )?(?:struct|enum) (?P<name>\w+)\b[^{;\n]*(?:;|\{\n(?:.*\n)*?\}))$",
    re.MULTILINE,
)
ATTRIBUTE = re.compile(r"^ +#\[.*\n", re.MULTILINE)
COMMENT = re.compile(r"(?:--|//).*")


def code_lines(text: str) -> int:
    """How many lines aren't blank, nor a comment alone."""
    return sum(1 for line in COMMENT.sub("", text).splitlines() if line.strip())


class Import(NamedTuple):
    """A module by its crate and its path there. The words by which the importing file names what it has, each with its name
    there; or the one by which it names the module, with an empty name."""

    crate: str
    path: tuple[str, ...]
    words: dict[str, str]

    @staticmethod
    def all_in(text: str) -> "list[Import]":
        found = []
        for crate, path, names, name in IMPORT.findall(text):
            parted = [it.strip().partition(" as ") for it in names.split(",")] if names else []
            words = {new or old: old for old, _, new in parted} or {name: ""}
            found.append(Import(crate, tuple(path.split(".")), words))
        return found

    def declared(self) -> tuple[str, str] | None:
        """The type in src/ that is imported, by its file and its name, if it is one."""
        if self.path[:2] != ("specs", "declared"):
            return None
        *folders, name = [it for it in self.path[2:] if it != "TheVariants"]
        return f"{self.crate}/src/{'/'.join(folders)}.rt", name


class Sources:
    """The sources of a state of the repository, and the contract of the call in them."""

    def __init__(self, root: Path) -> None:
        self.crates = root / "crates"
        head = re.compile(rf"^pub fn {CALL}\b.*?^\{{$", re.MULTILINE | re.DOTALL)
        found = [(file, it[0]) for file in sorted(self.crates.glob("*/src/*.rt")) for it in head.finditer(file.read_text())]
        if len(found) != 1:
            raise Wrong(f"{root} has {len(found)} functions {CALL}")
        self.file, contract = found[0]
        self.homes = {word: it for it in self.imports(self.file.read_text()) for word in it.words}
        self.clauses = {it[1]: it[0] for it in ENSURES.finditer(contract)}
        if UNNEEDED not in self.clauses.get(CLAUSE, ""):
            raise Wrong(f"{CALL} has no clause {CLAUSE} with {UNNEEDED}")

    def has(self, found: Import) -> bool:
        """Whether what is imported is of these sources; else it is the kit's."""
        return (self.crates / found.crate).is_dir()

    def imports(self, text: str) -> list[Import]:
        """The imports in a text that aren't of the kit."""
        return [it for it in Import.all_in(text) if self.has(it)]

    def named(self, clauses: str) -> dict[str, Import]:
        """What clauses of the call name, with its module: what comes last first, so a statement is before what it is of."""
        words = dict.fromkeys(reversed(re.findall(r"\w+", clauses)))
        return {word: self.homes[word] for word in words if word in self.homes}

    def sound(self) -> dict[str, Import]:
        """What the clause that makes the call sound names."""
        return self.named(self.clauses[CLAUSE].replace(UNNEEDED, ""))

    def file_of(self, found: Import) -> Path | None:
        """The file of definitions that is imported; none where that is what the compiler declares."""
        if found.path[:2] in (("specs", "declared"), ("specs", "contracts")):
            return None
        file = self.crates.joinpath(found.crate, *found.path).with_suffix(".antt")
        if found.path[0] != "specs" or not file.is_file():
            raise Wrong(f"{found.crate}.{'.'.join(found.path)} is no file of definitions")
        return file


class Reading:
    """Files of definitions in the order in which to read them, with their lines."""

    def __init__(self, sources: Sources, names: dict[str, Import]) -> None:
        self.sources = sources
        self.lines: dict[Path, int] = {}
        self.seen: set[Path] = set()
        # the files that each name is the first to need
        self.parts: dict[str, list[Path]] = {}
        for word, it in names.items():
            before = len(self.lines)
            self.follow([it])
            self.parts[word] = list(self.lines)[before:]

    def follow(self, found: list[Import]) -> None:
        for it in found:
            file = self.sources.file_of(it)
            if file and file not in self.seen:
                self.seen.add(file)
                text = file.read_text()
                self.follow(self.sources.imports(text))
                self.lines[file] = text.count("\n")

    def total(self) -> int:
        return sum(self.lines.values())


class Spec:
    """A file of definitions: its imports by its words, the definitions by their names and constructors, and its parts, each
    with the name of the definition that it is; a remark has none."""

    def __init__(self, file: Path) -> None:
        text = file.read_text()
        self.imports = {word: it for it in Import.all_in(text) for word in it.words}
        self.parts: list[tuple[str, str]] = []
        self.owners: dict[str, str] = {}
        for part in map(str.strip, text.split("\n\n")):
            head = HEAD.search(part)
            if head:
                self.parts.append((head[1], part))
                self.owners |= dict.fromkeys([head[1], *CONSTRUCTOR.findall(part)], head[1])
            elif all(line.startswith("--") for line in part.splitlines()):
                self.parts.append(("", part))
            elif not all(line.startswith(("--", "use ")) for line in part.splitlines()):
                raise Wrong(f"{file} has a definition of no known form:\n{part}")
        self.texts = {name: part for name, part in self.parts if name}
        unknown = [name for name in self.texts if not NAME.fullmatch(name) and name != STEPS]
        if unknown:
            raise Wrong(f"{file} defines {unknown[0]}, which isn't looked for in definitions")


class Needed:
    """The definitions in the files of a reading that its names need; the types of the code that those of each file name; and
    what they name of the kit, by its modules. A word counts as a name also where it is bound, so some definition may be too
    many, and none is lacking. One that names a definition of a later file is refused."""

    def __init__(self, sources: Sources, reading: Reading, names: dict[str, Import]) -> None:
        self.sources = sources
        self.specs = {file: Spec(file) for file in reading.lines}
        self.places = {file: place for place, file in enumerate(self.specs)}
        self.found: set[tuple[Path, str]] = set()
        self.types: dict[Path, dict[tuple[str, str], None]] = {it: {} for it in self.specs}
        self.kit: dict[str, set[str]] = {}
        for word, it in names.items():
            self.follow(*self.home(it, word))

    def follow(self, file: Path, name: str) -> None:
        """Takes a definition, and what it needs."""
        if (file, name) in self.found:
            return
        self.found.add((file, name))
        for word in NAME.findall(COMMENT.sub("", self.specs[file].texts[name])):
            for home, other in self.meant(file, word):
                if self.places[home] > self.places[file]:
                    raise Wrong(f"{name} of {file} needs {other} of {home}, which comes after it")
                self.follow(home, other)

    def meant(self, file: Path, word: str) -> list[tuple[Path, str]]:
        """The definition that a word of a file is, if it is one. A type, and what is the kit's, is noted."""
        spec = self.specs[file]
        it = spec.imports.get(word)
        if word in spec.owners:
            return [(file, spec.owners[word])]
        if it is None:
            return []
        if not self.sources.has(it):
            self.kit.setdefault(".".join((it.crate, *it.path)), set()).add(it.words[word] or word)
        elif it.declared():
            self.types[file][it.declared()] = None
        else:
            return [self.home(it, word)]
        return []

    def home(self, found: Import, word: str) -> tuple[Path, str]:
        """The definition that a word of an import is."""
        file, name = self.sources.file_of(found), found.words[word]
        if file not in self.specs or name not in self.specs[file].owners:
            raise Wrong(f"{word} isn't in the definitions of {found.crate}.{'.'.join(found.path)}")
        return file, self.specs[file].owners[name]

    def shown(self, file: Path) -> Iterator[str]:
        """The definitions in a file that are needed, with the remarks before them."""
        remark = []
        for name, part in self.specs[file].parts:
            if not name:
                remark = [part]
            elif (file, name) in self.found:
                yield from (*remark, part)
                remark = []

    def lacking(self, file: Path) -> list[str]:
        """The names of the definitions in a file that aren't needed."""
        return [name for name in self.specs[file].texts if (file, name) not in self.found]


class Types:
    """The declarations of types in some crates, without attributes. One with a model is seen as another type, so it has none."""

    def __init__(self, sources: Sources, crates: Iterable[str]) -> None:
        self.texts: dict[tuple[str, str], str] = {}
        for file in (it for crate in sorted(set(crates)) for it in sorted((sources.crates / crate / "src").glob("**/*.rt"))):
            text = file.read_text()
            for it in TYPE.finditer(text):
                if f"impl Model for {it['name']} " not in text:
                    home = file.relative_to(sources.crates).as_posix()
                    self.texts[home, it["name"]] = it["doc"] + ATTRIBUTE.sub("", it["declared"])

    def order(self, types: Iterable[tuple[str, str]], seen: dict[tuple[str, str], str]) -> dict[tuple[str, str], str]:
        """The declarations of these types that haven't been seen, each after those of the types that it names."""
        before = set(seen)
        for it in types:
            if it not in self.texts:
                raise Wrong(f"{it[0]} has no type {it[1]} of a known form")
            names = set(NAME.findall(COMMENT.sub("", self.texts[it]))) - {it[1]}
            self.order([other for other in self.texts if other[1] in names and other not in seen], seen)
            seen.setdefault(it, self.texts[it])
        return {it: text for it, text in seen.items() if it not in before}
