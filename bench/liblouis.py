"""What the benches of real tables share: liblouis, asked for the cells of texts."""

import subprocess
import sys
from pathlib import Path

sys.dont_write_bytecode = True
sys.path.insert(0, str(Path(__file__).resolve().parent.parent / "tests"))
from spelling import characters

# lou_translate cuts longer lines.
MOST_CHARACTERS = 500

# A run of lou_translate may take so many seconds.
MOST_SECONDS = 120

# Two texts, as a report of brl spells them.
Pair = tuple[str, str]


class NotAsked(Exception):
    """Why liblouis gives no answer."""


def text_of(spelled: str) -> str:
    """The text that is spelled so, if liblouis can be asked about it: a line of its input."""
    try:
        text = characters(spelled)
    except (KeyError, ValueError, OverflowError):
        raise NotAsked(f"{spelled} has a bad escape") from None
    if not text or len(text) > MOST_CHARACTERS or set(text) & set("\n\r\0"):
        raise NotAsked(f"{spelled} can't be a line of lou_translate's input")
    return text


def spelled(char: str) -> str:
    """A character as an operand spells it."""
    return f"\\x{ord(char):04x}" if ord(char) < 0x10000 else f"\\z{ord(char):08x}"


def can_be_asked(pair: Pair) -> bool:
    """Whether liblouis can be asked about two texts."""
    try:
        return all(map(text_of, pair))
    except NotAsked:
        return False


def marks(table: Path | str, texts: list[str]) -> list[str]:
    """The cells of each text by a table of liblouis, in Unicode braille."""
    words = ["lou_translate", "--forward", f"unicode.dis,{table}"]
    try:
        ran = subprocess.run(words, input="".join(f"{it}\n" for it in texts).encode(), capture_output=True, timeout=MOST_SECONDS)
    except FileNotFoundError:
        raise NotAsked("there is no lou_translate: apt-get install liblouis-bin") from None
    except subprocess.TimeoutExpired:
        raise NotAsked(f"lou_translate hasn't ended after {MOST_SECONDS} s") from None
    found = ran.stdout.decode(errors="replace").split("\n")[:-1]
    if ran.returncode or len(found) != len(texts):
        raise NotAsked(ran.stderr.decode(errors="replace").strip() or f"lou_translate gives {len(found)} lines for {len(texts)} texts")
    return found


def are_alike(table: Path | str, pairs: list[Pair]) -> list[bool]:
    """Of each pair, whether liblouis gives both texts the same cells."""
    texts = [text_of(it) for pair in pairs for it in pair]
    found = marks(table, texts) if texts else []
    return [left == right for left, right in zip(found[::2], found[1::2])]


def package_version() -> str:
    try:
        ran = subprocess.run(["dpkg-query", "-W", "-f", "${Version}", "liblouis-data"], capture_output=True, text=True)
    except FileNotFoundError:
        return "of another system"
    return ran.stdout or "of another system"
