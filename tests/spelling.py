"""The characters that an operand of a table spells."""

import re

ESCAPES = {"\\": "\\", "f": "\f", "n": "\n", "r": "\r", "s": " ", "t": "\t", "v": "\v", "e": "\x1b"}


def characters(operand: str) -> str:
    """The characters that an operand spells."""

    def meant(found: re.Match[str]) -> str:
        mark, digits = found[1], found[2] or found[3] or found[4]
        return chr(int(digits, 16)) if digits else ESCAPES[mark]

    return re.sub(r"\\(?=(.?))(?:x([0-9a-fA-F]{4})|y([0-9a-fA-F]{5})|z([0-9a-fA-F]{8})|.?)", meant, operand)
