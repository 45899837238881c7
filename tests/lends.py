#!/usr/bin/env python3
"""Finds values that a function makes only to lend them within one call: `&Type::none(..)` or `&Type::nothing(..)`, a field
`name: &Type::new(..)` of a literal, and any `&Type::made(..)` in the call whose value a `match` takes apart.

Such a function owns the value at each of its exits, and its proof may take minutes where it else takes a second: make the
value by a `let`, and lend it to another function (docs/dev/DECISIONS.md, 'Owning little').

A line is printed for each, with the file and the line, and 'ok: ..' where there is none; then the exit status is 0, else 1.
"""

import re
import sys
from pathlib import Path

TOP = Path(__file__).resolve().parent.parent
FORM = re.compile(r"&[A-Z]\w*::(?:none|nothing)\(|: &[A-Z]\w*::new\(|\bmatch [^{};]*&[A-Z]\w*::\w+\([^{};]*\)\?? \{")

found = []
for file in sorted(TOP.glob("crates/*/src/**/*.rt")):
    text = file.read_text(encoding="utf-8")
    found += [f"{file.relative_to(TOP)}:{text.count(chr(10), 0, it.start()) + 1}: lent within a call" for it in FORM.finditer(text)]
print(*(found or ["ok: no value is made only to be lent within a call"]), sep="\n")
sys.exit(bool(found))
