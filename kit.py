"""The Rattle kit's command `rt`, as a module: it knows how a crate is checked."""

import importlib.machinery
import importlib.util
import os
import shutil
from types import ModuleType


def kit() -> ModuleType | None:
    """The kit's command, if it is on the path."""
    found = shutil.which("rt")
    if not found:
        return None
    loader = importlib.machinery.SourceFileLoader("rt", os.path.realpath(found))
    made = importlib.util.module_from_spec(importlib.util.spec_from_loader("rt", loader))
    loader.exec_module(made)
    return made
