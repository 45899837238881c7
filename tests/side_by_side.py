#!/usr/bin/env python3
"""Runs the commands of standard input, one a line, side by side. What each says is printed when it has ended.

  tests/side_by_side.py <COMMANDS

The exit status is 1 where one failed. The last line is 'scripts: N passed, M failed'.
"""

import os
import shlex
import subprocess
import sys
import time
from concurrent.futures import ThreadPoolExecutor, as_completed


def tried(command: str) -> tuple[bool, str]:
    """Whether a command passes, and what is to be printed of it."""
    began = time.monotonic()
    how = {"stdin": subprocess.DEVNULL, "stdout": subprocess.PIPE, "stderr": subprocess.STDOUT}
    ran = subprocess.run(shlex.split(command), text=True, errors="replace", check=False, **how)
    script, seconds = shlex.split(command)[0], time.monotonic() - began
    return ran.returncode == 0, f"{ran.stdout}{'FAILED' if ran.returncode else 'passed'}: {script}, {seconds:.0f} s"


def main() -> int:
    passed = failed = 0
    with ThreadPoolExecutor(len(os.sched_getaffinity(0))) as pool:
        for it in as_completed([pool.submit(tried, line) for line in sys.stdin if line.strip()]):
            is_passed, said = it.result()
            passed, failed = passed + is_passed, failed + (not is_passed)
            print(said, flush=True)
    print(f"scripts: {passed} passed, {failed} failed")
    return 1 if failed or not passed else 0


if __name__ == "__main__":
    sys.exit(main())
