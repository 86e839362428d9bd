#!/usr/bin/env python3
"""Runs the kit's rt on one crate so that crates that use the same libraries are proved side by side:

    tools/side_by_side.py RT WORD ..

rt locks the crate that it works in and all those below it, and a second rt waits until it has all of these to itself.
`rt all` proves side by side, but each crate by one job. tools/build begins a crate when those below it are built, so
that they are only read, and here rt shares its locks of those: it waits for a process that writes them, and keeps
others from writing. An RT that is not the kit's script runs as it is.
"""
import fcntl
import importlib.machinery
import importlib.util
import os
import sys
from collections.abc import Sequence
from typing import Any


def locked(crates: Sequence[Any]) -> list[int]:
    """Locks the last of the crates for this process alone and those below it for all who read them; gives the locks."""
    # in one order everywhere, so that no two wait for one another
    own, held = os.path.realpath(crates[-1].folder), []
    for folder in sorted({os.path.realpath(crate.folder) for crate in crates}):
        held.append(os.open(folder, os.O_RDONLY))
        try:
            fcntl.flock(held[-1], fcntl.LOCK_EX if folder == own else fcntl.LOCK_SH)
        except OSError:
            # a file system without locks, which rt passes too
            pass
    return held


def kit_script(path: str) -> Any:
    """The kit's rt as a module whose locks are those above, or None if the path leads to another program or kit."""
    with open(path, "rb") as file:
        if b"python" not in file.readline():
            return None
    loader = importlib.machinery.SourceFileLoader("rt", os.path.realpath(path))
    spec = importlib.util.spec_from_loader("rt", loader)
    if spec is None:
        return None
    script: Any = importlib.util.module_from_spec(spec)
    loader.exec_module(script)
    if not hasattr(script, "main") or not hasattr(getattr(script, "rtlib", None), "lock"):
        return None
    script.rtlib.lock = locked
    return script


def main(words: list[str]) -> int:
    if words in (["--help"], ["-h"]):
        print(__doc__.strip())
        return 0
    if len(words) < 2:
        print("side_by_side.py: it takes RT and its words (--help tells the usage)", file=sys.stderr)
        return 2
    script = kit_script(words[0])
    if script is None:
        os.execv(words[0], words)
    status = int(script.main(words[1:]))
    return status if status >= 0 else 128 - status


if __name__ == "__main__":
    sys.exit(main(sys.argv[1:]))
