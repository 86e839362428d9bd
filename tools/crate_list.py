"""How the crates depend on one another, as crates.txt lists them, and when their sources were last changed. The tools
import it; it is not a command."""
from __future__ import annotations

import os
from collections.abc import Iterable, Mapping, Sequence


def read(path: str) -> dict[str, list[str]]:
    """The crates by name, each with those of the repository that it names; libraries of the kit are left out."""
    named = {}
    with open(path, encoding="utf-8") as lines:
        for line in lines:
            # a static library has the word for that behind its name
            name, _, below = line.partition(":")
            named["".join(name.split()[:1])] = below.split()
    return {name: [one for one in below if one in named] for name, below in named.items()}


def below(crates: Mapping[str, Sequence[str]], name: str) -> set[str]:
    """All crates that a crate depends on."""
    found = set()
    for one in crates[name]:
        found |= {one} | below(crates, one)
    return found


def newest_source(folders: Iterable[str]) -> tuple[float, str]:
    """The moment at which a source below some folders was last changed, and its path; what rt left in out/ is none."""
    found = [(0.0, "")]
    for folder in folders:
        for place, inner, names in os.walk(folder):
            inner[:] = [name for name in inner if name != "out"]
            paths = (os.path.join(place, name) for name in names if name.endswith((".rt", ".antt")))
            found += [(os.stat(path).st_mtime, path) for path in paths]
    return max(found)
