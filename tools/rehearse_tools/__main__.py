"""Runs a tool by its name:

    python3 -m rehearse_tools TOOL WORD ..

TOOL is arrivals, explain, from-plan, from-queue, life, metrics, picture, quantiles, report, summary or sweep. Each has
its own --help.
"""
import importlib
import os
import sys
from collections.abc import Callable, Sequence
from typing import cast

from .console import Fault, Parser, ended, print_text, shown

TOOLS = ("arrivals", "explain", "from-plan", "from-queue", "life", "metrics", "picture", "quantiles", "report",
         "summary", "sweep")


def main_of(name: str) -> Callable[[Sequence[str]], int]:
    """The function that runs a tool on its words and returns the status."""
    module = importlib.import_module(f".{name.replace('-', '_')}", __package__)
    return cast(Callable[[Sequence[str]], int], module.main)


def launched(path: str) -> int:
    """Runs the tool that a file is named after, whatever links lead to it, and returns the status."""
    name = os.path.basename(os.path.realpath(path))
    return ended(lambda words: main_of(name)(words))


def main(words: Sequence[str]) -> int:
    if words[:1] in (["--help"], ["-h"]):
        print_text(Parser(__doc__).format_help())
        return 0
    if not words or words[0] not in TOOLS:
        raise Fault(f"{f'there is no tool {shown(words[0])}' if words else 'it takes a tool'}; "
                    f"there are {', '.join(TOOLS)} (--help tells the usage)")
    # faults and help name the tool by it
    sys.argv[0] = words[0]
    return main_of(words[0])(words[1:])


if __name__ == "__main__":
    sys.argv[0] = __package__
    sys.exit(ended(main))
