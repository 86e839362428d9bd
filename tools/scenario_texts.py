"""The texts of scenarios by a call for each table, for tools/bench and the tests. It is not a command.

A time is one number, or the two bounds between which it is drawn.
"""
from __future__ import annotations

from typing import Union

from rehearse_tools.scenarios import lines_of_table, text_of_table
from rehearse_tools.scripts import HEADER

Time = Union[int, "tuple[int, int]"]


def table(of: str, **keys: object) -> str:
    return text_of_table(of, keys)


def between(what: str, time: Time) -> dict[str, int]:
    least, greatest = time if isinstance(time, tuple) else (time, time)
    return {f"{what}_min_ms": least, f"{what}_max_ms": greatest}


def queue_of(name: str, **keys: object) -> str:
    return table("queue", name=name, **keys)


def producer(name: str, queue: str, count: int, gap: Time, body: str = "m", **keys: object) -> str:
    return table("actor", name=name, kind="producer", queue=queue, count=count, **between("gap", gap), body=body, **keys)


def consumer(name: str, queue: str, service: Time, **keys: object) -> str:
    return table("actor", name=name, kind="consumer", queue=queue, **keys, **between("service", service))


def script(name: str, queue: str, *calls: str) -> str:
    """A script with its calls, a line for each."""
    lines = "\n".join([",".join(HEADER), *calls])
    return table("actor", name=name, kind="script", queue=queue) + f'calls = """\n{lines}\n"""\n'


def task(name: str, queue: str, **keys: object) -> str:
    return table("task", name=name, queue=queue, **keys)


def scenario_of(horizon: int, *tables: str, version: int = 1, **keys: object) -> str:
    return "\n".join(lines_of_table({"version": version, "horizon": horizon, **keys})) + "\n" + "".join(tables)
