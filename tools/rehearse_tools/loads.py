"""How busy the consumers of a scenario are, by the means of its times. explain imports it; it is not a command."""
from __future__ import annotations

import os
import statistics
from collections.abc import Mapping, Sequence
from typing import Any

from .console import read_text
from .quantiles import mean_of
from .scenarios import items_of, ways_of
from .scripts import records_of

# The loads in percent over which a line says what to mind.
HIGH, FULL = 90, 100


def mean_time(actor: Mapping[str, Any], key: str) -> float:
    """The mean of the times that are drawn by a key, or between its two bounds, in milliseconds."""
    bounds: list[int] = [] if key in actor else [actor[f"{key}_min_ms"], actor[f"{key}_max_ms"]]
    return statistics.fmean(bounds) if bounds else mean_of(actor[key])


def size_of_service(consumer: Mapping[str, Any]) -> int:
    """How many messages a service is of: one, or a full batch that is served at once."""
    return int(consumer.get("batch", 1)) if consumer.get("batch_service") == "once" else 1


def mean_service(consumer: Mapping[str, Any]) -> float:
    """The mean time of a service. Of those that fail by chance, outside of outages, some take a time of their own."""
    mean = mean_time(consumer, "service")
    if consumer.get("batch_service") == "once":
        mean += size_of_service(consumer) * int(consumer.get("service_each_ms", 0))
    failing = int(consumer.get("fail_permille", 0)) / 1_000
    return (1 - failing) * mean + failing * float(consumer.get("fail_service_ms", mean))


def text_of_service(consumer: Mapping[str, Any]) -> str:
    """What a service is of, and how long it takes on average."""
    size = size_of_service(consumer)
    of = f" of {size} messages" if size > 1 else ""
    return f"a service{of} takes {mean_service(consumer):,.1f} ms on average"


def rate_of(actor: Mapping[str, Any], folder: str) -> float:
    """How many messages an actor and its copies send in a millisecond, from the first to the last of each; of a single
    one that is none."""
    if actor["kind"] == "producer":
        return int(actor.get("copies", 1)) / mean_time(actor, "gap") if actor["count"] > 1 else 0
    if actor["kind"] != "script":
        return 0
    text = actor["calls"] if "calls" in actor else read_text(os.path.join(folder, actor["script"]))
    times = [int(record[0]) for _, record in records_of(text) if record[1] == "send"]
    return len(times) / (times[-1] - times[0]) if len(times) > 1 else 0


def copies_of(consumer: Mapping[str, Any], actors: Sequence[Mapping[str, Any]]) -> int:
    """How many copies of a consumer there are, of which a scaler lets so many ask at most."""
    most = next((it["copies_max"] for it in actors if it["kind"] == "scaler" and it["name"] == consumer.get("scaler")),
                consumer.get("copies", 1))
    return min(int(consumer.get("copies", 1)), int(most))


def lines_of_queue(scenario: Mapping[str, Any], queue: str, folder: str) -> list[str]:
    """What the consumers of a queue have to do, if it has some."""
    actors = [actor for actor in items_of(scenario, "actor") if actor["queue"] == queue]
    consumers = [actor for actor in actors if actor["kind"] == "consumer" and copies_of(actor, actors)]
    if not consumers:
        return []
    rate, copies = sum(rate_of(actor, folder) for actor in actors), [copies_of(it, actors) for it in consumers]
    load = 100 * rate / sum(number * size_of_service(it) / mean_service(it) for number, it in zip(copies, consumers))
    most = "at most " if any("scaler" in consumer for consumer in consumers) else ""
    count = sum(copies)
    others = sorted({start for start, to in ways_of(scenario) if to == queue})
    lines = [f"{queue}: {1_000 * rate:,.2f} messages a second are sent"
             + (f", and what comes from {', '.join(others)} is left out" if others else "")]
    lines += [f"{consumer['name']}: {text_of_service(consumer)}; the load of the "
              f"{f'{most}{count} consumers' if count > 1 else 'only consumer'} of {queue} is {load:,.1f} %"
              for consumer in consumers]
    if load > HIGH:
        lines.append(f"{queue}: over {FULL} %, so it grows without end while messages come like this"
                     if load > FULL else f"{queue}: over {HIGH} %, so ages depend on how long the run is")
    return lines


def text_of_loads(scenario: Mapping[str, Any], folder: str) -> str:
    """For each queue that has consumers, how many messages are sent to it, and the mean service and load of each."""
    return "".join(f"{line}\n" for queue in items_of(scenario, "queue")
                   for line in lines_of_queue(scenario, queue["name"], folder))
