"""Random scenarios of a few agents, dense in time, so that events meet at one moment."""
import random
from collections.abc import Callable, Sequence
from typing import Any, TypeVar

X = TypeVar("X")
HEADER = "at,call,body,group,id,delay,receipt,max,wait,timeout,task"
BODIES = ["abc", "a,b", 'say "hi"', "x", "{n}", "é€", "long " * 9, "line"]
PRODUCER_BODIES = ["{n}", "abc", "a{n}b{n}", "x,{n}"]
NO_RECEIPTS = ["x", "r-0-0", "r-00-1-1", "r-0-0-0", "r-0-9-1-1", "R-0-0-1", "r-4294967296-0-1",
               "r-0-4611686018427387904-1", "r-0-0-01"]
STEPS = [1, 1, 1, 2, 5, 10, 99, 100, 500, 1000, 1000, 2000]
EDITED_LINES = ["speed = 1", 'name = "q0"', "delay_s = -1", "hosts = 17", "body = 3", 'zeta = ""', "alpha = []",
                "latency_ms = 0", 'to = "nobody"', 'forward = "q9"', "groups = 0", "sample = -5", "[x]", "[[actor]]",
                "[[task]]", "[[queue]]", "stop_ms = 5", "copies = 2", 'batch_fails = "whole"', "fails_to_ms = 9",
                'batch_service = "once"', "service_each_ms = 7", "fails_between_ms = [[1, 9], [5, 5]]",
                "fails_permille = 10", 'backoff_jitter = "full"', "heartbeat_s = 1", "fail_service_ms = 7",
                "service = [[0, 1], [1000, 5]]", "backoff_s = []", "gap = 7", 'forward = ["q0"]',
                "fails_permille = [1, 2]", 'key_groups = [["g", 1]]', 'scaler = "x0"', "scaler_start_ms = 7", "every_s = 3",
                "reading_s = 2", "copies_min = 1", "copies_max = 0", "added_max = 0", "cooldown_in_s = 86401",
                "steps = [[0, 1], [9, 1000]]", "visible_per_copy = 3"]
EDITED_VALUES = ["-1", "0", "1", "3", "901", "43201", "99999999999", "9223372036854775807", "1.5", "true", '""',
                 '"abc"', '"a b"', "[]", "{}", "1979-05-27", '"q0"', '"q1.fifo"', '"script"', '"producer"',
                 '"consumer"', '"scaler"', '"x0"', "[[0, 1], [0, 2], [1000, 3]]", "[[0, 5], [1000, 4]]", "[[0, 1], [999, 2]]", "[1, 2]",
                 '[["g", 0]]', '[["g h", 1]]', "[[1000, 1], [0, 1]]", '"once"', '"full"', "[[9, 8]]",
                 "[[5, 1], [5, 2]]", "[[7, 1001]]"]
EDITED_FIELDS = ["", "01", "-1", "11", "99999999999", "21", "k0", '"', 'a"b', "4294967295", "4294967296", "é"]
EDITED_TOPS = ["task = 3", "actor = {}", "queue = []", "actor = [1]", "task = [{}]", "extra = 1", "seed = -1"]


def quoted(value: object) -> str:
    """A value in TOML."""
    if isinstance(value, bool):
        return "true" if value else "false"
    if isinstance(value, str):
        return '"' + value.replace("\\", "\\\\").replace('"', '\\"') + '"'
    if isinstance(value, list):
        return "[" + ", ".join(map(quoted, value)) + "]"
    return str(value)


def table(name: str, keys: dict[str, object]) -> str:
    """A table of a list; keys without a value are left out."""
    lines = [f"{key} = {quoted(value)}" for key, value in keys.items() if value is not None]
    return "\n".join([f"[[{name}]]", *lines, ""])


def record(**fields: object) -> str:
    texts = [str(fields.get(name, "")) for name in HEADER.split(",")]
    return ",".join('"' + text.replace('"', '""') + '"' if set(text) & set(',"\n') else text for text in texts)


class Maker:
    """Makes a scenario of a version without some keys, always the same one of a seed."""

    def __init__(self, seed: str, version: int, without: Sequence[str] = ()) -> None:
        self.random, self.version, self.without = random.Random(seed), version, without

    def one(self, values: Sequence[X]) -> X:
        return self.random.choice(values)

    def rarely(self, chance: float, values: Sequence[Any]) -> Any:
        """One of some values by a chance, or None."""
        return self.one(values) if self.random.random() < chance else None

    # The whole.
    def network(self) -> str:
        """Queues of both kinds with actors and tasks."""
        horizon = self.one([1000, 5000, 20_000, 70_000, 400_000, 400_000_000])
        self.horizon, count = horizon, self.one([1, 1, 2, 2, 3, 4, 6])
        kinds = [self.random.random() < 0.45 for _ in range(count)]
        self.fifo = [kinds[0]] * count if count > 1 and self.random.random() < 0.5 else kinds
        self.names = [f"q{number}.fifo" if is_fifo else f"q{number}" for number, is_fifo in enumerate(self.fifo)]
        self.dead_letters: set[int] = set()
        self.tasks: dict[int, list[str]] = {}
        self.scalers: dict[int, str] = {}
        top = {"version": self.version, "horizon": horizon,
               "seed": self.rarely(0.6, [0, 1, 7, 2 ** 63 - 1, self.random.randrange(10 ** 9)]),
               "sample": self.rarely(0.3, [1000, 500, 777]) if horizon <= 70_000 else None}
        head = "".join(f"{key} = {value}\n" for key, value in top.items() if value is not None)
        queues = [self.queue(number) for number in range(count)]
        tasks = [self.task(number) for number in range(self.one([0, 1, 2]) if self.dead_letters else 0)]
        scalers = [self.scaler(number) for number in range(count) if self.has_scaler()]
        actors = [self.actor(number) for number in range(self.one([1, 2, 3, 4, 5]))]
        for scaler in scalers:
            actors.insert(self.random.randrange(len(actors) + 1), scaler)
        return head + "".join(queues + actors + tasks)

    def one_queue(self) -> str:
        """One standard queue with scripts of send, receive and delete."""
        self.horizon, self.fifo, self.names, self.tasks = self.one([1, 1000, 5000, 100_000, 345_599_999]), [False], [
            "q"], {}
        queue: dict[str, object] = {
            "name": "q", "visibility_s": self.rarely(0.7, [0, 1, 1, 2, 30, 43_200]),
            "delay_s": self.rarely(0.4, [0, 1, 2, 900]), "in_flight": self.rarely(0.4, [1, 1, 2, 3, 120_000])}
        calls = ["send", "send", "receive", "receive", "delete"]
        scripts = [self.script(f"s{number}", 0, calls) for number in range(self.one([0, 1, 1, 2, 3]))]
        return f"version = {self.version}\nhorizon = {self.horizon}\n" + table("queue", queue) + "".join(scripts)

    # Queues and tasks.
    def kin(self, number: int, is_home_too: bool) -> list[int]:
        return [other for other, is_fifo in enumerate(self.fifo)
                if is_fifo == self.fifo[number] and (is_home_too or other != number)]

    def latency(self) -> dict[str, object]:
        if self.version == 1:
            return {"latency_ms": self.one([1, 1, 2, 5, 100, 500, 1000])}
        least = self.one([1, 2, 5, 100])
        return {"latency_min_ms": least, "latency_max_ms": least + self.one([0, 0, 1, 50, 1000])}

    def queue(self, number: int) -> str:
        is_fifo, others = self.fifo[number], self.kin(number, False)
        hosts = None if is_fifo else self.rarely(0.5, [1, 2, 4, 16])
        keys: dict[str, object] = {
            "name": self.names[number], "visibility_s": self.rarely(0.7, [0, 1, 1, 2, 30]),
            "delay_s": self.rarely(0.3, [0, 1, 2]), "retention_s": self.rarely(0.3, [60, 60, 61, 100]),
            "in_flight": self.rarely(0.4, [1, 1, 2, 3]), "hosts": hosts,
            "sampled": self.rarely(0.7, range(1, hosts + 1)) if hosts else None}
        if is_fifo:
            keys["content_dedup"] = self.rarely(0.5, [True, False])
            keys["dedup_scope"] = self.rarely(0.5, ["queue", "group"])
        if others and self.random.random() < 0.6:
            dead_letter = self.one(others)
            self.dead_letters.add(dead_letter)
            max_receives = self.one([1, 1, 2, 3, 1000])
            keys = {**keys, "dead_letter": self.names[dead_letter], "max_receives": max_receives, **self.latency()}
        return table("queue", keys)

    def task(self, number: int) -> str:
        home = self.one(sorted(self.dead_letters))
        others = self.kin(home, False)
        self.tasks.setdefault(home, []).append(f"k{number}")
        return table("task", {"name": f"k{number}", "queue": self.names[home],
                              "to": self.rarely(0.5, [self.names[it] for it in others]) if others else None,
                              "per_second": self.rarely(0.7, [1, 1, 2, 3, 500]), **self.latency()})

    # Actors.
    def actor(self, number: int) -> str:
        home, name = self.random.randrange(len(self.names)), f"a{number}"
        kinds = ["script", "script", "script", "producer", "consumer", "consumer"]
        kind = self.one(kinds if self.version < 3 else ["script", "producer", "producer", "consumer", "consumer",
                                                        "consumer"])
        if kind == "script":
            calls = ["send"] * 4 + ["receive"] * 4 + ["delete", "delete", "change"]
            return self.script(name, home, calls + (["start", "start", "cancel"] if self.tasks.get(home) else []))
        keys: dict[str, object] = {"name": name, "kind": kind, "queue": self.names[home]}
        own = self.producer(home) if kind == "producer" else self.consumer(home)
        return table("actor", {key: value for key, value in (keys | own).items() if key not in self.without})

    def has_scaler(self) -> bool:
        return self.version == 3 and "scaler" not in self.without and self.random.random() < 0.5

    def scaler(self, home: int) -> str:
        """A scaler that wakes some times, but not too often."""
        every = self.one([1, 1, 2, 3, 5] if self.horizon <= 20_000 else [7, 20, 60] if self.horizon < 10 ** 6 else [86_400])
        least = self.rarely(0.7, [0, 0, 1, 2])
        self.scalers[home] = f"x{home}"
        return table("actor", {
            "name": self.scalers[home], "kind": "scaler", "queue": self.names[home],
            "start_ms": self.rarely(0.5, [0, 1, 100, 999, 1000]), "every_s": every,
            "reading_s": self.rarely(0.4, range(min(every, 20))), **self.target(),
            "copies_min": least, "copies_max": (1 if least is None else least) + self.one([0, 1, 1, 2, 5, 900]),
            "added_max": self.rarely(0.4, [1, 1, 2, 1000]), "taken_max": self.rarely(0.4, [1, 1, 2, 1000]),
            "cooldown_out_s": self.rarely(0.4, [0, 1, 2, every, 10]),
            "cooldown_in_s": self.rarely(0.4, [0, 1, 2, every, 10])})

    def target(self) -> dict[str, object]:
        """How many copies a scaler wants: by the number of visible messages, or by steps, which need not ascend in
        copies."""
        if self.random.random() < 0.6 or "steps" in self.without:
            return {"visible_per_copy": self.one([1, 1, 2, 5])}
        visible = sorted(self.random.sample([0, 0, 1, 2, 3, 5, 8, 20], self.one([1, 2, 2, 3])))
        return {"steps": [[it, self.one([0, 0, 1, 2, 3, 1000])] for it in dict.fromkeys(visible)]}

    def quantiles(self, times: Sequence[int]) -> list[list[int]]:
        """Two to five pairs whose times are among these, with equal ones."""
        inner = sorted(self.random.sample(range(1, 1000), self.one([0, 0, 1, 2, 3])))
        ascending = sorted(self.one(times) for _ in range(len(inner) + 2))
        return [list(pair) for pair in zip([0, *inner, 1000], ascending)]

    def time(self, name: str, least: Sequence[int], more: Sequence[int]) -> dict[str, object]:
        low = self.one(least)
        if self.version == 3 and self.random.random() < 0.4:
            return {name: self.quantiles([low, low, *(low + it for it in more)])}
        return {f"{name}_min_ms": low, f"{name}_max_ms": low + self.one(more)}

    def moment(self, low: int) -> int:
        """A moment that others may meet, not before a low one."""
        return low + self.one([0, 1, 10, 99, 100, 500, 1000, 1001, 2000, 5000, 20_000])

    def producer(self, home: int) -> dict[str, object]:
        start, is_fifo = self.one([0, 0, 1, 100]), self.fifo[home]
        keys: dict[str, object] = {
            "count": self.one([1, 3, 10, 40]), "start_ms": start,
            **self.time("gap", [1, 1, 10, 100, 1000], [0, 0, 1, 50]), "body": self.one(PRODUCER_BODIES)}
        if not is_fifo:
            keys["delay_s"] = self.rarely(0.4, [0, 1, 2])
        elif self.version == 3 and self.random.random() < 0.5 and "key_groups" not in self.without:
            keys["key_groups"] = [[self.one(["g0", "g1", "hot"]), self.one([1, 1, 2, 90])]
                                  for _ in range(self.one([1, 2, 3]))]
        else:
            keys["groups"] = self.one([1, 2, 3, 1000])
        if is_fifo:
            keys["ids"] = self.rarely(0.5, [True, False])
        if self.version == 3:
            keys["stop_ms"] = self.rarely(0.3, [self.moment(start)])
            keys["copies"] = self.rarely(0.2, [1, 2, 2, 3])
        return keys

    def consumer(self, home: int) -> dict[str, object]:
        start, kin = self.one([0, 0, 1, 100]), self.kin(home, True)
        idle = [1, 10, 100, 1000] if self.horizon <= 20_000 else [1000, 5000] if self.horizon < 10 ** 6 else [
            80_000_000]
        keys: dict[str, object] = {
            "start_ms": start, "batch": self.one([1, 1, 2, 3, 10]), "wait_s": self.one([0, 0, 1, 2, 20]),
            "timeout_s": self.rarely(0.5, [0, 1, 1, 2, 30]),
            **self.time("service", [1, 1, 10, 100, 500, 1000], [0, 0, 1, 50, 3000]),
            "fail_permille": self.one([0, 0, 100, 500, 1000]), "idle_ms": self.one(idle)}
        if self.random.random() < 0.6:
            keys = {**keys, "forward": self.forward(kin), **self.latency()}
        return keys | (self.new_keys(start, self.scalers.get(home)) if self.version == 3 else {})

    def forward(self, kin: Sequence[int]) -> object:
        """One queue, or several, which may be the same."""
        if self.version < 3 or self.random.random() < 0.5:
            return self.names[self.one(kin)]
        return [self.names[self.one(kin)] for _ in range(self.one([1, 2, 2, 3, 10]))]

    def new_keys(self, start: int, scaler: str | None) -> dict[str, object]:
        """What version 3 has besides."""
        keys = {"gather_ms": self.rarely(0.4, [0, 1, 1, 50, 1000, 5000, 300_000]),
                "stop_ms": self.rarely(0.3, [self.moment(start)]),
                "fails_on": self.rarely(0.4, ["1", "a", "b", "{", "x,", "abc", "hi"]), **self.outages(),
                "batch_fails": self.rarely(0.5, ["each", "whole", "whole"]), **self.backoff(), **self.serving(),
                "copies": self.rarely(0.3, [1, 2, 3]), **self.scaling(scaler)}
        if keys.get("batch_service") != "once" or keys["batch_fails"] == "whole":
            keys["fail_service_ms"] = self.rarely(0.4, [0, 0, 1, 100, 999, 1000, 1001, 3000])
        return keys

    def scaling(self, scaler: str | None) -> dict[str, object]:
        """Copies that go by the scaler of their queue, if it has one."""
        if scaler is None or self.random.random() < 0.3:
            return {}
        return {"copies": self.rarely(0.9, [1, 2, 3, 5]), "scaler": scaler,
                "scaler_start_ms": self.rarely(0.5, [0, 1, 500, 1000, 3000])}

    def outages(self) -> dict[str, object]:
        """One outage, or several that may meet, or none."""
        begin, kind = self.moment(0), self.random.random()
        if kind < 0.2:
            begins = [self.moment(0) for _ in range(self.one([1, 2, 2, 3]))]
            keys: dict[str, object] = {"fails_between_ms": [[it, self.moment(it)] for it in begins]}
            if self.random.random() < 0.5:
                return {**keys, "fails_permille": [self.one([0, 0, 500, 900, 1000]) for _ in begins]}
        elif kind < 0.4:
            keys = {"fails_from_ms": begin, "fails_to_ms": self.moment(begin)}
        else:
            return {}
        return {**keys, "fails_permille": self.rarely(0.5, [0, 500, 900, 1000])}

    def backoff(self) -> dict[str, object]:
        if self.random.random() < 0.5:
            return {}
        return {"backoff_s": [self.one([0, 0, 1, 1, 2, 5, 43_200]) for _ in range(self.one([1, 1, 2, 3]))],
                "backoff_jitter": self.rarely(0.5, ["none", "full", "full"])}

    def serving(self) -> dict[str, object]:
        """What one service is of, or heartbeats."""
        if self.random.random() < 0.6:
            return {"heartbeat_s": self.rarely(0.6, [1, 1, 2, 3])}
        return {"batch_service": self.one(["each", "once", "once", "once"]),
                "service_each_ms": self.rarely(0.6, [0, 1, 1, 10, 500])}

    # Scripts.
    def receipt(self, site: int) -> str:
        if self.random.random() < 0.06:
            return self.one(NO_RECEIPTS)
        site = site if self.random.random() < 0.93 else self.random.randrange(len(self.names))
        number = min(int(self.random.expovariate(0.4)), 30)
        return f"r-{site}-{number}-{1 if self.random.random() < 0.7 else self.one([1, 2, 3])}"

    def call(self, call: str, at: int, home: int, is_waiting: bool) -> dict[str, object]:
        """The fields of a call that need not be empty."""
        if call == "send":
            is_fifo = self.fifo[home]
            delay = self.one(["", "", "", 0, 1, 2, 900, 901]) if not is_fifo or self.random.random() < 0.2 else ""
            own = {"group": self.one(["", "g", "g", "h", "k"]),
                   "id": self.one(["", "x", "y", f"i{at}", f"i{at}", f"i{at}"])} if is_fifo else {}
            return {"body": self.one(BODIES), "delay": delay, **own}
        if call == "receive":
            return {"max": self.one(["", 1, 2, 3, 10]), "timeout": self.one(["", "", 0, 1, 2, 43_200, 43_201]),
                    "wait": self.one(["", 0, 0, 1, 2, 20]) if is_waiting else self.one(["", "", 0])}
        if call == "change":
            return {"receipt": self.receipt(home), "timeout": self.one([0, 0, 1, 2, 5, 43_200, 43_201])}
        return {"receipt": self.receipt(home)} if call == "delete" else {"task": self.one(self.tasks[home])}

    def script(self, name: str, home: int, calls: Sequence[str]) -> str:
        lines, at, is_waiting = [HEADER], self.one([0, 0, 1, 5, 100]), self.random.random() < 0.5
        for _ in range(self.random.randrange(30)):
            call = self.one(calls)
            fields = self.call(call, at, home, is_waiting)
            lines.append(record(at=at, call=call, **fields))
            wait = fields.get("wait")
            at += self.one(STEPS) + (1000 * wait if isinstance(wait, int) else 0)
        text = "\n".join([*lines, ""])
        keys = table("actor", {"name": name, "kind": "script", "queue": self.names[home]})
        return f"{keys}calls = '''\n{text}'''\n"

    # Faults.
    def edited_line(self, line: str) -> str:
        """A line with a fault, which may be none."""
        edit = self.one(["value"] * 3 + ["field"] * 2 + ["queue", "half", "end", "digit"])
        if edit == "value" and "=" in line:
            return f"{line.split('=')[0]}= {self.one(EDITED_VALUES)}"
        if edit == "field" and "," in line:
            fields = line.split(",")
            fields[self.random.randrange(len(fields))] = self.one(EDITED_FIELDS)
            return ",".join(fields)
        if edit == "half":
            return line[:len(line) // 2]
        if edit == "end":
            return line + self.one([" # note", ",", "\t", "\\"])
        return line.replace("q", "z", 1) if edit == "queue" else line.replace("1", "0", 1)

    def faulty(self) -> str:
        """A text with one to three edits in a good one."""
        lines = self.network().split("\n")
        for _ in range(self.one([1, 1, 2, 3])):
            place = self.random.randrange(len(lines))
            edit = self.one(["line"] * 5 + ["new"] * 3 + ["gone", "order", "top"])
            if edit == "line":
                lines[place] = self.edited_line(lines[place])
            elif edit == "new":
                lines.insert(place, self.one([it for it in EDITED_LINES if it.split(" ")[0] not in self.without]))
            elif edit == "gone":
                del lines[place]
            elif edit == "order":
                lines[place], lines[place - 1] = lines[place - 1], lines[place]
            else:
                lines.insert(0, self.one(EDITED_TOPS))
        return "\n".join(lines)


# By the name of a profile the version of its scenarios, and what makes them.
PROFILES: dict[str, tuple[int, Callable[[Maker], str]]] = {
    "one-queue": (1, Maker.one_queue), "version-1": (1, Maker.network), "version-2": (2, Maker.network),
    "version-3": (3, Maker.network), "faulty-1": (1, Maker.faulty), "faulty-2": (2, Maker.faulty),
    "faulty-3": (3, Maker.faulty)}


def scenario_text(profile: str, seed: int, without: Sequence[str] = ()) -> str:
    version, make = PROFILES[profile]
    return make(Maker(f"{profile} {seed}", version, without))
