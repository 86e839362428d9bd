"""The scenarios that tools/bench measures; it imports them, and this is not a command."""
from __future__ import annotations

from collections.abc import Callable, Iterable, Iterator

from scenario_texts import Time, consumer, producer, queue_of, scenario_of, script, task

HORIZON_MOST = 2_592_000_000


def benched(horizon: int, *tables: str, **top: int) -> str:
    return scenario_of(min(horizon, HORIZON_MOST), *tables, seed=7, **top)


def sender(name: str, queue: str, count: int, gap: Time, **keys: int) -> str:
    return producer(name, queue, min(count, 1_000_000), gap, f"message {{n}} of {name}", **keys)


def around(gap: int) -> Time:
    """A gap of so many milliseconds in the mean."""
    return max(1, gap // 2), gap + gap // 2


def starts(name: str, queue: str, task: str, moments: Iterable[int]) -> str:
    """A script that starts a move task at these moments."""
    return script(name, queue, *(f"{at},start,,,,,,,,,{task}" for at in moments))


def one_queue(size: int, _tempo: int, rest: int = 60_000, **top: int) -> str:
    return benched(size * 20 + rest, queue_of("q"), sender("p", "q", size, (10, 30)),
                   consumer("c", "q", (1, 3), batch=10, wait_s=1, fail_permille=20), **top)


def many_consumers(size: int, _tempo: int) -> str:
    return benched(size * 20 + 60_000, queue_of("q"), sender("p", "q", size, (10, 30)),
                   *(consumer(f"c{i}", "q", (100, 300), batch=1, wait_s=20) for i in range(1000)))


def fifo_queue(size: int, _tempo: int) -> str:
    return benched(size * 2 + 60_000, queue_of("f.fifo", visibility_s=20),
                   sender("p", "f.fifo", size, (1, 3), groups=1000),
                   *(consumer(f"c{i}", "f.fifo", (5, 20), batch=10, wait_s=1, fail_permille=10) for i in range(10)))


def ring_of_queues(size: int, tempo: int) -> str:
    queues = 64
    count = max(1, size // (queues * 36))
    gap = max(2, 40 // tempo)
    tables = [queue_of(f"q{i}", visibility_s=2, dead_letter=f"d{i}", max_receives=3, latency_ms=50) for i in range(queues)]
    tables += [queue_of(f"d{i}") for i in range(queues)]
    for i in range(queues):
        tables.append(sender(f"p{i}", f"q{i}", count, around(gap)))
        tables += [consumer(f"c{i}_{j}", f"q{i}", (1, 4), batch=10, wait_s=1, fail_permille=100,
                            forward=f"q{(i + 1) % queues}", latency_ms=100) for j in range(2)]
    return benched(count * gap + 20_000, *tables)


def net_of_queues(size: int, tempo: int) -> str:
    live, dead = 700, 300
    count = max(1, size // (live * 9))
    gap = max(2, 200 // tempo)
    tables = [queue_of(f"q{i}", visibility_s=5, dead_letter=f"d{i % dead}", max_receives=2, latency_ms=250)
              for i in range(live)]
    tables += [queue_of(f"d{i}") for i in range(dead)]
    for i in range(live):
        forward = {"forward": f"q{i * 37 % live}", "latency_ms": 200} if i % 3 else {}
        tables += [sender(f"p{i}", f"q{i}", count, around(gap)),
                   consumer(f"c{i}", f"q{i}", (max(1, gap // 20), max(1, gap // 4)), batch=5, wait_s=2,
                            fail_permille=60, **forward)]
    return benched(count * gap + 20_000, *tables)


def quiet_queues(size: int, _tempo: int) -> str:
    tables = [queue_of(f"q{i}", dead_letter=f"d{i}", max_receives=3, latency_ms=1000) for i in range(2)]
    tables += [queue_of(f"d{i}") for i in range(2)]
    for i in range(2):
        tables += [sender(f"p{i}", f"q{i}", size, (600_000, 1_000_000)),
                   consumer(f"c{i}", f"q{i}", (1000, 60_000), batch=1, wait_s=20, fail_permille=300, idle_ms=1000)]
    return benched(size * 60_000, *tables)


def hot_groups(size: int, _tempo: int) -> str:
    return benched(size * 20 + 60_000, queue_of("f.fifo", visibility_s=2),
                   sender("p", "f.fifo", size, (10, 30), groups=3),
                   *(consumer(f"c{i}", "f.fifo", (1, 10), batch=10, wait_s=1, fail_permille=300) for i in range(4)))


def chains_of_queues(size: int, _tempo: int) -> str:
    chains, length, gap = 40, 5, 400
    count = max(1, size // chains)
    horizon, tables = count * gap + 120_000, []
    names = [[f"q{c}-{d}" + (".fifo" if c >= chains // 2 else "") for d in range(length)] for c in range(chains)]
    for chain in names:
        tables += [queue_of(name, visibility_s=3 + d, dead_letter=chain[d + 1], max_receives=2, latency_ms=100 + 50 * d)
                   for d, name in enumerate(chain[:-1])]
        tables.append(queue_of(chain[-1], visibility_s=2 + length))
    for c, chain in enumerate(names):
        groups = {"groups": 50} if c >= chains // 2 else {}
        tables.append(sender(f"p{c}", chain[0], count, around(gap), **groups))
        tables += [consumer(f"w{c}-{d}-{k}", name, (20, 200), batch=1 + k % 10, wait_s=20, start_ms=k,
                            fail_permille=500 if d < length - 1 else 300) for d, name in enumerate(chain) for k in range(25)]
        tables.append(starts(f"s{c}", chain[-1], f"t{c}", range(20_000, horizon, 30_000)))
    tables += [task(f"t{c}", chain[-1], to=chain[0], per_second=50, latency_ms=200) for c, chain in enumerate(names)]
    return benched(horizon, *tables)


def fan_of_queues(size: int, _tempo: int) -> str:
    queues, gap = 63, 50
    count = max(1, size // queues)
    horizon = count * gap + 60_000
    tables = [queue_of(f"q{i}", visibility_s=1, dead_letter="dead", max_receives=1, latency_ms=10) for i in range(queues)]
    tables.append(queue_of("dead"))
    for i in range(queues):
        tables += [sender(f"p{i}", f"q{i}", count, around(gap)),
                   consumer(f"c{i}", f"q{i}", (1, 5), batch=10, wait_s=20, fail_permille=300)]
    return benched(horizon, *tables, starts("s", "dead", "back", range(5_000, horizon, 5_000)),
                   task("back", "dead", per_second=500, latency_ms=10))


def all_in_flight(size: int, _tempo: int) -> str:
    queues = 10
    count = max(1, size // queues)
    tables = [queue_of(f"q{i}", visibility_s=43_200, in_flight=120_000) for i in range(queues)]
    for i in range(queues):
        tables.append(sender(f"p{i}", f"q{i}", count, 1))
        tables += [consumer(f"c{i}-{k}", f"q{i}", 1, batch=10, wait_s=20, fail_permille=1000) for k in range(3)]
    return benched(count + 5_000, *tables)


def backlog(size: int, _tempo: int) -> str:
    return benched(size + 200_000, queue_of("q", retention_s=100), sender("p", "q", size, 1),
                   *(consumer(f"c{i}", "q", (20, 60), batch=10, wait_s=20, fail_permille=50) for i in range(4)))


def delayed(size: int, _tempo: int) -> str:
    return benched(size + 1_000_000, queue_of("q", delay_s=900, hosts=16, sampled=1), sender("p", "q", size, 1),
                   *(consumer(f"c{i}", "q", (1, 2), batch=10, idle_ms=50) for i in range(4)))


def calls_of_script(actor: int, count: int) -> Iterator[str]:
    """Two sends, a receive and a delete in turn, ten milliseconds apart."""
    for k in range(count):
        at, queue = k * 10 + actor % 10, actor % 5
        if k % 4 < 2:
            yield f"{at},send,body {k} of actor {actor} some text,,,,,,,,"
        elif k % 4 == 2:
            yield f"{at},receive,,,,,,10,,,"
        else:
            yield f"{at},delete,,,,,r-{queue}-{k * 5}-1,,,,"


def scripts(size: int, _tempo: int) -> str:
    actors, queues = 50, 5
    count = max(1, size // actors)
    return benched(count * 10 + 1_000, *(queue_of(f"q{i}", visibility_s=5) for i in range(queues)),
                   *(script(f"a{a}", f"q{a % queues}", *calls_of_script(a, count)) for a in range(actors)))


def sampled(size: int, tempo: int) -> str:
    return one_queue(size, tempo, 1_000, sample=1)


MAKERS: dict[str, Callable[..., str]] = {
    "one": one_queue, "many": many_consumers, "fifo": fifo_queue, "hot": hot_groups, "ring": ring_of_queues,
    "net": net_of_queues, "chain": chains_of_queues, "fan": fan_of_queues, "flight": all_in_flight, "backlog": backlog,
    "delay": delayed, "scripts": scripts, "sample": sampled, "quiet": quiet_queues}
