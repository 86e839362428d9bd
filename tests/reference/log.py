"""What is written: the log, the final queues, the report, and the comparison of two reports."""
import hashlib
from collections.abc import Iterable, Sequence
from typing import TYPE_CHECKING

from queues import Place, origin_text

if TYPE_CHECKING:
    from sites import Row, Site

LOG_HEADER = "at,queue,agent,call,answer,message,receipt,detail".split(",")
FINAL_HEADER = "final,queue,message,origin,place,due,enqueued,receives,group,md5".split(",")
TRANSFER_HEADER = "transfer,from,to,kind,due,number,message,origin,md5".split(",")
TASK_HEADER = ["task", "name", "status", "moved"]
REFUSALS = ["OverLimit", "MessageNotInflight", "ReceiptHandleIsInvalid", "BadTimeout", "MissingGroup",
            "MissingDeduplication", "BadDelay", "TaskRunning", "NoTask"]
COLUMNS = ["sends", "repeats", "receives", "empties", "deletes", "expiries", "redrives", "moves", "arrivals", *REFUSALS,
           "depth_max", "visible", "in_flight", "delayed", "age_sum", "age_max", "age_p50", "age_p95", "age_p99"]
COMES, LEAVES = ["send new", "arrive new"], ["delete deleted", "expire expired", "redrive out", "move out"]
COUNTED = [["send new"], ["send repeat", "arrive repeat"], ["receive ok"], ["receive empty"], ["delete deleted"],
           ["expire expired"], ["redrive out"], ["move out"], ["arrive new"]]
# A value of the report, which is empty if it is an age and nothing was deleted.
Value = int | str


def md5(body: str) -> str:
    return hashlib.md5(body.encode("utf-8")).hexdigest()


def line_of(fields: Iterable[object]) -> str:
    """A line of CSV; only what needs quotes has them."""
    texts = (str(field) for field in fields)
    return ",".join(f'"{text.replace(chr(34), chr(34) * 2)}"' if set(text) & set(',"\r\n') else text
                    for text in texts) + "\n"


def log_text(rows: Iterable["Row"]) -> str:
    return line_of(LOG_HEADER) + "".join(line_of(row.fields) for row in rows)


def finals_text(sites: Sequence["Site"]) -> str:
    """Messages, transfers under way, and tasks."""
    names = [site.queue.settings.name for site in sites]
    lines: list[Sequence[object]] = [FINAL_HEADER]
    for site, name in zip(sites, names):
        for message in site.queue.messages.values():
            due = "" if message.due is None else message.due
            lines.append(["final", name, site.queue.id(message.number), origin_text(message.origin),
                          message.place.value, due, message.enqueued, message.receives, message.group or "",
                          md5(message.body)])
    lines.append(TRANSFER_HEADER)
    transfers = [transfer for site in sites for transfer in site.arriving]
    for it in sorted(transfers, key=lambda it: (it.at, it.sender, it.number)):
        origin = "" if it.load.origin is None else origin_text(it.load.origin)
        lines.append(["transfer", names[it.source], names[it.target], it.load.kind, it.at, it.number, it.load.message,
                      origin, md5(it.load.body)])
    lines.append(TASK_HEADER)
    tasks = {number: task for site in sites for number, task in site.tasks.items()}
    lines += [["task", task.settings.name, task.status, task.moved] for _, task in sorted(tasks.items())]
    return "".join(map(line_of, lines))


def columns_of(site: "Site", rows: Iterable["Row"]) -> list[Value]:
    """The report of a queue, whose rows are among these."""
    own = [row.fields for row in rows if row.queue == site.number]
    said = [f"{fields[3]} {fields[4]}" for fields in own]
    answers = [fields[4] for fields in own]
    depth = depth_max = 0
    for word in said:
        depth += (word in COMES) - (word in LEAVES)
        depth_max = max(depth_max, depth)
    counted: list[Value] = [sum(word in words for word in said) for words in COUNTED]
    counted += [answers.count(refusal) for refusal in REFUSALS]
    places = [site.queue.count(place) for place in (Place.VISIBLE, Place.INFLIGHT, Place.DELAYED)]
    ages = sorted(int(fields[7]) for fields, word in zip(own, said) if word == "delete deleted")
    greatest: list[Value] = [ages[-(-percent * len(ages) // 100) - 1] if ages else "" for percent in (100, 50, 95, 99)]
    return [*counted, depth_max, *places, sum(ages), *greatest]


def report_text(sites: Iterable["Site"], rows: Sequence["Row"]) -> str:
    lines = [line_of(["report", site.queue.settings.name, *columns_of(site, rows)]) for site in sites]
    return line_of(["report", "queue", *COLUMNS]) + "".join(lines)


def comparison_text(first: dict[str, list[Value]], second: dict[str, list[Value]]) -> str:
    """The comparison of two reports, by the names of their queues."""
    lines: list[Sequence[object]] = []
    for name, values in first.items():
        if name not in second:
            lines.append(["compare", name, "only", 1, 0, -1])
            continue
        for column, left, right in zip(COLUMNS, values, second[name]):
            change = right - left if isinstance(left, int) and isinstance(right, int) else ""
            lines.append(["compare", name, column, left, right, change])
    lines += [["compare", name, "only", 0, 1, 1] for name in second if name not in first]
    return "".join(map(line_of, lines))
