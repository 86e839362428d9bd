"""Reads the tables in facts/, which have what documents, tools and the page tell of keys, refusals and columns:

- keys.csv has the keys of a scenario, by their tables and in the order in which they are read. `range` says it in words
  where the numbers do not, `queues` is the only kind of queue that may have the key, `beside` the keys beside one of
  which alone it may stand, `least` the key that is its least value, `replaces` those in whose place it may stand, and
  `items` the bounds of each number of a list. `about` is for all who ask what a key is, and `rule` for docs/FORMATS.md
  alone. The row `latency` of a table stands for the keys of the table latency.
- kinds.csv has the kinds of keys: what one is called, and of a list what it has, what an item is, and by which rule.
- refusals.csv has the refusals by number. Those of calls have no status of the program; `aws` is the error of SQS, and
  `remedy` what one may do.
- columns.csv has the columns of the report, with the rows that they count, the figures of which each is the sum, and
  their metrics of CloudWatch. The row `refusals` stands for the refusals of calls.
- further.csv has the columns of sweeps that no report has, each with its figure, or with what it is made of.
- lines.csv has the lines that summary and the page print of a queue: the key of the value, what writes it, whether the
  line is there even if the value is zero, and whether it is a share of what came in.

The modules keys, logs, figures and summaries read them, and tools/facts makes tables of documents and
docs/scenario.schema.json.
"""
from __future__ import annotations

import csv
import os


def rows_of(name: str) -> list[dict[str, str]]:
    """The rows of a table by the names of its columns."""
    with open(os.path.join(os.path.dirname(__file__), "facts", f"{name}.csv"), encoding="utf-8", newline="") as file:
        return list(csv.DictReader(file))
