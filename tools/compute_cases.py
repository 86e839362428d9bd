#!/usr/bin/env python3
"""Turns stored cases into lemmas that the checker computes over the definitions.

    tools/compute_cases.py OUT.antt [--only WORD] [--but NAME] [--most ROWS] FOLDER..

A FOLDER has cases that run, as texts NAME.toml with what the program prints for them in NAME.out; or it is a file of
cases that are refused (tools/stored_cases.py has its form). For a case that runs, the lemma says that the scenario read
from the very bytes of its text has a one-list run whose log, finals and report are the CSV records of NAME.out, after
which nothing is due by the horizon and every accepted message is in exactly one place. For a case that is refused, it
says that the line of the first fault is the stored one. In a folder whose name ends with -3 texts of version 3 are
read, too.

Write OUT.antt into a crate that uses the definitions (crates/sqs_examples/proofs, with a line in
its Lib.antt) and run `rt check` there: a case that the definitions do not meet is an error.
--only takes the cases whose name has that word, --but leaves out the one of a name, and --most
those with more rows of log.

Each MD5 in the output is given by the body that has it, so that the checker need not compute it.
"""
from __future__ import annotations

import csv
import hashlib
import io
import re
import sys
from collections.abc import Iterable, Mapping, Sequence

from rehearse_tools.console import Fault, Parser, check_output, ended, print_text, toml_of, write_text
from stored_cases import Case, cases_at

OPEN = ("reading_on_literals running_on_literals columns_of")
# A handling may make no row: an actor of version 3 may only stop when it wakes, and a copy that no scaler wants only look
# again. A run that has ended stays as it is.
MORE_HANDLINGS = 60
VERSION_3 = "shown_upto 3"
# What a literal can have, or one byte that it can't; and how a literal has some letters.
PIECES, ESCAPES = re.compile(rb"([\n -~]+)|(.)", re.S), str.maketrans({"\\": "\\\\", '"': '\\"', "\n": "\\n"})

HEAD = """-- Scenarios with their right output, computed over the definitions. Made by tools/compute_cases.py.
use Rattle.std.proofs.Common.{◌≡◌, ℕ, true, List, [], ◌∷◌, ◌++◌, codes, refl}
use Rattle.sqs_formats.specs.Report.{columns_of}
use Rattle.sqs_formats.proofs.OnLiterals.{reading_on_literals}
use Rattle.sqs_examples.proofs.Shown.{running_on_literals, digest, ran, refused, SHOWN}
"""


def quoted(text: bytes) -> str:
    """An antt term for a text: a literal, cut into parts at bytes that a literal can't have."""
    pieces = ['codes "%s"' % plain.decode().translate(ESCAPES) if plain else "(%d ∷ [])" % other[0]
              for plain, other in PIECES.findall(text)]
    return "(" + " ++ ".join(pieces) + ")" if pieces else "[]"


def bodies(text: bytes) -> dict[str, bytes]:
    """Every body that a scenario's actors may send, by the MD5 of it."""
    found = {}

    def add(body: bytes) -> None:
        found[hashlib.md5(body).hexdigest()] = body

    for actor in toml_of(text.decode("utf-8").lstrip("\ufeff")).get("actor", []):
        if actor.get("kind") == "producer":
            for n in range(min(actor["count"], 2000)):
                add(actor["body"].replace("{n}", str(n)).encode("utf-8"))
        elif "calls" in actor:
            for record in csv.reader(io.StringIO(actor["calls"].lstrip("\ufeff"))):
                if len(record) == 11 and record[1] == "send":
                    add(record[2].encode("utf-8"))
    return found


def field(text: str, known: Mapping[str, bytes]) -> str:
    if text in known:
        return "digest %s" % quoted(known[text])
    return quoted(text.encode("utf-8"))


def listed(items: Iterable[str]) -> str:
    return "(" + " ∷ ".join(list(items) + ["[]"]) + ")"


def ran(name: str, shown: str, text: bytes, out: bytes) -> tuple[int, str]:
    known = bodies(text)
    records = list(csv.reader(io.StringIO(out.decode("utf-8"), newline="")))
    rows = next(i for i, r in enumerate(records) if r[0] == "final") - 1
    lines = " ∷\n    ".join(listed(field(f, known) for f in r) for r in records)
    handlings = rows + (MORE_HANDLINGS if shown == VERSION_3 else 0)
    return rows, "%s : %s %d [] %s\n    ≡ ran (%s ∷ [])\n" % (name, shown, handlings, quoted(text), lines)


def shown_by(case: Case) -> str:
    """What shows a case: with texts of version 3, or with those of versions 1 and 2 alone."""
    return VERSION_3 if case.is_version_3 else "shown"


def lemma(case: Case, number: int, most: int) -> str | None:
    name, shown = "case_%s_%s" % (number, case.name.replace("-", "_")), shown_by(case)
    if not case.is_refused:
        try:
            rows, claim = ran(name, shown, case.text, case.printed)
        except (ValueError, KeyError, TypeError, AttributeError, StopIteration):
            raise Fault("%s.out is not the output of %s.toml" % (case.path, case.path)) from None
        if rows > most:
            return None
    else:
        claim = "%s : %s 0 [] %s\n    ≡ refused %s\n" % (name, shown, quoted(case.text), quoted(case.printed))
    return "-- %s.toml\n%sunfolding %s\n%s = refl\n" % (case.path, claim, OPEN, name)


def main(words: Sequence[str]) -> int:
    parser = Parser(__doc__).take("--only", "--but", numbers={"--most": 10**9})
    parser.set_defaults(only="", but="")
    parser.add_argument("out", metavar="OUT.antt")
    parser.add_argument("folders", nargs="+", metavar="FOLDER")
    options = parser.parse_args(words)
    check_output(options.out)
    cases = [(number, case) for number, folder in enumerate(options.folders) for case in cases_at(folder)]
    lemmas = [made for number, case in cases if options.only in case.name and case.name != options.but
              if (made := lemma(case, number, options.most)) is not None]
    used = sorted({shown_by(case).split()[0] for _, case in cases})
    write_text(options.out, HEAD.replace("SHOWN", ", ".join(used)) + "\n" + "\n".join(lemmas))
    print_text("%d lemmas in %s\n" % (len(lemmas), options.out))
    return 0


if __name__ == "__main__":
    sys.exit(ended(main))
