"""Runs a scenario with settings varied, and prints a CSV row for each variant and queue:

    tools/sweep SCENARIO --vary queue.orders.visibility_s=2,5,10 --vary seed=1..20 [--spread seed]
        [--require 'orders.age_p95<60s in 95%' ..] [--columns NAMES] [--table] [--output FILE]
        [--against queue.orders.visibility_s=5 | --against OTHER] [--until 5% | --until decided] [--most N]
        [--junit FILE.xml]
        [--from TIME] [--to TIME] [--settling FILE.svg] [--window TIME] [--price N] [--v3] [--program P]
        [--scripts DIR] [--jobs N] [--cluster tcp://HOST:8786]
    tools/sweep SCENARIO --least count.worker=1..64 --vary seed=1..200 --spread seed
        --require 'orders.age_p95<60s in 95%'
    tools/sweep SCENARIO --vary .. --print-scenario
    tools/sweep SCENARIO --vary .. --print-jobs DIR [--shares N] [--rest]
    tools/sweep SCENARIO --vary .. --share K/N --results DIR [--mark MARK]
    tools/sweep --collect DIR [--mark MARK] [--spread seed] [--require ..] [--columns NAMES] [--table]
        [--output FILE] [--junit FILE.xml]

--vary    a setting and its values. A setting is queue.NAME.KEY, actor.NAME.KEY, task.NAME.KEY, or a key of the top such
          as seed. A NAME with asterisks ties all tables whose names match it: actor.worker-*.batch sets the batch of
          each. count.NAME copies the table of an actor: with count.worker=3 worker-1 takes the place of worker, and
          worker-2 and worker-3 come after all actors, so that the random numbers of others stay. A setting may name
          worker or its copies. The values are words between commas, 1..20 for all whole numbers from 1 to 20, and
          0..100..10 for every tenth. A word with a comma is put in double quotes; a list has its brackets, as
          actor.worker.backoff_s=[1],[1,60]. If --vary is given several times, all combinations are run. A key that the
          scenario does not have is added.
--zip     a setting that goes with the --vary before it, its first value with the first and so on, as in
          --vary seed=1..3 --zip actor.shop.script=a.csv,b.csv,c.csv
--require what must hold in each variant: a column of a queue, one of < <= > >= = !=, and a number, for times with a
          unit (ms, s, m, h, d; without one milliseconds). A queue's name may have asterisks. Each one that
          fails has a line on standard error, and the status is 1. The last line says which variants meet all, with
          --spread those that do in each run. A requirement on an age also fails if no message was deleted, because
          there is no age. Messages that are left are at least as old as they are now. If they could turn a requirement
          on age_p50, age_p95, age_p99 or age_max, it fails or is undecided, which counts as a failure, and the share
          that is left is printed. Without --vary, but with --require or --columns, the scenario runs as it is. With `in
          95%` after it, which goes with --spread, that share of all runs must meet it: it is shown, refuted or
          undecided with 95 % confidence, and holds if it is shown.
--junit   writes into a file what came of each requirement in each variant, as the XML of JUnit that CI systems show: it
          holds, it fails or is undecided (a failure, with its lines), or nothing is known of a run (an error). A sweep
          that was interrupted or of which something is left has a test more, which is an error.
--spread  puts the runs together that differ only in this setting, and gives for each number of the report its mean,
          sample standard deviation, least, median and greatest, the half-width of the mean's 95 % interval, of ages
          both ends of it (mean_low and mean_high), and the interval of the median; numbers that a run's report leaves
          empty are left out. No value of a setting may be given twice, since each run counts as an independent one. If
          the runs of the variant with the deepest queues settle late by MSER-5 over ten of them, a line advises a
          --from. There is no such line if the traffic is not steady, or if this can't be decided.
--against prints differences from the variant with this value, or from another scenario with the same settings, run by
          run over the setting of --spread: their mean with its 95 % interval, in how many runs each is greater and
          less, its probability by Holm's correction over all differences printed, and whether it is shown.
          docs/STATISTICS.md says what that means.
--until   goes on with the values of --spread, ten at first, until the mean of each of --columns is known to within this
          part of it, or (decided) until each requirement is shown or refuted; at most --most runs of a variant
--least   finds by bisection the least value of a setting with which all requirements hold
--from    counts each run from this time on, such as 90s or 1.5h, so that a warm-up is left out. Messages that are in a
          queue by then are there, with the age that they have.
--settling draws into a file, SVG, PNG or PDF, the mean depth of each queue over the runs that the advice looks at, its
          moving mean by Welch, and from when on to count. It goes with --spread.
--to      ends each run at this time, including what happens at it
--columns the columns that are printed, between commas: those of the report, and
          door_age_p50, door_age_p95, door_age_max: ages since the first send of messages that were deleted, empty if
            they are open, as `summary --help` says under --door. For these alone the log is read.
          FURTHER
--table   prints a table for people in place of CSV, without columns, and rows of queues, that have no number
--v3      reads version 3 of scenarios too, as `run --v3` does; --preview is its former name
--program the program; without it SQS_REHEARSE of the environment, else sqs_rehearse beside this folder
--scripts the folder of the scenario's scripts, as for the program
--jobs    how many runs at once; without it one for each processor
--cluster runs the variants on the workers of a Dask cluster, by the address of its scheduler. Workers need Dask and the
          same kind of machine, and no common folder: program and scripts are sent to them. Another worker does what a
          lost one had to do. docs/SWEEPS.md says how.
--output  the file that is written, in place of standard output
--print-scenario  runs nothing and prints the scenario of one variant, to be run and looked at on its own
--print-jobs  runs nothing and prints a shell command for each variant, or for each of --shares N shares of them, which
          writes a file in DIR. They may run in any order and on several machines that have the same paths;
          docs/SWEEPS.md says how. With --rest only those of which something is left are printed.
--share   runs every N-th variant from number K on, and writes one file into the folder --results, which it makes,
          unless the file is there. With --mark it refuses a sweep of another scenario, program, scripts or settings
          than the one that has this mark.
--collect puts the files of such a folder together, as if one sweep had run all. A file that is cut, changed or of
          another sweep is refused, and so is one whose rows of a variant are not those of another file; what is left is
          reported. --mark names the sweep, if there are several.

Columns: the varied settings; failed, which is empty or has the line with which a variant was refused; queue; the
columns of the report. Progress goes to standard error. An interrupt keeps the rows so far; that of a share leaves no
file. The status is 0, 1 if a variant or a requirement failed, something is left or --until is not reached, 2 for
usage and unreadable input, 130 after an interrupt.

Examples:

    tools/sweep examples/short_timeout.toml --vary queue.jobs.visibility_s=2,5,10 --vary seed=1..20
        --spread seed --columns deletes,age_p95 --table
    tools/sweep examples/short_timeout.toml --least queue.jobs.visibility_s=1..10 --vary seed=1..100
        --spread seed --require 'jobs.age_p95<15s in 80%'
"""
from __future__ import annotations

import argparse
import os
import re
from collections.abc import Iterable, Iterator, Sequence
from functools import partial
from textwrap import fill

from .clusters import PROGRAM, SCRIPTS, Cluster
from .console import (Fault, Parser, check_library, check_output, csv_text, print_text, refuse, shown, tell,
                      write_bytes, write_text)
from .decisions import Groups, Requirements, check_ascending, least, text_of, until
from .drawing import FORMATS, bytes_of
from .figures import COLUMNS as OF_FIGURES
from .figures import COST, WINDOW
from .jobs import collect, head_of, print_jobs, run_share, scripts_of
from .programs import named_program, program_of, temporary_folder
from .runs import ALL_COLUMNS, COLUMNS, EXTRA_COLUMNS, Extra, columns_in, extra_of
from .results import paths_of, share_of
from .scenarios import names_of
from .settling import advise, looked_at, picture_of
from .tables import Table, against, folded, table_text
from .units import moment_of, window_of
from .variants import Given, Settings, Sweep, Told, Window

JOBS_MOST = 1_024
SHARES_MOST = 1_000_000
PRICE_MOST = 1_000_000
PERCENT = re.compile(r"([0-9]{1,3}(?:\.[0-9]{1,3})?)\s*%")
# The column of the scenarios if there are two.
SCENARIO = "scenario"
# What goes with runs alone, what with a scenario, and the modes that decide over no runs.
OF_RUNS = ("require", "spread", "against", "until", "most", "least", "settling")
OF_SCENARIOS = ("scenario", "vary", "least", "until", "first", "last", "v3")
MODES = ("print_jobs", "print_scenario", "share")


def columns_of(text: str | None) -> list[str]:
    """The columns that were asked for, all of them if none are named."""
    columns = text.split(",") if text is not None else COLUMNS
    for column in columns:
        refuse(column not in ALL_COLUMNS, f"there is no column {shown(column)}; there are {', '.join(ALL_COLUMNS)}")
    return list(dict.fromkeys(columns))


def description() -> str:
    """The help, with the names of the columns that are figures."""
    names = fill(f"{', '.join(OF_FIGURES)}: figures, as docs/STATISTICS.md has them", 110, subsequent_indent=" " * 12)
    return (__doc__ or "").replace("FURTHER", names)


def options_of(words: Sequence[str]) -> argparse.Namespace:
    parser = Parser(description()).take(
        "--junit", "--spread", "--against", "--until", "--least", "--from", "--to", "--settling", "--window",
        "--columns", "--program", "--scripts", "--cluster", "--output", "--print-jobs", "--share", "--results",
        "--mark", "--collect", flags=["--table", "--v3", "--rest", "--print-scenario"], lists=["--require"],
        numbers={"--most": None, "--jobs": None, "--shares": None})
    parser.add_argument("scenario", nargs="?", metavar="SCENARIO")
    parser.add_argument("--vary", action="append", default=[], type=partial(Given, "vary"))
    parser.add_argument("--zip", action="append", dest="vary", type=partial(Given, "zip"))
    parser.add_argument("--price", type=float)
    return checked(parser.parse_args(words))


def checked(options: argparse.Namespace) -> argparse.Namespace:
    """Makes sure that what is asked for is one thing, and that what is decided over runs has runs for that."""
    runs_none = any(getattr(options, mode) for mode in MODES)
    refuse(options.collect and (runs_none or any(getattr(options, name) for name in OF_SCENARIOS)),
           "--collect reads what was run, and takes no SCENARIO, --vary, --print-jobs or --print-scenario")
    refuse(not options.collect and not (options.scenario and (options.vary or options.require or options.columns)),
           "a SCENARIO and at least one --vary, --require or --columns are needed (--help tells the usage)")
    refuse(options.print_scenario and (options.first or options.last),
           "--from and --to go with runs, and nothing is run")
    refuse(runs_none and any(getattr(options, of) for of in OF_RUNS),
           "a share writes all rows: --require and --spread go with --collect" if options.share else
           "--require and --spread go with runs, and nothing is run")
    for name, wanted in (("shares", "print_jobs"), ("rest", "print_jobs"), ("results", "share")):
        refuse(getattr(options, name) and not getattr(options, wanted),
               f"--{name} goes with --{wanted.replace('_', '-')} (--help tells the usage)")
    refuse(options.mark and not (options.share or options.collect),
           "--mark goes with --share or --collect (--help tells the usage)")
    refuse(options.share and not options.results, "--share goes with --results (--help tells the usage)")
    refuse(options.cluster and (options.collect or runs_none), "--cluster goes with runs (--help tells the usage)")
    refuse(options.price is not None and not 0 <= options.price <= PRICE_MOST, f"--price is 0 to {PRICE_MOST:,}")
    refuse(options.window and not moment_of("--window", options.window), "--window is a time over 0")
    refuse(not 1 <= (options.jobs or 1) <= JOBS_MOST or options.jobs == 0, f"--jobs is 1 to {JOBS_MOST}")
    refuse(options.shares is not None and not 1 <= options.shares <= SHARES_MOST, f"--shares is 1 to {SHARES_MOST}")
    refuse(options.settling and os.path.splitext(options.settling)[1].lower() not in FORMATS,
           f"{options.settling} ends in none of {', '.join(FORMATS)}")
    for name in ("against", "until", "settling"):
        refuse(getattr(options, name) and not options.spread, f"--{name} goes with --spread (--help tells the usage)")
    refuse(options.until and options.until != "decided" and not (PERCENT.fullmatch(options.until) and options.columns),
           "--until is decided, or a part as 5% of the means of --columns")
    for name in ("least", "junit"):
        refuse(getattr(options, name) and not options.require, f"--{name} goes with --require (--help tells the usage)")
    refuse(options.junit and options.least, "--junit says what holds in all variants, and --least tries only some")
    refuse(options.settling and options.least, "--settling goes with all runs of a variant, and not with --least")
    refuse(options.until and options.least, "--least goes on until each value is decided, and takes no --until")
    refuse(options.most is not None and not (options.most >= 1 and (options.until or options.least)),
           "--most is a number of runs from 1 on, and goes with --until or --least")
    return options


def write_rows(table: Table, rows: Iterable[list[str]], options: argparse.Namespace) -> bool:
    """Writes the rows, as CSV to standard output as they come; returns whether one of them reports a failure."""
    place, has_failed, kept = table.header.index("failed"), False, []
    is_stream = options.output is None and not options.table
    if is_stream:
        print_text(csv_text([table.header]))
    for row in rows:
        has_failed = has_failed or bool(row[place])
        if is_stream:
            print_text(csv_text([row]))
        else:
            kept.append(row)
    if not is_stream:
        text = table_text(table.header, kept) if options.table else csv_text([table.header, *kept])
        write_text(options.output, text)
    return has_failed


def has_other_scenario(options: argparse.Namespace) -> bool:
    """Whether what is run is compared with another scenario, and not with one of its own variants."""
    return bool(options.against) and "=" not in options.against


def base_of(options: argparse.Namespace) -> tuple[str, str]:
    """The column in which what is compared with has a word, and this word."""
    if has_other_scenario(options):
        return SCENARIO, options.against
    setting, _, word = options.against.partition("=")
    return setting, word


def check_spread(settings: Settings, options: argparse.Namespace, requirements: Requirements) -> None:
    """Makes sure that what is put together, and what is set against, is varied."""
    if options.spread:
        refuse(not settings.tied(options.spread), f"{options.spread} is not varied, so that nothing spreads over it")
        settings.check_doubles()
        check_library("scipy", "python3-scipy")
        requirements.spread = settings.tied(options.spread)
    elif requirements.in_share:
        raise Fault(f"{requirements.in_share[0].text}: a share of runs goes with --spread")
    if has_other_scenario(options):
        if options.collect or options.until or options.least or options.against == options.scenario:
            raise Fault(f"--against {shown(options.against)}: another scenario is run as often as this one, which goes "
                        "with no --collect, --until or --least")
    elif options.against:
        setting, word = base_of(options)
        if setting not in settings.values or setting in requirements.spread:
            raise Fault(f"--against {shown(options.against)}: {shown(setting)} is no setting that is varied")
        if word not in [value.strip('"') for value in settings.values[setting]]:
            raise Fault(f"--against {shown(options.against)}: {shown(word)} is none of the values of {setting}")


def finish(header: list[str], rows: Iterator[list[str]], settings: Settings, options: argparse.Namespace) -> bool:
    """Writes the rows with the columns that are asked for, put together or compared with one another if that is asked
    for; returns whether one of them reports a failure."""
    columns, known = columns_of(options.columns), columns_in(header)
    places = [*range(len(header) - len(known)), *(header.index(column, -len(known)) for column in columns)]
    table, chosen = Table([header[at] for at in places], [], columns), ([row[at] for at in places] for row in rows)
    if not options.spread:
        return write_rows(table, chosen, options)
    table, tied = table._replace(rows=list(chosen)), settings.tied(options.spread)
    has_failed = any(row[len(table.settings)] for row in table.rows)
    table = against(table, tied, *base_of(options)) if options.against else folded(table, tied)
    return write_rows(table, table.rows, options) or has_failed


def status_of(requirements: Requirements, options: argparse.Namespace, is_interrupted: bool, has_failed: bool,
              ends: Sequence[str] = ()) -> int:
    """The status of the tool, once all is written. `ends` has what has not come to its end."""
    if requirements.all:
        requirements.tell()
    if options.junit:
        ends = [*(["the sweep was interrupted"] if is_interrupted else []), *ends]
        write_text(options.junit, text_of(options.scenario or options.collect, requirements.cases(), ends))
    if is_interrupted:
        return 130
    return 1 if has_failed or requirements.failed or ends else 0


def main_of_collect(options: argparse.Namespace, requirements: Requirements) -> int:
    if extra_wanted(requirements, options).is_any:
        raise Fault(f"shares and jobs have the columns of the report alone, and none of {', '.join(EXTRA_COLUMNS)}")
    collection, head = collect(options.collect, options.mark)
    settings = Settings(Given(kind, words) for kind, words in head.settings)
    requirements.check_names(dict.fromkeys(row[len(head.settings) + 1] for row in collection.rows
                                           if not row[len(head.settings)]))
    check_spread(settings, options, requirements)
    for output in (options.output, options.junit):
        check_output(output, paths_of(options.collect))
    rows = requirements.looked_at(collection.columns, collection.rows, {})
    has_failed = finish(collection.columns, rows, settings, options)
    ends = ["variants are left, or files of results are refused"] if collection.left or collection.faults else []
    return status_of(requirements, options, False, has_failed, ends)


def extra_wanted(requirements: Requirements, options: argparse.Namespace) -> Extra:
    """What is asked for beside the report."""
    columns = [*columns_of(options.columns), *(requirement.column for requirement in requirements.all)]
    refuse(COST in columns and options.price is None, f"the column {COST} needs --price, what a million requests cost")
    window = moment_of("--window", options.window)
    return extra_of(columns, WINDOW if window is None else window, options.price)


def run_groups(groups: Groups, requirements: Requirements, options: argparse.Namespace) -> bool:
    """Runs what is put together, as far as is asked for; whether what was to be reached has been."""
    total = len(groups.sweep.settings)
    most = min(max(map(len, groups.numbers.values())), options.most or total)
    if options.least:
        return least(groups, options.least.partition("=")[0], most, requirements)
    if options.until:
        part = PERCENT.fullmatch(options.until)
        wanted = float(part[1]) / 100 if part else None
        return until(groups, wanted, columns_of(options.columns), most, requirements)
    groups.progress = Told(total)
    groups.run(groups.numbers, 0, total, requirements)
    return True


def main_of_runs(sweep: Sweep, requirements: Requirements, options: argparse.Namespace) -> int:
    requirements.check_names(names_of(sweep.scenario, "queue"))
    sweep.needs_ages = requirements.are_open
    sweep.extra = extra_wanted(requirements, options)
    check_spread(sweep.settings, options, requirements)
    others = [sweep.of(options.against)] if has_other_scenario(options) else []
    for output in (options.output, options.settling, options.junit):
        check_output(output, [*options.inputs, *(path for other in others for path in other.inputs())])
    if options.settling:
        check_library("matplotlib", "python3-matplotlib")
    if not options.spread and not options.least:
        numbers, header = range(1, len(sweep.settings) + 1), sweep.header()
        rows_of_all = (row for _, outcome in sweep.outcomes(numbers, options.jobs, Told(len(numbers)))
                       for row in requirements.looked_at(header, outcome.rows, outcome.ages))
        has_failed = finish(header, rows_of_all, sweep.settings, options)
        return status_of(requirements, options, sweep.interrupted, has_failed)
    if options.least:
        name = options.least.partition("=")[0]
        check_ascending(name, sweep.settings.values[name])
    groups = Groups(sweep, requirements.spread, options.jobs)
    is_reached = run_groups(groups, requirements, options)
    header, rows = sweep.header(), groups.all_rows()
    if others and not sweep.interrupted:
        other = Groups(others[0], requirements.spread, options.jobs)
        run_groups(other, Requirements([]), options)
        sweep.interrupted = other.sweep.interrupted
        header = [SCENARIO, *header]
        rows = [[path, *row] for path, of in ((options.scenario, rows), (options.against, other.all_rows()))
                for row in of]
    has_failed = finish(header, iter(rows), sweep.settings, options)
    if options.least:
        requirements.tell_variants()
        return 130 if sweep.interrupted else 0 if is_reached else 1
    if (sweep.window.first is None or options.settling) and not sweep.interrupted:
        look_at_settling(groups, options.settling)
    ends = [] if is_reached else ["--until is not reached"]
    return status_of(requirements, options, sweep.interrupted, has_failed, ends)


def look_at_settling(groups: Groups, output: str | None) -> None:
    """Prints from when on to count, if the runs have not settled by their beginning, and draws that if it is asked
    for."""
    looked = looked_at(groups)
    if looked is None:
        if output:
            tell("--settling draws nothing: it needs five runs of one variant that end together and are not too long")
        return
    line = advise(looked)
    if line is not None and groups.sweep.window.first is None:
        tell(line)
    if output:
        write_bytes(output, bytes_of(picture_of(looked), FORMATS[os.path.splitext(output)[1].lower()]))


def main(words: Sequence[str]) -> int:
    options = options_of(words)
    requirements = Requirements(options.require)
    columns_of(options.columns)
    if options.collect:
        return main_of_collect(options, requirements)
    searched = [Given("vary", options.least)] if options.least else []
    window = Window(*window_of(options.first, options.last))
    sweep = Sweep(options.scenario, Settings([*searched, *options.vary]), options.scripts, window, options.v3)
    first, horizon = window.first, sweep.scenario.get("horizon")
    if first is not None and isinstance(horizon, int) and first > horizon and "horizon" not in sweep.settings.values:
        raise Fault(f"--from {first} ms is after the horizon of {horizon} ms")
    if options.print_scenario:
        refuse(len(sweep.settings) != 1, f"--print-scenario prints one variant, and these are {len(sweep.settings):,}")
        check_output(options.output, sweep.inputs())
        write_text(options.output, sweep.text(sweep.settings.words(1)))
        return 0
    if options.print_jobs:
        sweep.program = named_program(options.program)
        head = head_of(sweep, program_of(options.program))
        print_jobs(sweep, head, options.print_jobs, options.shares or head.variants, options.rest)
        return 0
    sweep.program = program_of(options.program)
    options.inputs = sweep.inputs()
    if options.cluster:
        return main_of_cluster(sweep, requirements, options)
    options.jobs = options.jobs or os.cpu_count() or 1
    with temporary_folder() as folder:
        sweep.keep(folder)
        return main_of_share(sweep, options) if options.share else main_of_runs(sweep, requirements, options)


def main_of_share(sweep: Sweep, options: argparse.Namespace) -> int:
    head = head_of(sweep, sweep.program)
    if options.mark not in (None, head.mark):
        raise Fault(f"the scenario, its scripts, the settings and the program here are those of the sweep "
                    f"{head.mark}, and not of {shown(options.mark)}")
    return run_share(sweep, head, share_of(options.share), options.results, options.jobs)


def main_of_cluster(sweep: Sweep, requirements: Requirements, options: argparse.Namespace) -> int:
    """Runs the sweep on the workers of a cluster."""
    cluster = Cluster(options.cluster, sweep.program, scripts_of(sweep))
    sweep.program, sweep.scripts = PROGRAM, SCRIPTS
    sweep.engine, sweep.cancel = cluster.engine, cluster.cancel
    options.jobs = options.jobs or cluster.jobs()
    try:
        return main_of_runs(sweep, requirements, options)
    finally:
        cluster.close()
