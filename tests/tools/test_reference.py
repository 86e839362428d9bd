"""Tests the reference in tests/reference: against stored cases, against the program over random scenarios, and for
version 3 against docs/FORMATS.md and docs/MODEL.md, by logs, faults and times that were written by hand."""
import csv
import os
import pathlib
import random
import re
import subprocess
import sys
import unittest

from tool import PROGRAM, ROOT, needs_program, text_at

from agreeing import Outcome, answered, first_difference, referred, split_words
from faults import Fault
from making import PROFILES, scenario_text
from reader import read
from sites import TooLong
from stored_cases import stored
from words import MASK, Draws, place_by_weight, time_at

SEEDS, MOST_HANDLINGS = range(1, 21), 1_000
OLD_PROFILES = [name for name, (version, _) in PROFILES.items() if version < 3]
NEW_PROFILES = [name for name, (version, _) in PROFILES.items() if version == 3]
STORED_3 = [case for case in stored() if case.is_version_3]
OLD_STORED = [case for case in stored() if not case.is_version_3]
VERSION_2 = re.compile(rb"^version = 2$", re.MULTILINE)
HEAD = 'version = 3\nhorizon = 9\n[[queue]]\nname = "q"\n[[queue]]\nname = "w-1"\n[[queue]]\nname = "f.fifo"\n'
CONSUMER = HEAD + '[[actor]]\nname = "c"\nkind = "consumer"\nqueue = "q"\n'
SERVED = CONSUMER + "service_min_ms = 1\nservice_max_ms = 1\n"
FORWARDED = SERVED + "latency_min_ms = 1\nlatency_max_ms = 9\n"
PRODUCER = HEAD + '[[actor]]\nname = "p"\nkind = "producer"\nqueue = "q"\ncount = 1\nbody = "m"\n'
SENT = PRODUCER + "gap_min_ms = 1\ngap_max_ms = 1\n"
SENT_FIFO = SENT.replace('queue = "q"\ncount', 'queue = "f.fifo"\ncount')
ANOTHER = SERVED[len(HEAD):]
SCALER = HEAD + '[[actor]]\nname = "x"\nkind = "scaler"\nqueue = "q"\n'
SCALED = SCALER + "every_s = 60\nvisible_per_copy = 1\ncopies_max = 2\n"
STEPPED = SCALED.replace("visible_per_copy = 1\n", "")
BOUNDS = re.compile(r"(gap|service)_min_ms = (\d+)\n\1_max_ms = (\d+)\n")
BETWEEN = re.compile(r"(fails_between_ms = .*\nfails_permille = )(\d+)\n")
PER_COPY = re.compile("visible_per_copy = ([0-9]+)")
# Keys that change nothing: what they name does not occur.
NEUTRAL = {"producer": "stop_ms = 2592000000\n",
           "consumer": 'stop_ms = 2592000000\nfails_on = "in no body"\nfails_from_ms = 7\nfails_to_ms = 7\n'
                       'batch_fails = "each"\nheartbeat_s = 43200\n'}
PAIRS_33 = [[0, 1], *([it, 1] for it in range(1, 32)), [1000, 1]]
# Scenarios to which the first column of reference/faults.csv refers.
SCENARIOS = {"served": SERVED, "consumer": CONSUMER, "forwarded": FORWARDED, "producer": PRODUCER, "sent": SENT,
             "sent fifo": SENT_FIFO, "scaler": SCALER, "scaled": SCALED, "stepped": STEPPED}
# Texts with what is added to them, and the first fault of the whole; the stored cases have more of them. In the file
# the lines that are added stand in one, with semicolons between them.
FAULTS = [(SCENARIOS[row["scenario"]], row["added"].replace("; ", "\n"), row["fault"]) for row in csv.DictReader(
    text_at(ROOT, "tests", "reference", "faults.csv").splitlines())] + [
    (SERVED.replace("= 3\n", "= 2\n", 1), "service = 3", "11 UnknownKey at actor[0].service"),
    (CONSUMER, f"service = {PAIRS_33[1:]}", "14 OutOfRange at actor[0].service[0]"),
    (SERVED, f'fails_on = "{"é" * 64}"', ""),
    (SERVED, f"fails_between_ms = {[[1, 2]] * 32}", ""),
    (SERVED, f"fails_between_ms = {[[1]] * 33}", "19 TooMany at actor[0].fails_between_ms"),
    (SERVED, f"fails_between_ms = {[[1, 2]] * 32}\nfails_permille = {[1.5] * 33}",
     "14 OutOfRange at actor[0].fails_permille"),
    (FORWARDED, f"forward = {['q', 'w-1'] * 5}", ""),
    (FORWARDED, f"forward = {[1] * 11}", "19 TooMany at actor[0].forward"),
    (FORWARDED.replace("latency_min_ms = 1\n", ""), 'forward = ["q", 1]', "13 WrongType at actor[0].forward[1]"),
    (SERVED, f"backoff_s = {[0] * 12}", ""),
    (SERVED.replace('"c"', f'"{"c" * 78}"'), "copies = 9", ""),
    (SERVED.replace('"c"', f'"{"c" * 78}"'), "copies = 10", "15 BadName at actor[0].copies"),
    (SERVED.replace('"c"', '"w"'), "copies = 1", "16 NameTwice at actor[0].copies"),
    (SERVED, "copies = 2\n" + ANOTHER, "16 NameTwice at actor[1].name"),
    (SERVED, "copies = 2\n" + ANOTHER.replace('"c"', '"c-2"'), "16 NameTwice at actor[1].name"),
    (SERVED, "copies = 2\n" + ANOTHER.replace('"c"', '"c-3"'), ""),
    (SERVED.replace('"c"', '"c-2"'), ANOTHER + "copies = 2", "16 NameTwice at actor[1].copies"),
    (SERVED, "copies = 1000\n" + "".join(
        ANOTHER.replace('"c"', f'"d{it}"') + "copies = 1000\n" for it in range(9)), ""),
    (SERVED, "copies = 1000\n" + "".join(
        ANOTHER.replace('"c"', f'"d{it}"') + "copies = 1000\n" for it in range(10)), "19 TooMany at actor[9].copies"),
    (SCALED.replace("every_s = 60", "every_s = 0"), "visible_per_copy = 0", "10 NotToml"),
    (SCALED.replace("every_s = 60", "every_s = 86401"), "reading_s = 86401", "14 OutOfRange at actor[0].every_s"),
    (SCALED.replace("= 1\n", "= 1000001\n", 1), "copies_min = -1", "14 OutOfRange at actor[0].visible_per_copy"),
    (SCALED.replace("= 3\n", "= 2\n", 1), "copies = 0", "14 OutOfRange at actor[0].kind"),
    (STEPPED, f"steps = {[[it, 1000 - it] for it in range(32)]}", ""),
    (STEPPED, f"steps = {[1] * 33}", "19 TooMany at actor[0].steps"),
    (SCALED, ANOTHER + 'scaler = "x"\nscaler_start_ms = 86400000\ncopies = 1000', ""),
    (SERVED, 'scaler = "x"\n' + SCALED[len(HEAD):], ""),
    (SERVED, 'scaler = "x"\n' + SCALED[len(HEAD):].replace('"q"', '"w-1"'), "17 UnknownQueue at actor[0].scaler"),
    (SERVED, 'scaler = "x"\nscaler_start_ms = -1\n' + SCALED[len(HEAD):], "14 OutOfRange at actor[0].scaler_start_ms"),
    (SENT.replace("= 3\n", "= 2\n", 1), "copies = 1", "11 UnknownKey at actor[0].copies"),
    (SENT.replace('"p"', '"w"'), "copies = 1", "16 NameTwice at actor[0].copies"),
    (SENT.replace('"p"', f'"{"p" * 78}"'), "copies = 10", "15 BadName at actor[0].copies"),
    (SENT, "copies = 2\n" + ANOTHER.replace('"c"', '"p-2"'), "16 NameTwice at actor[1].name"),
    (SENT, "copies = 1000\n" + "".join(
        ANOTHER.replace('"c"', f'"d{it}"') + "copies = 1000\n" for it in range(10)), "19 TooMany at actor[9].copies"),
    (SENT_FIFO, f"key_groups = {[['g', 1]] * 100}", ""),
]


def stored_outcome(case):
    return Outcome(1, b"", case.printed) if case.is_refused else Outcome(0, case.printed, b"")


def fault_line(text):
    """The line of the first fault of a text, or nothing."""
    try:
        read(text.encode("utf-8"), {}, 3)
    except Fault as fault:
        return fault.line()
    return ""


def with_neutral_keys(text):
    """A text of version 2 as one of version 3, with keys that change nothing, and quantiles that say what its bounds
    do."""
    text = BOUNDS.sub(lambda it: f"{it[1]} = [[0, {it[2]}], [1000, {int(it[3]) + 1}]]\n", text)
    for kind, keys in NEUTRAL.items():
        text = text.replace(f'kind = "{kind}"\n', f'kind = "{kind}"\n{keys}')
    return text.replace("version = 2\n", "version = 3\n")


def steps_for(found):
    """Steps in place of so many visible messages for each copy, for up to 31 copies."""
    return f"steps = {[[copies * int(found[1]), copies] for copies in range(32)]}"


def random_texts(profile, without=()):
    """Random scenarios of a profile without some keys, each with what the reference answers, but for those that run
    long."""
    for seed in SEEDS:
        source = scenario_text(profile, seed, without).encode("utf-8")
        try:
            yield seed, source, referred(source, PROFILES[profile][0], MOST_HANDLINGS)
        except TooLong:
            pass


class ReferenceCase(unittest.TestCase):
    def assert_same(self, wanted, found):
        self.assertEqual(first_difference(wanted, found), "")

    def assert_stored(self, cases, version):
        for case in cases:
            with self.subTest(case=case.path):
                self.assert_same(stored_outcome(case), referred(case.text, version))

    def assert_changes_nothing(self, profile, change, least=0, without=()):
        """What `change` makes of a random text runs as the text does. It gives None for one that does not count, and
        another text for more than the least number."""
        changed = 0
        for seed, source, wanted in random_texts(profile, without):
            text = change(source.decode("utf-8"))
            if text is not None:
                with self.subTest(seed=seed):
                    self.assert_same(wanted, referred(text.encode("utf-8"), 3))
                changed += text != source.decode("utf-8")
        self.assertGreater(changed, least)


class OldVersions(ReferenceCase):
    def test_stored_cases(self):
        self.assert_stored(OLD_STORED, 2)

    @needs_program
    def test_the_program_agrees_on_random_scenarios(self):
        for profile in OLD_PROFILES:
            for seed, source, wanted in random_texts(profile):
                with self.subTest(profile=profile, seed=seed):
                    self.assert_same(wanted, answered(PROGRAM, source))
                    self.assert_same(wanted, answered(PROGRAM, source, *split_words(source)))

    def test_a_text_of_version_2_is_the_same_in_version_3(self):
        sources = [case.text for case in OLD_STORED]
        sources += [source for _, source, _ in random_texts("version-2")]
        sources = [source for source in sources if VERSION_2.search(source)]
        self.assertGreater(len(sources), 50)
        for source in sources:
            with self.subTest(text=source[:200]):
                self.assert_same(referred(source), referred(VERSION_2.sub(b"version = 3", source), 3))


class VersionThree(ReferenceCase):
    def test_stored_cases(self):
        self.assertGreaterEqual(len(STORED_3), 110)
        self.assert_stored(STORED_3, 3)

    @needs_program
    def test_the_program_agrees_on_stored_cases_without_the_word(self):
        for case in STORED_3:
            with self.subTest(case=case.path):
                self.assertEqual(answered(PROGRAM, case.text), referred(case.text))

    @needs_program
    def test_the_program_agrees_on_random_scenarios(self):
        for profile in NEW_PROFILES:
            for seed, source, wanted in random_texts(profile):
                with self.subTest(profile=profile, seed=seed):
                    for words in ([], split_words(source)):
                        self.assert_same(wanted, answered(PROGRAM, source, "--v3", *words))

    @needs_program
    def test_the_program_agrees_on_faults(self):
        for text, added, line in FAULTS:
            with self.subTest(added=added, line=line):
                ran = subprocess.run([PROGRAM, "check", "--preview"], input=f"{text}{added}\n".encode(),
                                     capture_output=True)
                self.assertEqual(ran.stderr.decode(), f"refused {line}\n" if line else "")

    def test_it_is_read_only_if_it_is_asked_for(self):
        case = os.path.join(ROOT, "tests", "cases", "version-3", "heartbeat.toml")
        text = pathlib.Path(case).read_bytes()
        wanted = Outcome(1, b"", b"refused 14 OutOfRange at version\n")
        self.assertEqual(referred(text), wanted)
        self.assertEqual(referred(text.replace(b"version = 3", b"version = 4"), 3), wanted)
        program = os.path.join(ROOT, "tests", "reference", "sqs_reference")
        read = b"ok queues=1 actors=2 tasks=0 least=8001\n"
        for words, line in ([], wanted.error), (["--v3"], read), (["--preview"], read):
            ran = subprocess.run([sys.executable, program, "check", *words, case], capture_output=True)
            self.assertEqual(ran.stdout + ran.stderr, line)

    def test_faults(self):
        for text, added, line in FAULTS:
            with self.subTest(added=added, line=line):
                self.assertEqual(fault_line(f"{text}{added}\n"), f"refused {line}" if line else "")

    def test_the_example_of_the_document_is_read(self):
        text = pathlib.Path(ROOT, "docs", "VERSION3.md").read_text(encoding="utf-8")
        examples = re.findall(r"```toml\n(.*?)```", text, re.DOTALL)
        self.assertEqual([fault_line(example) for example in examples], [""])

    def test_times_by_quantiles(self):
        steps = [(0, 7), (250, 107), (500, 107), (1000, 1107)]
        # 2^30 is at 250, 2^31 at 500, and 3 * 2^30 at 750; each word before them is a little below.
        for word, time in ((0, 7), (1, 7), (2 ** 30 - 1, 106), (2 ** 30, 107), (2 ** 31 - 1, 107), (2 ** 31, 107),
                           (3 * 2 ** 30, 607), (MASK, 1106)):
            self.assertEqual(time_at(steps, word), time, word)
        self.assertEqual({time_at([(0, 5), (1000, 5)], word) for word in (0, 2 ** 31, MASK)}, {5})
        # One permille of a day is so steep that the last word is 21 ms short: 86399999 * 1000 / 2^32 is 20.1.
        self.assertEqual(time_at([(0, 1), (999, 1), (1000, 86_400_000)], MASK), 86_400_000 - 21)

    def test_two_quantiles_are_two_bounds(self):
        choice = random.Random(1)
        for agent in range(100):
            low, more = choice.randrange(1, 1000), choice.choice([0, 1, 10, 10_000, 86_000_000])
            quantiles, bounds = Draws(5, agent), Draws(5, agent)
            for _ in range(10):
                self.assertEqual(time_at([(0, low), (1000, low + more + 1)], quantiles.word()),
                                 bounds.uniform(low, low + more))

    def test_groups_by_weight(self):
        self.assertEqual([place_by_weight([1, 2, 1], word) for word in (0, 2 ** 30 - 1, 2 ** 30, 3 * 2 ** 30 - 1,
                                                                        3 * 2 ** 30, MASK)], [0, 0, 1, 1, 2, 2])
        self.assertEqual([place_by_weight([9], word) for word in (0, MASK)], [0, 0])

    def test_copies_are_tables_at_the_end(self):
        keys = 'kind = "consumer"\nqueue = "q"\nbatch = 2\nservice_min_ms = 1\nservice_max_ms = 99\n'
        producer = SENT[len(HEAD):].replace("count = 1", "count = 40")
        head = HEAD.replace("horizon = 9", "horizon = 999") + producer
        tables = {name: f'[[actor]]\nname = "{name}"\n{keys}' for name in ("c", "c-1", "c-2", "c-3", "d")}
        copied = referred(f"{head}{tables['c']}copies = 3\n{tables['d']}".encode(), 3)
        written = referred((head + "".join(tables[name] for name in ("c-1", "d", "c-2", "c-3"))).encode(), 3)
        self.assertEqual(copied, written)
        self.assertEqual(copied.status, 0)

    def test_copies_of_a_producer_are_tables_at_the_end(self):
        keys = PRODUCER[PRODUCER.index('kind = "producer"'):].replace("count = 1", "count = 9")
        keys = keys.replace('"q"', '"f.fifo"') + "gap_min_ms = 1\ngap_max_ms = 99\ngroups = 3\n"
        head = HEAD.replace("horizon = 9", "horizon = 999")
        tables = {name: f'[[actor]]\nname = "{name}"\n{keys}' for name in ("p", "p-1", "p-2", "p-3")}
        consumer = ANOTHER.replace('"q"', '"f.fifo"')
        copied = referred(f"{head}{tables['p']}copies = 3\n{consumer}".encode(), 3)
        written = referred(f"{head}{tables['p-1']}{consumer}{tables['p-2']}{tables['p-3']}".encode(), 3)
        self.assertEqual(copied, written)
        self.assertEqual(copied.output.count(b"send,new"), 27)

    def test_steps_that_say_what_one_number_says(self):
        def stepped(text):
            is_short = "visible_per_copy" in text and max(map(int, re.findall("copies_max = ([0-9]+)", text))) < 32
            return PER_COPY.sub(steps_for, text) if is_short else None

        self.assert_changes_nothing("version-3", stepped, 5, ["steps"])

    def test_keys_that_name_nothing_change_nothing(self):
        self.assert_changes_nothing("version-2", with_neutral_keys)

    def test_lists_that_say_what_one_value_says(self):
        """A list with one queue, and one with the same chance for each outage."""
        def listed(text):
            text = re.sub(r'forward = ("[^"]*")', r"forward = [\1]", text)
            return BETWEEN.sub(lambda it: f"{it[1]}{[int(it[2])] * (it[1].count('], [') + 1)}\n", text)

        self.assert_changes_nothing("version-3", listed, 5)

    def test_a_scaler_that_always_wants_one_copy_changes_nothing(self):
        def scaled(text):
            homes = re.findall('kind = "consumer"\nqueue = "(.*)"\n', text)
            if "[[task]]" in text or not homes:
                return None
            text = re.sub('kind = "consumer"\nqueue = "(.*)"\n',
                          lambda it: f'{it[0]}scaler = "x{homes.index(it[1])}"\nscaler_start_ms = 700\n', text)
            always_one = SCALED[len(HEAD):].replace("= 2", "= 1")
            return text + "".join(always_one.replace('"x"', f'"x{number}"').replace('"q"', f'"{home}"')
                                  for number, home in enumerate(homes))

        self.assert_changes_nothing("version-3", scaled, 5, ["copies", "scaler"])

    def test_a_batch_of_one_fails_as_a_whole_or_each(self):
        for seed, source, _ in random_texts("version-3"):
            with self.subTest(seed=seed):
                text = re.sub("fail_service_ms = [0-9]+\n", "", source.decode("utf-8"))
                text = re.sub("batch = [0-9]+\n", "batch = 1\n", text)
                each, whole = (re.sub('batch_fails = "[a-z]+"\n', f'batch_fails = "{word}"\n', text).encode("utf-8")
                               for word in ("each", "whole"))
                self.assert_same(referred(each, 3), referred(whole, 3))

    def test_failures_that_take_as_long_change_nothing(self):
        """Without outages it makes no difference when a service is decided: its words have the same order."""
        for seed, source, _ in random_texts("version-2"):
            with self.subTest(seed=seed):
                text = re.sub("service_min_ms = [0-9]+\nservice_max_ms = [0-9]+\n",
                              "service_min_ms = 50\nservice_max_ms = 50\n", source.decode("utf-8"))
                text = text.replace("version = 2\n", "version = 3\n")
                same = text.replace("service_min_ms", "fail_service_ms = 50\nservice_min_ms")
                self.assert_same(referred(text.encode(), 3), referred(same.encode(), 3))

    def test_random_scenarios_run(self):
        texts = [outcome.status for profile in ("version-3", "faulty-3") for _, _, outcome in random_texts(profile)]
        self.assertGreater(texts.count(0), 10)
