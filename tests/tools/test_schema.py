"""Tests docs/scenario.schema.json against all stored cases, good and faulty, and what the documents say of keys."""
import json
import os
import pathlib
import re
import unittest

from code_keys import code_keys, listed_keys, newest_versions
from tool import ROOT, text_at
from rehearse_tools.console import Fault, library, toml_of
from rehearse_tools.keys import (CONSUMER, FIFO, HEAD, ITEMS, NUMBER, NUMBER_OR_NUMBERS, NUMBERS, PRODUCER,
                                 QUANTILES, QUEUE, REQUIRED, SCALER, SCRIPT, STANDARD, STEPS, STRETCHES, TABLES, TASK,
                                 TEXT, TEXT_OR_TEXTS, TOP, TRUTH, VERSION_3, VERSIONS, WEIGHTS, consumer_keys, keys_of,
                                 kinds_of, latency)
from stored_cases import REFUSED, RUNNING, stored

try:
    jsonschema = library("jsonschema", "python3-jsonschema")
except Fault:
    jsonschema = None
# What a schema cannot say, by the line of the refusal; docs/FORMATS.md has it in words.
UNSAID = re.compile(r"refused (?:10 NotToml|(?:15|19) .*\.copies|16 .*|17 .*|18 .*|20 .*|12 MissingKey at .*\.script|"
                    r"11 UnknownKey at .*\.fail_service_ms|"
                    r"14 OutOfRange at (?:version|.*\.(?:gap_max_ms|service_max_ms|latency_max_ms|sampled|body|stop_ms|"
                    r"fails_on|fails_to_ms|fails_permille|reading_s|copies_max|(?:gap|service|fails_between_ms|steps)\[[0-9]+\])))"
                    r"\n")
with open(os.path.join(ROOT, "docs", "scenario.schema.json"), encoding="utf-8") as schema_file:
    SCHEMA = json.load(schema_file)
# The tables of keys in docs/FORMATS.md, by the first cell of their heads.
DOCUMENTED = {"Top": TOP, "queue": QUEUE, "actor": HEAD, "script": SCRIPT[len(HEAD):], "producer": PRODUCER[len(HEAD):],
              "consumer": CONSUMER[len(HEAD):], "scaler": SCALER[len(HEAD):], "task": TASK,
              "latency": latency(1) + latency(2)}
# The functions of the reader that read these tables, by the files that they and the lists of known keys stand in.
LATENCY = latency(1) + latency(2)
CODE = {("top.rt", "top_table"): TOP, ("queues.rt", "Queues::read"): QUEUE + LATENCY, ("actors.rt", "Actors::read"): HEAD,
        ("scripted.rt", "scripted"): SCRIPT[len(HEAD):], ("producers.rt", "producer"): PRODUCER[len(HEAD):],
        ("consumers.rt", "consumer"): consumer_keys(LATENCY)[len(HEAD):],
        ("scalers.rt", "scaler"): SCALER[len(HEAD):], ("tasks.rt", "Tasks::read"): TASK + LATENCY}
LISTS = {"top.rt": TOP, "queues.rt": QUEUE + LATENCY, "section.rt": HEAD, "scripted.rt": SCRIPT[len(HEAD):],
         "producers.rt": PRODUCER[len(HEAD):], "consumers.rt": CONSUMER[len(HEAD):],
         "scalers.rt": SCALER[len(HEAD):], "tasks.rt": TASK}
# What a file leaves to others of its lists.
LISTED = {"consumers.rt": ["outages.rt"], "scalers.rt": ["targets.rt"]}
# These are read only where they are there, so that they are required then.
WHERE_THERE = {"calls", "script", "dead_letter", "forward", "fails_between_ms", "fails_from_ms", "key_groups",
               "scaler", "steps"}
# The greatest values that other keys of their tables give, which the code has not as numbers.
GREATEST = {"sampled": "hosts", "reading_s": "every_s - 1"}
# A key that is read apart from the others of its table, by another function: behind what its actor does.
APART = dict.fromkeys([("consumers.rt", "consumer"), ("producers.rt", "producer")], ("actors.rt", "copies"))


def read(text):
    return toml_of(text.decode("utf-8").removeprefix("\ufeff"))


def documented_tables():
    """The cells of each table of keys in the document: name, default and range."""
    lines = text_at(ROOT, "docs", "FORMATS.md").splitlines()
    tables = {}
    for place, line in enumerate(lines):
        head = [cell.strip() for cell in line.strip("|").split("|")]
        if head[1:3] != ["Default", "Range"]:
            continue
        rows = tables[head[0]] = []
        for row in lines[place + 2:]:
            if not row.startswith("|"):
                break
            rows.append([cell.strip().strip("`") for cell in row.strip("|").split("|")])
    return tables


@unittest.skipUnless(jsonschema, "jsonschema is missing, which tools/setup installs")
class Schema(unittest.TestCase):
    def setUp(self):
        self.validator = jsonschema.Draft7Validator(SCHEMA)

    def test_it_is_a_schema(self):
        jsonschema.Draft7Validator.check_schema(SCHEMA)

    def test_good_cases(self):
        texts = {case.path: case.text for case in stored(*RUNNING)}
        texts.update((str(path), path.read_bytes()) for path in pathlib.Path(ROOT, "examples").rglob("*.toml"))
        self.assertGreater(len(texts), 100)
        for path, text in texts.items():
            with self.subTest(path=path):
                self.assertEqual([error.message for error in self.validator.iter_errors(read(text))], [])

    def test_faulty_cases(self):
        """Each case that the program refuses is refused, but for what a schema cannot say."""
        refused = unsaid = 0
        for case in stored(*REFUSED):
            is_unsaid = UNSAID.fullmatch(case.printed.decode())
            try:
                is_valid = self.validator.is_valid(read(case.text))
            except ValueError:
                is_valid = is_unsaid = True
            with self.subTest(case=case.path):
                self.assertTrue(is_unsaid or not is_valid)
            refused, unsaid = refused + (not is_valid), unsaid + bool(is_unsaid)
        self.assertGreater(refused, 25)
        self.assertGreater(unsaid, 25)


class Documents(unittest.TestCase):
    def range_of(self, key):
        if key.kind == NUMBER:
            if key.name == "version":
                return ", ".join(map(str, VERSIONS))
            low = key.least or f"{key.low:,}"
            return f"{low}..{GREATEST.get(key.name) or f'{key.high:,}'}"
        if key.kind == NUMBERS:
            low, high = ITEMS[key.name]
            return f"{key.low}..{key.high} numbers, each {low}..{high:,}"
        if key.kind == QUANTILES:
            return "quantiles"
        if key.kind in (WEIGHTS, STRETCHES, STEPS):
            return f"{key.low}..{key.high} pairs"
        if key.kind == NUMBER_OR_NUMBERS:
            return f"{key.low}..{key.high:,}, or a list with one for each pair of {key.beside[-1]}"
        if key.kind == TEXT_OR_TEXTS:
            return f"a queue, also the home, or in version 3 a list of {key.low}..{key.high}"
        return "true, false" if key.kind == TRUTH else ", ".join(key.words or ())

    def test_tables_of_the_document(self):
        tables = documented_tables()
        self.assertEqual(set(tables), set(DOCUMENTED))
        for head, keys in DOCUMENTED.items():
            rows = [row for row in tables[head] if row[0] != "latency"]
            self.assertEqual([row[0] for row in rows], [key.name for key in keys], head)
            for key, (name, default, found, *_, about) in zip(keys, rows):
                with self.subTest(table=head, key=name):
                    self.assertEqual(about.startswith("(3) "), key.since == 3)
                    wanted = {None: "none", REQUIRED: REQUIRED, True: "true", False: "false"}.get(key.default)
                    if isinstance(key.default, int) and not isinstance(key.default, bool):
                        wanted = f"{key.default:,}"
                    wanted = "hosts" if name == "sampled" else wanted or key.default
                    self.assertEqual(default, wanted)
                    if self.range_of(key) and "byte" not in found:
                        self.assertEqual(found.replace("`", ""), self.range_of(key))

    def test_code_reads_the_same_keys(self):
        """With the same types, ranges and defaults, and in the same order, for each kind of queue and each version."""
        for (file, function), keys in CODE.items():
            apart = APART.get((file, function))
            found = {key.name: key for key in code_keys(file, function) + (code_keys(*apart) if apart else [])}
            self.assertEqual(set(found), {key.name for key in keys}, file)
            for key in keys:
                with self.subTest(file=file, key=key.name):
                    self.check_code(found[key.name], key)
            for kind, other in (STANDARD, latency(2)), (FIFO, latency(1)):
                order = [key.name for key in keys if key.queues in (None, kind) and key.name not in
                         {left.name for left in other}]
                if keys[0].name != "calls":  # a script is at one of its two keys
                    self.assertEqual([name for name in found if name in order], order, file)

    def check_code(self, found, key):
        self.assertEqual(found.kind, key.kind)
        # 0 copies are none.
        default = 0 if key.name == "copies" else key.default
        self.assertEqual(found.default, REQUIRED if key.name in WHERE_THERE else
                         "hosts" if key.name == "sampled" else default)
        if key.kind not in (TEXT, TRUTH, TABLES) or key.name == "fails_on":
            self.assertEqual((found.low, found.high),
                             (key.low, None if key.name in ("version", *GREATEST) else key.high))
        self.assertEqual((found.words, found.least), (key.words, key.least))

    def test_code_lists_the_same_keys(self):
        for file, keys in LISTS.items():
            self.assertEqual(listed_keys(file, *LISTED.get(file, ())), {key.name for key in keys}, file)

    def test_code_reads_the_same_versions(self):
        self.assertEqual(newest_versions(), list(VERSIONS[-2:]))
        self.assertEqual(VERSIONS[-1], VERSION_3)

    def test_schema_has_the_same_keys(self):
        tables = {"queue": QUEUE, "script": SCRIPT, "producer": PRODUCER, "consumer": CONSUMER, "scaler": SCALER,
                  "task": TASK}
        for name, keys in tables.items():
            found = SCHEMA["definitions"][name]["properties"]
            more = latency(1) + latency(2) if name in ("queue", "consumer", "task") else []
            self.assertEqual(set(found), {key.name for key in keys + more})
            self.check_properties(found, keys + more)
        self.check_properties(SCHEMA["properties"], TOP)

    def test_keys_of_version_3_alone(self):
        new = {key.name for keys in (PRODUCER, CONSUMER) for key in keys if key.since == 3}
        before = SCHEMA["definitions"]["before_version_3_actor"]["properties"]
        kinds = ["script", "producer", "consumer"]
        self.assertEqual(before, {**dict.fromkeys(new, False), "forward": {"type": "string"}, "kind": {"enum": kinds}})
        self.assertEqual([kinds_of(version) for version in VERSIONS], [kinds, kinds, [*kinds, "scaler"]])
        for kind in kinds:
            self.assertFalse(new & {key.name for key in keys_of("actor", kind, 2)})
        self.assertEqual([key.name for key in keys_of("actor", "scaler", 2)], [key.name for key in HEAD])

    def check_properties(self, found, keys):
        for key in keys:
            with self.subTest(key=key.name):
                given = found[key.name]
                one, several = given.get("anyOf", (given, given))
                if key.kind in (NUMBER, NUMBER_OR_NUMBERS):
                    self.assertEqual((one["minimum"], one["maximum"]), (key.low, key.high))
                if key.kind in (NUMBERS, QUANTILES, WEIGHTS, STRETCHES, STEPS, TEXT_OR_TEXTS):
                    of = SCHEMA["definitions"]["quantiles"] if key.kind == QUANTILES else several
                    self.assertEqual((of["minItems"], of["maxItems"]), (key.low, key.high))
                if key.name in ITEMS:
                    self.assertEqual((several["items"]["minimum"], several["items"]["maximum"]), ITEMS[key.name])
                self.assertEqual(given.get("default", REQUIRED), REQUIRED if key.default is None else key.default)
                self.assertTrue(given["description"])
