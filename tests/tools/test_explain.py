"""Tests tools/explain with a stand-in for the program that refuses as a test asks, and with the program itself. Single
scenarios are in sessions/explain.txt."""
import contextlib
import csv
import io
import os
import unittest

from tool import HERE, ROOT, ToolCase, module_of, needs_program, text_at
from rehearse_tools.console import toml_of
from rehearse_tools.positions import Positions
from stored_cases import REFUSED, put, stored

TOP = "version = 1\nhorizon = 60000\n"
ORDERS = TOP + """
[[queue]]
name = "orders"
delay_s = 901 # too long
"""
# Scenarios to which the first column of explained.csv refers, some of them of version 3.
PAID = '[[queue]]\nname = "paid"\n'
INLINE = TOP + 'queue = [{name = "q", latency_ms = 3}, {name = "d.fifo", hosts = 2}]\n'
NEW = TOP.replace("version = 1", "version = 3") + '[[queue]]\nname = "orders"\n[[actor]]\nname = "packer"\n' \
    'kind = "consumer"\nqueue = "orders"\n'
SERVED = NEW + "service_min_ms = 1\nservice_max_ms = 1\n"
SENT = NEW[:NEW.index("[[actor]]")] + '[[actor]]\nname = "shop"\nkind = "producer"\nqueue = "orders"\ncount = 1\n' \
    'gap_min_ms = 1\ngap_max_ms = 1\nbody = "m"\n'
SCALER = '[[actor]]\nname = "crew"\nkind = "scaler"\nqueue = "orders"\nevery_s = 60\nvisible_per_copy = 5\n' \
    "copies_max = 4\n"
STEPPED = SCALER.replace("visible_per_copy = 5\n", "")
SCENARIOS = {"orders": ORDERS, "inline": INLINE, "paid": ORDERS + PAID, "new": NEW, "served": SERVED, "sent": SENT,
             "served of version 2": SERVED.replace("= 3\n", "= 2\n", 1), "served, scaled": SERVED + SCALER,
             "served, stepped": SERVED + STEPPED, "sent of version 2": SENT.replace("= 3\n", "= 2\n", 1),
             "sent fifo": SENT.replace("orders", "orders.fifo")}
explain = module_of("explain")


class Explain(ToolCase):
    stand_in = text_at(HERE, "stand-ins", "explain")

    def test_reasons(self):
        """Of each row of explained.csv, whose second column has what is added to a scenario, with semicolons between the
        lines: where it is refused, and why."""
        for row in csv.DictReader(text_at(HERE, "explained.csv").splitlines()):
            added = "".join(f"{line}\n" for line in filter(None, row["added"].split("; ")))
            self.write("s.toml", SCENARIOS[row["scenario"]] + added)
            refusal = f"refused {row['refusal']}"
            with self.subTest(refusal=refusal):
                out, err = self.ends(1, self.run_tool("explain", "s.toml", SQS_REHEARSE=self.program, REFUSAL=refusal))
                lines = out.splitlines()
                self.assertEqual((lines[0], lines[-1], err), (f"s.toml:{row['place']}: {refusal}", row["reason"], ""))
                self.assertEqual(lines[2].index("^") - 1, int(row["place"].split(":")[1]))

    def test_texts_of_other_kinds(self):
        for data in (b"\x00\xff", b"", b"a = " + b"[" * 9_000, b"a = " + b"1" * 9_000, b"\xef\xbb\xbfa", b"\r\n\r\n=",
                     b'"\\uD800" = 1'):
            self.write("s.toml", data)
            ran = self.run_tool("explain", "s.toml", SQS_REHEARSE=self.program, REFUSAL="refused 10 NotToml")
            self.assertEqual((ran[0], ran[2]), (1, ""))
            self.assertGreater(len(ran[1].splitlines()), 1)

    @needs_program
    def test_all_stored_faults(self):
        """Each case that is refused has its refusal in the first line, and a sentence in the last."""
        cases = stored(*REFUSED)
        self.assertGreater(len(cases), 135)
        for case in cases:
            words = [put(case, self.folder), *(["--v3"] if case.is_version_3 else [])]
            with self.subTest(case=case.path), contextlib.redirect_stdout(io.StringIO()) as out, \
                    contextlib.redirect_stderr(io.StringIO()) as err:
                self.assertEqual((explain.main(words), err.getvalue()), (1, ""))
                lines = out.getvalue().splitlines()
                self.assertTrue(lines[0].endswith(f": {case.line}"), lines)
                self.assertTrue(lines[-1].endswith((".", "?")) and len(lines) > 1, lines)
                self.assertNotIn("?:", lines[0])

    @needs_program
    def test_a_good_scenario(self):
        example = os.path.join(ROOT, "examples", "first.toml")
        self.assertEqual(self.run_tool("explain", example), (0, "ok queues=1 actors=1 tasks=0 least=60001\n", ""))


def paths_in(value, path=()):
    """The paths of all keys and items of what a reader of TOML gave, each with its value."""
    items = value.items() if isinstance(value, dict) else enumerate(value) if isinstance(value, list) else ()
    for key, item in items:
        yield (*path, key), item
        yield from paths_in(item, (*path, key))


class Places(unittest.TestCase):
    def test_each_key_of_the_stored_scenarios_is_found(self):
        compared = 0
        for case in stored():
            text = case.text.decode()
            try:
                read = toml_of(text.removeprefix("\ufeff"))
            except ValueError:
                continue
            found = Positions(text)
            for key, value in paths_in(read):
                if isinstance(value, list) and value and all(isinstance(item, dict) for item in value):
                    continue
                self.assertIn(key, found.keys, case.path)
                start, end = found.values.get(key, (0, 0))
                if isinstance(value, int) and not isinstance(value, bool):
                    self.assertEqual(int(text[start:end].replace("_", ""), 0), value, case.path)
                compared += 1
        self.assertGreater(compared, 3_000)

    def test_positions_of_keys_and_values(self):
        text = '\ufeff# [[queue]]\n"a\\u0062" = """x\n"""" # y\nt = {b = [1, {c = 2}], "d.e".f=3}\n' \
               "[[q]]\nn = 'x]'\n" \
               "[[q]]\n[q.s]\nn = 1979-05-27 07:32:00\n"
        found = Positions(text)
        lines = {path: found.line_and_column(at) for path, at in found.keys.items()}
        self.assertEqual(lines, {
            ("ab",): (2, 1), ("t",): (4, 1), ("t", "b"): (4, 6), ("t", "b", 0): (4, 11), ("t", "b", 1): (4, 14),
            ("t", "b", 1, "c"): (4, 15), ("t", "d.e"): (4, 24), ("t", "d.e", "f"): (4, 24), ("q", 0): (5, 1),
            ("q", 0, "n"): (6, 1), ("q", 1): (7, 1), ("q", 1, "s"): (8, 1), ("q", 1, "s", "n"): (9, 1)})
        values = {path: text[start:end] for path, (start, end) in found.values.items()}
        self.assertEqual((values["ab",], values["q", 0, "n"], values["q", 1, "s", "n"]),
                         ('"""x\n""""', "'x]'", "1979-05-27 07:32:00"))
