"""Tests tools/facts, and that what the tables of facts say is what the code and the reference say."""
import contextlib
import io
import os
import re
import unittest

from tool import ROOT, ToolCase, module_of
from rehearse_tools.console import read_text
from rehearse_tools.fact_tables import rows_of
from rehearse_tools.logs import REPORT_HEADER
import faults
import log

CRATES = os.path.join(ROOT, "crates")
FILES = ("docs/FORMATS.md", "docs/scenario.schema.json")


def text_of(*names):
    return read_text(os.path.join(CRATES, *names))


class Made(ToolCase):
    def test_what_is_made_is_as_it_is_made(self):
        self.assertEqual(self.run_tool("facts", "--check"), (0, "", ""))

    def test_a_changed_file_is_named_and_made_anew(self):
        facts = module_of("facts")
        self.copy(*FILES, "docs/STATISTICS.md")
        wanted = {name: read_text(self.path(name)) for name in FILES}
        for name, text in wanted.items():
            self.write(name, re.sub(r"(\| 0\.\.|\"maximum\": )43,?200\b", r"\g<1>1", text))
        facts.TOP = self.folder
        with contextlib.redirect_stdout(io.StringIO()) as told:
            self.assertEqual([facts.main(["--check"]), facts.main([]), facts.main(["--check"])], [1, 0, 0])
        self.assertEqual(told.getvalue(), "".join(f"{name} is {how}\n" for how in ("not as it is made", "made anew")
                                                  for name in FILES))
        self.assertEqual({name: read_text(self.path(name)) for name in FILES}, wanted)
        self.write(FILES[0], "<!-- tools/facts: nothing -->\n\n")
        with self.assertRaisesRegex(facts.Fault, "asks for a table nothing, which there is not"):
            facts.main([])


    def test_the_places_of_facts_are_counted(self):
        facts = "the key gather_ms", "its greatest value 300,000", "the refusal OverLimit", "the column received_again"
        self.assertRegex(self.output("facts", "--count"), r"\A" + "".join(rf" *[1-9]\d*  {it}\n" for it in facts) + r"\Z")


class Told(unittest.TestCase):
    def test_refusals_of_the_code_and_the_definitions(self):
        """Their numbers, their names, and the status of the program that each brings."""
        rows = rows_of("refusals")
        wanted = {row["name"]: row["name"] for row in rows}
        numbers = {row["name"]: row["number"] for row in rows}
        code, specs = text_of("sim_clock", "src", "refusal.rt"), text_of("sim_clock", "specs", "Refusals.antt")
        self.assertEqual(dict(re.findall(r"Refusal::(\w+)(?: \{ \.\. \})? => (\d+),", code)), numbers)
        self.assertEqual(dict(re.findall(r"Refusal::(\w+)(?: \{ \.\. \})? => \"(\w+)\",", code)), wanted)
        self.assertEqual(dict(re.findall(r"refusal_code \(?refusal\.(\w+).* = (\d+)", specs)), numbers)
        self.assertEqual(dict(re.findall(r'refusal_name \(?refusal\.(\w+).* = codes "(\w+)"', specs)), wanted)
        statuses = dict(re.findall(r"status_of \(?refusals\.(\w+).* = (\d)", text_of("sqs_shell", "specs", "Statuses.antt")))
        self.assertEqual({row["name"]: row["status"] for row in rows if int(row["status"] or 1) > 1}, statuses)

    def test_refusals_of_the_reference(self):
        known = {int(row["number"]): row["name"] for row in rows_of("refusals")}
        self.assertEqual({number: known[number] for number in faults.NAMES}, faults.NAMES)

    def test_columns_of_the_code_and_the_reference(self):
        code = text_of("sim_report", "src", "columns.rt").partition("fn column_names")[2].partition("]\n}")[0]
        self.assertEqual(re.findall(r'b"(\w+)"', code), REPORT_HEADER[2:])
        self.assertEqual(log.COLUMNS, REPORT_HEADER[2:])
        counted = [row["counts"].split("; ") for row in rows_of("columns") if row["counts"]]
        self.assertEqual(counted, log.COUNTED)
