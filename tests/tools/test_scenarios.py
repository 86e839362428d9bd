"""Tests that the module scenarios finds what a text has, changes one setting and nothing else, and writes it whole."""
import unittest

import tool  # which also puts the tools on the path
from rehearse_tools.console import Fault, toml_of
from rehearse_tools.scenarios import Setting, parsed, varied, written
from stored_cases import RUNNING, stored

TEXT = tool.text_at(tool.HERE, "scenario.toml")


def changed(*texts):
    """The scenario with settings put to words, each as seed=1."""
    settings = dict(text.split("=", 1) for text in texts)
    return varied(parsed(TEXT, "text"), {Setting(path): word for path, word in settings.items()})


class Written(unittest.TestCase):
    def test_what_is_written_is_what_was_read(self):
        read = toml_of(TEXT)
        self.assertEqual(toml_of(written(read)), read)
        odd = {"a b": "\x7f\x00\"\\\n\u2028", "empty": [], "mixed": [1, {"x": {"y": True}}], "": 0, "list": [{}]}
        self.assertEqual(toml_of(written(odd)), odd)

    def test_stored_scenarios(self):
        cases = stored(*RUNNING)
        self.assertGreater(len(cases), 50)
        for case in cases:
            with self.subTest(case=case.path):
                read = parsed(case.text.decode(), case.path)
                self.assertEqual(parsed(written(read), case.path), read)


class Varied(unittest.TestCase):
    def test_a_value_is_put_in_its_place_and_nothing_else_changes(self):
        whole = toml_of(TEXT)
        self.assertEqual(changed("horizon=1"), {**whole, "horizon": 1})
        self.assertEqual(changed("seed=-7"), {**whole, "seed": -7})
        first, second = whole["queue"]
        self.assertEqual(changed("queue.orders.visibility_s=20")["queue"], [{**first, "visibility_s": 20}, second])
        self.assertEqual(changed("queue.orders.delay_s=3")["queue"], [{**first, "delay_s": 3}, second])

    def test_a_name_with_a_dot_or_an_escape_is_found(self):
        self.assertEqual(changed("queue.pay.fifo.visibility_s=8")["queue"][1], {"visibility_s": 8, "name": "pay.fifo"})

    def test_asterisks_tie_tables(self):
        self.assertEqual([queue["delay_s"] for queue in changed("queue.*.delay_s=4")["queue"]], [4, 4])
        self.assertEqual([actor.get("batch") for actor in changed("actor.worker*.batch=5")["actor"]], [5, 5])
        self.assertEqual([actor.get("batch") for actor in changed("actor.worker-*.batch=5")["actor"]], [None, 5])

    def test_copies_of_an_actor_shift_no_other(self):
        self.assertEqual([actor["name"] for actor in changed("count.worker=3")["actor"]],
                         ["worker-1", "worker-9", "worker-2", "worker-3"])
        for setting, waits in (("actor.worker", [1, None, 1]), ("actor.worker-2", [None, None, 1]),
                               ("actor.worker-*", [1, 1, 1])):
            actors = changed("count.worker=2", f"{setting}.wait_s=1")["actor"]
            self.assertEqual([actor.get("wait_s") for actor in actors], waits)

    def test_words(self):
        for word, value in (("5", 5), ("true", True), ("group", "group"), ('"5"', "5"), ("a\\b", "a\\b"),
                            ("1.5", "1.5"), ('"a\\tb"', "a\tb"), ("99999999999999999999", 99999999999999999999)):
            self.assertEqual(changed(f"x={word}")["x"], value)

    def test_faults(self):
        for path in ("queue.orders", "queues.orders.delay_s", "Seed", "queue.orders.", ".", "count."):
            with self.assertRaisesRegex(Fault, "is no setting"):
                Setting(path)
        for text in ("actor.orders.delay_s=1", "count.orders=1", "actor.worker-3.batch=1"):
            with self.assertRaisesRegex(Fault, r"has no table \[\[actor\]\] with the name (orders|worker-3)"):
                changed(text)
        for word in ("0", "10001", "x", "-1", "1" * 5_000):
            with self.assertRaisesRegex(Fault, "is no number of copies, which has 1 to 10000"):
                changed(f"count.worker={word}")
        for text in ("version", "a = [1", 'a = "', "a = '''x''", "a = " + "[" * 5_000, "a = " + "1" * 5_000):
            with self.assertRaisesRegex(Fault, "^file is no TOML: ") as caught:
                parsed(text, "file")
            self.assertNotIn("\n", str(caught.exception))
