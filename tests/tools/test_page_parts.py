"""Tests parts of the page in Node: what of a text waits for a press of Run, what it says of refusals, and its network.
What needs no more than modules of the page is in page-parts.js, each of whose TESTS is a test here."""
from __future__ import annotations

import json
import os
import re
import shutil
import unittest
from collections.abc import Sequence
from typing import Any

from tool import HERE, LIMIT, ToolCase, ran
import page_text
from rehearse_tools import explain
from rehearse_tools.console import read_text
from rehearse_tools.programs import TOP
from stored_cases import REFUSED, stored
from scenario_texts import consumer, producer, queue_of, scenario_of, table, task

PARTS = os.path.join(HERE, "page-parts.js")
PAGE = ("scenario", "faults", "side", "link")
WORKER = ("log", "queue", "overtime", "simulator")
ANSWER = ("scenario", "answer")
# Refusals that the module does not give: it splits no run, starts no thread, and writes to memory alone.
NOT_OF_THE_PAGE = ("WindowTooLong", "BadMap", "BadWorkers", "NoWorker", "Write")
DAMAGED = "This link is cut or damaged: what it held cannot be shown."


def polls(horizon: int, idle: int) -> str:
    return scenario_of(horizon, queue_of("q"), consumer("c", "q", 1, idle_ms=idle))


def sends(horizon: int, count: int, gap: int) -> str:
    return scenario_of(horizon, queue_of("q"), producer("p", "q", count, (1, gap), "b"))


def in_node(paths: list[str], script: str, *values: Any) -> Any:
    """What a script returns that has what these modules export, and `values`."""
    imports = "".join(f"Object.assign(globalThis, await import({json.dumps(path)}));\n" for path in paths)
    text = (f"const values = {json.dumps(values)};\n{imports}\n"
            f"(async () => {{ {script} }})().then(it => console.log(JSON.stringify(it)));\n")
    status, out, err = ran(["node", "--input-type=module", "-"], input=text, timeout=LIMIT)
    assert (status, err) == (0, ""), err
    return json.loads(out)


@unittest.skipUnless(shutil.which("node"), "node is not here")
class Parts(ToolCase):
    def asked(self, names: Sequence[str], script: str, *values: Any) -> Any:
        """What a script returns that has what modules of the page and page-parts.js export, and `values`."""
        folder = self.path("modules")
        if not os.path.exists(folder):
            os.mkdir(folder)
            page_text.write_modules(folder)
        return in_node([*(os.path.join(folder, f"{name}.js") for name in names), PARTS], script, *values)

    def run_part(self, name: str, names: list[str]) -> None:
        """Runs one of TESTS, which takes these modules."""
        self.assertEqual(*self.asked(names, "const it = TESTS[values[0]]; return [await it[1](), it[2]];", name))

    def test_each_damage_is_seen(self) -> None:
        """A link that is cut anywhere, or has another letter anywhere, opens nothing."""
        text = read_text(os.path.join(TOP, "examples", "first.toml"))
        told = self.asked(PAGE, "return eachDamageIsSeen(values);", text)
        self.assertEqual(told, [[DAMAGED], [], True])

    def test_what_waits(self) -> None:
        """Long texts, and runs of more than 2,000,000 rows as far as they can be foreseen, wait for a press of Run."""
        long, many = "This text has more than 200,000 letters or 5,000 lines", "This run may give about {} rows"
        script = '[[actor]]\nkind = "script"\nscript = "a.csv"\n'
        cases = (
            ("a" * 200_000, ""), ("a" * 200_001, long), ("\n" * 4_999, ""), ("\n" * 5_000, long),
            (polls(horizon=2_000_000, idle=1), ""),
            (polls(horizon=2_000_001, idle=1), many.format("2,000,001")),
            (polls(horizon=2_592_000_000, idle=2_000), ""),
            (polls(horizon=1_000_000, idle=1) + "copies = 2\n", ""),
            (polls(horizon=1_000_001, idle=1) + "copies = 2\n", many.format("2,000,002")),
            (polls(horizon=2_592_000_000, idle=1), many.format("2,592,000,000")),
            (sends(horizon=2_000_000_000, count=500_000, gap=1), ""),
            (sends(horizon=2_000_000_000, count=500_001, gap=1), many.format("2,000,004")),
            (sends(horizon=2_000_000_000, count=500, gap=1) + "copies = 1000\n", ""),
            (sends(horizon=2_000_000_000, count=501, gap=1) + "copies = 1000\n", many.format("2,004,000")),
            (sends(horizon=1_000, count=1_000_000, gap=1), ""), (sends(horizon=1, count=9, gap=0), ""),
            (20 * script, ""), (21 * script, many.format("2,100,000")), ("no TOML", ""), ("", ""))
        told = self.asked(PAGE, """const files = [{ name: 'a.csv', bytes: { length: 400000 } }];
            return values[0].map(text => Object.assign(new Side('A', () => {}), { text, files }).whyWaits);""",
                          [text for text, _ in cases])
        self.assertEqual([why.partition(", so it does not")[0] for why in told], [why for _, why in cases])

    def test_a_sentence_for_each_refusal(self) -> None:
        """Each refusal from 10 on that the module can give has a sentence."""
        table = re.findall(r"^\| (\d+) \| ([A-Za-z]+) \|", read_text(os.path.join(TOP, "docs", "FORMATS.md")), re.M)
        code = read_text(os.path.join(TOP, "crates", "sim_clock", "src", "refusal.rt"))
        self.assertEqual(sorted(table), sorted((number, name) for name, number in re.findall(
            r"Refusal::([A-Za-z]+)(?: \{ \.\. \})? => (\d+),", code)))
        lines = [f"refused {number} {name}{' at horizon' if 10 < int(number) < 30 else ''}"
                 for number, name in table if int(number) >= 10 and name not in NOT_OF_THE_PAGE]
        given = self.asked(WORKER, "return values[0].map(it => lineOf(1, encoded(`${it}\\n`)));", lines)
        self.assertEqual(given, lines)
        reasons, known = self.asked(PAGE, """
            return [values[0].map(it => new Fault('', it, []).reason), Object.keys(REASONS)];""", given)
        self.assertEqual([line for line, reason in zip(lines, reasons) if len(reason) < 20], [])
        self.assertEqual(sorted(known), sorted({line.split()[2] for line in given}))

    def test_faults_in_words(self) -> None:
        """What is said of a fault of a stored case, of any version, is what tools/explain says."""
        asked, wanted = [], []
        for case in stored(*REFUSED):
            refusal = explain.REFUSED.fullmatch(case.line)
            # the page reads version 3, too; of a text that is no TOML, or a script's record, it knows less
            is_known = refusal is not None and refusal[2] not in ("NotToml", "BadScript") and refusal[3] != "version"
            if refusal and is_known and b"\r" not in case.text:
                text = case.text.decode()
                asked.append([text, case.line])
                wanted.append(explain.explanation(text, case.name, ".", refusal).split("\n")[-2])
        self.assertGreater(len(asked), 100)
        told = self.asked(PAGE, "return values[0].map(([text, line]) => new Fault(text, line, []).reason);", asked)
        self.assertEqual(told, wanted)

    def test_queues_for_dead_letters(self) -> None:
        """Only dead letters come to a queue by the scenario, whether one came or not, if nobody sends or forwards to it."""
        pairs = [("a", "dead"), ("b", "again"), ("c", "next"), ("next", "dead"), ("d", "moved"), ("e", "asked"), ("f", "told"),
                 ("g", "filed"), ("h", "sent")]
        text = "".join([
            *(queue_of(name, dead_letter=dead) for name, dead in pairs), *(queue_of(dead) for _, dead in pairs if dead != "next"),
            table("actor", kind="producer", queue="again"), table("actor", kind="consumer", queue="dead"),
            table("actor", kind="consumer", queue="a", forward=["next", "sent"]),
            table("actor", kind="script", queue="asked", calls="at,call,body\n5,receive,\n9,delete,send\n"),
            table("actor", kind="script", queue="told", calls="at,call,body\n5,send,a\n"),
            table("actor", kind="script", queue="filed", script="calls.csv"), table("task", queue="dead", to="moved")])
        told = self.asked(ANSWER, "return [...new Set(forDeadLetters(new Scenario(values[0])))];", text)
        self.assertEqual(told, ["dead", "asked"])

    def test_the_network(self) -> None:
        """Queues, groups of actors that do the same, tasks, and the edges between them, with the rows that tell their
        numbers; what names no queue is left out, and copies are agents of their own."""
        told = self.asked(("scenario", "network"), "return theNetwork(values);",
                          "".join([
                              queue_of("a", dead_letter="d"), queue_of("d"), queue_of("b", dead_letter="b"),
                              table("actor", name="p", kind="producer", queue="a"),
                              table("actor", name="w-1", kind="consumer", queue="a", forward="b"),
                              table("actor", name="w-2", kind="consumer", queue="a", forward="b", copies=2),
                              table("actor", name="topic", kind="consumer", queue="d", forward=["a", "none", "b", "a"]),
                              table("actor", name="lost", kind="consumer", queue="none"),
                              table("actor", name="x", kind="scaler", queue="b"),
                              table("actor", kind="producer", queue="a"), task("t", "d")]))
        self.assertEqual(told, [
            [["a", "queue", "a"], ["d", "dead", "d"], ["b", "queue", "b"], ["producer a ", "producer", "p"],
             ["consumer a b", "consumer", "w × 3"], ["consumer d a none b a", "consumer", "topic"], ["scaler b ", "scaler", "x"],
             ["task t", "task", "t"]],
            [["a", "d", "dead", "a", "a", "redrive,out"], ["b", "b", "dead", "b", "b", "redrive,out"],
             ["producer a ", "a", "send", "a", "p", "send,new"],
             ["a", "consumer a b", "receive", "a", "w-1,w-2-1,w-2-2", "receive,ok"],
             ["consumer a b", "b", "forward", "a", "w-1,w-2-1,w-2-2", "forward,out", 1],
             ["d", "consumer d a none b a", "receive", "d", "topic", "receive,ok"],
             ["consumer d a none b a", "a", "forward", "d", "topic", "forward,out", 0.5],
             ["consumer d a none b a", "b", "forward", "d", "topic", "forward,out", 0.25],
             ["b", "scaler b ", "scale", "b", "x", "scale,ok"],
             ["d", "task t", "move", "d", "t", "move,out"], ["task t", "a", "move", "d", "t", "move,out"]]])

    @unittest.skipIf(page_text.bundler_fault(), page_text.bundler_fault())
    def test_site(self) -> None:
        """A folder for a server has the page, which says what it is, and its picture; both words go together."""
        page = self.path("public/index.html")
        words = "--module", os.path.join(TOP, "dist", "playground.html"), "--site", self.path("public")
        out = self.output("page", *words, "--address", "https://example.org/a&b/")
        self.assertIn("index.html of ", out)
        text = read_text(page)
        for line in ('<meta property="og:image" content="https://example.org/a&amp;b/preview.png">',
                     '<link rel="canonical" href="https://example.org/a&amp;b/">', '<meta name="description" content="Change'):
            self.assertIn(line, text)
        self.assertLessEqual(os.path.getsize(page), 900_000)
        self.assertEqual(self.read("public/preview.png")[:4], b"\x89PNG")
        for more, line in (((), "--site and --address go together"), (("--address", "example.org"), "is no address of a folder")):
            self.assertIn(line, self.refusal(self.run_tool("page", *words, *more)))


def load_tests(loader: unittest.TestLoader, tests: unittest.TestSuite, pattern: str) -> unittest.TestSuite:
    """A test more for each of TESTS, by what it shows."""
    script = "return Object.entries(TESTS).map(([name, [names]]) => [name, names]);"
    for name, names in in_node([PARTS], script) if shutil.which("node") else ():
        method = f"test_{re.sub('[^a-z0-9]+', '_', name.lower())}"
        setattr(Parts, method, lambda self, name=name, names=names: self.run_part(name, names))
        tests.addTest(Parts(method))
    return tests
