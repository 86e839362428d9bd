"""Tests the examples in the helps of the tools: each runs as it stands."""
import os
import shutil

from tool import ROOT, TOOLS, USERS_TOOLS, ToolCase, needs_program, ran
import helps

ATTRIBUTES = """{"Attributes": {"QueueArn": "arn:aws:sqs:eu-west-1:1:%s", "VisibilityTimeout": "45",
"ApproximateNumberOfMessages": "2"}}
"""


@needs_program
class Examples(ToolCase):
    def setUp(self) -> None:
        super().setUp()
        for name in ("examples", "tools", "sqs_rehearse"):
            os.symlink(os.path.join(ROOT, name), self.path(name))
        for name in ("orders", "failed"):
            self.write(f"{name}.json", ATTRIBUTES % name)
        shutil.copy(os.path.join(ROOT, "tests", "tools", "plans", "modules", "plan.json"), self.path("plan.json"))

    def examples_of(self, name: str) -> list[str]:
        blocks = helps.blocks_of(self.run_tool(name, "--help")[1])
        leads = [block.lead for block in blocks]
        return blocks[leads.index("Examples:") + 1].rows if "Examples:" in leads else []

    def test_examples(self) -> None:
        """Each tool has two at least, which run where the examples are; a requirement or an alarm may end with 1."""
        for name in USERS_TOOLS:
            examples = self.examples_of(name)
            self.assertGreaterEqual(len(examples), 2, name)
            for example in examples:
                with self.subTest(example=example):
                    environment = {**os.environ, "PATH": f"{TOOLS}:{os.environ['PATH']}"}
                    status, _, err = ran(["bash", "-c", example], cwd=self.folder, env=environment)
                    self.assertIn(status, (0, 1), err)
                    self.assertNotIn("Traceback", err)
                    self.assertIn(f"tools/{name} ", example)


class Usages(ToolCase):
    """The help of each program in tools/, also of those for who works on this repository."""

    def test_columns(self) -> None:
        """No line has over 120 columns."""
        names = [entry.name for entry in os.scandir(TOOLS) if entry.is_file() and os.access(entry.path, os.X_OK)]
        self.assertLessEqual(set(USERS_TOOLS), set(names))
        for name in names:
            with self.subTest(tool=name):
                status, out, err = ran([os.path.join(TOOLS, name), "--help"])
                self.assertEqual((status, err), (0, ""))
                self.assertIn(f"tools/{name}", out)
                self.assertEqual([line for line in out.splitlines() if len(line) > 120], [])

    def test_words_that_are_none(self) -> None:
        """Each refuses an option that there is not, in one line."""
        for name in (*USERS_TOOLS, "bench", "build", "layers", "package", "page", "proof-times", "setup", "sources"):
            with self.subTest(tool=name):
                self.refusal(ran([os.path.join(TOOLS, name), "--nonsense"]))
