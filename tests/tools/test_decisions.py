"""Tests the file for systems of CI that tools/sweep writes, with a stand-in for the program that sends 100 messages for
each second of visibility and one for each unit of the seed. What a sweep decides is in sessions/decisions.txt."""
from xml.etree import ElementTree

from test_sweep import SCENARIO, STAND_IN
from tool import ToolCase
from rehearse_tools.console import read_text
from rehearse_tools.decisions import Case, text_of

SEEDS = "--vary", "seed=1..100", "--spread", "seed", "--columns", "sends"


class Decisions(ToolCase):
    scenario_text, stand_in = SCENARIO, STAND_IN.replace("= 77", "= none")

    def sweep(self, *words: str) -> tuple[int, str, str]:
        return self.run_tool("sweep", self.scenario, *words, SQS_REHEARSE=self.program)

    def told(self, err: str) -> list[str]:
        """The lines on standard error but for those of progress."""
        return [line.removeprefix("sweep: ") for line in err.splitlines() if " run, " not in line]

    def junit(self, *words: str) -> tuple[int, list[tuple[str, str, str, str]]]:
        """The status, and of each test in the file the variant, the requirement, what came of it, and its first line.
        """
        status, _, err = self.sweep(*words, "--junit", "j.xml")
        suite, = ElementTree.fromstring(read_text(self.path("j.xml")))
        tests = [(test.get("classname"), test.get("name"), *((test[0].tag, test[0].get("message")) if len(test) else
                                                             ("holds", ""))) for test in suite]
        self.assertEqual([int(suite.get(name)) for name in ("tests", "failures", "errors")], [
            len(tests), *(sum(came == kind for _, _, came, _ in tests) for kind in ("failure", "error"))])
        self.assertEqual([line for *_, line in tests if line and line not in self.told(err)], [])
        return status, [(*test[:3], test[3].rpartition(": ")[2]) for test in tests]

    def test_a_file_for_systems_of_ci(self) -> None:
        """201 sends are at most 250, 301 are not, and of a variant that is refused nothing is known."""
        name = "queue.q.visibility_s"
        found = self.junit("--vary", f"{name}=2,3,51", "--vary", "seed=1", "--require", "q.sends<=250", "--require",
                           "*.sends>=0")
        self.assertEqual(found[0], 1)
        self.assertEqual(found[1][:4], [
            (f"{name}=2 seed=1", "q.sends<=250", "holds", ""), (f"{name}=2 seed=1", "*.sends>=0 of q", "holds", ""),
            (f"{name}=2 seed=1", "*.sends>=0 of r", "holds", ""),
            (f"{name}=3 seed=1", "q.sends<=250", "failure", "it is 301")])
        self.assertEqual([test[:3] for test in found[1][6:]], [
            (f"{name}=51 seed=1", text, "error") for text in ("q.sends<=250", "*.sends>=0 of q", "*.sends>=0 of r")])

    def test_what_is_undecided_is_a_failure(self) -> None:
        """Runs that are put together are one variant. What must hold in each fails with the first run that it does not
        hold in; a share holds only if it is shown."""
        words = "--vary", "queue.q.visibility_s=2", *SEEDS
        wanted = ("q.sends<=300 in 95%", "holds"), ("q.sends<=295 in 90.0%", "failure"), ("q.sends<=299", "failure")
        status, tests = self.junit(*words, *(word for text, _ in wanted for word in ("--require", text)))
        self.assertEqual((status, [test[:3] for test in tests]),
                         (1, [("queue.q.visibility_s=2", *test) for test in wanted]))

    def test_a_sweep_that_has_not_ended(self) -> None:
        """All that was run may hold; it is an error all the same. No character is in the file that XML does not have."""
        suite, = ElementTree.fromstring(text_of("a\x1b<&", [Case("v", "q.sends<1", (), ())], ["the end\x00"]))
        self.assertEqual((suite.attrib, [test.attrib for test in suite], [test.tag for test in suite[1]], suite[1][0].text),
                         ({"name": "a\\x1b<&", "tests": "2", "failures": "0", "errors": "1"},
                          [{"classname": "v", "name": "q.sends<1"}, {"classname": "the sweep", "name": "comes to its end"}],
                          ["error"], "the end\\x00"))
        self.assert_fault(self.sweep("--vary", "seed=1", "--junit", "j.xml"),
                          "sweep: --junit goes with --require (--help tells the usage)")
