"""Tests the advice on a warm-up, by queues of which it is known when they settle."""
import io
import unittest

from tool import ToolCase, needs_program, text_at
from scenario_texts import producer, queue_of, scenario_of
from rehearse_tools import settling

# A message a second for 100 minutes, which nobody receives and which expires: the depth grows until the retention
# period ends, and is its number of seconds from then on.
LEFT_ALONE = scenario_of(5_999_999, queue_of("q", retention_s=1_200), producer("p", "q", 9_000, 1_000))
LOG = """at,queue,agent,call,answer,message,receipt,detail
0,q,p,send,new,m-0-0,,x
100,q,p,send,new,m-0-1,,x
150,q,c,receive,ok,m-0-0,r-0-0-1,o-0-0
199,q,c,delete,deleted,m-0-0,r-0-0-1,199
199,q,c,forward,out,m-0-0,r-0-0-1,d
"""


class Advice(unittest.TestCase):
    def test_depths_by_counting(self) -> None:
        """A run of 200 ms has parts of 1 ms: one message up to 100 ms, then two, and one from 199 ms on."""
        found = settling.series_of(io.StringIO(LOG), settling.PARTS - 1)["q"]
        self.assertEqual(found.depths, [1.0] * 100 + [2.0] * 99 + [1.0])
        self.assertEqual(found.entered, [1, 0, 0, 0, 0, 1, 0, 0, 0, 0])

    def series(self, depths: list[float], entered: list[int]) -> list[settling.Series]:
        return [settling.Series(depths, entered)] * 5

    def test_when_it_is_said(self) -> None:
        """The first 20 of 200 parts are empty; the others have ten messages."""
        late, steady = [0.0] * 20 + [10.0] * 180, [7] * 10
        self.assertEqual(settling.advice_of("q", self.series(late, steady), 1_999), ("q", 200, 9.0, 10.0))
        for what, depths, entered in (("a burst", late, [70] + [0] * 9), ("no traffic", late, [0] * 10),
                                      ("settled at once", [10.0] * 200, steady),
                                      ("too late", [0.0] * 120 + [10.0] * 80, steady),
                                      ("it does not matter", [9.0] * 20 + [10.0] * 180, steady)):
            with self.subTest(what=what):
                self.assertIsNone(settling.advice_of("q", self.series(depths, entered), 1_999))


@needs_program
class Sweeps(ToolCase):
    def test_a_picture(self) -> None:
        """It has each queue with messages, and where to begin; with --from, too, it is drawn from the beginning."""
        scenario = self.write("s.toml", LEFT_ALONE.replace("[[actor]]", '[[queue]]\nname = "empty"\n[[actor]]'))
        words = scenario, "--vary", "seed=1..6", "--spread", "seed", "--settling"
        for more, hints in (((), 1), (("--from", "20m"), 0)):
            status, _, err = self.run_tool("sweep", *words, "settled.svg", *more)
            self.assertEqual((status, err.count("--from")), (0, hints), err)
            text = text_at(self.path("settled.svg"))
            for wanted in ("When the runs settle", "over 6 runs", "q: settled from 20m on, by MSER-5"):
                self.assertIn(wanted, text)
            self.assertNotIn("empty", text)
