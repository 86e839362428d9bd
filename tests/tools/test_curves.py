"""Tests the curves of tools/picture --sweep on rows whose means are worked out by hand, and their texts."""
import os

from test_picture import Readable, needs_numpy
from tool import PROGRAM, ROOT, module_of, needs_program
from rehearse_tools.console import Fault
from rehearse_tools.curves import Axis, Rows, curves_of, setting_of, sweep_picture

picture = module_of("picture")
ROWS = """queue.q.visibility_s,seed,failed,queue,sends,age_p95
5,1,,q,1,100
5,2,,q,3,400
5,3,,q,2,
20,1,,q,7,1000
20,2,,q,7,3000
5,1,,r,0,
60,1,refused 14 OutOfRange at queue[0].visibility_s,,,
"""
FOLDED = """queue.q.visibility_s,failed,queue,runs,age_p95_mean,age_p95_deviation,age_p95_least,age_p95_greatest
5,,q,2,250,212.132,100,400
20,,q,4,2000.5,1414.2,1000,3000
"""
TIED = """count.c,actor.c.batch,failed,queue,sends
2,1,,q,10
1,1,,q,20
1,10,,q,30
2,10,,q,40
"""
WORDS = "queue.q.dedup_scope,failed,queue,sends\ngroup,,q,4\nqueue,,q,6\n"


@needs_numpy
class Curves(Readable):
    def curves(self, text, column, setting=None):
        rows = Rows(self.write("rows.csv", text))
        axis = Axis(rows, setting_of(rows, setting))
        return axis.places, {curve.name: {word: curve.at(word) for word in axis.places}
                             for curve in curves_of(rows, axis.setting, column)}

    def texts(self, text, *words):
        options = picture.options_of(["--sweep", self.write("rows.csv", text), *words])
        return self.assert_readable(sweep_picture(options))

    def test_spread_over_seeds(self):
        places, curves = self.curves(ROWS, "q.age_p95")
        self.assertEqual(places, {"5": 5, "20": 20})
        self.assertEqual(curves, {"": {"5": (250, 100, 400, 2), "20": (2000, 1000, 3000, 2)}})
        self.assertEqual(self.curves(ROWS, "q.sends")[1], {"": {"5": (2, 1, 3, 3), "20": (7, 7, 7, 2)}})
        self.assertEqual(self.curves(ROWS, "r.age_p95")[1], {"": {"5": None, "20": None}})

    def test_rows_that_were_folded(self):
        self.assertEqual(self.curves(FOLDED, "q.age_p95")[1],
                         {"": {"5": (250, 100, 400, 2), "20": (2000.5, 1000, 3000, 4)}})

    def test_other_settings_are_curves_of_their_own(self):
        places, curves = self.curves(TIED, "q.sends")
        self.assertEqual(list(places), ["1", "2"])
        self.assertEqual(curves, {"actor.c.batch = 1": {"1": (20, 20, 20, 1), "2": (10, 10, 10, 1)},
                                  "actor.c.batch = 10": {"1": (30, 30, 30, 1), "2": (40, 40, 40, 1)}})
        self.assertEqual(set(self.curves(TIED, "q.sends", "actor.c.batch")[1]), {"count.c = 1", "count.c = 2"})
        self.assertEqual(self.curves(ROWS, "q.sends", "seed")[0], {"1": 1, "2": 2, "3": 3})

    def test_words_stand_side_by_side(self):
        self.assertEqual(self.curves(WORDS, "q.sends"),
                         ({"group": 0, "queue": 1}, {"": {"group": (4, 4, 4, 1), "queue": (6, 6, 6, 1)}}))

    def test_numbers_far_apart_have_a_logarithmic_axis(self):
        """20 to 900 in nine steps stand together at the end of an even axis; a logarithmic axis labels all."""
        numbers = (20, 25, 30, 40, 60, 90, 150, 300, 900)
        text = "a,failed,queue,age_p95\n" + "".join(f"{number},,q,{number}000\n" for number in numbers)
        rows = Rows(self.write("rows.csv", text))
        self.assertTrue(Axis(rows, "a").is_log)
        texts = self.texts(text, "--column", "q.age_p95", "--width", "1000")
        for number in numbers:
            self.assertIn(str(number), texts)
        for numbers in ((1, 2, 3, 4, 5, 30), (0, 1, 2, 900), (1, 900), (100, 101, 102, 150)):
            text = "a,failed,queue,age_p95\n" + "".join(f"{number},,q,1\n" for number in numbers)
            is_log = numbers == (1, 2, 3, 4, 5, 30)
            self.assertEqual(Axis(Rows(self.write("rows.csv", text)), "a").is_log, is_log, numbers)

    def test_requirements(self):
        texts = self.texts(ROWS, "--column", "q.age_p95", "--column", "q.sends", "--require", "q.age_p95<5s")
        self.assertEqual(texts.count("required: q.age_p95<5s"), 1)
        self.assertIn("5", texts)
        with self.assertRaises(Fault) as fault:
            self.texts(ROWS, "--column", "q.sends", "--require", "q.age_p95<5s")
        self.assertEqual(str(fault.exception), "q.age_p95<5s: no --column is drawn of it")

    def test_intervals_of_means(self):
        """Of 1, 3 and 2 sends the mean is 2, the deviation 1, and Student's quantile for two degrees of freedom 4.3027.
        The mean of the ages 100 and 400 is nearer to the low end of its interval, which is not below 0."""
        rows = Rows(self.write("rows.csv", ROWS))
        curve, = curves_of(rows, "queue.q.visibility_s", "q.sends")
        self.assertAlmostEqual(curve.interval("5").low, 2 - 4.3027 / 3 ** 0.5, places=3)
        self.assertAlmostEqual(curve.interval("5").high, 2 + 4.3027 / 3 ** 0.5, places=3)
        curve, = curves_of(rows, "queue.q.visibility_s", "q.age_p95")
        self.assertEqual(curve.interval("5").low, 0)
        self.assertGreater(curve.interval("5").high, 500)
        folded = FOLDED.replace("age_p95_greatest", "age_p95_greatest,age_p95_mean_low,age_p95_mean_high")
        folded = folded.replace(",400\n", ",400,90.5,380\n").replace(",3000\n", ",3000,,\n")
        curve, = curves_of(Rows(self.write("rows.csv", folded)), "queue.q.visibility_s", "q.age_p95")
        self.assertEqual([curve.interval(word) for word in ("5", "20", "60")], [(90.5, 380), None, None])

    def test_texts(self):
        texts = self.texts(ROWS, "--column", "q.age_p95", "--column", "q.sends", "--column", "r.age_p95")
        for text in ("What queue.q.visibility_s does", "rows of variants that failed, and are left out: 1",
                     "q.age_p95 (s): mean, and least to greatest, of 2 runs",
                     "q.sends: mean, and least to greatest, of 2 to 3 runs", "r.age_p95 (ms): no run has any",
                     "queue.q.visibility_s", "3", "16"):
            self.assertIn(text, texts)
        for words in (("--width", "640"), ("--width", "1600"), ("--height", "700", "--title", "My title"),
                      ("--width", "640", "--column", "q.sends")):
            with self.subTest(words=words):
                self.texts(TIED.replace("actor.c.batch", "actor." + "name-" * 20 + "*.batch"), "--column", "q.sends",
                           *words)
                self.texts(WORDS, "--column", "q.sends", *words)
                self.texts(FOLDED, "--column", "q.age_p95", *words[:2])

    def test_files_of_other_kinds(self):
        for data in (b"\xff", b"\x00" * 9, b'"' * 10, b"a,failed,queue,sends\r1,,q,1\n"):
            self.write("rows.csv", data)
            self.refusal(self.run_tool("picture", "--sweep", "rows.csv", "--column", "q.sends"))

    @needs_program
    def test_curve_of_a_sweep(self):
        scenario = os.path.join(ROOT, "examples", "short_timeout.toml")
        words = "--vary", "count.left=1..3", "--vary", "seed=1..4", "--columns", "receives,age_p95"
        status, rows, _ = self.run_tool("sweep", scenario, *words, SQS_REHEARSE=PROGRAM)
        drawn, out, err = self.run_command("picture", "--sweep", "-", "--column", "jobs.age_p95", stdin=rows)
        self.assertEqual((status, drawn, err), (0, 0, ""))
        self.assertIn("mean, and least to greatest, of 4 runs", out)
        self.assertIn("<title>What count.left does</title>\n <desc>jobs.age_p95: mean, and least to greatest, of 4 "
                      "runs (bars: 95 % interval of the mean)</desc>", out)
