"""Tests tools/arrivals: exact times where they are given, and counts and bounds where they come by chance."""
import csv
import io
import json
import os
import re

from tool import TOOLS, ToolCase, needs_program, printed, text_at

HEADER = "at,call,body,group,id,delay,receipt,max,wait,timeout,task\n"
MINUTE = 60_000
METRIC = {"MetricDataResults": [
    {"Id": "sent", "Label": "NumberOfMessagesSent", "StatusCode": "Complete",
     "Timestamps": ["2024-05-01T12:03:00+00:00", "2024-05-01T12:00:00+00:00"], "Values": [7.0, 40.0]},
    {"Id": "other", "Timestamps": ["2024-05-01T12:00:00Z"], "Values": [1]}], "Messages": []}


class Arrivals(ToolCase):
    def made(self, *words):
        """The records of the script that is made, which ascend strictly."""
        out = self.output("arrivals", *words)
        self.assertTrue(out.startswith(HEADER))
        records = list(csv.DictReader(io.StringIO(out)))
        times = [int(record["at"]) for record in records]
        self.assertTrue(all(early < late for early, late in zip(times, times[1:])))
        return records, times

    def test_a_metric_of_cloudwatch(self):
        """In each period so many as it says, the first at the beginning of the run."""
        _, times = self.made("metric", self.write("m.json", json.dumps(METRIC)), "--id", "sent")
        self.assertEqual([sum(start <= at < start + MINUTE for at in times) for start in (0, 3 * MINUTE)], [40, 7])
        self.assertEqual(len(times), 47)
        points = {"Datapoints": [{"Timestamp": "2024-05-01T12:05:00Z", "Sum": 3.0, "Unit": "Count"}]}
        path = self.write("m.json", json.dumps(points))
        _, times = self.made("metric", path, "--period", "1", "--origin", "2024-05-01T12:00:00Z")
        self.assertTrue(len(times) == 3 and all(300_000 <= at < 301_000 for at in times))

    def test_poisson(self):
        """10,000 are expected of ten a second in 1,000 seconds; 400 are four deviations, and gaps are exponential."""
        words = "poisson", "--rate", "10/s", "--duration", "1000s"
        records, times = self.made(*words, "--seed", "5")
        self.assertTrue(9_600 <= len(times) <= 10_400 and times[-1] < 1_000_000)
        longer = sum(late - early > 100 for early, late in zip(times, times[1:])) / len(times)
        self.assertTrue(0.34 < longer < 0.40, longer)
        self.assertEqual(records[7]["body"], "message 7")
        self.assertEqual(self.made(*words, "--seed", "5")[1], times)
        self.assertNotEqual(self.made(*words, "--seed", "6")[1][:20], times[:20])

    def test_bursts(self):
        """Bursts of five at 0, 90 and 180 s, each within three seconds; the next would be after the end."""
        _, times = self.made("bursts", "--size", "5", "--every", "90s", "--over", "3s", "--duration", "4min")
        counts = [sum(start <= at < start + 3_005 for at in times) for start in (0, 90_000, 180_000)]
        self.assertEqual(counts, [5, 5, 5])
        self.assertEqual(len(times), 15)

    def test_the_end_of_bursts(self):
        """A burst of 400 over two hours, of which the first hour is wanted: 200 are expected, within four deviations.
        """
        _, times = self.made("bursts", "--size", "400", "--every", "3h", "--over", "2h", "--duration", "1h")
        self.assertTrue(160 <= len(times) <= 240 and times[-1] < 3_600_000, (len(times), times[-1]))

    def test_bursts_that_one_script_stretches(self):
        """Of 3,000 messages within 100 ms one script makes 3,000 ms; side by side each comes when it was drawn."""
        words = "bursts", "--size", "3000", "--every", "1h", "--over", "100ms", "--duration", "1h", "--queue", "q"
        status, out, err = self.run_tool("arrivals", *words)
        self.assertEqual((status, int(out.splitlines()[-1].split(",")[0]) >= 2_999), (0, True))
        told = re.fullmatch(r"arrivals: (2,9\d\d) of 3,000 messages are put off, by up to 2,9\d\d ms, as a script "
                            r"makes one call a millisecond; --side-by-side (\d+) puts off none\n", err)
        self.assertTrue(told and 30 <= int(told[2]) <= 60, err)
        status, actors, err = self.run_tool("arrivals", *words, "--side-by-side", told[2], "--output", "a.csv")
        self.assertEqual((status, err, actors.count("[[actor]]")), (0, "", int(told[2])))
        times, bodies = [], set()
        for number in range(1, int(told[2]) + 1):
            with open(self.path(f"a-{number}.csv"), encoding="utf-8", newline="") as file:
                records = list(csv.DictReader(file))
            lane = [int(record["at"]) for record in records]
            self.assertTrue(all(early < late for early, late in zip(lane, lane[1:])))
            times += lane
            bodies |= {record["body"] for record in records}
        self.assertEqual((len(times), len(bodies), max(times) < 100), (3_000, 3_000, True))

    def test_hours_of_the_day(self):
        """400 are expected in the second hour of each of two days, within four deviations, and none in another."""
        numbers = ",".join(["0", "400"] + ["0"] * 22)
        _, times = self.made("hours", "--numbers", numbers, "--duration", "2d")
        days = [sum(start <= at < start + 3_600_000 for at in times) for start in (3_600_000, 90_000_000)]
        self.assertTrue(all(320 <= count <= 480 for count in days), days)
        self.assertEqual(sum(days), len(times))

    def test_a_last_hour_that_is_cut(self):
        """Of 90 minutes the second hour has one half: of its 4,000 messages 2,000 are expected, within four deviations,
        and none at the end or after it."""
        _, times = self.made("hours", "--numbers", ",".join(["0", "4000"] + 22 * ["0"]), "--duration", "90min")
        self.assertTrue(all(60 * MINUTE <= at < 90 * MINUTE for at in times))
        self.assertTrue(1_820 <= len(times) <= 2_180, len(times))

    def test_several_files(self):
        words = "poisson", "--rate", "300/s", "--duration", "500s", "--queue", "q"
        self.assertEqual(self.run_tool("arrivals", *words)[0], 2)
        os.mkdir(self.path("in"))
        out, _ = self.ends(0, self.run_tool("arrivals", *words, "--output", "in/a.csv"))
        actor = '[[actor]]\nname = "a-{0}"\nkind = "script"\nqueue = "q"\nscript = "a-{0}.csv"\n'
        self.assertEqual(out, "\n".join(map(actor.format, (1, 2))))
        lengths = []
        for number in (1, 2):
            with open(self.path(f"in/a-{number}.csv"), encoding="utf-8") as file:
                lengths.append(len(file.readlines()) - 1)
        self.assertEqual(lengths[0], 100_000)

    def test_faults(self):
        self.write("t.csv", "when\n1\n")
        self.write("m.json", json.dumps(METRIC))
        self.assert_stored_faults("arrivals")

    def test_files_of_other_kinds(self):
        for data in (b"", b"\n\n", b"\x00\xff", bytes(range(256)), b"when\n", b"1\nx\n", b'1\n"2', b"1" * 5_000,
                     b"1e400\n", b"1\n9999999999\n", b"\xff\xfe1", b"[" * 100_000, b"{}", b'{"MetricDataResults": []}',
                     b'{"Datapoints": [{"Timestamp": "x", "Sum": 1}]}',
                     b'{"Datapoints": [{"Timestamp": "1", "Sum": 1e999}]}',
                     b'{"MetricDataResults": [{"Timestamps": ["2024-05-01"], "Values": []}]}',
                     b'{"MetricDataResults": [{"Timestamps": ["2024-05-01"], "Values": ["1"]}]}'):
            self.write("given", data)
            for kind in ("times", "metric"):
                with self.subTest(data=data[:40], kind=kind):
                    self.refusal(self.run_tool("arrivals", kind, "given"))

    @needs_program
    def test_what_is_made_runs(self):
        """A standard and a FIFO queue, each with the messages of its script."""
        top = "version = 1\nhorizon = 100000\n"
        for queue in ("q", "q.fifo"):
            actors, _ = self.ends(0, self.run_tool("arrivals", "bursts", "--size", "20", "--every", "10s", "--over",
                                                   "9s", "--duration", "30s", "--queue", queue, "--output", "a.csv"))
            scenario = self.write("s.toml", f'{top}[[queue]]\nname = "{queue}"\n{actors}')
            self.assertIn(f"\nreport,{queue},60,0,",
                          printed("run", "--scripts", self.folder, "--log", os.devnull, scenario))

    def test_example_of_the_documents(self):
        words = "bursts", "--size", "2", "--every", "10min", "--over", "5s", "--duration", "20min", "--queue", "orders"
        self.assertIn(self.run_tool("arrivals", *words, "--output", "orders.csv")[1], text_at(TOOLS, "README.md"))
