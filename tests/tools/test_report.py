"""Tests tools/report with a stand-in for the program that prints a known run, and with the program itself."""
import base64
import gzip
import hashlib
import json
import os
import re
import shutil
import subprocess
import sys
import unittest
from html.parser import HTMLParser

from tool import HEADERS, LIMIT, PROGRAM, ROOT, TOOLS, ToolCase, module_of, needs_program, row_of, text_at
from scenario_texts import producer, queue_of, scenario_of
from figures import ACTIONS, NAMES
from rehearse_tools.console import Fault, check_library
from rehearse_tools.figures import AGES, OF_REPORT
from rehearse_tools.histories import History

try:
    check_library("plotly", "python3-plotly")
    has_plotly = True
except Fault:
    has_plotly = False

report = module_of("report")
drawn, figure_html, layout_of, panels_of = report.drawn, report.figure_html, report.layout_of, report.panels_of

SCENARIO = """version = 1
horizon = 10000
seed = 11
[[queue]]
name = "q"
visibility_s = 5 # <b>&amp;
"""
# Two messages: the first is deleted when it is 2,000 ms old, and the second expires.
RUN = """at,queue,agent,call,answer,message,receipt,detail
0,q,shop,send,new,m-0-0,,x
1000,q,shop,send,new,m-0-1,,x
1500,q,c,receive,ok,m-0-0,r-0-0-1,o-0-0
2000,q,c,delete,deleted,m-0-0,r-0-0-1,2000
9000,q,q,expire,expired,m-0-1,,8000
""" + HEADERS + """report,q,2,0,1,0,1,1,0,0,0,0,0,0,0,0,0,0,0,0,2,0,0,0,2000,2000,2000,2000,2000
"""
FIGURES = {**dict.fromkeys([*NAMES, *ACTIONS.values(), "refused_requests", "left", "left_in_flight", "handled_again"], 0),
           **dict.fromkeys(("handled_once", "handled_greatest", "received_messages", "received_greatest"), 1),
           "sent": 2, "receives": 1, "deleted": 1, "lost_by_expiry": 1, "SendMessage": 2, "ReceiveMessage": 1,
           "DeleteMessage": 1, "requests": 4, "depth_greatest": 2, "depth_greatest_at_ms": 1_000,
           **dict.fromkeys(("age_sum_ms", "age_p50_ms", "age_p95_ms", "age_p99_ms", "age_greatest_ms", "new_age_p50_ms",
                            "new_age_p95_ms"), 2_000),
           **dict.fromkeys(("moved_age_p50_ms", "moved_age_p95_ms", "backlog_gone_at_ms", "backlog_since_ms"), ""),
           **{f"{age}_{bound}_ms": 2_000 for age in (*OF_REPORT.values(), *AGES.values()) for bound in ("least", "most")}}
RUN += "figure,of,name,value\n" + "".join(f"figure,q,{name},{number}\n" for name, number in FIGURES.items())
DEAD_LETTERS = scenario_of(1_000, queue_of("q", dead_letter="d", max_receives=1, latency_ms=10), queue_of("d"),
                        producer("p", "q", 1, 1))
STAND_IN = f"""#!{sys.executable} -S
import sys
if sys.argv[1:] == ["--help"]:
    sys.exit(0)
assert sys.argv[1:] == "run --quiet --scripts . --figures --from 0 --window-figures 300000".split(), sys.argv
text = sys.stdin.read()
if "horizon = 10000" not in text:
    sys.exit("refused 14 OutOfRange at horizon")
print({RUN!r}, end="")
"""


class Page(HTMLParser):
    """The texts of a page, without its scripts, and what its tags name."""

    def __init__(self, text):
        super().__init__()
        self.inside, self.texts, self.links, self.scripts = [], [], [], 0
        self.feed(text)

    def handle_starttag(self, tag, attributes):
        if tag not in ("meta", "link", "br"):
            self.inside.append(tag)
        self.scripts += tag == "script"
        self.links += [value for key, value in attributes if key in ("src", "href")]

    def handle_endtag(self, tag):
        assert self.inside.pop() == tag, tag

    def handle_data(self, data):
        if self.inside and self.inside[-1] not in ("script", "style") and data.strip():
            self.texts.append(data.strip())


@unittest.skipUnless(has_plotly, "plotly is missing, which tools/setup installs")
class Report(ToolCase):
    scenario_text, stand_in = SCENARIO, STAND_IN

    def report(self, *words):
        return self.run_tool("report", *words, SQS_REHEARSE=self.program, SOURCE_DATE_EPOCH="1000000000")

    def page(self, *words, status=0):
        """The page, and what standard error reports; nothing is on standard output."""
        found = self.report(self.scenario, "--output", "r.html", *words)
        self.assertEqual(found[:2], (status, ""))
        return text_at(self.path("r.html")), found[2]

    def test_what_the_page_tells(self):
        text, err = self.page("--require", "q.age_p95<60s", "--require", "q.expiries=0", "--title", "A <run>", status=1)
        self.assertEqual(err, "report: q.expiries=0 fails: it is 1\n")
        page = Page(text)
        self.assertEqual((page.inside, page.links, page.scripts), ([], ["#section-1"], 2))
        self.assertIn('<h2 id="section-1">q</h2>', text)
        self.assertIn('role="img" aria-label="q over time. 2 came in, 1 deleted, 1 expired, 0 left."', text)
        told = "|".join(page.texts)
        version = text_at(TOOLS, "VERSION").strip()
        sha = hashlib.sha256(SCENARIO.encode()).hexdigest()
        for part in ("A <run>|A <run>|s.toml, seed 11: 5 rows, the last at 9.00 s.|sqs_rehearse {version}, "
                     "2001-09-09. SHA-256 of the scenario {sha}.|Lost by expiry: 1 in q|",
                     "All queues|queue|came in|deleted|dead-lettered|lost|left|age 50 %|age 95 %|depth|q|2|1|0|1|0|"
                     "2.00 s|2.00 s|2|q|",
                     "holds|q.age_p95<60s|q", "fails|q.expiries=0|q|it is 1", "sent|2",
                     "lost by expiry|1|of 2", "deleted|1|of 2", "age when deleted, 95 %|2.00 s",
                     "seed|11|sample|0, the default|queue q|visibility_s = 5", "visibility_s = 5 # <b>&amp;"):
            self.assertIn(part.replace("{version}", version).replace("{sha}", sha), told)
        self.assertTrue(told.endswith("--require 'q.age_p95<60s' --require q.expiries=0 --title 'A <run>'"))
        self.assertIn(f"tools/report {self.scenario} --output r.html", told)

    @unittest.skipUnless(shutil.which("node"), "node is not here")
    def test_a_narrow_page(self):
        """The buttons of a picture cover no name of a line there: they are hidden."""
        code = re.search(r"^function draw\(.*?^}$", self.page()[0], re.M | re.S)[0]
        ran = subprocess.run(["node", "-"], capture_output=True, text=True, timeout=LIMIT, check=True, input=f"""
            {code}
            const isLibraryThere = {{ then: then => then() }}, shown = [];
            globalThis.Plotly = {{ newPlot: (...given) => shown.push(given[3].displayModeBar ?? true) }};
            for (globalThis.innerWidth of [420, 699, 700, 1600]) draw('id', [], {{ margin: {{}} }}, {{}});
            console.log(JSON.stringify(shown));""")
        self.assertEqual(json.loads(ran.stdout), [False, False, True, True])

    def test_pictures(self):
        """The numbers that are drawn: two messages at 1 s, one deleted of an age of 2 s, the second expired."""
        text, _ = self.page()
        traces, layout = json.loads("[" + re.search(r'draw\("queue-1", (.*), \{"responsive"', text)[1] + "]")
        by_name = {trace["name"]: trace for trace in traces}
        self.assertEqual(set(by_name), {"visible", "in flight", "middle", "95 %", "greatest", "oldest", "expired"})
        self.assertEqual((by_name["visible"]["x"], by_name["visible"]["y"]), ([0, 1, 1.5, 9, 9], [1, 2, 1, 0, 0]))
        self.assertEqual((by_name["in flight"]["x"], by_name["in flight"]["y"]), ([0, 1.5, 2, 9], [0, 1, 0, 0]))
        for name in ("middle", "95 %", "greatest"):
            self.assertEqual([age for age in by_name[name]["y"] if age is not None], [2, 2])
        self.assertEqual(layout["yaxis2"]["title"]["text"], "age when<br>deleted (s)")
        self.assertEqual(sum(by_name["expired"]["y"]), 1)
        self.assertEqual(max(age for age in by_name["oldest"]["y"] if age is not None), 8)
        self.assertEqual(layout["xaxis"]["range"], [0, 9])
        packed = re.search('const packed = "([A-Za-z0-9+/=]+)";', text[:text.index("</head>")])[1]
        self.assertIn(b"plotly.js", gzip.decompress(base64.b64decode(packed))[:100])
        self.assertLess(len(text), 4_000_000)
        self.assertEqual([by_name[name]["yaxis"] for name in ("visible", "95 %", "oldest", "expired")],
                         ["y1", "y2", "y3", "y4"])
        domains = [layout[f"yaxis{axis}"]["domain"] for axis in range(1, 5)]
        self.assertEqual((domains[0][1], domains[3][0], domains), (1, 0, sorted(domains, reverse=True)))

    def test_panels_without_anything_are_left_out(self):
        """Where nothing expires and nothing is redriven, three panels are left, the last with the time below it."""
        queue = History("q")
        queue.enters(*row_of(0, "m-0-0"))
        queue.deleted(*row_of(2_000, "m-0-0", "2000"))
        panels = drawn(panels_of(queue, 0, 9_000, 1_000))
        self.assertEqual([(panel.title, [trace["name"] for trace in panel.traces]) for panel in panels],
                         [("messages", ["visible"]), ("age when<br>deleted (s)", ["greatest", "95 %", "middle"]),
                          ("oldest (s)", ["oldest"])])
        layout = layout_of(panels, "s", 0, 9)
        self.assertEqual((layout["xaxis"]["anchor"], layout["yaxis3"]["domain"][0], "yaxis4" in layout),
                         ("y3", 0, False))
        self.assertEqual(figure_html(1, History("empty"), 0, 9_000), "")

    def test_bounds_and_a_logarithmic_axis(self):
        """Ages of 5 ms and one of a minute; the bound of 30 s is half a minute, and that of another queue is none."""
        queue = History("q")
        for number in range(3):
            queue.enters(*row_of(0, f"m-0-{number}"))
        for number, age in enumerate((5, 5, 60_000)):
            queue.deleted(*row_of(age, f"m-0-{number}", str(age)))
        found = [report.Requirement(text) for text in ("q.age_p95<30s", "q.sends=3", "other.age_p95<1s")]
        text = figure_html(1, queue, 0, 60_000, found)
        traces, layout = json.loads("[" + re.search(r'draw\("queue-1", (.*), \{"responsive"', text)[1] + "]")
        self.assertEqual([(trace["x"], trace["y"]) for trace in traces if "dash" in trace["line"]],
                         [([0, 60], [30, 30])])
        self.assertEqual([layout[f"yaxis{axis}"]["type"] for axis in (1, 2, 3)], ["linear", "log", "linear"])

    def test_many_changes_are_means_over_extents(self):
        """5,000 messages come and go: each line is a mean between two edges that are filled between."""
        queue = History("q")
        for number in range(5_000):
            queue.enters(*row_of(10 * number, f"m-0-{number}"))
            queue.deleted(*row_of(10 * number + 5, f"m-0-{number}", "5"))
        panel = drawn(panels_of(queue, 0, 50_000, 1_000))[0]
        least, greatest, mean = panel.traces
        self.assertEqual([len(trace["x"]) for trace in panel.traces], [report.COLUMNS_OF_LINES] * 3)
        self.assertEqual((set(least["y"]), set(greatest["y"]), greatest["fill"]), ({0.0}, {1.0}, "tonexty"))
        self.assertAlmostEqual(sum(mean["y"]) / len(mean["y"]), 0.5, places=3)
        self.assertEqual([trace.get("showlegend", True) for trace in panel.traces], [False, False, True])

    def test_no_solid_blocks(self):
        """A line that changes more often than there are columns is a mean; one with fewer changes is drawn as it is."""
        for messages, points in ((370, 740), (380, 750 * 3)):
            queue = History("q")
            for number in range(messages):
                queue.enters(*row_of(10 * number, f"m-0-{number}"))
                queue.deleted(*row_of(10 * number + 5, f"m-0-{number}", "5"))
            panel = drawn(panels_of(queue, 0, 10 * messages, 1_000))[0]
            self.assertAlmostEqual(sum(len(trace["x"]) for trace in panel.traces), points, delta=2)

    def test_the_same_run_gives_the_same_page(self):
        self.assertEqual(self.page(), self.page())

    def test_a_scenario_that_is_refused(self):
        path = self.write("bad.toml", SCENARIO.replace("10000", "0"))
        self.assertEqual(self.report(path, "--output", "r.html"),
                         (1, "", "report: refused 14 OutOfRange at horizon; tools/explain tells more\n"))
        self.assertEqual(self.run_tool("report", path, "--output", "r.html", SQS_REHEARSE=self.program,
                                       SQS_REHEARSE_TOOL="sqs_rehearse report")[2],
                         "sqs_rehearse report: refused 14 OutOfRange at horizon; sqs_rehearse explain tells more\n")
        self.assertFalse(os.path.exists(self.path("r.html")))

    def test_faults(self):
        self.assert_stored_faults("report", SQS_REHEARSE=self.program)
        for data in (b"\x00\xff", bytes(range(256)), b"version = ", b"a = " + b"[" * 9_000):
            self.write("bad.toml", data)
            self.refusal(self.report("bad.toml", "--output", "r.html", "--queue", "q"))

    def test_without_its_library(self):
        """A Python that finds no plotly tells which package has it."""
        folder = self.path("without")
        os.mkdir(folder)
        self.write("without/plotly.py", "raise ImportError\n")
        ran = self.run_command("report", self.scenario, "--output", "r.html", PYTHONPATH=folder,
                               SQS_REHEARSE=self.program)
        self.assert_fault(ran, "report: the library plotly.offline is missing: Debian's package python3-plotly has it "
                               "for Debian's python3, and tools/setup installs it")

    @needs_program
    def test_with_the_program(self):
        example = os.path.join(ROOT, "examples", "dead_letters.toml")
        words = "--require", "orders.age_p95<10s", "--require", "failed.expiries=0"
        status, out, err = self.run_tool("report", example, "--output", "r.html", *words, SQS_REHEARSE=PROGRAM)
        self.assertEqual((status, out, err),
                         (1, "", "report: orders.age_p95<10s fails: it is 10227 ms, 10.2 s\n"))
        page = Page(text_at(self.path("r.html")))
        self.assertEqual((page.inside, page.links, page.scripts), ([], ["#section-1", "#section-2"], 3))
        told = "|".join(page.texts)
        self.assertIn("All queues|queue|came in|deleted|dead-lettered|lost|left|age 50 %|age 95 %|depth|"
                      "orders|42|40|2|0|0|146 ms|10.2 s|8|failed|2|0|0|0|0|-|-|2|2 dead letters|", told)

    @needs_program
    def test_version_3_is_asked_for(self):
        scenario = self.write("h.toml", text_at(ROOT, "tests", "cases", "version-3", "heartbeat.toml"))
        words = scenario, "--output", "h.html"
        self.assertEqual(self.run_tool("report", *words, SQS_REHEARSE=PROGRAM),
                         (1, "", "report: refused 14 OutOfRange at version; tools/explain tells more\n"))
        self.assertEqual(self.run_tool("report", *words, "--v3", SQS_REHEARSE=PROGRAM), (0, "", ""))
        self.assertIn("h.html --v3", "|".join(Page(text_at(self.path("h.html"))).texts))

    @needs_program
    def test_a_dead_letter_queue_without_rows(self):
        """It stands in the table of all queues, though nothing of it can be drawn."""
        scenario = self.write("d.toml", DEAD_LETTERS)
        self.assertEqual(self.run_tool("report", scenario, "--output", "d.html", SQS_REHEARSE=PROGRAM), (0, "", ""))
        page = Page(text_at(self.path("d.html")))
        self.assertEqual(page.links, ["#section-1"])
        self.assertIn("|d|0|0|0|0|0|-|-|0|0 dead letters|", "|".join(page.texts))
