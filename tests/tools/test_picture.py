"""Tests tools/picture: what it counts, by hand and by the stored reports, and that no two texts of it overlap."""
import itertools
import os
import re
import unittest

from test_summary import cases
from tool import HEADER, ROOT, ToolCase, ended, log_at, module_of, needs_program, row_of, text_at
from rehearse_tools.console import Fault, library
from rehearse_tools.logs import Log
from rehearse_tools.histories import (PLACES, Course, Histories, History, ages_in, copies_levels, counts_in, course_of,
                                      levels, oldest)
from rehearse_tools.replay import BadRow

try:
    numpy, matplotlib = library("numpy", "python3-numpy"), library("matplotlib", "python3-matplotlib")
except Fault:
    numpy = None
needs_numpy = unittest.skipUnless(numpy, "matplotlib is missing, which tools/setup installs")
picture = module_of("picture")

LOG = log_at("picture.log")



def histories_of(path):
    return Histories(Log(path))


def pairs(arrays):
    return [(int(at), int(number)) for at, number in zip(*arrays)]


@needs_numpy
class Counts(ToolCase):
    def test_levels_of_a_small_log(self):
        found = histories_of(self.write("log", ended(LOG)))
        a, d = found.queues["a"], found.queues["d"]
        self.assertEqual((found.first, found.last), (0, 6020))
        visible, in_flight, delayed = PLACES.values()
        self.assertEqual(pairs(levels(a, delayed, 0, 6020)), [(0, 1), (1000, 0), (6020, 0)])
        self.assertEqual(pairs(levels(a, visible, 0, 6020)),
                         [(0, 0), (5, 1), (1000, 2), (1500, 0), (3500, 1), (4000, 0), (6020, 0)])
        self.assertEqual(pairs(levels(a, in_flight, 0, 6020)),
                         [(0, 0), (1500, 2), (2500, 1), (3500, 0), (4000, 1), (6000, 0), (6020, 0)])
        self.assertEqual(pairs(levels(a, in_flight, 2000, 3000)), [(2000, 2), (2500, 1), (3000, 1)])
        self.assertEqual((list(a.deleted_at), list(a.ages), list(a.redrives)), ([2500], [2500], [6000]))
        self.assertEqual((a.counts(), a.peak, a.peak_at), ("2 came in, 1 deleted, 1 redriven, 0 left", 2, 5))
        self.assertEqual(pairs(levels(d, visible, 0, 6020)), [(0, 0), (6020, 1), (6020, 1)])

    def test_copies_of_a_scaler(self):
        queue = History("q")
        for at, detail in ((5, "1/4"), (9, "4/2"), (9, "2/3")):
            queue.scaled(*row_of(at, "", detail))
        told, = queue.copies.values()
        self.assertEqual(pairs(copies_levels(*told, 0, 20)), [(0, 1), (5, 4), (9, 2), (9, 3), (20, 3)])
        self.assertEqual(pairs(copies_levels(*told, 6, 8)), [(6, 4), (8, 4)])
        self.assertEqual(pairs(copies_levels(*told, 5, 5)), [(5, 4), (5, 4)])
        self.assertRaises(BadRow, queue.scaled, *row_of(9, "", "3"))

    def test_the_oldest_message(self):
        """m-0-0 is the oldest until it is deleted at 2,500 ms; then it is m-0-1, which came at 5, until 6,000."""
        a = histories_of(self.write("log", ended(LOG))).queues["a"]
        times, ages = oldest(a, 0, 6020).corners()
        found = [(int(at), None if numpy.isnan(age) else int(age)) for at, age in zip(times, ages)]
        self.assertEqual([pair for pair, _ in itertools.groupby(found)],
                         [(0, 0), (2500, 2500), (2500, 2495), (6000, 5995), (6000, None), (6020, None)])
        times, ages = oldest(a, 1000, 2000).corners()
        self.assertEqual(pairs((times, ages)), [(1000, 1000), (2000, 2000)])

    def test_messages_that_leave_out_of_order(self):
        """Of three messages the second and the first are deleted; the third, received since, is then the oldest."""
        queue = History("q")
        for at in range(3):
            queue.enters(*row_of(at, f"m-7-{at}"))
        queue.received(*row_of(5, "m-7-2"))
        queue.deleted(*row_of(10, "m-7-1", "9"))
        queue.deleted(*row_of(20, "m-7-0", "20"))
        self.assertEqual((queue.entered, queue.left, queue.peak, queue.peak_at, queue.number), (3, 1, 3, 2, 7))
        self.assertEqual((list(queue.oldest_at), list(queue.sinces)), ([0, 20], [0, 2]))
        queue.expired(*row_of(30, "m-7-2"))
        queue.enters(*row_of(40, "m-7-3"))
        self.assertEqual((list(queue.oldest_at)[2:], list(queue.sinces)[2:]), ([30, 40], [2 ** 32 - 1, 40]))
        for message in ("m-7-2", "m-7-4", "m-7-03", "m-7-+3", "m-7-3_", "m-7-\u0663", "m-8-3", "m-7--1", "",
                        "x" * 9_000):
            for change in (queue.received, queue.released, queue.expired):
                self.assertRaises(BadRow, change, *row_of(50, message))
        for message in ("m-7-3", "m-7-5", "m-8-4", "m-7-04", ""):
            self.assertRaises(BadRow, queue.enters, *row_of(50, message))

    def test_ages_and_counts_of_bins(self):
        """Of the ages 1 to 20 in the first bin the ranks are 10, 19 and 20; nothing is in the second one."""
        queue = History("q")
        for age in range(20, 0, -1):
            queue.deleted_at.append(20 - age)
            queue.ages.append(age)
        queue.deleted_at.append(300)
        queue.ages.append(7)
        bounds = numpy.array([0, 100, 200, 300])
        found = [[None if numpy.isnan(age) else int(age) for age in ages] for ages in ages_in(queue, bounds)]
        self.assertEqual(found, [[10, None, 7], [19, None, 7], [20, None, 7]])
        self.assertEqual(list(counts_in(queue.deleted_at, bounds)), [20, 0, 1])

    def test_extents_of_a_step(self):
        """From 0 on it is 4, from 30 on 0, from 50 on 10, to 100. By fourths: 25 of 4; 5 of 4 and 20 of 0; then 10."""
        found = course_of(numpy.array([0, 30, 50, 100]), numpy.array([4, 0, 10, 10])).extents(4)
        self.assertEqual([list(numbers) for numbers in found],
                         [[0, 25, 50, 75, 100], [4, 0.8, 10, 10], [4, 0, 10, 10], [4, 4, 10, 10]])

    def test_extents_of_a_slope(self):
        """It rises from 0 to 60 within 60 ms, is none for 20, and is 30 to 50 in the last 20 of 100."""
        none = numpy.nan
        course = Course(numpy.array([0, 60, 80, 100]), numpy.array([0, none, 30]), numpy.array([60, none, 50]))
        for numbers, expected in zip(course.extents(5)[1:], (
                [10, 30, 50, none, 40], [0, 20, 40, none, 30], [20, 40, 60, none, 50])):
            numpy.testing.assert_allclose(numbers, expected, rtol=1e-6)

    def test_extents_keep_peaks(self):
        times, numbers = numpy.arange(100_001), numpy.zeros(100_001, dtype=int)
        numbers[77_777], numbers[33_333] = 9, -9
        found = course_of(times, numbers).extents(500)
        self.assertEqual((len(found.means), found.greatest.max(), found.least.min()), (500, 9, -9))
        self.assertAlmostEqual(found.means[77_777 // 200], 9 / 200, places=6)

    def test_the_oldest_message_of_many(self):
        """4,100 messages come, one each 10 ms, and leave in turn from 1,800,000 ms on, one each 20 ms.

        So the oldest of them is as old as the run for half an hour. Message n leaves at 1,800,000 + 20 n and message
        n + 1 came at 10 (n + 1), so that the oldest is 1,799,990 + 10 n old from then on.
        """
        queue = History("q")
        for number in range(4_100):
            queue.enters(*row_of(10 * number, f"m-1-{number}"))
        for number in range(4_100):
            queue.moved(*row_of(1_800_000 + 20 * number, f"m-1-{number}"))
        found = oldest(queue, 0, 2_400_000).extents(400)
        for at, age in ((0, 0), (450_000, 450_000), (900_000, 900_000), (1_799_000, 1_799_000),
                        (1_800_000 + 20 * 2_000, 1_799_990 + 10 * 2_000)):
            # a column of time is 6,000 ms long
            column = at // 6_000
            self.assertAlmostEqual(float(found.means[column]), age, delta=6_000)
            self.assertTrue(found.least[column] <= age <= found.greatest[column])
        self.assertTrue(numpy.isnan(found.means[found.bounds[:-1] > 1_890_000]).all())

    def test_stored_reports(self):
        """What is left, deleted, redriven, moved and expired is what the stored report of each case says."""
        compared = 0
        for path, log, _, records in cases():
            if log == HEADER:
                continue
            found = histories_of(path)
            for record in records:
                queue = found.queues.get(record["queue"], History(record["queue"]))
                last = [int(levels(queue, place, 0, found.last)[1][-1]) for place in PLACES.values()]
                numbers = [*last, len(queue.ages), sum(queue.ages), len(queue.redrives), queue.moves,
                           len(queue.expiries), queue.peak]
                columns = "visible,in_flight,delayed,deletes,age_sum,redrives,moves,expiries,depth_max".split(",")
                self.assertEqual(numbers, [int(record[column]) for column in columns], (path, record["queue"]))
                compared += 1
        self.assertGreater(compared, 100)

    def test_stored_samples(self):
        """Where a sample is the only row of its queue at its time, the counts at that time are the sample's."""
        compared = 0
        for path, log, *_ in cases():
            if ",sample,ok," not in log:
                continue
            found, alone = histories_of(path), {}
            for at, name, _, call, *_, detail in Log(path).rows():
                alone.setdefault((name, at), []).append((call, detail))
            for (name, at), rows in alone.items():
                if len(rows) == 1 and rows[0][0] == "sample":
                    counts = [int(levels(found.queues[name], place, 0, at)[1][-1]) for place in PLACES.values()]
                    self.assertEqual("/".join(map(str, counts)), rows[0][1], (path, name, at))
                    compared += 1
        self.assertGreater(compared, 100)


class Readable(ToolCase):
    """A test of what stands in a figure."""

    def assert_readable(self, figure):
        figure.draw_without_rendering()
        renderer, whole = figure.canvas.get_renderer(), figure.bbox
        boxes = []
        for text in figure.findobj(library("matplotlib.text", "python3-matplotlib").Text):
            box = text.get_window_extent(renderer)
            if not text.get_text() or not text.get_visible() or box.width < 2:
                continue
            if text.axes is not None and not self.is_drawn(text, box):
                continue
            self.assertTrue(whole.x0 <= box.x0 and whole.y0 <= box.y0 and box.x1 <= whole.x1 and box.y1 <= whole.y1,
                            text.get_text())
            boxes.append((text.get_text(), box))
        for (one, first), (other, second) in itertools.combinations(boxes, 2):
            apart = (first.x1 <= second.x0 or second.x1 <= first.x0 or first.y1 <= second.y0 + 1
                     or second.y1 <= first.y0 + 1)
            self.assertTrue(apart, (one, other))
        return [text for text, _ in boxes]

    def is_drawn(self, text, box):
        """Whether a text of a plot is drawn: labels of ticks beyond its ends are not."""
        frame = text.axes.get_window_extent()
        middle = (box.x0 + box.x1) / 2, (box.y0 + box.y1) / 2
        return frame.x0 - 90 <= middle[0] <= frame.x1 + 1 and frame.y0 - 30 <= middle[1] <= frame.y1 + 40


@needs_numpy
class Geometry(Readable):
    def texts_of(self, log, *words, queues=()):
        """The texts of a picture, each of which is inside it and apart from all others."""
        options = picture.options_of([self.write("log", ended(log, queues=queues)), *words])
        found = histories_of(options.log)
        start = found.first if options.first is None else options.first
        end = found.last if options.last is None else options.last
        drawn, left_out = found.chosen(options.queue, picture.QUEUES_MOST)
        requirements = [picture.Requirement(text) for text in options.require]
        parts = [picture.Part(queue, start, end, options.width, requirements) for queue in drawn]
        figure = picture.picture(parts, start, end, (options.title or "", left_out), options.width, options.height)
        return self.assert_readable(figure)

    def test_small_log(self):
        texts = self.texts_of(LOG)
        for text in ("visible", "in flight", "delayed", "redriven", "expired", "middle", "95 %", "greatest", "a", "d",
                     "time (s)", "age when deleted (s):", "oldest message", "0", "2"):
            self.assertIn(text, texts)
        told = "Whole run: 2 came in, 1 deleted, 1 redriven, 0 left. The peak was 2 messages at 5\u00a0ms."
        self.assertIn(told, texts)

    def test_requirements(self):
        """A bound of an age is named, and drawn if it is not far above; one of another queue is neither."""
        words = "--require", "a.age_p95<3s", "--require", "a.depth_max<=500", "--require", "a.age_max<1h"
        texts = self.texts_of(LOG, *words)
        for text in ("required: a.age_p95<3s; a.age_max<1h (far above)", "required: a.depth_max<=500 (far above)"):
            self.assertEqual(texts.count(text), 1, texts)
        self.texts_of(LOG, "--width", "640", *(word for i in range(99) for word in ("--require", f"a.age_p95<{i}s")))
        self.assert_fault(self.run_tool("picture", self.path("log"), "--queue", "d", "--require", "a.age_p95<3s"),
                          "picture: a.age_p95<3s: no queue a is drawn")

    def test_ages_far_apart_have_a_logarithmic_axis(self):
        """Of three ages two are 5 ms, and one a minute; times of 1 to 3 s are shown in seconds."""
        log = HEADER + "".join(f"{at},q,p,send,new,m-0-{i},,x\n" for i, at in enumerate((0, 1, 2)))
        log += "7,q,c,delete,deleted,m-0-1,r,5\n8,q,c,delete,deleted,m-0-2,r,5\n"
        log += "60000,q,c,delete,deleted,m-0-0,r,60000\n"
        texts = self.texts_of(log, "--height", "900")
        for text in ("age when deleted, logarithmic:", "10 ms", "1 s", "10 s", "1 min"):
            self.assertIn(text, texts)
        self.assertIn("age when deleted (s):", self.texts_of(LOG.replace(",2500\n", ",1500\n")))

    def test_a_picture_ends_with_the_traffic(self):
        """The last message is gone after 1 s, and polls go on for an hour; where one is left they are drawn."""
        rows = ["0,q,p,send,new,m-0-0,,x", "1000,q,c,delete,deleted,m-0-0,r,1000", "3600000,q,c,receive,empty,,,"]
        told = "drawn until the traffic ends; the log goes on to 1 h 0 min"
        soon = [*rows[:2], rows[2].replace("3600000", "1100")]
        for lines, is_cut in ((rows, True), (rows[::2], False), (soon, False)):
            out = self.run_tool("picture", self.write("log", HEADER + "\n".join(lines) + "\n"))[1]
            self.assertEqual(told in out, is_cut, lines)
            self.assertEqual("time (s)" in out, is_cut or "1100" in lines[-1])

    def test_panels_without_anything_are_left_out_and_told(self):
        texts = self.texts_of(LOG, "--queue", "d")
        self.assertNotIn("middle", texts)
        self.assertNotIn("redriven", texts)
        self.assertIn("no message was deleted and none was redriven or expired.", " ".join(texts))

    def test_a_queue_without_rows_is_drawn_where_it_is_asked_for(self):
        texts = self.texts_of(LOG, "--queue", "quiet", "--queue", "a", queues=["quiet"])
        self.assertIn("quiet", texts)
        self.assertIn("no message was there and no message was deleted", " ".join(texts))

    def test_widths_and_heights(self):
        for words in (("--width", "640"), ("--width", "1600"), ("--width", "3000", "--height", "900"),
                      ("--height", "700", "--queue", "d"), ("--from", "1400", "--to", "1600"),
                      ("--queue", "d", "--queue", "a"), ("--title", "$x^2$ " + "title " * 60, "--width", "640")):
            with self.subTest(words=words):
                self.texts_of(LOG, *words)

    def test_spans_of_time(self):
        spans = 1, 7, 999, 2_999, 60_000, 178_000, 3_599_999, 10_800_000, 86_399_999, 259_200_000, 2_592_000_000
        for place, span in enumerate(spans):
            log = f"{HEADER}0,q,a,send,new,m-0-0,,x\n{span},q,a,delete,deleted,m-0-0,r,{span}\n"
            for width in ("640", "1730") if place % 3 == 0 else ("640",):
                with self.subTest(span=span, width=width):
                    self.texts_of(log, "--width", width)

    def test_long_names_and_many_queues(self):
        names = [f"{'long-name' * 8}-{i}" for i in range(25)]
        log = HEADER + "".join(f"{i},{name},p,send,new,m-{i}-0,,x\n" for i, name in enumerate(names))
        self.assertIn("the 20 busiest of 25 queues", self.texts_of(log, "--width", "640"))


@needs_numpy
class Tool(ToolCase):
    def test_formats(self):
        log = self.write("log", ended(LOG))
        self.write("s.toml", "version = 1\nseed = 5\nhorizon = 6020\n")
        os.mkdir(self.path("new"))
        for name, head in (("p.PNG", b"\x89PNG"), ("p.pdf", b"%PDF"), ("p.svg", b"<?xml")):
            made = []
            for output, run in ((name, self.run_tool), (f"new/{name}", self.run_command)):
                words = log, "--output", output, "--scenario", "s.toml", "--title", "My <queues>"
                self.assertEqual(run("picture", *words), (0, "", ""))
                made.append(self.read(output))
            data, again = made
            self.assertTrue(data.startswith(head))
            self.assertEqual(data, again, name)
        text = data.decode()
        self.assertIn("My &lt;queues&gt;", text)
        self.assertIn("s.toml, version 1, seed 5", text)

    def test_a_text_for_those_who_do_not_see_it(self):
        out = self.run_tool("picture", self.write("log", ended(LOG)), "--title", "A <b>")[1]
        self.assertIn("<title>A &lt;b&gt;</title>\n <desc>a: 2 came in, 1 deleted, 1 redriven, 0 left.\n"
                      "d: 1 came in, 1 left.</desc>", out)

    def test_without_a_folder_for_matplotlib(self):
        """Matplotlib keeps what it finds of fonts in the user's folder; if there is none, nothing is said of it."""
        log, file = self.write("log", ended(LOG)), self.write("file", "")
        status, _, err = self.run_command("picture", log, HOME=file, XDG_CONFIG_HOME=file, MPLCONFIGDIR="")
        self.assertEqual((status, err), (0, ""))

    def test_what_was_lost_is_told_at_the_top(self):
        lost = LOG + "7000,d,d,expire,expired,m-1-0,,980\n"
        for log, told in ((LOG, []), (lost, ["Lost by expiry in the whole run: 1 in d"])):
            out = self.run_tool("picture", self.write("log", log), "--queue", "a", "--to", "2000")[1]
            self.assertEqual(re.findall(r"<text [^>]*>(Lost [^<]*)<", out), told)

    def test_letters_that_no_font_has(self):
        """A PNG tells them in one line, unless a font of this machine has them; an SVG has them as they are."""
        log, title = self.write("log", ended(LOG)), "orders \u6ce8\u6587"
        status, out, err = self.run_tool("picture", log, "--title", title, "--output", "p.png")
        self.assertEqual((status, out), (0, ""))
        self.assertIn(err, ("", "picture: no font of this machine has \u6ce8\u6587: boxes stand there, and an SVG "
                                "would leave them to its viewer\n"))
        out = self.output("picture", log, "--title", title)
        self.assertIn(title, out)

    def test_width_of_a_png(self):
        self.write("s.toml", "seed = 5\n")
        self.run_tool("picture", self.write("log", ended(LOG)), "--output", "p.png", "--width", "1600", "--height", "1200",
                      "--scenario", "s.toml")
        data = self.read("p.png")
        self.assertEqual([int.from_bytes(data[at:at + 4], "big") for at in (16, 20)], [1600, 1200])

    def test_many_rows(self):
        """100,000 rows make a picture of some ten thousand points at most, also from standard input."""
        rows = [HEADER]
        for i in range(33_400):
            rows.append(f"{30 * i},q,p,send,new,m-0-{i},,x\n{30 * i + 5},q,c,receive,ok,m-0-{i},r-0-{i}-1,o-0-{i}\n")
            rows.append(f"{30 * i + 6 + i % 20},q,c,delete,deleted,m-0-{i},r-0-{i}-1,{6 + i % 20}\n")
        out = self.output("picture", "-", stdin=ended("".join(rows)).encode())
        self.assertIn("Whole run: 33,400 came in, 33,400 deleted, 0 left.", out)
        self.assertLess(len(out), 700_000)

    def test_faults(self):
        for name, text in (("log", ended(LOG)), ("alone", LOG), ("empty", HEADER),
                           ("cut", "".join(LOG.splitlines(True)[:1] + LOG.splitlines(True)[3:]))):
            self.write(name, text)
        self.assert_stored_faults("picture")
        self.assert_fault(self.run_tool("picture", "log", "--title", "a\x01b"),
                          "picture: a title is one line of printable characters: 'a\\x01b'")


    def test_a_height_that_is_too_small_tells_one_that_is_enough(self):
        log = self.write("log", ended(LOG))
        _, err = self.ends(2, self.run_tool("picture", log, "--height", "100"))
        enough = err.split(": ")[-1].split()[0]
        self.assertEqual(self.run_tool("picture", log, "--height", enough, "--output", "p.png")[0], 0)

    @needs_program
    def test_picture_of_the_documents(self):
        """The stored picture is the one that is drawn, by the same version of matplotlib, or has the same texts."""
        stored = text_at(ROOT, "docs", "picture.svg")
        log, scenario = self.log_of_example("dead_letters.toml"), os.path.join(ROOT, "examples", "dead_letters.toml")
        out = self.output("picture", log, "--to", "40000", "--scenario", scenario)
        texts = [re.findall(r"<text [^>]*>([^<]*)</text>", svg) for svg in (stored, out)]
        self.assertEqual(*texts)
        self.assertGreater(len(texts[0]), 40)
        if f"Matplotlib v{matplotlib.__version__}," in stored:
            self.assertEqual(out, stored)
