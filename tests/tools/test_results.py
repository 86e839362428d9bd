"""Tests the files of a sweep's jobs: what is whole is read, and what is doubled, foreign, cut or short is refused."""
from __future__ import annotations

import os
import unittest
from unittest import mock

from tool import ToolCase

from rehearse_tools import results
from rehearse_tools.console import Fault
from rehearse_tools.results import Head, Share

COLUMNS = ["queue.q.visibility_s", "seed", "failed", "queue", "sends", "age_p95"]
VARIANTS = [(visibility, seed) for visibility in ("2", "5") for seed in "12345"]
SETTINGS = (("vary", "queue.q.visibility_s=2,5"), ("vary", "seed=1..5"))


def head(scenario: bytes = b"version = 1\n", scripts: dict[str, bytes] | None = None, program: bytes = b"\x7fELF",
         settings: tuple[tuple[str, str], ...] = SETTINGS) -> Head:
    """The head of a sweep of two queues."""
    return Head(results.checksum(scenario), results.checksum_of_scripts(scripts or {}), results.checksum(program),
                settings, len(VARIANTS), 2)


def rows_of(share: Share, sends: int = 10_713) -> results.Rows:
    """The rows of a share: the second queue's age is empty, as nothing was deleted there."""
    return {number: [[*VARIANTS[number - 1], "", "q", str(sends), str(100 * number)],
                     [*VARIANTS[number - 1], "", "r", "0", ""]] for number in share.variants(len(VARIANTS))}


def file_of(number: int, of: int = len(VARIANTS), of_head: Head | None = None, sends: int = 10_713) -> tuple[str, str]:
    """The name and the text of a share's file."""
    share, of_head = Share(number, of), of_head or head()
    return results.name_of(share, of_head.mark), results.result_text(of_head, COLUMNS, rows_of(share, sends))


def with_end(text: str) -> str:
    """A text whose end mark is made anew, as by a tool that writes something wrong."""
    body = text[:text.rindex("end,")]
    return f"{body}end,{results.checksum(body)}\n"


class Format(unittest.TestCase):
    def test_the_bytes(self) -> None:
        """Checksums are those of sha256sum of nothing and of abc."""
        nothing = "e3b0c44298fc1c149afbf4c8996fb92427ae41e4649b934ca495991b7852b855"
        abc = "ba7816bf8f01cfea414140de5dae2223b00361a396177a9cb410ff61f20015ad"
        of_head = Head(results.checksum(b"abc"), results.checksum_of_scripts({}), results.checksum(b""),
                       (("vary", "seed=1,2"),), 2, 1)
        text = results.result_text(of_head, ["seed", "failed", "queue", "sends"], {2: [["2", "", "q", "7"]]})
        lines = text.splitlines()
        self.assertEqual(lines[:-1], ["sweep,1", f"scenario,{abc}", f"scripts,{nothing}", f"program,{nothing}",
                                      'vary,"seed=1,2"', "variants,2", "queues,1",
                                      "variant,seed,failed,queue,sends", "2,2,,q,7"])
        body = text[:text.rindex("end,")]
        self.assertEqual(lines[-1], f"end,{results.checksum(body)}")
        self.assertEqual(of_head.mark, results.checksum("".join(f"{line}\n" for line in lines[1:7]))[:8])

    def test_what_was_written_is_read(self) -> None:
        name, text = file_of(3, 4)
        found = results.read_result(name, text)
        self.assertEqual((found.head, found.columns, found.rows), (head(), COLUMNS, rows_of(Share(3, 4))))

    def test_a_variant_that_the_program_refused_is_a_result(self) -> None:
        row = ["5", "1", 'refused 14 "OutOfRange", at\u00e9', "", "", ""]
        text = results.result_text(head(), COLUMNS, {6: [row]})
        self.assertEqual(results.read_result(f"06-of-10-{head().mark}.csv", text).rows, {6: [row]})

    def test_a_refused_scenario_without_queues(self) -> None:
        row = ["5", "1", "refused 12 MissingKey at version", "", "", ""]
        of_head = head()._replace(queues=0)
        text = results.result_text(of_head, COLUMNS, {6: [row]})
        self.assertEqual(results.read_result(f"06-of-10-{of_head.mark}.csv", text).rows, {6: [row]})

    def test_each_part_of_a_sweep_changes_its_mark(self) -> None:
        """The scenario (F3), its scripts by name and bytes, the program, and the settings in their order."""
        heads = [head(), head(b"version = 1\nseed = 1\n"), head(scripts={"a.csv": b"1"}),
                 head(scripts={"a.csv": b"2"}), head(scripts={"b.csv": b"1"}), head(program=b"\x7fELF2"),
                 head(settings=SETTINGS[::-1]),
                 head(settings=(SETTINGS[0], ("zip", "seed=1..5"))), head()._replace(queues=3),
                 head()._replace(variants=11)]
        self.assertEqual(len({one.mark for one in heads}), len(heads))
        both = {"a.csv": b"1", "b.csv": b"2"}
        self.assertEqual(head(scripts=both).mark, head(scripts=dict(reversed(both.items()))).mark)
        self.assertNotEqual(head(scripts=both).mark, head(scripts={"a.csv": b"2", "b.csv": b"1"}).mark)

    def test_bytes_that_are_not_unicode(self) -> None:
        """A word of the command line that is not UTF-8 is written as backslashes, and has the same mark when read."""
        of_head = head(settings=(("vary", "queue.q.visibility_s=2,5\udce9"), SETTINGS[1]))
        written = file_of(1, 10, of_head)[1].encode("utf-8", "backslashreplace").decode()
        self.assertEqual(results.read_result(f"01-of-10-{of_head.mark}.csv", written).head.mark, of_head.mark)


class Shares(unittest.TestCase):
    def test_shares_have_each_variant_once(self) -> None:
        for of in (1, 3, 7, 10, 12):
            shares = [Share(number, of) for number in range(1, of + 1)]
            self.assertEqual(sorted(variant for share in shares for variant in share.variants(10)), [*range(1, 11)])
            self.assertTrue(all(share.has(variant) for share in shares for variant in share.variants(10)))
            self.assertEqual(sum(share.has(7) for share in shares), 1)

    def test_words(self) -> None:
        self.assertEqual([results.share_of(text) for text in ("3/50", "1/1")], [(3, 50), (1, 1)])
        for text in ("0/5", "6/5", "3", "3/", "a/b", "1/0", "-1/5", "1/5/9", "٣/٥", "", "1 /5"):
            with self.assertRaisesRegex(Fault, "is no share, as 3/50"):
                results.share_of(text)

    def test_an_array_that_is_sent_again_keeps_its_shares(self) -> None:
        """Of 200 variants in 50 shares, two shares are lost (F4): they are numbers 3 and 7, and still of 50."""
        done = [variant for number in range(1, 51) if number not in (3, 7)
                for variant in Share(number, 50).variants(200)]
        left = results.left_of(200, done)
        self.assertEqual(left, [3, 7, 53, 57, 103, 107, 153, 157])
        self.assertEqual(results.shares_left(left, 50), [3, 7])
        self.assertEqual(results.ranges_of([1, 2, 3, 5, 7, 8]), "1-3,5,7-8")
        self.assertEqual(results.ranges_of([]), "")


class Refused(unittest.TestCase):
    """Each file that is wrong, by the table of what a folder was seen to hold, and the line that says so."""

    def assert_refused(self, name: str, text: str, line: str) -> None:
        with self.assertRaises(Fault) as caught:
            results.read_result(name, text)
        self.assertIn(line, str(caught.exception))
        self.assertTrue(str(caught.exception).isprintable())

    def test_a_cancelled_job_that_left_its_head_alone(self) -> None:
        name, text = file_of(5)
        self.assert_refused(name, text[:text.index("5,2,5")], "is cut: it has no end mark")
        self.assert_refused(name, "", "is empty")
        # what a sweep of before wrote, and a file of something else
        self.assert_refused(name, "seed,failed,queue,sends\n", "is no result of a sweep")
        self.assert_refused(name, "\x89PNG\r\n", "is no result of a sweep")

    def test_cut_anywhere(self) -> None:
        name, text = file_of(5)
        for end in range(len(text)):
            with self.subTest(end=end), self.assertRaises(Fault):
                results.read_result(name, text[:end])

    def test_cut_within_the_last_number(self) -> None:
        """10713 became 107, and a line end was put after it."""
        name, text = file_of(5)
        place = text.index("10713")
        self.assert_refused(name, text[:place] + "107\n", "is cut: it has no end mark")
        self.assert_refused(name, text.replace("10713", "107"), "is not as it was written")

    def test_changed_anywhere(self) -> None:
        name, text = file_of(5)
        for place, letter in enumerate(text):
            with self.subTest(place=place), self.assertRaises(Fault):
                results.read_result(name, f"{text[:place]}{chr(ord(letter) ^ 1)}{text[place + 1:]}")
        for changed in (text.replace("\n", "\r\n"), text.replace("q,", "\0,", 1), text + "\n", text * 2, "\n" + text):
            with self.assertRaises(Fault):
                results.read_result(name, changed)

    def test_rows_that_are_wrong(self) -> None:
        """A queue is lacking, once beside a refusal, or there twice; and a row is of another variant."""
        first = rows_of(Share(5, 10))[5][0]
        for others, line in (([], "is short of a queue: variant 5 has 1 of 2"),
                             ([[*VARIANTS[4], "refused", "", "", ""]], "is short of a queue: variant 5 has 1 of 2"),
                             ([first], "has a queue of variant 5 twice"),
                             ([[*VARIANTS[3], "", "r", "0", ""]], "different settings in the rows of variant 5")):
            with self.subTest(others=others):
                self.assert_refused(file_of(5)[0], results.result_text(head(), COLUMNS, {5: [first, *others]}), line)

    def test_a_file_under_the_name_of_another_sweep_or_share(self) -> None:
        other = head(b"version = 1\n# fail_permille 600\n")
        self.assert_refused(file_of(5)[0], file_of(5, of_head=other)[1],
                            f"is foreign: it holds results of the sweep {other.mark}")
        self.assert_refused(file_of(6)[0], file_of(5)[1],
                            "is foreign: it holds variant 5, which is none of share 6/10 of 10")

    def test_a_number_that_no_share_has(self) -> None:
        mark = head().mark
        for name in (f"11-of-10-{mark}.csv", f"0-of-10-{mark}.csv", "05-of-10.csv", f"05-of-10-{mark}.csv.part",
                     f"05-of-10-{mark.upper()}X.csv", "x\n.csv"):
            self.assert_refused(name, file_of(5)[1], "is no name of a sweep's result")
        text = results.result_text(head(), COLUMNS, {11: [[*VARIANTS[0], "", queue, "", ""] for queue in "qr"]})
        self.assert_refused(f"1-of-10-{mark}.csv", text, "holds variant 11")

    def test_what_no_tool_writes(self) -> None:
        name, text = file_of(5)
        for old, new, line in ((",10713,", ",1e4,", "none of a report"), (",10713,", ",10713,,", "none of a report"),
                               ("\n5,2,5", "\nx,2,5", "none of a report"), ("variants,10", "variants,x", "no head"),
                               ("queues,2\n", "", "no head"), ("variant,queue", "number,queue", "no head"),
                               ("scripts,e", "scripts,E", "no head"), ("variants,", "variant,", "no head"),
                               ("vary,", "var,", "no head"),
                               (",failed,", ",fails,", "other columns"), ('"queue.q', '"x"queue.q', "not CSV")):
            with self.subTest(new=new):
                self.assert_refused(name, with_end(text.replace(old, new, 1)), line)


class Files(ToolCase):
    def write_share(self, number: int) -> None:
        share = Share(number, 10)
        results.write_result(self.folder, share, head(), COLUMNS, rows_of(share))

    def test_files_are_written_and_read(self) -> None:
        for number in (10, 2):
            self.write_share(number)
        for name in ("spread.csv", f"01-of-10-{head().mark}.csv.77.part", "jobs"):
            self.write(name, "other\n")
        self.assertEqual(results.files_in(self.folder), [file_of(2), file_of(10)])

    def test_a_file_is_there_whole_or_not_at_all(self) -> None:
        with mock.patch("os.replace", side_effect=OSError(28, "No space left on device")):
            with self.assertRaisesRegex(Fault, "cannot write .*: No space left on device"):
                self.write_share(1)
        self.assertEqual(os.listdir(self.folder), [])

    def test_bytes_that_are_no_text_are_refused_by_name(self) -> None:
        name, text = file_of(4)
        self.write(name, text.encode().replace(b"10713", b"1071\xff"))
        found = results.collected(results.files_in(self.folder))
        self.assertEqual(found.faults, [f"{name} is not as it was written: its checksum is another"])

    def test_what_is_no_file_is_refused_alone(self) -> None:
        """A folder, a link that leads nowhere and a pipe under names of results; the others count."""
        self.write_share(1)
        names = [file_of(number)[0] for number in (2, 3, 4)]
        os.mkdir(self.path(names[0]))
        os.symlink("nowhere", self.path(names[1]))
        os.mkfifo(self.path(names[2]))
        found = results.collected(results.files_in(self.folder))
        self.assertEqual((found.faults, found.left), ([f"{name} is no file" for name in names], [*range(2, 11)]))

    def test_a_folder_that_is_not_there(self) -> None:
        with self.assertRaisesRegex(Fault, "cannot read .*/none: No such file or directory"):
            results.files_in(self.path("none"))


class Collected(unittest.TestCase):
    def setUp(self) -> None:
        self.files = dict(file_of(number) for number in range(1, 11))

    def collected(self, mark: str | None = None) -> results.Collection:
        return results.collected(sorted(self.files.items()), mark)

    def all_rows(self) -> list[list[str]]:
        return [row for rows in rows_of(Share(1, 1)).values() for row in rows]

    def test_all_files_are_as_one_sweep(self) -> None:
        found = self.collected()
        self.assertEqual((found.head, found.columns, found.rows, found.faults, found.left),
                         (head(), COLUMNS, self.all_rows(), [], []))

    def test_shares_of_different_sizes(self) -> None:
        """Three of four shares, and the variants of the fourth by themselves."""
        self.files = dict([*(file_of(number, 4) for number in (1, 2, 4)), file_of(3), file_of(7)])
        found = self.collected()
        self.assertEqual((found.rows, found.faults, found.left), (self.all_rows(), [], []))

    def test_what_is_missing_is_named(self) -> None:
        del self.files[file_of(3)[0]], self.files[file_of(8)[0]]
        found = self.collected()
        self.assertEqual((found.left, found.faults, len(found.rows)), ([3, 8], [], 16))

    def test_a_bad_file_is_named_and_its_variant_left(self) -> None:
        name, text = file_of(3)
        for bad, line in ((text[:-70], "is cut"), ("", "is empty"), (text.replace("713", "714"), "is not as it was")):
            self.files[name] = bad
            found = self.collected()
            self.assertEqual((found.left, len(found.faults), len(found.rows)), ([3], 1, 18))
            self.assertIn(f"{name} {line}", found.faults[0])

    def test_a_copy_hides_nothing(self) -> None:
        """5-of-10 beside 05-of-10, and 06-of-10 is missing."""
        del self.files[file_of(6)[0]]
        self.files[f"5-of-10-{head().mark}.csv"] = file_of(5)[1]
        found = self.collected()
        self.assertEqual((found.left, found.faults, len(found.rows)), ([6], [], 18))

    def test_two_numbers_of_shares_in_one_folder(self) -> None:
        """Share 1 of 2 has the variants 1, 3, .. and share 3 of 10 has 3 again, with equal rows."""
        self.files = dict([file_of(1, 2), file_of(3), *(file_of(number) for number in (2, 4, 6, 8, 10))])
        found = self.collected()
        self.assertEqual((found.rows, found.faults, found.left), (self.all_rows(), [], []))

    def test_a_second_result_with_other_numbers(self) -> None:
        self.files.update([file_of(1, 1, sends=9)])
        found = self.collected()
        self.assertEqual((found.rows, found.left), (self.all_rows(), []))
        self.assertEqual(found.faults, [f"{file_of(1, 1)[0]} is doubled: {file_of(1)[0]} has variant 1 too, with other "
                                        "numbers"])

    def test_half_of_a_new_sweep_over_an_old_one(self) -> None:
        new = head(b"version = 1\n# fail_permille 600\n")
        self.files.update(file_of(number, of_head=new, sends=598) for number in range(1, 6))
        marks = ", ".join(sorted([head().mark, new.mark]))
        line = f"there are results of 2 sweeps, {marks}, which should be one: --mark names it"
        with self.assertRaisesRegex(Fault, line):
            self.collected()
        found = self.collected(new.mark)
        self.assertEqual((found.left, len(found.rows), len(found.faults)), ([6, 7, 8, 9, 10], 10, 10))
        self.assertTrue(all(f"is foreign: it is of the sweep {head().mark}, and not of {new.mark}" in line
                            for line in found.faults))

    def test_columns_of_another_report(self) -> None:
        share = Share(10, 10)
        rows = {10: [row[:-1] for row in rows_of(share)[10]]}
        self.files[file_of(10)[0]] = results.result_text(head(), COLUMNS[:-1], rows)
        found = self.collected()
        self.assertEqual(found.left, [10])
        self.assertEqual(found.faults, [f"{file_of(10)[0]} is foreign: it has other columns of the report"])

    def test_a_variant_that_was_killed_is_left(self) -> None:
        """A share whose second variant was killed out of memory has the others (F9)."""
        rows = {number: of for number, of in rows_of(Share(1, 1)).items() if number != 2}
        self.files = {f"1-of-1-{head().mark}.csv": results.result_text(head(), COLUMNS, rows)}
        found = self.collected()
        self.assertEqual((found.left, found.faults), ([2], []))

    def test_an_empty_folder(self) -> None:
        self.files = {}
        self.assertEqual(self.collected(), (None, [], [], [], []))
