"""Tests the replay of a log: which method takes a row, what a fault says, and how places follow from rows."""
import unittest
import unittest.mock
from collections import Counter

from tool import HEADER, ToolCase, ended, row_of
from rehearse_tools import logs
from rehearse_tools.console import Fault
from rehearse_tools.logs import Log
from rehearse_tools.replay import (DELAYED, IN_FLIGHT, KINDS, VISIBLE, BadRow, Checked, Places, Replay, handlers_of,
                                   replay, take_finals)


class Names:
    """Notes the rows of a queue, by the methods that took them."""

    def __init__(self, name: str) -> None:
        self.name, self.kinds, self.taken = name, Counter(), []

    def sent(self, at: int, *_: object) -> None:
        self.taken.append(("sent", at))

    def enters(self, at: int, *_: object) -> None:
        self.taken.append(("enters", at))

    def failed(self, *_: object) -> None:
        raise BadRow("it cannot fail")


class Noted(Places):
    """Notes which messages are put where, and which were delayed."""

    def __init__(self) -> None:
        self.notes = []

    def put(self, at: int, message: str, place: int) -> None:
        self.notes.append((message, place))

    def was_delayed(self, message: str) -> None:
        self.notes.append((message, DELAYED))


class Rows(ToolCase):
    def log_of(self, rows: str) -> Log:
        return Log(self.write("run.log", HEADER + rows))

    def queues_of(self, rows: str, is_strict: bool = False, kind: type = Replay, moments: tuple = ()) -> tuple:
        """The queues that took the rows of a log, and the time of its last row."""
        queues = {}
        given = kind(queues, lambda name: queues.setdefault(name, Names(name)), handlers_of(Names, is_strict))
        given.moments = [(moment, getattr(given, name)) for moment, name in moments]
        return queues, replay(self.log_of(rows), given)

    def test_the_first_method_that_a_class_has_takes_a_row(self) -> None:
        """A send is taken as `sent`, an arrival as `enters`; what a class has no method for counts as a row alone."""
        queues, last = self.queues_of("1,q,shop,send,new,m-0-0,,x\n2,p,w,arrive,new,m-1-0,,o-1-0\n"
                                      "3,q,w,receive,wait,,,\n4,q,w,leap,up,,,\n5,q,v,receive,wait,,,\n")
        self.assertEqual({name: (queue.taken, queue.kinds) for name, queue in queues.items()},
                         {"q": ([("sent", 1)], {("send", "new"): 1, ("receive", "wait"): 2, ("leap", "up"): 1}),
                          "p": ([("enters", 2)], {("arrive", "new"): 1})})
        self.assertEqual(last, 5)

    def test_a_log_without_rows(self) -> None:
        self.assertEqual(self.queues_of(""), ({}, None))

    def test_rows_after_the_end_do_not_count(self) -> None:
        """They are read, and what is no row of a log is a fault there too."""
        rows = "1,q,shop,send,new,m-0-0,,x\n1,q,shop,send,new,m-0-1,,x\n"
        for end, taken, last in ((1, 0, None), (2, 2, 1), (3, 3, 2), (9, 3, 2)):
            queues, found = self.queues_of(rows + "2,q,shop,send,new,m-0-2,,x\n", moments=((end, "end"),))
            self.assertEqual((sum(sum(queue.kinds.values()) for queue in queues.values()), found), (taken, last))
            self.assertEqual(sum(len(queue.taken) for queue in queues.values()), taken)
        with self.assertRaisesRegex(Fault, "line 5 is earlier than the row before it"):
            self.queues_of(rows + "3,q,shop,send,new,m-0-2,,x\n2,q,shop,send,new,m-0-3,,x\n", moments=((2, "end"),))

    def test_rows_with_quotes(self) -> None:
        """They are those without; a field may have what ends one."""
        queues, _ = self.queues_of('1,q,shop,send,new,m-0-0,,x\n1,q,"shop",send,"new",m-0-1,,x\n'
                                   '"2",q,"a,b",send,new,m-0-2,,"x ""y"""\n')
        self.assertEqual(queues["q"].kinds, {("send", "new"): 3})
        with self.assertRaisesRegex(Fault, "line 3 is no row of a log"):
            self.queues_of('1,q,shop,send,new,m-0-0,,x\n1,q,"shop,send,new,m-0-1,,x\n')

    def test_heads_are_forgotten(self) -> None:
        """If there are more heads than are kept, each row counts all the same."""
        rows = "".join(f"{at},q,w{at % 7},receive,wait,,,\n" for at in range(100))
        with unittest.mock.patch.object(Replay, "MOST", 3):
            queues, last = self.queues_of(rows)
        self.assertEqual((queues["q"].kinds, last), ({("receive", "wait"): 100}, 99))

    def test_a_fault_names_the_line(self) -> None:
        for row, reason in (("2,q,w,fail,ok,m-0-0,r-0-0-1,\n", ": it cannot fail"),
                            ("2,q,w,leap,up,,,\n", " is no row of a log"), ("2,q,w\n", " is no row of a log"),
                            ("0,q,w,leap,up,,,\n", " is earlier than the row before it"),
                            ("0,q,w,leap,,,\n", " is no row of a log"), ("+2,q,shop,send,new,m-0-0,,x\n",
                                                                       " is no row of a log"),
                            ("\u0663,q,shop,send,new,m-0-0,,x\n", " is no row of a log"),
                            ("1" * 20 + ",q,shop,send,new,m-0-0,,x\n", " is no row of a log")):
            for blocks in (1, 3, 1 << 18):
                with self.subTest(row=row, blocks=blocks), unittest.mock.patch.object(logs, "LETTERS", blocks), \
                        self.assertRaises(Fault) as caught:
                    self.queues_of(f"1,q,shop,send,new,m-0-0,,x\n{row}9,q,shop,send,new,m-0-1,,x\n", is_strict=True)
                self.assertEqual(str(caught.exception), f"{self.path('run.log')} line 3{reason}")

    def test_all_rows(self) -> None:
        log = Log(self.write("run.out", ended(HEADER + "1,q,shop,send,new,m-0-0,,x\n2,q,w,receive,wait,,,\n")))
        self.assertEqual(log.rows(), [[1, "q", "shop", "send", "new", "m-0-0", "", "x"],
                                      [2, "q", "w", "receive", "wait", "", "", ""]])
        self.assertEqual((log.at, log.line, log.parts), (2, 8, {"final": []}))

    def test_rows_that_are_checked(self) -> None:
        """An id has a site and a number; a deletion has an age; what enters has an id."""
        for row, is_row in (("1,q,shop,send,new,m-0-0,,x", True), ("1,q,shop,send,new,m-0,,x", False),
                            ("1,q,shop,send,new,,,x", False), ("1,q,w,receive,wait,,,", True),
                            ("1,q,w,delete,deleted,m-0-0,r-0-0-1,7", True),
                            ("1,q,w,delete,deleted,m-0-0,r-0-0-1,", False), ("1,q,w,leap,up,,,", True)):
            with self.subTest(row=row):
                if is_row:
                    self.assertEqual(sum(self.queues_of(row + "\n", kind=Checked)[0]["q"].kinds.values()), 1)
                else:
                    self.assertRaisesRegex(Fault, "line 2 is no row of a log", self.queues_of, row + "\n", kind=Checked)

    def test_the_kinds_of_rows(self) -> None:
        """As docs/FORMATS.md has them: 23 kinds, and each of the 9 refusals of each of 6 calls."""
        self.assertEqual(len(KINDS), 23 + 6 * 9)


class PlacesOfMessages(ToolCase):
    def test_a_release_may_end_a_delay(self) -> None:
        places = Noted()
        places.received(*row_of(5, "m-0-0"))
        places.released(*row_of(9, "m-0-0"))
        self.assertEqual(places.notes, [("m-0-0", IN_FLIGHT), ("m-0-0", DELAYED), ("m-0-0", VISIBLE)])

    def test_final_queues_tell_of_delays(self) -> None:
        finals = ("final,q,m-0-0,o-0-0,delayed,900,1,0,,x\nfinal,q,m-0-1,o-0-1,visible,,1,0,,x\n"
                  "final,p,m-1-0,o-1-0,delayed,900,1,0,,x\n")
        log = Log(self.write("run.out", ended(HEADER + "1,q,shop,send,new,m-0-0,,x\n", finals, ["p"])))
        log.rows()
        places = Noted()
        take_finals(log, {"q": places})
        self.assertEqual(places.notes, [("m-0-0", DELAYED)])
