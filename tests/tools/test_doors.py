"""Tests the ages since the first send: by logs written by hand, and by the bodies of messages in random chains."""
from __future__ import annotations

import csv
import hashlib
import io
import json
import random
import unittest

from tool import HEADER, MD5, ToolCase, log_at, needs_program, printed
from scenario_texts import between, consumer, producer, queue_of, scenario_of, script, task
from rehearse_tools.doors import Doors
from rehearse_tools.logs import Rows
from rehearse_tools.replay import ignored
from rehearse_tools.runs import Output

# m-0-0 is dead-lettered to d, moved back as m-0-1, and forwarded to b, where it is deleted 9.2 s after it was sent.
CHAIN = log_at("chain.log")


def two_forwards(first_out: int, second_out: int, first_in: int, second_in: int) -> str:
    """Messages sent at 0 and 1 ms, forwarded by one consumer, and deleted in b at 2 s and 3 s."""
    rows = [(0, f"a,shop,send,new,m-0-0,,{MD5}"), (1, f"a,shop,send,new,m-0-1,,{MD5}"),
            (2, "a,w,receive,ok,m-0-0,r-0-0-1,o-0-0"), (2, "a,w,receive,ok,m-0-1,r-0-1-1,o-0-1"),
            (first_out, "a,w,forward,out,m-0-0,,b"), (first_out, "a,w,delete,deleted,m-0-0,r-0-0-1,9"),
            (second_out, "a,w,forward,out,m-0-1,,b"), (second_out, "a,w,delete,deleted,m-0-1,r-0-1-1,9"),
            (first_in, "b,w,arrive,new,m-1-0,,o-1-0"), (second_in, "b,w,arrive,new,m-1-1,,o-1-1"),
            (1_990, "b,v,receive,ok,m-1-0,r-1-0-1,o-1-0"), (1_990, "b,v,receive,ok,m-1-1,r-1-1-1,o-1-1"),
            (2_000, "b,v,delete,deleted,m-1-0,r-1-0-1,9"), (3_000, "b,v,delete,deleted,m-1-1,r-1-1-1,9")]
    return HEADER + "".join(f"{at},{row}\n" for at, row in sorted(rows, key=lambda row: row[0]))


def doors_of(text: str, first: int = 0) -> Doors:
    doors = Doors(first)
    Output(io.StringIO(text)).give(Rows(lambda head: doors.take_of(head) or ignored))
    return doors


class ByHand(ToolCase):
    def test_a_chain(self) -> None:
        """Its age in a ends 5.2 s after the first send, and in b 9.2 s after it."""
        doors = doors_of(CHAIN)
        self.assertEqual((doors.ages_of("a"), doors.ages_of("b"), doors.ages_of("d")), ({5_200: 1}, {9_200: 1}, {}))
        self.assertEqual(doors.columns("b"), {"door_age_p50": 9_200, "door_age_p95": 9_200, "door_age_max": 9_200})
        self.assertEqual(set(doors.columns("d").values()), {None})
        self.assertEqual(doors_of(CHAIN, 5_301).ages_of("a"), {})

    def test_messages_that_are_left(self) -> None:
        """Without its last row it is in b, and 10 s after its first send 10 s old."""
        doors = doors_of(CHAIN.rpartition("9300")[0])
        self.assertEqual(doors.left().there, {"b": [100]})

    def test_when_the_order_of_forwards_is_known(self) -> None:
        for what, text, number in (("one after another", two_forwards(100, 300, 200, 450), 0),
                                   ("both take 300 ms", two_forwards(100, 200, 400, 500), 0),
                                   ("the second may have been first", two_forwards(100, 200, 400, 550), 2)):
            with self.subTest(what=what):
                doors = doors_of(text)
                self.assertEqual(doors.open_of("b"), (number, ["w"] if number else []))
                self.assertEqual(doors.ages_of("b"), {2_000: 1, 2_999: 1})
                self.assertEqual(doors.columns("b")["door_age_max"], None if number else 2_999)

    def test_forwards_of_one_message(self) -> None:
        """It goes to b twice and to c, where it comes after other times: both know when it was first sent."""
        rows = ["0,a,shop,send,new,m-0-0,,x", "2,a,w,receive,ok,m-0-0,r-0-0-1,o-0-0",
                *(f"9,a,w,forward,out,m-0-0,,{to}" for to in "bcb"), "9,a,w,delete,deleted,m-0-0,r-0-0-1,9"]
        for queue, site, message, at in (("c", 2, 0, 30), ("b", 1, 0, 50), ("b", 1, 1, 80)):
            rows += [f"{at},{queue},w,arrive,new,m-{site}-{message},,o-{site}-{message}",
                     f"{at},{queue},v,receive,ok,m-{site}-{message},r-{site}-{message}-1,o-{site}-{message}",
                     f"{at + 10},{queue},v,delete,deleted,m-{site}-{message},r-{site}-{message}-1,10"]
        doors = doors_of(HEADER + "\n".join([*rows, ""]))
        self.assertEqual([doors.open_of(queue) for queue in "bc"], [(0, []), (0, [])])
        self.assertEqual([doors.ages_of(queue) for queue in "bc"], [{60: 1, 90: 1}, {40: 1}])

    def test_a_forward_that_comes_as_a_repeat(self) -> None:
        """The second of three is a repeat in b, so the third is that of 9 ms, which is deleted 2,991 ms later."""
        text = two_forwards(100, 300, 200, 500)
        text = text.replace("300,a,w,forward", "220,a,w,receive,ok,m-0-2,r-0-2-1,o-0-2\n"
                            "230,a,w,forward,out,m-0-2,,b\n230,a,w,delete,deleted,m-0-2,r-0-2-1,225\n"
                            "250,b,w,arrive,repeat,m-1-0,,o-1-0\n300,a,w,forward")
        text = text.replace(f"1,a,shop,send,new,m-0-1,,{MD5}\n", "5,a,shop,send,new,m-0-2,,x\n9,a,shop,send,new,m-0-1,,x\n")
        text = text.replace("2,a,w,receive", "10,a,w,receive")
        doors = doors_of(text)
        self.assertEqual((doors.open_of("b"), doors.ages_of("b")), ((0, []), {2_000: 1, 2_991: 1}))

    def test_doubts_are_kept_over_a_chain(self) -> None:
        """A consumer of b that forwards one message after another to c settles nothing that was open in b."""
        rest = """2000,b,v,forward,out,m-1-0,,c
2100,c,v,arrive,new,m-2-0,,o-2-0
2200,c,u,receive,ok,m-2-0,r-2-0-1,o-2-0
2300,c,u,delete,deleted,m-2-0,r-2-0-1,200
"""
        forward, _, rest = rest.partition("\n")
        text = two_forwards(100, 200, 400, 550).replace("2000,b,v,delete", f"{forward}\n2000,b,v,delete")
        text = text.replace("3000,b", rest + "3000,b")
        self.assertEqual(doors_of(text).open_of("c"), (1, ["w"]))

    @needs_program
    def test_summary(self) -> None:
        path = self.write("run.log", CHAIN)
        out = self.output("summary", path, "--door", "--queue", "b")
        self.assertIn("   age since first send, 95 %        9.20 s\n", out)
        queue, = json.loads(self.run_tool("summary", path, "--door", "--queue", "b", "--json")[1])["runs"][0]["queues"]
        self.assertEqual((queue["door_age_p95_ms"], queue["door_age_open"]), (9_200, 0))
        self.assertNotIn("since first send", self.run_tool("summary", path)[1])
        open_path = self.write("open.log", two_forwards(100, 200, 400, 550))
        out = self.run_tool("summary", open_path, "--door", "--queue", "b")[1]
        self.assertIn("     first send open of                   2 as forwards of w may overtake\n", out)
        self.assertNotIn("age since", out)



def chain(seed: int) -> str:
    """A chain of two queues in which the body of each message tells which it is, with latencies that differ."""
    chance = random.Random(seed)
    least = chance.choice([1, 100])
    greatest = least + chance.choice([0, 30, 1_000])
    latency = between("latency", (least, greatest))
    tables = [queue_of("a", visibility_s=chance.choice([2, 30]), dead_letter="d", max_receives=3, **latency), queue_of("b"),
              queue_of("d"), producer("shop", "a", 200, (1, 200), "{n}")]
    for number in range(chance.randint(1, 3)):
        service = chance.choice([5, 200])
        tables.append(consumer(f"w{number}", "a", (service, 3 * service), batch=chance.randint(1, 10), forward="b",
                               fail_permille=100, **latency))
    return scenario_of(60_000, *tables, task("t", "d", to="a", per_second=50, **latency),
                    script("op", "d", "20000,start,,,,,,,,,t"), version=2, seed=seed)


class MayStillCome(unittest.TestCase):
    def test_the_messages_that_are_before_a_queue(self) -> None:
        """Of b: m-0-1 in a, m-0-2 redriven to d, m-0-3 forwarded to b. From b no way leads to a, nor from z to b."""
        found = doors_of(log_at("before.log")).left()
        self.assertEqual(sorted(found.may_come("b")), [1, 3])
        self.assertEqual(sorted(found.may_come("d")), [1, 2])
        self.assertEqual((found.may_come("a"), found.may_come("z")), ([], []))
        self.assertEqual(sorted(found._replace(ways=found.ways | {("d", "a")}).may_come("b")), [1, 2, 3])


@needs_program
class Random(unittest.TestCase):
    def test_what_is_known_is_right(self) -> None:
        """The checksum of each message that is left in b tells which one it was, and so when it was sent."""
        known = wrong = 0
        for seed in range(60):
            run = printed("run", "--quiet", text=chain(seed))
            records, doors = list(csv.reader(io.StringIO(run))), doors_of(run)
            sent = {record[7]: int(record[0]) for record in records if record[3:5] == ["send", "new"]}
            self.assertEqual(len(sent), 200)
            self.assertIn(hashlib.md5(b"0").hexdigest(), sent)
            for record in records:
                if record[:2] == ["final", "b"]:
                    door = doors.origins.there[record[2]][0]
                    is_open = bool(door.doubts & doors.open_bits())
                    wrong += is_open and door.at != sent[record[9]]
                    known += not is_open
                    if not is_open:
                        self.assertEqual(door.at, sent[record[9]], seed)
        self.assertGreater(known, 1_000)
        self.assertGreater(wrong, 100)
