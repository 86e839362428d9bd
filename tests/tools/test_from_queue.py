"""Tests tools/from-queue on files in other encodings, and on files of other kinds; sessions/from-queue.txt has the rest."""
import json

from tool import ToolCase


class FromQueue(ToolCase):
    def test_files_that_are_no_attributes(self):
        for data in (b"", b"{", b"\x00\xff\xfe", bytes(range(256)), b"[" * 100_000, b"\xff\xfe{",
                     b'{"Attributes": 1' + b"0" * 9_000, b"at,queue,agent,call\n"):
            self.write("no.json", data)
            self.refusal(self.run_tool("from-queue", "no.json"))

    def test_encodings(self):
        text, found = json.dumps({"Attributes": {"QueueArn": "arn:aws:sqs:eu-central-1:123456789012:orders"}}), set()
        for encoding in ("utf-8", "utf-8-sig", "utf-16", "utf-16-be"):
            mark = "\ufeff" if encoding == "utf-16-be" else ""
            self.write("orders.json", (mark + text).encode(encoding))
            found.add(self.run_tool("from-queue", "orders.json"))
        (status, out, _), = found
        self.assertEqual((status, 'name = "orders"\n' in out), (0, True))
