#!/usr/bin/env python3
"""Tests tests/wrong-bodies/run on a crate of its own: once by the prover, and else by a program that answers for it."""
import os
import shutil
import subprocess
import sys
import unittest

sys.path.insert(0, os.path.join(os.path.dirname(os.path.dirname(os.path.abspath(__file__))), "tools"))
from tool import ROOT, ToolCase, module_at, text_at  # noqa: E402 (the folder of the tests of tools comes first)

RUN = os.path.join(ROOT, "tests", "wrong-bodies", "run")
run = module_at(RUN, "wrong_bodies")
# The wrong bodies of the crate, which is that of the folder tiny.
EDITS = "tests/wrong-bodies/tiny.edits"

# They end in .in, since the gate takes no file for code or definitions outside of a crate.
CODE, SPECS = (text_at(ROOT, "tests", "wrong-bodies", "tiny", f"{name}.in") for name in ("lib.rt", "Choices.antt"))
# Two of one function, one of a function that calls it, and one of a definition.
WRONG = {
    "second_beside_zero": ("src/lib.rt", "        0 => first,", "        0 => second,"),
    "second_beside_others": ("src/lib.rt", "        _ => first,", "        _ => second,"),
    "pair_turned": ("src/lib.rt", "choose(self.first, self.second)", "choose(self.second, self.first)"),
    "definition_turned": ("specs/Choices.antt", "chosen first second = first", "chosen first second = second"),
}
# What the prover says of a function whose borrows it does not cover.
NOT_COVERED = "no proof: expected ./proofs/choose/Proof.antt, since the borrow checker does not cover it yet (a pair)"
# One that changes nothing that is promised, one of code that can't be read, and one of a text that is not there.
NOT_TRIED = {
    "harmless": ("src/lib.rt", "choose(choose(first, second), third)", "choose(first, choose(second, third))"),
    "unreadable": ("src/lib.rt", "let first = 0;", "let first = nobody;"),
    "of_no_text": ("src/lib.rt", "let third = 0;", "let third = 1;"),
}


class WrongBodies(ToolCase):
    def setUp(self):
        super().setUp()
        self.environment = dict(os.environ)
        for folder in ("crates/tiny/src", "crates/tiny/specs", "tests/wrong-bodies/tiny", "tools", "bin"):
            os.makedirs(self.path(folder))
        self.write("crates.txt", "tiny:\n")
        self.write("crates/tiny/src/lib.rt", CODE)
        self.write("crates/tiny/specs/Lib.antt", "pub mod Choices\n")
        self.write("crates/tiny/specs/Choices.antt", SPECS)
        shutil.copy(RUN, self.path("tests/wrong-bodies/run"))
        shutil.copytree(os.path.join(ROOT, "tools", "rehearse_tools"), self.path("tools/rehearse_tools"))
        shutil.copy(os.path.join(ROOT, "tools", "crate_list.py"), self.path("tools"))

    def answer_for_prover(self, verdict, status):
        """Puts a program before `rt` that says of two functions, and of the crate, that it is proved, or not."""
        told = "".join(f"echo 'fn tiny::{it}: {verdict}'\n" for it in ("choose", "Pair::choose"))
        self.write("bin/rt", f"#!/bin/sh\n{told}exit {status}\n")
        os.chmod(self.path("bin/rt"), 0o755)
        self.environment = {**os.environ, "PATH": self.path("bin") + os.pathsep + os.environ["PATH"]}

    def write_edits(self, edits):
        self.write(EDITS, "\n".join(f"edit: {name}\nfile: {file}\nold: {old}\nnew: {new}\n"
                                    for name, (file, old, new) in edits.items()))

    def try_all(self, *words):
        command = [sys.executable, self.path("tests/wrong-bodies/run"), *words]
        ended = subprocess.run(command, env=self.environment, text=True, capture_output=True)
        return ended.returncode, ended.stdout, ended.stderr

    @unittest.skipUnless(shutil.which("rt"), "the Rattle kit's rt is not on the PATH")
    def test_tells_what_is_not_refused(self):
        self.write_edits({**WRONG, **NOT_TRIED})
        status, out, err = self.try_all()
        told = dict(it.split(": ", 2)[1:] for it in out.splitlines() if it.startswith(f"{EDITS}: "))
        self.assertEqual(sorted(told), ["harmless", "of_no_text", "unreadable"], out)
        self.assertEqual(told["harmless"], "NOT REFUSED")
        self.assertEqual(told["of_no_text"], "BAD EDIT: an 'old:' text stands in src/lib.rt 0 times, and not once")
        self.assertIn("NO VERDICT: ", told["unreadable"])
        self.assertIn("tiny: 4 of 7 wrong bodies refused", out)
        self.assertRegex(err, r"\A(tiny: \d of 7 have a verdict, after \d+ checks\n)+\Z")
        self.assertRegex(err, r"tiny: 7 of 7 have a verdict, after \d+ checks\n\Z")
        self.assertEqual(status, 1)

    def test_says_when_all_are_proved(self):
        self.write_edits({"pair_turned": WRONG["pair_turned"]})
        self.answer_for_prover("proved", 0)
        status, out, err = self.try_all("tiny")
        self.assertIn(f"{EDITS}: pair_turned: NOT REFUSED", out.splitlines())
        self.assertIn("0 of 1 wrong bodies refused, in 1 checks and ", out.splitlines()[-1])
        self.assertEqual((status, len(out.splitlines()), err), (1, 3, "tiny: 1 of 1 have a verdict, after 1 checks\n"))

    def test_what_is_not_tried_has_no_verdict(self):
        """Neither what the borrow checker does not cover, nor what calls it, is refused."""
        self.write_edits({"second_beside_zero": WRONG["second_beside_zero"]})
        self.answer_for_prover("proved", 0)
        # the crate without an edit is proved, and what comes after that is not covered
        self.write("bin/rt", "#!/bin/sh\nif mkdir was 2> /dev/null; then exit 0; fi\n"
                             f"echo 'fn tiny::choose: {NOT_COVERED}'; echo logic=not-proved\nexit 1\n")
        status, out, _ = self.try_all()
        self.assertIn(f"{EDITS}: second_beside_zero: NO VERDICT: fn tiny::choose: {NOT_COVERED}\n", out)
        self.assertIn("tiny: 0 of 1 wrong bodies refused", out)
        self.assertEqual(status, 1)

    def test_what_is_proved_and_may_wait_is_proved(self):
        self.write_edits({name: WRONG[name] for name in ("pair_turned", "second_beside_zero")})
        for verdict in ("proved", "proved, may wait"):
            self.answer_for_prover(verdict, 0)
            # once together, and then each alone
            self.assertIn("tiny: 0 of 2 wrong bodies refused, 0 of them by names alone, in 3 checks", self.try_all()[1])

    def test_only_those_that_are_named(self):
        self.write_edits(WRONG)
        self.answer_for_prover("proved", 0)
        status, out, err = self.try_all("--only", "pair_turned")
        self.assertIn("tiny: 0 of 1 wrong bodies refused", out)
        self.assertEqual((status, err), (1, "tiny: 1 of 1 have a verdict, after 1 checks\n"))
        fault = "run: there is no wrong body pair_lost\n"
        self.assertEqual(self.try_all("--only", "pair_turned,pair_lost"), (2, "", fault))

    def test_a_crate_must_be_proved(self):
        self.write_edits(WRONG)
        self.answer_for_prover("not proved", 1)
        fault = "run: tiny is not proved without an edit: rt check tiny tells why\n"
        self.assertEqual(self.try_all("tiny"), (2, "", fault))

    def test_only_changed_crates(self):
        self.write_edits(WRONG)
        as_someone = ["-c", "user.name=a", "-c", "user.email=a@b"]
        for words in (["init", "-q"], ["add", "-A"], [*as_someone, "commit", "-qm", "a"]):
            subprocess.run(["git", *words], cwd=self.folder, check=True)
        status, out, _ = self.try_all("--changed", "HEAD")
        self.assertEqual((status, out[:32]), (0, "0 of 0 wrong bodies refused, in "))
        self.write("crates/tiny/specs/Choices.antt", SPECS + "\n")
        self.assertEqual(run.changed_since(self.folder, "HEAD"), {"tiny"})
        self.assertEqual(self.try_all("--changed", "nowhere")[2], "run: git knows no revision nowhere\n")

    def test_list_tries_none(self):
        self.write_edits(WRONG)
        self.answer_for_prover("not proved", 1)
        status, out, faults = self.try_all("--list", "tiny")
        self.assertEqual((status, faults, out.count(f"{EDITS}: ")), (0, "", len(WRONG)))
        for name, (file, old, new) in WRONG.items():
            self.assertIn(f"{EDITS}: {name}:\n  {file}\n  - {old.strip()}\n  + {new.strip()}\n", out)
        self.write(EDITS, "edit: unreadable\nnew: nothing\n")
        status, out, _ = self.try_all("--list", "tiny")
        self.assertEqual(status, 1)
        self.assertIn(f"{EDITS}: unreadable: BAD EDIT: ", out)

    def test_a_file_without_names(self):
        for text, fault in (("file: src/lib.rt\n", "does not begin with a line 'edit: NAME'"),
                            ("edit: a\nold: x\n\nedit: a\nold: y\n", "has two edits a")):
            self.write(EDITS, text)
            self.assertEqual(self.try_all("tiny"), (2, "", f"run: {EDITS} {fault}\n"))

    def test_no_such_crate(self):
        self.assertEqual(self.try_all("tiny")[2], "run: there is no wrong body of a crate tiny\n")


class Stored(unittest.TestCase):
    def test_what_is_let_through_is_of_the_code_as_it_is(self):
        above = os.path.join(ROOT, "tests", "wrong-bodies", "let-through")
        edits = [edit for name in os.listdir(above)
                 for edit in run.edits_in(os.path.join(above, name), ROOT, os.path.join(ROOT, "crates", name[:-6]))]
        self.assertTrue(edits)
        self.assertEqual("\n".join(f"{edit.place}: {edit.why}" for edit in edits if edit.verdict), "")

    def test_each_edit_is_of_the_code_as_it_is(self):
        edits = [edit for crate in run.uses(ROOT) for edit in run.edits_of(ROOT, crate)]
        self.assertTrue(edits)
        self.assertEqual("\n".join(f"{edit.place}: {edit.why}" for edit in edits if edit.verdict), "")


MORE = """//! More of pairs.
use crate::Pair;

impl Pair {
    /// The other one.
    pub fn other(self) -> u8 {
        let second = self.second;
        second
    }
}

impl Iterator for crate::Elsewhere {
    fn next(&mut self) -> Option<u8> {
        let none = None;
        none
    }
}
"""


class Methods(ToolCase):
    def test_a_method_has_the_module_of_its_type(self):
        os.makedirs(self.path("src/queue"))
        self.write("src/lib.rt", CODE)
        self.write("src/queue/more.rt", MORE)
        of = lambda old: run.functions_of(self.folder, [run.Change("src/queue/more.rt", old, "")])
        self.assertEqual(of("let second"), {((), ("Pair",), "other")})
        self.assertEqual(of("let none"), {(("queue", "more"), ("Elsewhere", "Iterator"), "next")})
        note = "note: src/queue/more.rt:7:9: it is not proved"
        other, = of("let second")
        self.assertTrue(run.is_about(note, other, self.folder))
        self.assertTrue(run.is_about("note: proofs/Pair/other/Answers.antt:1:1: it is not proved", other, self.folder))


class Refusals(unittest.TestCase):
    def test_what_calls_it_is_passed_over(self):
        check = run.Check.__new__(run.Check)
        check.name, check.is_proved, check.lines = "tiny", False, []
        check.functions = [("tiny::choose", NOT_COVERED), ("tiny::Pair::choose", "no proof: a call of `tiny::choose`, "
                                                           "which has no proof")]
        of = lambda owner: check.of_function(run.Function((), owner, "choose"), "")
        self.assertEqual((of(()), of(("Pair",)), check.alone()), (run.NO_VERDICT, run.PASSED_OVER, run.NO_VERDICT))

    def test_refused_by_names_alone(self):
        at = "./proofs/Pair/choose/Answers.antt:3:7: error: `returns`: "
        names = [at + "record `Rattle.tiny.proofs.Pair.choose.Lts.After-say` has no field `take-3`",
                 at + "record `Rattle.tiny.proofs.Pair.choose.Lts.After-say` (nearest: .len, .min-end)",
                 at + "record `Rattle.tiny.proofs.Pair.choose.Lts.After-say`"]
        self.assertEqual(run.refused(names), run.BY_NAMES)
        for other in (at + "record `Rattle.tiny.Pair` is no `Pair`", "note: src/lib.rt:7:9: it is not proved that"):
            self.assertEqual(run.refused([*names, other]), run.REFUSED)


class Functions(unittest.TestCase):
    def at(self, text):
        return run.function_at(CODE, CODE.find(text), "src/queue/send.rt")

    def test_function_of_a_body(self):
        self.assertEqual(self.at("_ => first"), (("queue", "send"), (), "choose"))
        self.assertEqual(self.at("choose(self.first"), (("queue", "send"), ("Pair",), "choose"))
        self.assertEqual(self.at("let first = 0"), (("queue", "send"), ("Pair", "Default"), "default"))

    def test_what_is_in_no_body(self):
        for text in ("chosen first third", "pub second: u8", "ghost use", "fn default"):
            self.assertIsNone(self.at(text), text)

    def test_owners(self):
        self.assertEqual(run.owner_of("impl<T: Drop> Owner<T> {"), ["Owner"])
        self.assertEqual(run.owner_of("impl From<Call> for Act {"), ["Act", "From", "Call"])
        self.assertEqual(run.owner_of("impl<'a> Iterator for Messages<'a> {"), ["Messages", "Iterator"])

    def test_paths_of_the_prover(self):
        of = lambda path, *function: run.is_of(path, "tiny", run.Function(*function))
        self.assertTrue(of("tiny::send::PairDefault::default", ("send",), ("Pair", "Default"), "default"))
        self.assertTrue(of("tiny::send::fn::choose::map+FnOnce::call_once", ("send",), (), "choose"))
        self.assertFalse(of("tiny::send::Pair::choose", ("send",), (), "choose"))
        self.assertFalse(of("tiny::choose", ("send",), (), "choose"))
