"""The program is found: the one that was built, or that of dist/ if it is of these sources. It is not built unasked."""
import gzip
import hashlib
import os
import pathlib
import pty
import shutil
import signal
import subprocess
import sys
import tty
import unittest

from tool import (HERE, LIMIT, PROGRAM as PROVED, ROOT, ToolCase, module_of, needs_program, ran, read_whole, text_at,
                  wait_for)
from stored_cases import stored

BUILD_IT = "./sqs_rehearse --build builds it"
NO_DIST = f"the program is not built yet, and dist/ has no program: {BUILD_IT}"
OTHER_SOURCES = f"the program is not built yet, and dist/ has the program of other sources: {BUILD_IT}"
NO_PAGE = "note: dist/manifest does not name the page: tools/page --module dist/playground.html has it named"
NO_LOG = "cannot write {}: it is the file that is read as {}, and is to stay"
# In the place of the program: it prints its own name and its words.
PROGRAM = '#!/bin/sh\necho {} "$@"\n'
# The same with control characters in a row, and in the refusal that follows: a command for a terminal, a carriage
# return, two characters that a terminal obeys, a line end and a long key.
HOSTILE_ROW = b"0,q,\x1b[31m\tr\xc3\xa9d\r\xe2\x80\xae\n"
HOSTILE_FAULT = b"refused 11 UnknownKey at \x1b]52;c;eA==\x07\xc2\x9b\nrefused 15 BadName at " + 2000 * b"k" + b"\n"
HOSTILE = """#!/bin/sh
if [ -t 2 ]; then exit 9; fi
printf '0,q,\\033[31m\\tr\\303\\251d\\r\\342\\200\\256\\n'
printf 'refused 11 UnknownKey at \\033]52;c;eA==\\007\\302\\233\\nrefused 15 BadName at %s\\n' {} >&2
exit 3
""".format(2000 * "k")
# In the place of uname and node, on another machine.
OTHER_MACHINE = {"OSTYPE": "darwin23", "HOSTTYPE": "arm64"}
UNAME, NODE_NOTE = "#!/bin/sh\necho Darwin arm64\n", (
    "sqs_rehearse: Node runs the proved module of dist/playground.html here, on one thread\n")
# In the place of tools/build: it makes a program and goes on as the command that follows.
BUILD = text_at(HERE, "stand-ins", "build")
# In the place of gzip: it unpacks once, to be compared, and then takes long.
SLOW_GZIP = """#!/bin/bash
if mkdir "$CALLS.first" 2> /dev/null; then exec /bin/gzip "$@"; fi
echo slow >> "$CALLS"; exec sleep 3600
"""


class WrapperCase(ToolCase):
    """A repository with the script, one crate below the program, one beside it, and stand-ins for what they run."""

    def setUp(self):
        super().setUp()
        for name in ("tmp", "home", "dist"):
            os.mkdir(self.path(name))
        self.copy("sqs_rehearse", "tools/VERSION", "tools/sources")
        self.write("crates.txt", "sim_a:\nsqs_rehearse: sim_a\ntest_a: sim_a\n")
        for crate in ("sqs_rehearse", "sim_a", "test_a"):
            self.write(f"crates/{crate}/src/lib.rt", crate)
        self.script("tools/build", BUILD)
        self.script("kit/rt", "#!/bin/sh\necho kit 1\n")
        self.environment = {name: value for name, value in os.environ.items() if not name.startswith("SQS_REHEARSE")}
        self.environment |= {"PATH": self.path("kit") + ":/usr/bin:/bin", "TMPDIR": self.path("tmp"), "FAILS": "",
                             "HOME": self.path("home"), "CALLS": self.path("calls")}
        self.environment.pop("XDG_CACHE_HOME", None)

    def make_built(self):
        self.script("crates/sqs_rehearse/out/sqs_rehearse", PROGRAM.format("built"))

    def make_dist(self, program=PROGRAM.format("packed")):
        """Puts a program into dist/, as that of the sources that are there now."""
        self.write("dist/sqs_rehearse-x86_64-linux.gz", gzip.compress(program.encode(), mtime=0))
        listed = subprocess.run([self.path("tools/sources")], check=True, capture_output=True).stdout
        sums = [hashlib.sha256(data).hexdigest() for data in (listed, program.encode())]
        self.write("dist/manifest", "# A comment.\nversion 1.2\nkit kit 1\nsources {}\nprogram {}\n".format(*sums))
        return sums[1]

    def cached(self):
        """The files below the folder of the unpacked programs, but for what is noted of them."""
        found = pathlib.Path(self.path("home")).rglob("*")
        return [path for path in found if path.is_file() and path.parent.name != "checked"]

    def run_it(self, *words, program="sqs_rehearse", **more):
        return ran([self.path(program), *words], env={**self.environment, **more}, stdin=subprocess.DEVNULL, cwd="/")

    def calls(self):
        return pathlib.Path(self.path("calls")).read_text().split() if os.path.exists(self.path("calls")) else []

    def assert_refused(self, words, line, **more):
        self.assert_fault(self.run_it(*words, **more), f"sqs_rehearse: {line}")


class Built(WrapperCase):
    """Where the program was built, or has to be."""

    def test_builds_nothing_where_it_must_not(self):
        for words in (("run", "x.toml"), ("--where",), ("",)):
            self.assert_refused(words, NO_DIST, SQS_REHEARSE_BUILD="never")
        self.assert_refused(["--build"], "SQS_REHEARSE_BUILD=never builds nothing", SQS_REHEARSE_BUILD="never")
        self.assertEqual(self.calls(), [])

    def test_runs_what_is_there(self):
        self.make_built()
        os.utime(self.path("crates/sim_a/src/lib.rt"), (2e9, 2e9))
        self.assertEqual(self.run_it("check", "x.toml", SQS_REHEARSE_BUILD="never"), (0, "built check x.toml\n", ""))
        self.assertEqual(self.calls(), [])

    def test_runs_the_program_that_is_named(self):
        self.make_built()
        self.script("another", PROGRAM.format("another"))
        self.assertEqual(self.run_it("run", SQS_REHEARSE=self.path("another")), (0, "another run\n", ""))
        self.assertEqual(self.run_it("run", SQS_REHEARSE=self.path("sqs_rehearse")), (0, "built run\n", ""))
        self.assert_refused(["run"], "there is no program /none, which SQS_REHEARSE names", SQS_REHEARSE="/none")
        self.assert_refused(["--build"], "SQS_REHEARSE names a program, so that none is built",
                            SQS_REHEARSE=self.path("another"))
        self.assertEqual(self.calls(), [])

    def test_through_a_link(self):
        self.make_built()
        os.symlink(self.path("sqs_rehearse"), self.path("kit/rehearse"))
        self.assertEqual(self.run_it("run", program="kit/rehearse"), (0, "built run\n", ""))

    def test_a_build(self):
        status, out, err = self.run_it("run", "x.toml")
        self.assertEqual((status, out, err), (0, "built run x.toml\n", (
            "sqs_rehearse: dist/ has no program, so that it is built from these sources\n")))
        self.assertEqual(self.run_it("--build"), (0, "", ""))
        self.assertEqual(self.calls(), ["build"])
        self.assertEqual(self.run_it("run", FAILS="1"), (0, "built run\n", ""))
        os.utime(self.path("crates/sim_a/src/lib.rt"), (2e9, 2e9))
        self.assertEqual(self.run_it("--build", FAILS="1"), (2, "", "no program\n"))

    def test_without_what_a_build_takes(self):
        os.remove(self.path("kit/rt"))
        no_kit = "the Rattle kit's rt is not on the PATH (README.md, What it needs)"
        self.make_dist()
        for word in ("--build", "--verify"):
            self.assert_refused([word], f"the program cannot be built: {no_kit}")
        self.write("crates/sim_a/src/lib.rt", "changed")
        status, out, err = self.run_it("run")
        self.assertEqual((status, out), (2, ""))
        self.assertEqual(err.splitlines()[-1], "sqs_rehearse: the program cannot be built, and dist/ has the program "
                         f"of other sources: {no_kit}")


class Dist(WrapperCase):
    """Where dist/ has the program of these sources, or of others."""

    def test_runs_with_nothing_built(self):
        sum_of_it = self.make_dist()
        status, out, err = self.run_it("run", "x.toml")
        self.assertEqual((status, out), (0, "packed run x.toml\n"))
        self.assertEqual(err, "sqs_rehearse: this runs the proved program of dist/, version 1.2; dist/manifest names it "
                              "as built from these sources, and ./sqs_rehearse --verify builds it anew and compares\n")
        self.assertEqual(self.run_it("run", "x.toml"), (0, "packed run x.toml\n", ""))
        place = self.path(f"home/.cache/sqs_rehearse/{sum_of_it[:16]}/sqs_rehearse")
        self.assertEqual(self.run_it("--where"), (0, place + "\n", ""))
        self.assertEqual([str(path) for path in self.cached()], [place])
        self.assertEqual((self.calls(), os.path.exists(self.path("crates/sqs_rehearse/out"))), ([], False))

    def test_what_was_built_goes_before(self):
        self.make_dist()
        self.make_built()
        self.assertEqual(self.run_it("run"), (0, "built run\n", ""))
        os.utime(self.path("crates/sim_a/src/lib.rt"), (2e9, 2e9))
        self.assertEqual(self.run_it("run")[:2], (0, "packed run\n"))

    def test_other_sources(self):
        changes = {"a file is changed": lambda: self.write("crates/sim_a/src/lib.rt", "changed"),
                   "a file is new": lambda: self.write("crates/sim_a/src/more.rt", ""),
                   "a file is gone": lambda: os.remove(self.path("crates/sim_a/src/lib.rt")),
                   "a crate has a library more": lambda: self.write("crates.txt", "sim_a: hex\nsqs_rehearse: sim_a\n")}
        for case, change in changes.items():
            with self.subTest(case):
                self.make_dist()
                self.assertEqual(self.run_it("run")[:2], (0, "packed run\n"))
                change()
                self.assert_refused(["run"], OTHER_SOURCES, SQS_REHEARSE_BUILD="never")
                self.assertEqual(self.run_it("run"), (0, "built run\n", (
                    "sqs_rehearse: dist/ has the program of other sources, so that it is built from these sources\n")))
                shutil.rmtree(self.path("crates/sqs_rehearse/out"))
        self.assertEqual(len(self.calls()), len(changes))

    def test_what_the_program_is_not_made_of(self):
        self.make_dist()
        self.write("crates/test_a/src/lib.rt", "changed")
        self.write("crates/sim_a/src/notes.txt", "")
        self.write("crates.txt", "test_a: sim_a hex\nsqs_rehearse: sim_a\nsim_a:\n")
        self.assertEqual(self.run_it("run")[:2], (0, "packed run\n"))

    def test_folders_that_cd_looks_through(self):
        """With CDPATH, cd prints where it went, and may go to another folder than was named."""
        self.make_dist()
        status, out, err = ran([os.path.join(os.path.basename(self.folder), "sqs_rehearse"), "run"],
                               cwd=os.path.dirname(self.folder), stdin=subprocess.DEVNULL,
                               env={**self.environment, "CDPATH": ".:/", "SQS_REHEARSE_BUILD": "never"})
        self.assertEqual((status, out), (0, "packed run\n"), err)

    def test_damage(self):
        self.make_dist()
        packed = pathlib.Path(self.path("dist/sqs_rehearse-x86_64-linux.gz"))
        whole = packed.read_bytes()
        other = gzip.compress(PROGRAM.format("other").encode())
        for data in (b"", whole[:-9], whole[:20] + b"x" + whole[21:], other, b"no gzip"):
            packed.write_bytes(data)
            for word in ("run", "--verify"):
                self.assert_refused([word], "dist/sqs_rehearse-x86_64-linux.gz is damaged: it does not have the "
                                    "program that dist/manifest names")
        for text, key in (("", "sources"), ("sources " + "0" * 64 + "\n", "program"), ("sources 12\n", "sources")):
            self.write("dist/manifest", text)
            self.assert_refused(["run"], f"dist/manifest is damaged: it has no checksum of the {key}")
        self.assertEqual((self.cached(), self.calls()), ([], []))

    def test_a_damaged_copy_is_unpacked_anew(self):
        self.make_dist()
        self.run_it("run")
        self.cached()[0].write_text("#!/bin/sh\necho something else\n")
        self.assertEqual(self.run_it("run")[:2], (0, "packed run\n"))
        self.assertEqual(self.run_it("run"), (0, "packed run\n", ""))

    def test_where_it_is_unpacked(self):
        self.make_dist()
        self.assertEqual(self.run_it("run", XDG_CACHE_HOME=self.path("own"))[:2], (0, "packed run\n"))
        self.assertEqual((self.cached(), os.listdir(self.path("own"))), ([], ["sqs_rehearse"]))
        self.assertEqual(self.run_it("run", HOME="/dev/null")[:2], (0, "packed run\n"))
        self.assertEqual(self.run_it("run", HOME=""), (0, "packed run\n", ""))
        self.assertEqual(os.listdir(self.path("tmp")), [f"sqs_rehearse-{os.geteuid()}"])
        self.assert_refused(["run"], "the program of dist/ cannot be unpacked: /dev/null/sqs_rehearse /dev/null/"
                            f"sqs_rehearse-{os.geteuid()} cannot be written; XDG_CACHE_HOME names another folder",
                            XDG_CACHE_HOME="/dev/null", TMPDIR="/dev/null")

    def test_folders_that_others_may_write(self):
        """They are not used, whatever is in them: neither the program's own nor the one around it."""
        sum_of_it = self.make_dist()
        self.run_it("run")
        own, place = self.path("home/.cache/sqs_rehearse"), f"home/.cache/sqs_rehearse/{sum_of_it[:16]}"
        for folder, mode in ((own, 0o777), (own, 0o770), (self.path(place), 0o702)):
            os.chmod(folder, mode)
            self.assertEqual(self.run_it("--where")[1], self.path(
                f"tmp/sqs_rehearse-{os.geteuid()}/{sum_of_it[:16]}/sqs_rehearse\n"))
            refused = f"the program of dist/ cannot be unpacked: {folder} is not this user's alone; XDG_CACHE_HOME " \
                      "names another folder"
            self.assert_refused(["run"], refused, TMPDIR="/dev/null")
            os.chmod(folder, 0o700)
            # a slow machine may have noted by now that all was checked there, and then goes on with that
            shutil.rmtree(self.path(f"tmp/sqs_rehearse-{os.geteuid()}/checked"), ignore_errors=True)
            self.assertEqual(self.run_it("--where")[1], self.path(f"{place}/sqs_rehearse\n"))
        shutil.rmtree(self.path(f"tmp/sqs_rehearse-{os.geteuid()}"))
        self.cached()[0].chmod(0o707)
        self.assertEqual(self.run_it("run")[:2], (0, "packed run\n"))
        self.assertEqual(self.cached()[0].stat().st_mode & 0o777, 0o700)

    def test_what_was_checked_is_what_runs(self):
        """A file that takes the place of the program once its checksum is taken does not run."""
        sum_of_it = self.make_dist()
        place = self.path(f"home/.cache/sqs_rehearse/{sum_of_it[:16]}/sqs_rehearse")
        self.script("other", PROGRAM.format("other"))
        self.script("kit/sha256sum", f'#!/bin/sh\n/usr/bin/sha256sum "$@"\n'
                                           f'if [ -e {place} ]; then cp -p {self.path("other")} {place}.new; '
                                           f'mv {place}.new {place}; fi\n')
        for _ in range(3):
            self.assertEqual(self.run_it("run")[:2], (0, "packed run\n"))
        self.assertEqual(pathlib.Path(place).read_text(), PROGRAM.format("other"))

    def make_checked(self):
        """Runs the program until it is noted that all was checked, and gives how often checksums were taken by then."""
        self.make_dist()
        self.script("kit/sha256sum", '#!/bin/sh\necho sum >> "$CALLS"; exec /usr/bin/sha256sum "$@"\n')
        checked = pathlib.Path(self.path("home/.cache/sqs_rehearse/checked"))
        shutil.rmtree(checked, ignore_errors=True)
        wait_for(lambda: self.run_it("run")[:2] == (0, "packed run\n") and list(checked.glob("*.list")))
        return len(self.calls())

    def test_checksums_are_kept(self):
        """They are taken once, and again after each change: also of a file that keeps its size and its time."""
        for what, change in (
                ("a text", lambda path: self.write(path, "sim_b")), ("a file is new", lambda path: self.write(
                    f"{path}.rt", "")), ("a file is gone", lambda path: os.remove(self.path(path))),
                ("a folder is new", lambda path: os.mkdir(self.path("crates/sim_a/specs")) or self.write(
                    "crates/sim_a/specs/A.antt", ""))):
            with self.subTest(what):
                self.write("crates/sim_a/src/lib.rt", "sim_a")
                before = self.make_checked()
                self.assertEqual(self.run_it("run"), (0, "packed run\n", ""))
                self.assertEqual(len(self.calls()), before)
                path = self.path("crates/sim_a/src/lib.rt")
                times = os.stat(path).st_atime_ns, os.stat(path).st_mtime_ns
                change("crates/sim_a/src/lib.rt")
                if os.path.exists(path):
                    os.utime(path, ns=times)
                self.assert_refused(["run"], OTHER_SOURCES, SQS_REHEARSE_BUILD="never")
                shutil.rmtree(self.path("crates/sim_a"))
                os.makedirs(self.path("crates/sim_a/src"))

    def test_a_changed_program_is_seen(self):
        self.make_checked()
        path, = self.cached()
        times = path.stat().st_atime_ns, path.stat().st_mtime_ns
        path.write_text(path.read_text().replace("packed", "forged"))
        os.utime(path, ns=times)
        self.assertEqual(self.run_it("run")[:2], (0, "packed run\n"))
        path.chmod(0o600)
        self.assertEqual(self.run_it("run")[:2], (0, "packed run\n"))

    def test_what_is_noted_is_of_this_checkout(self):
        """Another checkout of other sources does not take the place of this one."""
        self.make_checked()
        other = self.path("other")
        for name in ("dist", "tools", "crates"):
            shutil.copytree(self.path(name), f"{other}/{name}")
        for name in ("sqs_rehearse", "crates.txt"):
            shutil.copy(self.path(name), other)
        self.write("other/crates/sim_a/src/lib.rt", "other")
        status, _, err = ran([f"{other}/sqs_rehearse", "run"], env={**self.environment, "SQS_REHEARSE_BUILD": "never"})
        self.assertEqual((status, err), (2, f"sqs_rehearse: {OTHER_SOURCES}\n"))
        before = len(self.calls())
        self.assertEqual(self.run_it("run"), (0, "packed run\n", ""))
        self.assertEqual(len(self.calls()), before)

    def test_sources_that_cannot_be_read(self):
        """The line says what is wrong, and nothing is built."""
        self.make_dist()
        self.script("kit/sha256sum", '#!/bin/sh\nif [ $# = 0 ]; then exec /usr/bin/sha256sum; fi\n'
                                           'echo "sha256sum: $1: Permission denied" >&2; exit 1\n')
        self.assert_refused(["run"], "the sources cannot be read: sha256sum: crates/sim_a/src/lib.rt: Permission "
                            "denied")
        self.assertEqual(self.calls(), [])

    def test_few_descriptors(self):
        """It runs with a dozen of them once all was checked. Before that, and if none is left, the line says it."""
        self.make_checked()
        for few, held, changed, said in (
                (12, "", False, ""),
                (40, "3<&0 4<&0 5<&0 6<&0 7<&0 8<&0 9<&0", False, "the program cannot be opened: too few file "
                 "descriptors are left"),
                (20, "", True, "the sources cannot be read: sources: it opens up to 32 files at once, and 20 are "
                 "allowed (ulimit -n)")):
            if changed:
                os.utime(self.path("crates.txt"))
            status, _, err = ran(["bash", "-c", f'ulimit -n {few}; exec "$0" run {held}', self.path("sqs_rehearse")],
                                 env=self.environment, stdin=subprocess.DEVNULL)
            self.assertEqual((status, err), (2, f"sqs_rehearse: {said}\n") if said else (0, ""))
        os.remove(self.path("calls"))
        self.assertEqual(self.calls(), [])

    def test_options_of_the_shell_that_calls(self):
        self.make_dist()
        for options in ("noclobber", "noglob", "noclobber:noglob"):
            self.assertEqual(self.run_it("run", SHELLOPTS=options)[:2], (0, "packed run\n"))
            shutil.rmtree(self.path("home/.cache"))

    def test_a_folder_of_somebody_else(self):
        self.make_dist()
        os.mkdir(self.path("other"))
        os.symlink(self.path("other"), self.path(f"tmp/sqs_rehearse-{os.geteuid()}"))
        self.assertEqual(self.run_it("run", HOME="")[0], 2)
        self.assertEqual(list(pathlib.Path(self.path("other")).rglob("*")), [])

    @unittest.skipUnless(os.geteuid() == 0, "only root can give a folder to another user")
    def test_a_folder_that_another_user_owns(self):
        """Nobody else may write it, but its owner may make that so at any time."""
        self.make_dist()
        folder = self.path(f"tmp/sqs_rehearse-{os.geteuid()}")
        os.mkdir(folder, 0o700)
        os.chown(folder, 65_534, 65_534)
        self.assertEqual(self.run_it("run", HOME="")[0], 2)
        self.assertEqual(os.listdir(folder), [])

    def test_a_program_that_does_not_run(self):
        self.make_dist("#!/bin/sh\necho libc is missing >&2\nexit 1\n")
        self.assert_refused(["run"], "the program of dist/ does not run here; it needs Linux on x86-64 with glibc 2.34 "
                            "or later: libc is missing")
        self.assertEqual(self.cached(), [])

    def test_many_first_runs_at_once(self):
        self.make_dist()
        runs = [subprocess.Popen([self.path("sqs_rehearse"), "run"], env=self.environment, stdin=subprocess.DEVNULL,
                                 stdout=subprocess.PIPE, stderr=subprocess.DEVNULL, text=True) for _ in range(8)]
        self.assertEqual([(run.communicate()[0], run.returncode) for run in runs], [("packed run\n", 0)] * 8)
        self.assertEqual([path.name for path in self.cached()], ["sqs_rehearse"])

    def test_an_interrupted_unpacking(self):
        self.make_dist()
        self.script("kit/gzip", SLOW_GZIP)
        run = subprocess.Popen([self.path("sqs_rehearse"), "run"], env=self.environment, stdin=subprocess.DEVNULL,
                               stderr=subprocess.PIPE, text=True, start_new_session=True)
        wait_for(self.calls)
        os.killpg(run.pid, signal.SIGTERM)
        run.communicate(timeout=LIMIT)
        self.assertEqual((run.returncode, self.cached()), (-signal.SIGTERM, []))
        os.remove(self.path("kit/gzip"))
        self.assertEqual(self.run_it("run")[:2], (0, "packed run\n"))

    def test_verify(self):
        sum_of_it = self.make_dist(PROGRAM.format("built"))
        same = f"dist/ has the program that these sources give: SHA-256 {sum_of_it}, built by kit 1\n"
        self.assertEqual(self.run_it("--verify"), (0, same, ""))
        self.assertEqual(self.run_it("--verify", SQS_REHEARSE_BUILD="never"), (0, same, ""))
        self.assertEqual(self.calls(), ["build"])
        other = self.make_dist(PROGRAM.format("packed"))
        self.assertEqual(self.run_it("--verify"), (1, "", (
            f"sqs_rehearse: dist/ has another program than these sources give: SHA-256 {other}, built by kit 1, is not "
            f"{sum_of_it}, built by kit 1\n")))
        self.write("crates/sim_a/src/lib.rt", "changed")
        self.assert_refused(["--verify"], "there is nothing to compare: dist/ has the program of other sources")
        self.assert_refused(["--verify", "x"], "--verify stands alone")


class Terminals(WrapperCase):
    """What the program prints is shown on a terminal without a control character, and goes elsewhere as it is."""

    def setUp(self):
        super().setUp()
        self.script("crates/sqs_rehearse/out/sqs_rehearse", HOSTILE)
        self.write("plain.toml", 'version = 1 # caf\u00e9\n"a b" = "c\\\\d"\n')

    def shown(self, *words, out=True, err=True):
        """The status, what a terminal gets, and what pipes get; standard output and error are the one or the other."""
        reader, writer = pty.openpty()
        tty.setraw(writer)
        process = subprocess.Popen([self.path("sqs_rehearse"), *words], env=self.environment, stdin=subprocess.DEVNULL,
                                   stdout=writer if out else subprocess.PIPE, stderr=writer if err else subprocess.PIPE)
        os.close(writer)
        text = read_whole(reader)
        piped = [said or b"" for said in process.communicate(timeout=LIMIT)]
        return process.returncode, text, *piped

    def test_control_characters(self):
        row = "0,q,\\u001b[31m\tr\u00e9d\\u000d\\u202e\n".encode()
        fault = b"refused 11 UnknownKey at \\u001b]52;c;eA==\\u0007\\u009b\\nrefused 15 BadName at "
        for words, out, err, status, wanted in (
                (["run"], True, True, 3, (row, fault, b"", b"")),
                (["run"], False, True, 3, (b"", fault, HOSTILE_ROW, b"")),
                (["run", "plain.toml"], True, False, 3, (row, b"", b"", HOSTILE_FAULT)),
                (["run"], False, False, 3, (b"", b"", HOSTILE_ROW, HOSTILE_FAULT))):
            with self.subTest(words=words, out=out, err=err):
                ended, text, *piped = self.shown(*words, out=out, err=err)
                self.assertEqual((ended, piped), (status, list(wanted[2:])))
                self.assertTrue(text.startswith(wanted[0] + wanted[1]), text)
                rest = text[len(wanted[0] + wanted[1]):]
                is_cut = rest.endswith("k\u2026\n".encode()) and len(rest) < 1000
                self.assertTrue(is_cut if wanted[1] else not rest, rest)

    def test_progress_is_shown_beside_what_is_plain(self):
        """The program still sees a terminal, if neither the words nor their files have what could do harm."""
        self.assertEqual(self.shown("run", "--log", "x", self.path("plain.toml"))[:2], (9, b""))
        for text in ('"\\u001b" = 1\n', "'a\u009b' = 1\n", '[["a\\nb"]]\n', '{"\\u0007".a = 1}\n', "a\x1b\n",
                     "k" * 2000 + " = 1\n", "'\u202e' = 1\n", '"\\\\" = 1\n'):
            with self.subTest(text=text):
                self.assertEqual(self.shown("run", "--log", "x", self.write("s.toml", text))[0], 3)
        self.assertEqual(self.shown("run", "--log", "x", "\x1b[31m")[0], 3)

    def test_a_line_of_the_script_itself(self):
        name = "\x1b[31m.toml"
        self.write(name, "")
        status, text, *_ = self.shown("run", "--log", self.path(name), self.path(name))
        self.assertEqual((status, b"\x1b" in text, b"\\u001b[31m.toml: it is the file" in text), (2, False, True), text)


class ByNode(WrapperCase):
    """On another machine Node runs the module of the page."""

    def setUp(self):
        super().setUp()
        self.script("kit/uname", UNAME)
        shutil.copytree(os.path.join(ROOT, "page"), self.path("page"))
        self.copy("dist/playground.html")
        self.make_dist()

    def run_there(self, *words, stdin=b"", **more):
        status, out, err = ran([self.path("sqs_rehearse"), *words], text=False, cwd=self.folder, input=stdin,
                               env={**self.environment, **OTHER_MACHINE, **more})
        return status, out, err.decode()

    def test_without_node(self):
        needed = "the program of dist/ is for Linux on x86-64, and this is Darwin arm64: Node 18 or later runs the " \
                 "module of dist/playground.html in its place, and node is "
        for text, told in (("exit 127", "not on the PATH"), ("echo v16.20.1", "v16.20.1")):
            self.script("kit/node", f"#!/bin/sh\n{text}\n")
            for words in (["run"], ["--where"]):
                self.assertEqual(self.run_there(*words), (2, b"", f"sqs_rehearse: {needed}{told}\n"))

    @unittest.skipUnless(shutil.which("node"), "node is not here")
    def test_stored_cases(self):
        """A tenth of the stored cases, by their outputs and statuses; those of version 3 by either word."""
        cases = stored()
        self.assertGreater(len(cases), 200)
        for number, case in enumerate(cases[::10]):
            with self.subTest(case=case.path):
                words = (("--v3", "--preview")[number % 2],) if case.is_version_3 else ()
                wanted = (1, b"", NODE_NOTE + case.printed.decode()) if case.is_refused else (0, case.printed, NODE_NOTE)
                self.assertEqual(self.run_there("run", *words, stdin=case.text), wanted)
                if words and b"\nversion = 3\n" in b"\n" + case.text:
                    self.assertEqual(self.run_there("run", stdin=case.text),
                                     (1, b"", NODE_NOTE + "refused 14 OutOfRange at version\n"))

    @unittest.skipUnless(shutil.which("node"), "node is not here")
    def test_words(self):
        place = os.path.realpath(self.path("page/node.mjs"))
        self.assertEqual(self.run_there("--where"), (0, place.encode() + b"\n", ""))
        shutil.copy(os.path.join(ROOT, "examples", "first.toml"), self.path("s.toml"))
        shutil.copy(os.path.join(ROOT, "examples", "heartbeat", "short.toml"), self.path("newer.toml"))
        for words, status, line in ((["run", "none"], 1, "cannot read none"),
                                    (["run", "--log", "x/y", "s.toml"], 4, "refused 36 Write"),
                                    (["check", "newer.toml"], 1, "refused 14 OutOfRange at version"),
                                    (["compare", "s.toml", "newer.toml"], 1, "refused 14 OutOfRange at version")):
            self.assertEqual(self.run_there(*words), (status, b"", f"{NODE_NOTE}{line}\n"))
        self.assertEqual(self.run_there("run", "--bogus")[0], 2)
        self.assertEqual(self.run_there("run", "--to", "18446744073709551616", "s.toml")[0], 2)
        self.assertEqual(self.run_there("compare", "s.toml")[0], 2)

    @unittest.skipUnless(shutil.which("node"), "node is not here")
    def test_damage_and_other_sources(self):
        sum_of = hashlib.sha256(self.read("dist/playground.html")).hexdigest()
        manifest = pathlib.Path(self.path("dist/manifest"))
        scenario = pathlib.Path(ROOT, "examples", "first.toml").read_bytes()
        manifest.write_text(manifest.read_text() + f"page {sum_of}\n")
        self.assertEqual(self.run_there("check", stdin=scenario)[0], 0)
        self.write("dist/playground.html", self.read("dist/playground.html") + b"\n")
        self.assertEqual(self.run_there("check", stdin=scenario), (2, b"", NODE_NOTE + (
            "sqs_rehearse: dist/playground.html is damaged: it is not the page that dist/manifest names\n")))
        self.write("crates/sim_a/src/lib.rt", "changed")
        self.assertEqual(self.run_there("check", stdin=scenario), (2, b"", NODE_NOTE + (
            "sqs_rehearse: dist/ has the page of other sources: the program itself is built on Linux on x86-64\n")))

    @needs_program
    @unittest.skipUnless(shutil.which("node"), "node is not here")
    def test_as_the_program(self):
        """Scripts in files, check and compare; a log in a file; and a tool that runs it."""
        self.write("calls.csv", "at,call,body,group,id,delay,receipt,max,wait,timeout,task\n5,send,a,,,,,,,,\n")
        self.write("a.toml", 'version = 2\nhorizon = 100\n[[queue]]\nname = "q"\n[[actor]]\nname = "s"\n'
                             'kind = "script"\nqueue = "q"\nscript = "calls.csv"\n')
        shutil.copy(os.path.join(ROOT, "examples", "dead_letters.toml"), self.path("b.toml"))
        self.write("c.toml", "version")
        for words in (["run", "a.toml"], ["run", "--scripts", "none", "a.toml"], ["check", "a.toml"],
                      ["check", "b.toml"], ["check", "c.toml"], ["compare", "a.toml", "b.toml"], ["compare", "c.toml", "none"],
                      ["compare", "a.toml", "c.toml"], ["compare", "a.toml", "none"], ["run", "--log=x.log", "b.toml"],
                      ["run", "--figures", "b.toml"], ["run", "--from", "+900", "--to=20000", "b.toml"],
                      ["run", "--backlog", "0", "--window-figures", "5000", "b.toml"],
                      ["run", "--to", "18446744073709551615", "b.toml"]):
            status, out, err = ran([PROVED, *words], text=False, cwd=self.folder)
            wanted = status, out, NODE_NOTE + err.decode()
            log = self.read("x.log") if words[1].startswith("--log") else b""
            self.assertEqual(self.run_there(*words), wanted, words)
            self.assertEqual(self.read("x.log") if log else b"", log)
        status, out, err = self.run_tool("sweep", self.path("a.toml"), "--vary", "seed=1", "--columns", "sends",
                                         "--program", self.path("page/node.mjs"))
        self.assertEqual((status, out), (0, "seed,failed,queue,sends\n1,,q,1\n"), err)


class Gate(WrapperCase):
    """What the gate says of dist/ and of the program that it has built."""

    def setUp(self):
        super().setUp()
        self.copy("tests/dist", "tools/VERSION")
        self.version = pathlib.Path(ROOT, "tools", "VERSION").read_text().strip()
        self.make_built()

    def compared(self, program="crates/sqs_rehearse/out/sqs_rehearse"):
        status, out, err = self.run_it(self.path(program), program="tests/dist")
        self.assertEqual(err, "")
        return status, out.splitlines()

    def make_dist(self, program=PROGRAM.format("built")):
        super().make_dist(program)
        manifest = pathlib.Path(self.path("dist/manifest"))
        manifest.write_text(manifest.read_text().replace("version 1.2", f"version {self.version}"))
        sums = dict(line.split(" ", 1) for line in manifest.read_text().splitlines())
        entry = f"## {sums['sources'][:8]}, program {sums['program'][:8]}, 1 May 2026\n"
        self.write("CHANGELOG.md", f"# Changes\n\n{entry}\n"
                                   "## 00000000, program 00000000, 1 April 2026\n")

    def test_the_same(self):
        self.make_dist()
        same = [NO_PAGE, "note: dist/ has the program that was built here from these sources", "3 passed, 0 failed"]
        self.assertEqual(self.compared(), (0, same))
        os.remove(self.path("kit/rt"))
        self.assertEqual(self.compared(), (0, same))
        self.script("unpacked", PROGRAM.format("built"))
        self.assertEqual(self.compared("unpacked"), (0, [NO_PAGE, "3 passed, 0 failed"]))

    def test_another_program_of_the_same_sources(self):
        self.make_dist(PROGRAM.format("packed"))
        status, lines = self.compared()
        self.assertEqual((status, len(lines), lines[-1]), (1, 3, "2 passed, 1 failed"))

    def test_damage(self):
        self.make_dist()
        self.write("dist/sqs_rehearse-x86_64-linux.gz", b"")
        status, lines = self.compared()
        self.assertEqual((status, lines[-1]), (1, "2 passed, 1 failed"))

    def test_the_page_and_the_changes(self):
        """The page is the one that the manifest names, and the newest entry is of the program of dist/."""
        self.make_dist()
        self.write("dist/playground.html", "page")
        manifest = self.read("dist/manifest").decode()
        self.write("dist/manifest", f"{manifest}page {hashlib.sha256(b'page').hexdigest()}\n")
        self.assertEqual(self.compared()[1][-1], "4 passed, 0 failed")
        self.write("dist/playground.html", "another")
        self.assertEqual(self.compared()[1][-1], "3 passed, 1 failed")
        self.write("dist/playground.html", "page")
        text = pathlib.Path(self.path("CHANGELOG.md")).read_text()
        for changed in ("", text.replace("\n## ", "\n## 12345678, program 12345678, 2 May 2026\n\n## ", 1)):
            self.write("CHANGELOG.md", changed)
            status, lines = self.compared()
            self.assertEqual((status, lines[-1]), (1, "3 passed, 1 failed"))
            self.assertRegex(lines[0], "^CHANGELOG.md: its newest entry is not of the program of dist/, ## [0-9a-f]{8}, ")

    def test_behind(self):
        makes = ": tools/package --dist makes it anew"
        self.make_dist()
        self.script("kit/rt", "#!/bin/sh\necho kit 2\n")
        self.assertEqual(self.compared(), (0, [NO_PAGE,
            "note: dist/ is behind, with a program that kit 1 built, where kit 2 is here" + makes,
            "2 passed, 0 failed"]))
        self.write("crates/sim_a/src/lib.rt", "changed")
        self.assertEqual(self.compared(), (0, [NO_PAGE,
            "note: dist/ is behind, with the program of other sources" + makes, "2 passed, 0 failed"]))
        self.make_dist()
        self.script("kit/rt", "#!/bin/sh\necho kit 1\n")
        self.write("tools/VERSION", "9.9\n")
        self.assertEqual(self.compared(), (0, [NO_PAGE,
            f"note: dist/ is behind, with version {self.version}, where tools/VERSION has another" + makes,
            "2 passed, 0 failed"]))


class Words(WrapperCase):
    """What the script does besides running the program."""

    def test_help_and_version_build_nothing(self):
        version = pathlib.Path(ROOT, "tools", "VERSION").read_text()
        shutil.rmtree(self.path("tools"))
        shutil.copytree(os.path.join(ROOT, "tools"), self.path("tools"))
        sum_of = hashlib.sha256(subprocess.run([self.path("tools/sources")], check=True, capture_output=True).stdout)
        sum_of = sum_of.hexdigest()[:8]
        status, out, err = self.run_it("--help")
        self.assertEqual((status, err), (0, f"sqs_rehearse: {NO_DIST}\n"))
        self.assertTrue(out.startswith("sqs_rehearse rehearses networks of Amazon SQS queues"))
        self.make_built()
        status, out, err = self.run_it("--help")
        self.assertEqual((status, err), (0, ""))
        self.assertIn("\n\nbuilt --help\n\nTools:\n", out)
        listed = [line.split()[0] for line in out.splitlines() if line.startswith("  ") and line[2] not in " -"]
        package = module_of("package")
        self.assertEqual(sorted(listed), sorted(package.tools_of(package.files_for_users())))
        self.assertTrue(all(len(line) <= 120 for line in out.splitlines()))
        self.assertEqual(self.run_it(), (2, "", out))
        self.assertEqual(self.run_it("help", "run"), (0, "built help run\n", ""))
        self.assertEqual(self.run_it("--version"), (0, f"sqs_rehearse {version.strip()} (sources {sum_of})\n", ""))
        self.assertEqual(self.calls(), [])

    def test_a_tool(self):
        self.script("tools/summary", '#!/bin/sh\necho "$SQS_REHEARSE_TOOL" "$@"\n')
        called = self.path("sqs_rehearse")
        self.assertEqual(self.run_it("summary", "a b", "--help"), (0, f"{called} summary a b --help\n", ""))
        self.assertEqual(self.run_it("help", "summary"), (0, f"{called} summary --help\n", ""))
        os.symlink(called, self.path("kit/sqs_rehearse"))
        self.assertEqual(ran(["sqs_rehearse", "summary", "x"], env=self.environment)[1:], ("sqs_rehearse summary x\n", ""))
        for name in ("bash", "sha256sum", "readlink", "env"):
            os.symlink(shutil.which(name), self.path(f"kit/{name}"))
        self.assert_refused(["summary"], "summary needs Python 3.9 or later, and python3 is not on the PATH; "
                            "sqs_rehearse setup installs it on Debian", PATH=self.path("kit"))
        self.script("tools/setup", "#!/bin/bash\necho installs\n")
        self.assertEqual(self.run_it("setup", PATH=self.path("kit")), (0, "installs\n", ""))

    def test_a_tool_with_an_older_python(self):
        """It is refused in one line, and a run that prints to the tool ends as if the tool had read all."""
        self.script("tools/summary", "#!/bin/sh\necho runs\n")
        self.script("kit/python3", "#!/bin/sh\necho 'python3 is Python 3.8'\n")
        line = "summary needs Python 3.9 or later, and python3 is Python 3.8"
        self.assert_refused(["summary", "-"], line)
        self.assert_refused(["summary", "run.log"], line)
        reader, writer = os.pipe()
        with open(writer, "wb") as file:
            file.write(b"x" * 50_000)
        with open(reader, "rb") as file:
            status, _, err = ran([self.path("sqs_rehearse"), "summary", "-"], env=self.environment, stdin=file)
            self.assertEqual((status, err, file.read()), (2, f"sqs_rehearse: {line}\n", b""))
        self.script("kit/python3", "#!/bin/sh\nexit 1\n")
        self.assert_refused(["summary"], "summary needs Python 3.9 or later, and python3 does not run")

    def test_the_package_with_an_older_python(self):
        text = "import sys; sys.version_info = (3, 8, 1); sys.argv = ['tools/summary']; import rehearse_tools"
        self.assert_fault(ran([sys.executable, "-c", text], cwd=os.path.join(ROOT, "tools")),
                          "summary needs Python 3.9 or later, and this is Python 3.8")

    def test_a_log_over_what_is_read(self):
        """Also by another name of the file, as standard input, and as a script; else the program is run."""
        self.make_built()
        self.write("s.toml", "script = 'a.csv'\n\"script\"=\"b.csv\"\nbody = \"c.csv\"\n")
        os.link(self.path("s.toml"), self.path("linked"))
        for name in ("a.csv", "b.csv", "c.csv"):
            self.write(f"scripts/{name}", name)
        os.symlink("b.csv", self.path("scripts/led"))
        scenario, scripts = self.path("s.toml"), self.path("scripts")
        for words, read in (
                (["--log", scenario, scenario], scenario), (["--log=" + self.path("linked"), scenario], scenario),
                (["--window", "5", "--quiet", "--log", scenario, "--", scenario], scenario),
                (["--scripts", scripts, "--log", f"{scripts}/a.csv", scenario], f"{scripts}/a.csv"),
                ([scenario, f"--scripts={scripts}", "--log", f"{scripts}/led"], f"{scripts}/b.csv")):
            with self.subTest(words=words):
                log = " ".join(words).replace("--log=", "--log ").partition("--log ")[2].split()[0]
                self.assert_refused(["run", *words], NO_LOG.format(log, read))
        with open(scenario, "rb") as file:
            status, _, err = ran([self.path("sqs_rehearse"), "run", "--log", self.path("linked")], stdin=file,
                                 env=self.environment)
        self.assertEqual((status, err), (2, f"sqs_rehearse: {NO_LOG.format(self.path('linked'), '/dev/stdin')}\n"))
        for log in (f"{scripts}/c.csv", self.path("new"), "/dev/null"):
            self.assertEqual(self.run_it("run", "--scripts", scripts, "--log", log, scenario)[0], 0)

    def test_a_tool_builds_nothing(self):
        shutil.rmtree(self.path("tools"))
        shutil.copytree(os.path.join(ROOT, "tools"), self.path("tools"))
        shutil.copy(os.path.join(ROOT, "examples", "first.toml"), self.path("s.toml"))
        for words in ((self.path("s.toml"),), (self.path("s.toml"), "--program", self.path("sqs_rehearse"))):
            self.assert_fault(self.run_it(*words, program="tools/explain"), f"explain: {NO_DIST}")
        self.assertEqual(self.calls(), [])
