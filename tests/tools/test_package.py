"""Tests tools/package: the package is installed into a root of its own, runs the first scenario there, and is removed.
dist/ is made of a stand-in; manual pages and completions are made of a help text written by hand, and of the tools'."""
import glob
import gzip
import hashlib
import json
import os
import pathlib
import re
import shutil
import subprocess
import sys
import tarfile
import tempfile
import unittest

from tool import PROGRAM, ROOT, TOOLS, ToolCase, module_at, needs_program, options_in, ran
import completions
import debian
import helps
import manual

# A program in the place of ours, which tells the words that it is given.
ECHO = shutil.which("echo")
PATH = os.environ["PATH"]
VERSION = pathlib.Path(ROOT, "tools", "VERSION").read_text().strip()
TOOL_HELP = """Counts rows:

    ./sqs_rehearse run FILE | tools/count -
    tools/count LOG [--queue NAME ...]
        [--most N] [--output FILE.csv]

LOG is what `run --log FILE x` made. It
..is - and so on; Bob's \\ is 5 \u2026 long.

first   rows of one, as
        it is told
second kind  rows of two

--most    how many, of --groups N, and not
          as --least of others
--longest with one space behind it
"""


class PackageCase(ToolCase):
    def package(self, program):
        out = self.output("package", "--program", program, "--output", "made")
        return [self.path(line) for line in out.splitlines()[:2]]

    def dpkg(self, *words):
        """Runs dpkg on a root of its own, in which the package's scripts find no shell."""
        subprocess.run(["dpkg", f"--root={self.path('root')}", f"--log={self.path('log')}", "--force-depends",
                        "--force-not-root", "--force-script-chrootless", *words], check=True, capture_output=True)

    def installed(self, package):
        """The root of its own in which a package is installed."""
        root = self.path("root")
        if os.geteuid() == 0:
            self.dpkg("--install", package)
        else:
            subprocess.run(["dpkg", "--extract", package, root], check=True)
        return root

    def run_in(self, folder, *words, **more):
        environment = {name: value for name, value in os.environ.items()
                       if not name.startswith(("SQS_REHEARSE", "PYTHON"))}
        return ran(words, cwd=folder, env=environment | more)


@unittest.skipUnless(shutil.which("dpkg"), "dpkg is not here")
class Package(PackageCase):
    @classmethod
    def setUpClass(cls):
        """One package of the stand-in, for all tests that do not change it."""
        folder = tempfile.TemporaryDirectory()
        cls.addClassCleanup(folder.cleanup)
        words = ["--program", ECHO, "--output", folder.name]
        status, out, err = ran([sys.executable, f"{TOOLS}/package", *words])
        assert (status, err) == (0, ""), err
        cls.made, cls.packed, cls.bill = out.splitlines()


    def test_what_is_in_it(self):
        package, packed = self.made, self.packed
        root = self.installed(package)
        self.assertEqual(self.run_in("/", f"{root}/usr/bin/sqs_rehearse", "run", "x"), (0, "run x\n", ""))
        version = self.run_in("/", f"{root}/usr/bin/sqs_rehearse", "--version")[1]
        self.assertTrue(version.startswith(f"sqs_rehearse {VERSION}"))
        self.assertEqual(os.path.basename(package).split("_")[1], version.split()[1])
        for command in ("summary", "sweep", "from-plan", "picture", "setup"):
            self.assertEqual(self.run_in("/", f"{root}/usr/bin/sqs_rehearse-{command}", "--help")[0::2], (0, ""))
        self.assertEqual(self.run_in("/", f"{root}/usr/bin/sqs_rehearse-summary", "none"),
                         (2, "", "sqs_rehearse-summary: cannot read none: No such file or directory\n"))
        self.assertTrue(os.path.exists(f"{root}/usr/share/doc/sqs-rehearse/docs/FORMATS.md"))
        self.assertFalse(os.path.exists(f"{root}/usr/lib/sqs_rehearse/tools/package"))
        self.check_tools(root)
        self.assertEqual(self.run_in(os.path.dirname(package), "sha256sum", "--check", "--quiet", "SHA256SUMS"),
                         (0, "", ""))
        depends = self.run_in("/", "dpkg-deb", "--field", package, "Depends")[1]
        self.assertRegex(depends, r"^libc6 \(>= 2\.[0-9]+\)$")
        with tarfile.open(packed) as file:
            owners = {(member.uid, member.gid, member.mtime) for member in file.getmembers()}
            readme = file.extractfile(f"{file.getnames()[0]}/README.md").read().decode()
        self.assertEqual(len(owners), 1)
        self.assertIn(" ./sqs_rehearse run examples/first.toml", readme)
        self.assertEqual(pathlib.Path(f"{root}/usr/lib/sqs_rehearse/bin/sqs_rehearse").read_bytes(),
                         pathlib.Path(ECHO).read_bytes())
        self.check_documents(f"{root}/usr/share/doc/sqs-rehearse")
        self.check_help(f"{root}/usr")

        self.assertEqual(pathlib.Path(f"{root}/usr/lib/sqs_rehearse/dist/playground.html").read_bytes(),
                         pathlib.Path(ROOT, "dist", "playground.html").read_bytes())
        self.assertTrue(os.path.exists(f"{root}/usr/share/doc/sqs-rehearse/dist/playground.html"))

    def test_the_bill(self):
        """It names the program and the page by their checksums, each crate and each library of the kit, and no test."""
        with open(self.bill, encoding="utf-8") as file:
            bill = json.load(file)
        whole, parts = bill["metadata"]["component"], {part["name"]: part for part in bill["components"]}
        self.assertEqual((bill["bomFormat"], whole["name"]), ("CycloneDX", "sqs_rehearse"))
        self.assertEqual([name for name, part in parts.items() if part.get("group") == "dist/playground.html"],
                         ["dagre", "graphlib", "lodash"])
        for part, path in ((whole, ECHO), (parts["dist/playground.html"], f"{ROOT}/dist/playground.html")):
            self.assertEqual(part["hashes"], [
                {"alg": "SHA-256", "content": hashlib.sha256(pathlib.Path(path).read_bytes()).hexdigest()}])
        lines = pathlib.Path(ROOT, "crates.txt").read_text().splitlines()
        named = {word for line in lines if line.startswith(("sim_scenario", "sqs_rehearse"))
                 for word in line.partition("#")[0].partition(":")[2].split()}
        self.assertEqual(named - set(parts), set())
        self.assertTrue("toml" in parts and "sim_scenario" in parts)
        self.assertFalse(any(name.startswith("test_") for name in parts))
        refs = [part["bom-ref"] for part in bill["components"]]
        self.assertEqual(len(set(refs)), len(refs))
        self.assertLessEqual(set(bill["dependencies"][0]["dependsOn"]), set(refs))

    def check_tools(self, root):
        """The package of the tools is whole, without what Python keeps; `sqs_rehearse TOOL` is sqs_rehearse-TOOL."""
        there, installed = (pathlib.Path(folder, "rehearse_tools") for folder in (
            TOOLS, f"{root}/usr/lib/sqs_rehearse/tools"))
        self.assertEqual(*({str(path.relative_to(folder)) for end in ("*.py", "*.html", "facts/*.csv")
                            for path in folder.glob(end)} for folder in (there, installed)))
        self.assertEqual({path.name for path in installed.iterdir()} - {"__pycache__", "facts", "report.html"},
                         {path.name for path in there.glob("*.py")})
        listed = self.run_in("/", "dpkg-deb", "--contents", self.made)[1]
        self.assertTrue("rehearse_tools/summary.py" in listed and "__pycache__" not in listed, listed)
        for command in ("sqs_rehearse summary", "sqs_rehearse-summary"):
            name, *words = command.split()
            status, out, err = self.run_in("/", f"{root}/usr/bin/{name}", *words, "none", PATH=f"{root}/usr/bin:{PATH}")
            self.assertEqual((status, out, err), (2, "", f"{command}: cannot read none: No such file or directory\n"))

    def check_documents(self, folder):
        """What Debian asks for is there; commands are those of the package, and no link leads to nothing."""
        self.assertFalse(os.path.islink(folder))
        licence = pathlib.Path(folder, "copyright").read_text().partition("License: ")[2]
        if not glob.glob(f"{ROOT}/LICEN[CS]E*") + glob.glob(f"{ROOT}/COPYING*"):
            self.assertTrue(licence.startswith("none-given\n No licence is given yet"), licence)
        self.assertRegex(gzip.decompress(pathlib.Path(folder, "changelog.gz").read_bytes()).decode(),
                         rf"\Asqs-rehearse \({re.escape(VERSION)}[+.0-9a-z]*\) unstable; ")
        documents = glob.glob(f"{folder}/**/*.md", recursive=True) + glob.glob(f"{folder}/*/**/*.md", recursive=True)
        self.assertIn(f"{folder}/docs/FORMATS.md", documents)
        for path in map(pathlib.Path, documents):
            text = path.read_text()
            self.assertNotRegex(text, r"\./sqs_rehearse\b|\btools/(sweep|summary|report|life)\b", path)
            for link in re.findall(r"\]\(([^)#\s]+)", text):
                self.assertTrue(":" in link or os.path.exists(path.parent / link), (path, link))
        self.assertIn(" sqs_rehearse run examples/first.toml", pathlib.Path(folder, "README.md").read_text())

    def check_help(self, usr):
        """Each command has its page and completions, and names itself in its help as it was called."""
        commands = os.listdir(f"{usr}/bin")
        self.assertIn("sqs_rehearse-summary", commands)
        self.assertEqual({name.removesuffix(".1.gz") for name in os.listdir(f"{usr}/share/man/man1")}, set(commands))
        self.assertEqual(set(os.listdir(f"{usr}/share/bash-completion/completions")), set(commands))
        for called, named in (("summary", "sqs_rehearse-summary"), ("picture", "sqs_rehearse-sweep")):
            told = self.run_in("/", f"{usr}/bin/sqs_rehearse-{called}", "--help")[1]
            self.assertTrue(named in told and "tools/" not in told and "./sqs_rehearse" not in told, told)

    def test_nothing_is_left(self):
        """Also not what Python keeps beside the tools when root has run one."""
        root = self.installed(self.made)
        self.run_in("/", f"{root}/usr/bin/sqs_rehearse-summary", "none")
        kept = f"{root}/usr/lib/sqs_rehearse/tools/rehearse_tools/__pycache__"
        self.assertTrue(os.path.isdir(kept))
        if os.geteuid() == 0:
            self.dpkg("--remove", "sqs-rehearse")
            self.assertEqual(glob.glob(f"{root}/usr/**") + glob.glob(f"{root}/var/lib/dpkg/info/sqs-rehearse*"), [])
        else:
            subprocess.run(["dpkg-deb", "--control", self.made, self.path("control")], check=True)
            self.run_in("/", self.path("control/prerm"), "remove", DPKG_ROOT=root)
            self.assertFalse(os.path.exists(kept))

    @unittest.skipUnless(os.geteuid() == 0, "dpkg runs the scripts of packages for root alone")
    def test_after_an_older_package(self):
        """In that one the folder of documents was a link to the folder of all."""
        self.write("older/usr/lib/sqs_rehearse/README.md", "old\n")
        os.mkdir(self.path("older/usr/share"))
        os.mkdir(self.path("older/usr/share/doc"))
        os.symlink("../../lib/sqs_rehearse", self.path("older/usr/share/doc/sqs-rehearse"))
        self.write("older/DEBIAN/control", "Package: sqs-rehearse\nVersion: 0.0.1\nArchitecture: all\n"
                                           "Maintainer: M <m@localhost>\nDescription: older\n")
        subprocess.run(["dpkg-deb", "--build", self.path("older"), self.path("older.deb")], check=True,
                       capture_output=True)
        self.installed(self.path("older.deb"))
        root = self.installed(self.made)
        documents = pathlib.Path(root, "usr/share/doc/sqs-rehearse")
        self.assertFalse(documents.is_symlink())
        self.assertTrue((documents / "README.md").read_text().startswith("# sqs_rehearse\n"))

    @unittest.skipUnless(shutil.which("lintian"), "lintian is not here")
    def test_lintian(self):
        """It finds no error and no warning, also in the package of the program itself where that is at hand."""
        package = self.package(PROGRAM)[0] if PROGRAM else self.made
        self.assertEqual(self.run_in("/", "lintian", "--no-cfg", "--allow-root", package)[1], "")

    def test_the_same_files_give_the_same_bytes(self):
        for one, other in zip((self.made, self.packed), self.package(ECHO)):
            sums = [hashlib.sha256(pathlib.Path(path).read_bytes()).hexdigest() for path in (one, other)]
            self.assertEqual(sums[0], sums[1], one)

    def test_faults(self):
        self.write("file", "")
        self.script("script", "#!/bin/sh\n")
        self.assert_faults("package", (
                (("--program", "/none"), "there is no program /none"),
                (("--program", "./script"), f"{self.path('script')} is a script, and not the program itself"),
                (("--program", ECHO, "--output", "file"), "cannot make the folder file: File exists"),
                (("x",), "unrecognized arguments: x (--help tells the usage)")))
        self.assertEqual(self.run_tool("package", "--program", ECHO, PATH=self.folder)[2],
                         "package: dpkg-deb is missing: Debian's package dpkg has it\n")

    @needs_program
    def test_help_of_the_program(self):
        """The page of the program has its words and their options, which are completed."""
        package, _ = self.package(PROGRAM)
        root = self.installed(package)
        page = gzip.decompress(pathlib.Path(root, "usr/share/man/man1/sqs_rehearse.1.gz").read_bytes()).decode()
        for line in ('.SY "sqs_rehearse compare"', '.SS "sqs_rehearse check"', r"\fB\-\-workers\fR \fI<workers>\fR",
                     ".TP\n\\fB3\\fR\nthe run is refused: map, window, workers"):
            self.assertIn(f"\n{line}", page)
        self.assertEqual(completed(f"{root}/usr/share/bash-completion/completions/sqs_rehearse", self.folder, [
            ["sqs_rehearse", "co"], ["sqs_rehearse", "su"], ["sqs_rehearse", "run", "--w"],
            ["sqs_rehearse", "run", "--scripts", "ro"], ["sqs_rehearse", "compare", "a.toml", "--"]]),
            [["compare"], ["summary"], ["--window", "--window-figures", "--workers"], ["root"],
             ["--help", "--preview", "--reach", "--scripts", "--v3"]])

    @needs_program
    def test_first_scenario(self):
        package, packed = self.package(PROGRAM)
        root = self.installed(package)
        questions = module_at(os.path.join(ROOT, "tests", "questions"), "questions")
        quoted = dict(questions.quoted_commands(pathlib.Path(ROOT, "README.md").read_text()))
        wanted = quoted["./sqs_rehearse run examples/first.toml"]
        status, out, err = self.run_in(f"{root}/usr/share/doc/sqs-rehearse", f"{root}/usr/bin/sqs_rehearse", "run",
                                       "examples/first.toml")
        self.assertEqual((status, err), (0, ""))
        self.assertTrue(questions.is_printed(wanted, out), out)
        example = f"{root}/usr/lib/sqs_rehearse/examples/first.toml"
        status, out, _ = self.run_in(self.folder, f"{root}/usr/bin/sqs_rehearse-sweep", example, "--vary", "seed=1..2",
                                     "--columns", "sends")
        self.assertEqual((status, out), (0, "seed,failed,queue,sends\n1,,orders,2\n2,,orders,2\n"))
        shutil.unpack_archive(packed, self.path("unpacked"))
        folder = os.path.join(self.path("unpacked"), *os.listdir(self.path("unpacked")))
        status, out, _ = self.run_in(folder, "./sqs_rehearse", "run", "examples/first.toml")
        self.assertTrue(status == 0 and questions.is_printed(wanted, out), out)


# In the place of rt, and of tools/sources.
RT, SOURCES = "#!/bin/sh\necho kit-1 logic 5\n", "#!/bin/sh\necho abc\n"


@unittest.skipUnless(pathlib.Path(ECHO).read_bytes()[18:20] == b"\x3e\0", "dist/ is for x86-64")
class Dist(PackageCase):
    """dist/ of a folder like the repository, in which the program is a stand-in."""

    def setUp(self):
        super().setUp()
        shutil.copytree(TOOLS, self.path("tools"), ignore=shutil.ignore_patterns("__pycache__"))
        self.script("kit/rt", RT)
        self.script("tools/sources", SOURCES)
        self.program = self.path("crates/sqs_rehearse/out/sqs_rehearse")
        os.makedirs(os.path.dirname(self.program))
        shutil.copy(ECHO, self.program)
        self.source = self.write("crates/sim_a/src/a.rt", "")
        os.utime(self.source, (1, 1))

    def make(self, *words, kit="kit"):
        path = f"{self.path(kit)}:{os.path.dirname(sys.executable)}:/usr/bin:/bin"
        return self.run_in(self.folder, self.path("tools/package"), "--dist", *words, PATH=path)

    def made(self):
        return {name: self.read(f"dist/{name}") for name in os.listdir(self.path("dist"))}

    def test_what_is_made(self):
        status, out, err = self.make()
        data = pathlib.Path(ECHO).read_bytes()
        program = hashlib.sha256(data).hexdigest()
        self.assertEqual((status, err), (0, ""))
        self.assertRegex(out, rf"^dist/ has the program {program} now, packed into [0-9,]+ bytes\n$")
        made = self.made()
        self.assertEqual(set(made), {"manifest", "sqs_rehearse-x86_64-linux.gz"})
        self.assertEqual(gzip.decompress(made["sqs_rehearse-x86_64-linux.gz"]), data)
        # gzip's head: no name and no time, best compression
        self.assertEqual(made["sqs_rehearse-x86_64-linux.gz"][:9], b"\x1f\x8b\x08\0\0\0\0\0\x02")
        lines = [line for line in made["manifest"].decode().splitlines() if not line.startswith("#")]
        self.assertEqual(lines, [f"version {VERSION}", "kit kit-1 logic 5", f"program {program}"][:2] + [
            # sha256sum of "abc" and a line end
            "sources edeaaff3f1774ad2888673770c6d64097e391bc362d7d6fb34982ddf0efd18cb", f"program {program}"])
        self.assertEqual(self.make(), (0, "dist/ has this program and its manifest already\n", ""))
        shutil.rmtree(self.path("dist"))
        self.assertEqual(self.make("--program", ECHO)[0], 0)
        self.assertEqual(self.made(), made)

    def test_the_manifest_names_the_page(self):
        """The one that is there, and then the one that tools/page makes."""
        for name in ("page", "examples", "docs", "README.md"):
            os.symlink(os.path.join(ROOT, name), self.path(name))
        os.mkdir(self.path("dist"))
        for made in (self.make, lambda: self.run_in(self.folder, self.path("tools/page"), "--module", f"{ROOT}/dist/"
                                                    "playground.html")):
            if made == self.make:
                self.write("dist/playground.html", "page")
            self.assertEqual(made()[0], 0)
            page = self.read("dist/playground.html")
            lines = self.made()["manifest"].decode().splitlines()
            self.assertEqual([line for line in lines if line.startswith("page ")],
                             [f"page {hashlib.sha256(page).hexdigest()}"])
        self.assertGreater(len(page), 100_000)

    def test_the_manifest_goes_with_its_program(self):
        """And a licence, once there is one, with all."""
        self.make()
        self.write("LICENSE", "Do as you like.\n\nNo warranty.\n")
        for name in ("docs", "examples", "README.md", "SECURITY.md", "CHANGELOG.md", "sqs_rehearse", "crates.txt"):
            os.symlink(os.path.join(ROOT, name), self.path(name))
        for program, is_there in ((ECHO, True), (shutil.which("true"), False)):
            folder = self.path(os.path.basename(program))
            self.run_in(self.folder, self.path("tools/package"), "--program", program, "--output", folder)
            subprocess.run(["dpkg", "--extract", *glob.glob(f"{folder}/*.deb"), f"{folder}/root"], check=True)
            path = f"{folder}/root/usr/lib/sqs_rehearse/dist"
            self.assertEqual(os.listdir(path) if os.path.exists(path) else None, ["manifest"] if is_there else None)
            told = pathlib.Path(f"{folder}/root/usr/share/doc/sqs-rehearse/copyright").read_text()
            self.assertEqual(told.partition("\nLicense: ")[2], "as-given\n Do as you like.\n .\n No warranty.\n")

    def test_faults(self):
        def fault(*words, **more):
            status, out, err = self.make(*words, **more)
            self.assertEqual((status, out, err[:9], os.path.exists(self.path("dist"))), (2, "", "package: ", False))
            return err[9:-1]

        self.assertEqual(fault(kit="none"), "cannot run rt: No such file or directory")
        self.assertEqual(fault("--output", "x"), "--dist writes dist/ of the repository, and takes no --output")
        self.write("tools/sources", "#!/bin/sh\nexit 3\n")
        self.assertEqual(fault(), f"{self.path('tools/sources')} ends with status 3")
        os.utime(self.source, (2e9, 2e9))
        self.assertEqual(fault(), "crates/sim_a/src/a.rt is newer than the program: ./sqs_rehearse --build builds it "
                                  "anew")
        os.remove(self.program)
        self.assertEqual(fault(), "the program is not built yet: ./sqs_rehearse --build builds it")
        self.script("script", "#!/bin/sh\n")
        self.assertEqual(fault("--program", "./script"),
                         f"{self.path('script')} is a script, and not the program itself")


def completed(script, folder, lines):
    """What bash has for the last word of each line of words, in the order of the alphabet."""
    text = 'source "$1"; shift; complete -p "${1##*/}" > /dev/null || exit; COMP_WORDS=("$@"); COMP_CWORD=$(($# - 1)); '
    text += '_sqs_rehearse; printf "%s\\n" "${COMPREPLY[@]}"'
    runs = [ran(["bash", "-c", text, "bash", script, *words], cwd=folder, stdin=subprocess.DEVNULL) for words in lines]
    return [sorted(out.split("\n")[:-1 if out != "\n" else 0]) + err.splitlines() for _, out, err in runs]


class Helps(ToolCase):
    """Manual pages and completions, of a help written by hand and of those of the tools."""

    def setUp(self):
        super().setUp()
        self.script = self.write("script", completions.script(("sqs_rehearse --see it", "", {}), {
            "count": TOOL_HELP, **{name: helps.text_of(name) for name in self.tools()}}))

    def tools(self):
        return ("summary", "sweep", "life", "metrics", "picture", "report", "explain", "arrivals", "setup")

    def test_a_page(self):
        told = debian.with_commands_of_package(TOOL_HELP, ["count"])
        self.assertEqual(manual.page_of_tool("count", told, ("1.0+2.abc", 86_400), "/doc").splitlines(), [
            r'.TH "SQS_REHEARSE\-COUNT" 1 "1970-01-02" "sqs_rehearse 1.0" "User Commands"', ".if n .ad l", ".ss 12 0",
            ".nh",
            '.SH "NAME"', r"sqs_rehearse\-count \- counts rows",
            '.SH "SYNOPSIS"', '.SY "sqs_rehearse run"', r"\fIFILE\fR | sqs_rehearse count \-", ".YS",
            '.SY "sqs_rehearse count"', r"\fILOG\fR [\fB\-\-queue\fR\~\fINAME\fR\~...] [\fB\-\-most\fR\~\fIN\fR]",
            r"[\fB\-\-output\fR\~\fIFILE.csv\fR]", ".YS", ".nh",
            '.SH "DESCRIPTION"', "Counts rows.", ".PP",
            r"LOG is what \fBrun \-\-log FILE x\fR made. It ..is - and so on; Bob\(aqs \e is",
            r"5 \[u2026] long.",
            ".TP", r"\fBfirst\fR", "rows of one, as it is told", ".TP", r"\fBsecond kind\fR", "rows of two",
            '.SH "OPTIONS"', ".TP", r"\fB\-\-most\fR",
            r"how many, of \fB\-\-groups\fR N, and not as \fB\-\-least\fR of others",
            ".TP", r"\fB\-\-longest\fR", "with one space behind it",
            '.SH "SEE ALSO"', r"\fBsqs_rehearse\fR(1),", "and the documents in /doc"])

    def test_the_page_of_the_program(self):
        own = "Usage: sqs_rehearse <COMMAND>\n\nCommands:\n  run   Plays one\n  help  Print help\n"
        first = f"sqs_rehearse plays queues, and more. See README.md.\n\n{own}\n" \
                "Tools, of which each has a help:\n  sqs_rehearse count  Counts rows\n\n--where prints a path.\n"
        run = "Plays one\n\nUsage: sqs_rehearse run [OPTIONS] <first>\n\nOptions:\n      --log <log>  The file\n" \
              "  -h, --help       Print help\n\nExample:\n  sqs_rehearse run x\n"
        self.assertEqual(helps.words_of(own), ["run"])
        page = manual.page_of_program((first, own, {"run": run}), {"count": TOOL_HELP}, ("1.0", 0), "/doc")
        self.assertEqual(page.splitlines()[4:], [
            '.SH "NAME"', r"sqs_rehearse \- plays queues",
            '.SH "SYNOPSIS"', '.SY "sqs_rehearse run"', r"[\fIOPTIONS\fR] \fI<first>\fR", ".YS",
            '.SY "sqs_rehearse"', r"\fITOOL\fR [\fIWORD\fR\~...]", ".YS", ".nh",
            '.SH "DESCRIPTION"', "sqs_rehearse plays queues, and more. See README.md.",
            ".PP", r"\fB\-\-where\fR prints a path.",
            '.SH "COMMANDS"', '.SS "sqs_rehearse run"', "Plays one", ".PP", "Options:",
            ".TP", r"\fB\-\-log\fR \fI<log>\fR", "The file", ".TP", r"\fB\-h\fR, \fB\-\-help\fR", "Print help",
            ".PP", "Example:", ".RS 4", ".EX", "sqs_rehearse run x", ".EE", ".RE", ".nh",
            '.SH "TOOLS"', ".TP", r"\fBcount\fR", "counts rows",
            '.SH "SEE ALSO"', r"\fBsqs_rehearse\-count\fR(1),", "and the documents in /doc"])

    def test_no_word_begins_a_line_as_a_command_of_roff(self):
        page = manual.page_of_tool("count", "Counts:\n\n    tools/count LOG\n\n" + ".x " * 90, ("1", 0), "/doc")
        self.assertEqual(len(re.findall(r"^\\&\.x", page, re.MULTILINE)), 4)

    @unittest.skipUnless(shutil.which("groff"), "groff is not here")
    def test_groff_finds_nothing_wrong(self):
        for name in self.tools():
            text = helps.text_of(name)
            self.write(f"{name}.1", manual.page_of_tool(name, text, (VERSION, 0), "/doc"))
        status, _, err = ran(["groff", "-man", "-ww", "-z", *(self.path(f"{name}.1") for name in self.tools())])
        self.assertEqual((status, err), (0, ""))

    def test_completions(self):
        os.mkdir(self.path("calls"))
        self.write("s.toml", '[[queue]]\nname = "orders"\nvisibility_s = 5\n[[actor]]\nname = "other"\n')
        self.write("run.log", "at,queue,agent\n0,orders,shop\n5,failed,shop\nfinal,queue,x\n")
        cases = {
            "sqs_rehearse su": ["summary"], "sqs_rehearse --": ["--help", "--see", "--version"],
            "sqs_rehearse-summary --": [
                "--backlog", "--door", "--from", "--help", "--json", "--queue", "--rest", "--to"],
            "sqs_rehearse summary run.log --rest ru": ["run.log"],
            "sqs_rehearse summary s.toml run.log --j": ["--json"],
            "sqs_rehearse arrivals ": ["bursts", "hours", "metric", "poisson", "times"],
            "sqs_rehearse arrivals times ru": ["run.log"],
            "sqs_rehearse-setup --": ["--help", "--missing"],
            "./sqs_rehearse summary run.log --queue ": ["failed", "orders"],
            "sqs_rehearse report s.toml --queue o": ["orders"],
            "sqs_rehearse sweep s.toml --jobs ": [], "sqs_rehearse sweep s.toml --scripts ": ["calls"],
            "sqs_rehearse sweep s.toml --output s": ["s.toml", "script"],
            "sqs_rehearse sweep s.toml --output = s.": ["s.toml"],
            "sqs_rehearse sweep s.toml --scripts =": ["calls"],
            # prose has --least without what it takes: it may be of another program
            "sqs_rehearse count --": ["--groups", "--help", "--longest", "--most", "--output", "--queue"],
        }
        lines = [case.split(" ") for case in cases]
        self.assertEqual(dict(zip(cases, completed(self.script, self.folder, lines))), cases)

    def test_a_completion_runs_nothing_that_it_reads(self):
        """Neither a command in the queue of a log or a scenario, nor one in a word; and no path is taken for more."""
        commands = "$(touch${IFS}pwned)", "`touch${IFS}pwned`", "${x:=$(touch${IFS}pwned)}", "a;touch pwned", "~", "*"
        queues = "orders", "orders.fifo", "o" * 81, "o.fifo.fifo", *commands
        self.write("evil.csv", "".join(f"{at},{queue},a,send\n" for at, queue in enumerate(queues)))
        tables = "".join(f'[[queue]]\nname = "{queue}"\n' for queue in queues)
        for name in ("evil.toml", "a=b.toml", "-f.toml", "/$(touch${IFS}pwned).toml"):
            self.write(f"./{name}", tables)
        for name in ("evil.csv", "evil.toml", "a=b.toml", "-f.toml", "$(touch${IFS}pwned).toml"):
            for word in ("", "o", *commands):
                with self.subTest(name=name, word=word):
                    found, = completed(self.script, self.folder, [["sqs_rehearse", "summary", name, "--queue", word]])
                    self.assertEqual(found, ["orders", "orders.fifo"] if word in ("", "o") else [])
        self.assertEqual(completed(self.script, self.folder, [["sqs_rehearse", "$(touch pwned)", "-"]]), [[]])
        self.assertEqual(sorted(os.listdir(self.folder)),
                         ["$(touch${IFS}pwned).toml", "-f.toml", "a=b.toml", "evil.csv", "evil.toml", "script"])

    def test_each_option_is_completed(self):
        lines = [["sqs_rehearse", name, "--"] for name in self.tools()[:7]]
        for line, options in zip(lines, completed(self.script, self.folder, lines)):
            self.assertEqual(options, sorted({"--help", *options_in(helps.source_of(line[1]))}), line[1])
