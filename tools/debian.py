"""The texts of a package of Debian: its control file, copyright and changelog, the scripts that run as it is
installed and removed, and its documents with the commands that it has. tools/package imports it; it is not a
command."""
import os
import re
import time
from collections.abc import Collection, Container

from rehearse_tools.console import read_text, with_commands
from rehearse_tools.programs import TOP

PLACE = "usr/lib/sqs_rehearse"
DOCUMENTS = "usr/share/doc/sqs-rehearse"
MAINTAINER = "Hetsandula maintainers <maintainers@users.noreply.hetsandula.example>"
LIBRARY = re.compile(rb"\0GLIBC_([0-9]+)\.([0-9]+)(?:\.[0-9]+)?(?=\0)")
LINK = re.compile(r"(?<!!)\[([^\]]*)\]\(([^)\s#]+)(?:#[^)\s]*)?\)")
CONTROL = """Package: sqs-rehearse
Version: {version}
Architecture: {architecture}
Maintainer: {maintainer}
Installed-Size: {size}
{depends}Recommends: python3 (>= 3.9), python3-yaml, python3-matplotlib, python3-plotly, python3-scipy
Suggests: bash-completion, python3-distributed, python3-pandas
Section: utils
Priority: optional
Description: rehearses networks of Amazon SQS queues in simulated time
 Plays queues with their producers and consumers before they are deployed: how
 often a message is handled twice, how many end in the dead-letter queue, how
 long messages wait. Its tools make scenarios from plans, sweep over settings,
 and sum runs up as text, pictures and pages.
"""
COPYRIGHT = """Format: https://www.debian.org/doc/packaging-manuals/copyright-format/1.0/
Upstream-Name: sqs_rehearse
Upstream-Contact: {maintainer}

Files: *
Copyright: {years} Hetsandula maintainers
License: {licence}
"""
FIRST_YEAR = 2026
NO_LICENCE = """none-given
 No licence is given yet: the repository has none. Until it has, ask its
 maintainers before you copy, change or pass on what this package has."""
CHANGES = """sqs-rehearse ({version}) unstable; urgency=medium

  * Made by tools/package from the repository as it stood at this version.

 -- {maintainer}  {day}
"""
OVERRIDES = """# To the byte it is the proved program, whose SHA-256 is in dist/manifest, so it is not stripped.
sqs-rehearse: unstripped-binary-or-object *
# Small containers leave out /usr/share/doc; there the examples and documents are still in /usr/lib/sqs_rehearse.
sqs-rehearse: package-contains-documentation-outside-usr-share-doc *
"""
SHELL = "#!/bin/sh\nset -e\n"
# In older packages the folder of documents was a link, in whose place dpkg would make no folder.
NO_LINK = f"""{SHELL}if [ -L "$DPKG_ROOT/{DOCUMENTS}" ]; then rm "$DPKG_ROOT/{DOCUMENTS}"; fi\n"""
# If root runs a tool, Python keeps bytecode beside its modules.
NO_BYTECODE = f"""{SHELL}rm -rf "$DPKG_ROOT/{PLACE}/tools/rehearse_tools/__pycache__"\n"""
# A postrm would stay behind after `apt remove`, until `apt purge`.
SCRIPTS = {"preinst": NO_LINK, "prerm": NO_BYTECODE}


def library_version(program: bytes) -> str:
    """The version of the C library that a program needs, or nothing."""
    versions = [(int(major), int(minor)) for major, minor in LIBRARY.findall(program)]
    return "{}.{}".format(*max(versions)) if versions else ""


def control(version: str, architecture: str, size: int, program: bytes) -> str:
    """The control file. `size` is in bytes; the program decides which C library the package depends on."""
    needs = library_version(program)
    depends = f"Depends: libc6 (>= {needs})\n" if needs else ""
    return CONTROL.format(version=version, architecture=architecture, size=-(-size // 1024), depends=depends,
                          maintainer=MAINTAINER)


def copyright_text(moment: float) -> str:
    """The copyright, with the licence of the repository if it has one."""
    licences = sorted(name for name in os.listdir(TOP) if re.match(r"LICEN[CS]E|COPYING", name))
    text = read_text(os.path.join(TOP, licences[0])).strip() if licences else ""
    lines = "".join(f"\n {line.rstrip() or '.'}" for line in text.splitlines())
    year = time.gmtime(moment).tm_year
    years = f"{FIRST_YEAR}-{year}" if year > FIRST_YEAR else f"{FIRST_YEAR}"
    return COPYRIGHT.format(maintainer=MAINTAINER, years=years,
                            licence=f"as-given{lines}" if text else NO_LICENCE)


def changes(version: str, moment: float) -> str:
    day = time.strftime("%a, %d %b %Y %H:%M:%S +0000", time.gmtime(moment))
    return CHANGES.format(version=version, maintainer=MAINTAINER, day=day)


def with_links_that_work(text: str, path: str, paths: Collection[str]) -> str:
    """A document without its links to files that are not in the package; their texts stay."""
    def kept(link: re.Match[str]) -> str:
        target = os.path.normpath(os.path.join(os.path.dirname(path), link[2]))
        is_there = ":" in link[2] or any(f"{file}/".startswith(f"{target}/") for file in paths)
        return link[0] if is_there else link[1]

    return LINK.sub(kept, text)


def with_commands_of_package(text: str, tools: Container[str]) -> str:
    """A text with the commands of an installed package."""
    return with_commands(text, "sqs_rehearse", "sqs_rehearse ", tools)
