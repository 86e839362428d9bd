"""How the tools end, with one line on standard error and status 2 if the input is bad. Also how they read and write,
and how they find the libraries that are not part of Python.

The tools import it; it is not a command.
"""
from __future__ import annotations

import argparse
import contextlib
import csv
import errno
import importlib
import importlib.util
import io
import os
import re
import secrets
import signal
import stat
import sys
import tempfile
import time
from collections.abc import Callable, Container, Iterable, Mapping
from typing import IO, Any, NoReturn, TextIO, cast

# The signals, beside SIGINT, by which a person or a scheduler ends a tool.
ENDING = (signal.SIGTERM, signal.SIGHUP)
# The folder of the commands.
TOOLS = os.path.dirname(os.path.dirname(os.path.abspath(__file__)))
# Where Debian's packages put libraries, which another Python than Debian's does not look into.
DEBIAN_LIBRARIES = "/usr/lib/python3/dist-packages"
# What summary marks words by on a terminal: bold, bold and red, and the end of it.
COLOURS = BOLD, RED, PLAIN = "\033[1m", "\033[1;31m", "\033[0m"
COLOUR = re.compile("(" + "|".join(map(re.escape, COLOURS)) + ")")
# How the commands of an installed package begin, which run its tools.
COMMAND = "sqs_rehearse-"
WRAPPER_NAMED = re.compile(r"(?<![\w/.])\./sqs_rehearse(?![\w/.-])")
TOOL_NAMED = re.compile(r"(?<![\w/.-])tools/([a-z][a-z-]*)(?![\w/-]|\.\w)")


# What options that take a text are like in each tool that has them.
LIKE: dict[str, dict[str, Any]] = {"--from": {"dest": "first"}, "--to": {"dest": "last"}, "--scripts": {"default": "."}}
# The former names of options that take nothing, which say the same.
FORMER = {"--v3": ["--preview"]}


class Fault(Exception):
    """Bad input or usage; its text is the one line that the user gets."""


def refuse(is_wrong: object, line: str) -> None:
    """Raises the fault of a line if something is wrong."""
    if is_wrong:
        raise Fault(line)


class Stopped(BaseException):
    """A signal that ends the tool, by its number, once what is open is closed and what is temporary is removed."""


class Parser(argparse.ArgumentParser):
    """A parser of the command line that reports a fault in one line. Its help is the tool's description, with the
    usage, in which commands are named as the user calls them."""

    def __init__(self, description: str | None = None, **more: Any) -> None:
        super().__init__(description=description, **more)

    def take(self, *options: str, flags: Iterable[str] = (), lists: Iterable[str] = (),
             numbers: Mapping[str, int | None] | None = None) -> Parser:
        """Adds options that take a text, that take nothing, that may be given several times, and that take a number
        with a default. Those of LIKE are the same in all tools, and those of FORMER have a former name, too."""
        for option in options:
            self.add_argument(option, **LIKE.get(option, {}))
        for option in flags:
            self.add_argument(option, *FORMER.get(option, ()), action="store_true")
        for option in lists:
            self.add_argument(option, action="append", default=[])
        for option, default in (numbers or {}).items():
            self.add_argument(option, type=int, default=default)
        return self

    def format_help(self) -> str:
        return with_commands((self.description or "").strip(), *called_by()) + "\n"

    def error(self, message: str) -> NoReturn:
        raise Fault(f"{message} (--help tells the usage)")


def library(name: str, package: str) -> Any:
    """A library that a package of Debian has; a fault if it is missing."""
    for _ in range(2):
        try:
            return importlib.import_module(name)
        except ImportError:
            if DEBIAN_LIBRARIES not in sys.path:
                sys.path.append(DEBIAN_LIBRARIES)
    raise missing_library(name, package)


class Library:
    """The same, read when something of it is used first: a tool that does not use it need not have it."""

    def __init__(self, name: str, package: str) -> None:
        self.name, self.package = name, package

    def __getattr__(self, name: str) -> Any:
        return getattr(library(self.name, self.package), name)


def toml_of(text: str) -> dict[str, Any]:
    """The tables of a text, by Python's own reader of TOML, which it has since 3.11. An older one takes tomli, of which
    that is a copy: as a package, or as pip has it for itself."""
    for name in ("tomllib", "tomli", "pip._vendor.tomli"):
        try:
            found: dict[str, Any] = importlib.import_module(name).loads(text)
            return found
        except ImportError:
            pass
    raise Fault("the library tomli is missing: Python has it since 3.11; for an older one `pip install tomli`, or "
                "Debian's package python3-tomli")


def missing_library(name: str, package: str) -> Fault:
    return Fault(f"the library {name} is missing: Debian's package {package} has it for Debian's python3, and "
                 f"{command_of('setup')} installs it")


def check_library(name: str, package: str) -> None:
    """Makes sure, before the work begins, that a library is there; to look is quicker than to read it."""
    if importlib.util.find_spec(name) is None:
        if DEBIAN_LIBRARIES not in sys.path:
            sys.path.append(DEBIAN_LIBRARIES)
        if importlib.util.find_spec(name) is None:
            raise missing_library(name, package)


def read_bytes(path: str) -> bytes:
    """The contents of a file, or of standard input if the path is -."""
    try:
        with open(0 if path == "-" else path, "rb", closefd=path != "-") as file:
            return file.read()
    except OSError as error:
        raise Fault(f"cannot read {path}: {error.strerror}") from None
    except ValueError:
        raise Fault(f"cannot read {shown(path)}: no file has such a name") from None


def read_text(path: str) -> str:
    """The text of a file in UTF-8, or of standard input if the path is -, with its line ends as they are."""
    try:
        return read_bytes(path).decode("utf-8")
    except UnicodeDecodeError:
        raise Fault(f"{path} is not UTF-8") from None


def shown(text: str) -> str:
    """A text of the input for a message: in one line, and not too long."""
    return text[:100] if text and text.isprintable() else f"{text[:100]!a}"


def seen(text: str, most: int = 4_000) -> str:
    """A text for a terminal: with its control characters escaped, and with lines that are longer than `most` cut. Line
    ends and tabs stay."""
    lines = text.split("\n")
    if all(len(line) <= most and line.isprintable() for line in lines):
        return text
    return "\n".join(line if len(line) <= most else f"{line[:most]}\u2026" for line in map(escaped, lines))


def printable(text: str, kept: str = "") -> str:
    """A text with its control characters escaped, but for those that are kept."""
    return "".join(letter if letter.isprintable() or letter in kept else f"{letter!a}"[1:-1] for letter in text)


def escaped(line: str) -> str:
    """A line with its control characters escaped, but for tabs and the tools' own colours."""
    return "".join(part if part in COLOURS else printable(part, "\t") for part in COLOUR.split(line))


class Terminal:
    """An output that goes to a terminal: it gets no control character, whatever is in the input of a tool."""

    def __init__(self, stream: TextIO) -> None:
        self.stream = stream

    def write(self, text: str) -> int:
        return self.stream.write(seen(text))

    def __getattr__(self, name: str) -> Any:
        return getattr(self.stream, name)


def check_title(title: str | None) -> None:
    """Makes sure that a title is one line of printable characters."""
    if title is not None and not title.isprintable():
        raise Fault(f"a title is one line of printable characters: {shown(title)}")


def check_output(path: str | None, inputs: Iterable[str | None] = ()) -> None:
    """Checks, before the work begins, that the output file can be written, and that it is none of the inputs."""
    if path is None:
        return
    folder = os.path.dirname(os.path.abspath(path))
    try:
        refuse(not os.path.exists(folder), f"cannot write {path}: there is no folder {os.path.dirname(path)}")
        if not os.path.isdir(folder):
            raise OSError(errno.ENOTDIR, os.strerror(errno.ENOTDIR))
        if os.path.isdir(path):
            raise OSError(errno.EISDIR, os.strerror(errno.EISDIR))
        if not is_special(path):
            with tempfile.TemporaryFile(dir=folder):
                pass
    except OSError as error:
        raise Fault(f"cannot write {path}: {error.strerror}") from None
    except ValueError:
        raise Fault(f"cannot write {shown(path)}: no file has such a name") from None
    for name in inputs:
        if name is not None and is_same_file(path, name):
            read = "standard input" if name == "-" else name
            raise Fault(f"cannot write {path}: it is the file that is read as {read}, and is to stay")


def is_same_file(path: str, name: str) -> bool:
    """Whether a path is that of a plain file that is also read by a name, which is - for standard input."""
    try:
        return not is_special(path) and os.path.samestat(os.stat(path), os.fstat(0) if name == "-" else os.stat(name))
    except (OSError, ValueError):
        return False


def make_folder(path: str) -> None:
    """Makes a folder for output, unless it is there."""
    try:
        os.makedirs(path, exist_ok=True)
    except OSError as error:
        raise Fault(f"cannot make the folder {path}: {error.strerror}") from None


def is_special(path: str) -> bool:
    """Whether there is something at a path that is no plain file, as /dev/null or a pipe."""
    return os.path.exists(path) and not stat.S_ISREG(os.stat(path).st_mode)


def write_text(path: str | None, text: str) -> None:
    """Writes a file, or standard output if `path` is None. A file appears whole, or not at all."""
    if path is None:
        print_text(text)
    else:
        write_bytes(path, text.encode("utf-8", "backslashreplace"))


def write_bytes(path: str, data: bytes) -> None:
    try:
        if is_special(path):
            with open(path, "wb") as file:
                file.write(data)
        else:
            replace_file(path, data)
    except OSError as error:
        raise Fault(f"cannot write {path}: {error.strerror}") from None


def replace_file(path: str, data: bytes) -> None:
    """Writes a file beside a path and then renames it. Its name is a new one, also among processes of several machines
    and containers, and no link that stands there is followed."""
    partial = f"{path}.{secrets.token_hex(8)}.part"
    try:
        with open(partial, "xb") as file:
            file.write(data)
        os.replace(partial, path)
    finally:
        with contextlib.suppress(FileNotFoundError):
            os.unlink(partial)


def csv_text(records: Iterable[Iterable[Any]]) -> str:
    """Records as CSV."""
    stream = io.StringIO()
    csv.writer(stream, lineterminator="\n").writerows(records)
    return stream.getvalue()


def print_text(text: str) -> None:
    """Writes standard output, and makes sure that it is written."""
    if sys.stdout is None:
        raise Fault("standard output is closed")
    Progress.clear()
    sys.stdout.write(text)
    sys.stdout.flush()


def abandon_output() -> None:
    """Keeps Python from writing once more, as it ends, what could not be written."""
    os.dup2(os.open(os.devnull, os.O_WRONLY), sys.stdout.fileno())


class Progress:
    """Shows on a terminal, once a second, how much of a file has been read, in one line that is removed in the end."""

    is_shown = False

    @classmethod
    def show(cls, line: str) -> None:
        """Replaces the last line by this one."""
        cls.is_shown = True
        print(f"\r{tool()}: {line}\033[K", end="", file=sys.stderr, flush=True)

    def __init__(self, path: str, file: IO[Any]) -> None:
        self.read, self.told = 0, time.monotonic()
        self.is_told = is_terminal(sys.stderr)
        status = os.fstat(file.fileno())
        self.size = status.st_size if stat.S_ISREG(status.st_mode) else 0
        self.name = "standard input" if path == "-" else path

    def look(self, length: int) -> None:
        """Notes that `length` more bytes have been read."""
        self.read += length
        if self.is_told and time.monotonic() >= self.told + 1:
            self.told = time.monotonic()
            share = f"{min(100, 100 * self.read // self.size)} %" if self.size else f"{self.read / 1e6:,.0f} MB"
            self.show(f"{share} of {self.name} read")

    @classmethod
    def clear(cls) -> None:
        if cls.is_shown:
            cls.is_shown = False
            print("\r\033[K", end="", file=sys.stderr, flush=True)


def is_terminal(stream: TextIO | None) -> bool:
    return stream is not None and stream.isatty()


def called_by() -> tuple[str, str]:
    """The user's command for the program, and the text before a tool's name in the user's command for the tool.

    ./sqs_rehearse sets SQS_REHEARSE_TOOL for a tool that it runs, for example to `sqs_rehearse summary`.
    """
    own = os.path.basename(sys.argv[0])
    wrapper, space, name = os.environ.get("SQS_REHEARSE_TOOL", "").rpartition(" ")
    if space and name == own:
        return wrapper, f"{wrapper} "
    return ("sqs_rehearse", COMMAND) if own.startswith(COMMAND) else ("./sqs_rehearse", "tools/")


def command_of(name: str) -> str:
    """The user's command for a tool."""
    return called_by()[1] + name


def path_of(name: str) -> str:
    """The path of the file by which a tool was called, or of that in tools/ if it was called otherwise."""
    called, own = os.path.abspath(sys.argv[0]), os.path.join(TOOLS, name)
    return called if os.path.realpath(called) == os.path.realpath(own) else own


def with_commands(text: str, wrapper: str, before: str, tools: Container[str] | None = None) -> str:
    """A text with `wrapper` in place of ./sqs_rehearse, and with `before` in place of tools/ if the name of a tool
    follows. Without `tools` those are the commands in tools/."""
    def named(match: re.Match[str]) -> str:
        is_tool = match[1] in tools if tools is not None else os.access(os.path.join(TOOLS, match[1]), os.X_OK)
        return before + match[1] if is_tool else match[0]

    return TOOL_NAMED.sub(named, WRAPPER_NAMED.sub(lambda _: wrapper, text))


def tool() -> str:
    """The name by which the tool was called, as its lines on standard error begin."""
    own, (wrapper, before) = os.path.basename(sys.argv[0]), called_by()
    return f"{os.path.basename(wrapper)} {own}" if before.endswith(" ") else own


def tell(line: str) -> None:
    """Prints a line on standard error."""
    Progress.clear()
    print(f"{tool()}: {seen(line, 1_000) if is_terminal(sys.stderr) else line}", file=sys.stderr)


def note(text: str) -> None:
    """Prints one line on standard error, whatever is in the text."""
    tell(printable(text))


def told(fault: str) -> int:
    """Prints a fault on standard error in one line, whatever is in it; returns the status."""
    note(fault)
    return 2


def take_signals(take: Callable[..., object] | signal.Handlers) -> None:
    """Gives the signals that end a tool to a function, without those that are ignored, as SIGHUP is after nohup."""
    for number in ENDING:
        if signal.getsignal(number) != signal.SIG_IGN:
            signal.signal(number, take)


def stop(number: int, *_: object) -> NoReturn:
    """Ends the tool by an exception, which no second signal disturbs."""
    take_signals(signal.SIG_IGN)
    raise Stopped(number)


def ended(main: Callable[[list[str]], int]) -> int:
    """Runs `main` on the words of the command line and returns the status of the tool."""
    take_signals(stop)
    try:
        return ended_as_told(main)
    finally:
        Progress.clear()


def ended_as_told(main: Callable[[list[str]], int]) -> int:
    for stream in (sys.stdout, sys.stderr):
        if isinstance(stream, io.TextIOWrapper):
            stream.reconfigure(encoding="utf-8", errors="backslashreplace")
    if is_terminal(sys.stdout):
        sys.stdout = cast(TextIO, Terminal(sys.stdout))
    try:
        status = main(sys.argv[1:])
        if sys.stdout is not None:
            sys.stdout.flush()
        return status
    except Fault as fault:
        return told(str(fault))
    except BrokenPipeError:
        abandon_output()
        return 1
    except OSError as error:
        # all reading and writing of files tells its own faults, so that only standard output is left
        abandon_output()
        return told(f"cannot write standard output: {error.strerror}")
    except KeyboardInterrupt:
        return 130
    except Stopped as stopped:
        return 128 + int(stopped.args[0])
    except (MemoryError, RecursionError) as error:
        return told(f"the input is too {'deep' if isinstance(error, RecursionError) else 'large'}")
