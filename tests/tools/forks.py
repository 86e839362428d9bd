"""Runs tools in forks of one Python that has read their modules, so that no run has to start Python and read them anew:

    python3 forks.py SOCKET

SOCKET is the number of an open socket. Each message is a tool's name, its words, its folder and its environment, and
brings the three files that are its standard input, output and error. The answer is the tool's status. Each run is a
process of its own: what it changes or imports is gone with it.
"""
from __future__ import annotations

import os
import pickle
import socket
import sys
import traceback
from collections.abc import Mapping, Sequence

# As for a tool, the folder of the tools is searched in place of that of this file.
sys.path[0] = os.path.join(os.path.dirname(os.path.dirname(os.path.dirname(os.path.abspath(__file__)))), "tools")
from rehearse_tools.__main__ import launched, main_of  # noqa: E402 (the folder of the package comes first)
from rehearse_tools.console import Fault, library  # noqa: E402

LENGTH = 1 << 20
# What a tool imports once it needs it, or for an option, and so would import anew in each fork.
LIBRARIES = {
    "--cluster": ("distributed", "cloudpickle"), "--settling": ("matplotlib.figure", "matplotlib.backends.backend_agg"),
    "from-plan": ("yaml",), "report": ("numpy", "plotly.offline"), "sweep": ("scipy.special",),
    "picture": ("numpy", *(f"matplotlib.{name}" for name in ("figure", "font_manager", "offsetbox", "text")),
                *(f"matplotlib.backends.backend_{name}" for name in ("agg", "svg")))}


def read(name: str, words: Sequence[str | bytes]) -> None:
    """Imports what a tool needs for its words, before it is forked."""
    main_of(name)
    for word in LIBRARIES.keys() & {name, *words}:
        for module in LIBRARIES.pop(word):
            try:
                library(module, "")
            except Fault:
                pass    # the tool tells that it is missing


def status_of(name: str, words: Sequence[str | bytes], folder: str, environment: Mapping[str, str]) -> int:
    """Runs a tool, as Python runs its file, and returns its status."""
    os.chdir(folder)
    os.environ.clear()
    os.environ.update(environment)
    sys.argv = [os.path.join(sys.path[0], name), *map(os.fsdecode, words)]
    try:
        return launched(sys.argv[0])
    except SystemExit as end:
        return int(end.code or 0)
    except BaseException:
        traceback.print_exc()
        return 1


def main(number: int) -> None:
    """Answers all messages, until the other end is closed."""
    control = socket.socket(fileno=number)
    while True:
        data, files, _, _ = socket.recv_fds(control, LENGTH, 3)
        if not data:
            return
        name, words, folder, environment = pickle.loads(data)
        read(name, words)
        process = os.fork()
        if process == 0:
            for place, file in enumerate(files):
                os.dup2(file, place)
                os.close(file)
            control.close()
            status = status_of(name, words, folder, environment)
            sys.stdout.flush()
            os._exit(status)
        for file in files:
            os.close(file)
        control.send(b"%d" % os.waitstatus_to_exitcode(os.waitpid(process, 0)[1]))


if __name__ == "__main__":
    main(int(sys.argv[1]))
