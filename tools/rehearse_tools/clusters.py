"""Runs the variants of a sweep on the workers of a Dask cluster. The tools import it; it is not a command.

Workers need Dask and nothing of ours: the program, the scripts and this package are sent to each, also to one that
joins later. Dask finds workers that are lost, and runs again elsewhere what they had to do.
"""
import importlib
import io
import logging
import os
import pathlib
import pickle
import re
import shutil
import signal
import subprocess
import sys
import tempfile
import threading
import warnings
from collections.abc import Mapping, Sequence
from concurrent.futures import CancelledError
from typing import Any

from .console import Fault, library, read_bytes, shown
from .runs import Ended, Take, first_line

ADDRESS = re.compile(r"(tcp|tls)://\S+:[0-9]{1,5}")
# The name of the program, and that of the folder of its scripts, in the folder that a worker makes for them.
PROGRAM, SCRIPTS = "./program", "scripts"
# The command that counts a log on a worker, whose own Python runs it.
PYTHON = "python"
COUNT = [PYTHON, "-m", f"{__name__.rpartition('.')[0]}.there"]
PACKAGE = "python3-distributed"
SECONDS = 10
# How many runs are asked for at once for each thread of a worker, so that none waits for the next; how many at least.
AHEAD, JOBS_LEAST = 2, 8


class Files:
    """The files that each worker gets: a plugin of Dask, which writes files by their names into a folder."""

    def __init__(self, files: Mapping[str, bytes]) -> None:
        self.files, self.folder = dict(files), ""

    def setup(self, worker: Any) -> None:
        self.folder = tempfile.mkdtemp(prefix="sqs_rehearse-", dir=worker.local_directory)
        os.mkdir(os.path.join(self.folder, SCRIPTS))
        for name, data in self.files.items():
            path = os.path.join(self.folder, name)
            os.makedirs(os.path.dirname(path), exist_ok=True)
            with open(path, "wb") as file:
                file.write(data)
        os.chmod(os.path.join(self.folder, PROGRAM), 0o700)

    def teardown(self, worker: Any) -> None:
        shutil.rmtree(self.folder, ignore_errors=True)


def run_there(name: str, command: Sequence[str], data: bytes) -> tuple[int, bytes, bytes]:
    """Runs a command on a worker, in the folder of the plugin with a name; returns its status and both its outputs."""
    plugin: Any = importlib.import_module("distributed").get_worker().plugins[name]
    words = [sys.executable if word == PYTHON else word for word in command]
    ended = subprocess.run(words, input=data, capture_output=True, cwd=plugin.folder)
    return ended.returncode, ended.stdout, ended.stderr


def files_of(program: str, scripts: Mapping[str, bytes]) -> dict[str, bytes]:
    """All that a worker is sent, by its name in the worker's folder."""
    folder = pathlib.Path(__file__).resolve().parent
    package = {str(path.relative_to(folder.parent)): read_bytes(str(path))
               for pattern in ("*.py", "facts/*.csv") for path in sorted(folder.glob(pattern))}
    return {PROGRAM: read_bytes(program), **package,
            **{os.path.join(SCRIPTS, name): data for name, data in scripts.items()}}


def libraries() -> tuple[Any, Any]:
    """Dask, and what it sends functions by."""
    try:
        return library("distributed", PACKAGE), library("cloudpickle", PACKAGE)
    except Fault:
        raise Fault(f"--cluster needs Debian's package {PACKAGE}, which is for Debian's python3") from None


class Cluster:
    """A connection to the scheduler of a cluster, by which the program runs on its workers."""

    def __init__(self, address: str, program: str, scripts: Mapping[str, bytes]) -> None:
        if not ADDRESS.fullmatch(address):
            raise Fault(f"{shown(address)} is no address of a Dask scheduler, as tcp://HOST:8786")
        self.distributed, cloudpickle = libraries()
        logging.disable(logging.CRITICAL)
        warnings.filterwarnings("ignore", module="distributed")
        # what a worker is sent of this module does not ask for it there
        cloudpickle.register_pickle_by_value(sys.modules[__name__])
        self.name, self.is_cancelled, self.lock = f"sqs_rehearse-{os.urandom(8).hex()}", False, threading.Lock()
        self.futures: set[Any] = set()
        try:
            self.client = self.distributed.Client(address, timeout=SECONDS, set_as_default=False)
            self.client.register_worker_plugin(Files(files_of(program, scripts)), name=self.name)
        except Exception as error:
            raise Fault(f"cannot use the Dask scheduler at {address}: {reason_of(error)}") from None

    def jobs(self) -> int:
        """How many runs to ask for at once."""
        threads: int = sum(self.client.nthreads().values())
        return max(JOBS_LEAST, AHEAD * threads)

    def engine(self, command: list[str], text: str, take: Take) -> Ended:
        """Runs the program on some worker, which also counts the log if there is one. A run that is cancelled, or was
        lost with several workers, has a signal as its status."""
        if "--log" in command:
            status, out, err = self.ran(command, text.encode("utf-8", "replace"))
            return Ended(status, first_line(err), take(io.StringIO(out.decode("utf-8", "replace"), newline="")))
        status, out, err = self.ran(COUNT, pickle.dumps((command, text, take)))
        if status > 0:
            last = err.decode("utf-8", "replace").strip().rpartition("\n")[2]
            raise Fault(f"a worker of the cluster cannot count a log: {shown(last)}")
        return Ended(status, "", None) if status else Ended(*pickle.loads(out))

    def ran(self, command: Sequence[str], data: bytes) -> tuple[int, bytes, bytes]:
        """What `run_there` gives on some worker."""
        future = self.client.submit(run_there, self.name, command, data, pure=False)
        with self.lock:
            self.futures.add(future)
        if self.is_cancelled:
            future.cancel()
        try:
            status, out, err = future.result()
            return status, out, err
        except (CancelledError, self.distributed.CancelledError, self.distributed.comm.CommClosedError):
            if not self.is_cancelled:
                raise Fault("the Dask scheduler is lost") from None
            return -signal.SIGTERM, b"", b""
        except self.distributed.KilledWorker:
            return -signal.SIGKILL, b"", b""
        except Exception as error:
            # of a run that is cancelled the library may raise anything, such as a TypeError
            if self.is_cancelled:
                return -signal.SIGTERM, b"", b""
            raise Fault(f"a worker of the cluster cannot run the program: {reason_of(error)}") from None
        finally:
            with self.lock:
                self.futures.discard(future)

    def cancel(self) -> None:
        """Cancels what is under way."""
        self.is_cancelled = True
        with self.lock:
            futures = list(self.futures)
        self.client.cancel(futures)

    def close(self) -> None:
        """Takes the program away from the workers, and ends the connection."""
        try:
            self.client.unregister_worker_plugin(self.name)
            self.client.close(timeout=SECONDS)
        except Exception:
            # the scheduler is gone, and there is nothing to take away
            pass


def reason_of(error: Exception) -> str:
    """An error of a library in one line."""
    return shown(str(error).split("\n")[0] or type(error).__name__)
