"""What a program writes for a scenario, unless that is long."""
from __future__ import annotations

import subprocess
import tempfile
from collections.abc import Sequence

MOST_BYTES = 2_000_000


def short_output(words: Sequence[str], source: bytes) -> bytes | None:
    """What a run writes, or nothing if that is long. A run that fails raises CalledProcessError."""
    with tempfile.TemporaryFile() as file:
        file.write(source)
        file.seek(0)
        with subprocess.Popen(words, stdin=file, stdout=subprocess.PIPE, stderr=subprocess.DEVNULL) as process:
            assert process.stdout
            output = process.stdout.read(MOST_BYTES + 1)
            if len(output) > MOST_BYTES:
                process.kill()
                return None
        if process.returncode:
            raise subprocess.CalledProcessError(process.returncode, list(words))
        return output
