"""Makes the package rehearse_tools into a wheel. pip calls it, as pyproject.toml says; it is not a command."""
from __future__ import annotations

import base64
import csv
import hashlib
import io
import pathlib
import zipfile
from typing import Any

HERE = pathlib.Path(__file__).resolve().parent
FILES = "rehearse_tools/*.py", "rehearse_tools/*.html", "rehearse_tools/facts/*.csv"


def record_of(name: str, data: bytes) -> tuple[str, str, int]:
    """The row of a file in the list of what a wheel has."""
    return name, "sha256=" + base64.urlsafe_b64encode(hashlib.sha256(data).digest()).decode().rstrip("="), len(data)


def build_wheel(wheel_directory: str, config_settings: Any = None, metadata_directory: str | None = None) -> str:
    """Writes the wheel into a folder, and gives its name."""
    version = (HERE / "VERSION").read_text(encoding="utf-8").strip()
    info, tag = f"rehearse_tools-{version}.dist-info", "py3-none-any"
    paths = [path for pattern in FILES for path in sorted(HERE.glob(pattern))]
    files = {path.relative_to(HERE).as_posix(): path.read_bytes() for path in paths}
    files[f"{info}/METADATA"] = (f"Metadata-Version: 2.1\nName: rehearse_tools\nVersion: {version}\n"
                                 "Requires-Python: >=3.9\n").encode()
    files[f"{info}/WHEEL"] = f"Wheel-Version: 1.0\nGenerator: make_wheel.py\nRoot-Is-Purelib: true\nTag: {tag}\n".encode()
    record = io.StringIO()
    csv.writer(record, lineterminator="\n").writerows([*(record_of(*item) for item in files.items()),
                                                       (f"{info}/RECORD", "", "")])
    files[f"{info}/RECORD"] = record.getvalue().encode()
    name = f"rehearse_tools-{version}-{tag}.whl"
    with zipfile.ZipFile(pathlib.Path(wheel_directory, name), "w", zipfile.ZIP_DEFLATED) as archive:
        for path, data in files.items():
            archive.writestr(path, data)
    return name
