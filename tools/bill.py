"""The bill of materials of a package, in the JSON of CycloneDX: the program with the crates that are in it, the
libraries of the kit that these use, and the page. tools/package imports it; it is not a command."""
from __future__ import annotations

import json
import os
import re
import time
from collections.abc import Mapping, Sequence
from typing import Any

import crate_list
import debian
import release
from rehearse_tools.console import read_bytes, read_text
from rehearse_tools.programs import TOP

CRATES = os.path.join(TOP, "crates.txt")
# The libraries in the page, with their versions.
LICENCES, IN_PAGE = os.path.join(TOP, "page", "licences.txt"), re.compile(r"\b([a-z]+) ([0-9]+[.][0-9]+[.][0-9]+)")
# What the tools in Python ask for, by Debian's names of the packages.
FOR_TOOLS = ("python3", "python3-yaml", "python3-matplotlib", "python3-plotly", "python3-scipy")


def component(kind: str, name: str, version: str = "", sum_of: str = "", **more: Any) -> dict[str, Any]:
    """A part of the package, with what is known of it."""
    found: dict[str, Any] = {"type": kind, "bom-ref": f"{kind}:{name}", "name": name, "version": version, **more}
    if sum_of:
        found["hashes"] = [{"alg": "SHA-256", "content": sum_of}]
    return {key: value for key, value in found.items() if value != ""}


def libraries_of(names: Sequence[str]) -> list[str]:
    """The libraries of the kit that some crates name."""
    own = set(crate_list.read(CRATES))
    found: set[str] = set()
    for line in read_text(CRATES).splitlines():
        name, colon, below = line.partition("#")[0].partition(":")
        if colon and name.split()[0] in names:
            found.update(word for word in below.split() if word not in own)
    return sorted(found)


def manifest_words(manifest: bytes | None) -> Mapping[str, str]:
    """What a manifest of dist/ says, by its keys; nothing without one."""
    lines = (manifest or b"").decode().splitlines()
    return {key: rest for key, _, rest in (line.partition(" ") for line in lines) if key != "#"}


def components(program: bytes, version: str) -> list[dict[str, Any]]:
    """All parts: what is in the package, and then what it asks for of the system."""
    crates = sorted({"sqs_rehearse", *crate_list.below(crate_list.read(CRATES), "sqs_rehearse")})
    known = manifest_words(release.manifest_for(program))
    kit = known.get("kit", "")
    found = [component("library", name, version) for name in crates if name != "sqs_rehearse"]
    found += [component("library", name, group="rattle-kit", version=kit) for name in libraries_of(crates)]
    if os.path.exists(release.PAGE):
        found.append(component("file", "dist/playground.html", version, release.sum_of(read_bytes(release.PAGE))))
        found += [component("library", name, its_version, group="dist/playground.html")
                  for name, its_version in IN_PAGE.findall(read_text(LICENCES))]
    needs = debian.library_version(program)
    found += [component("library", "libc6", scope="required", version=f">= {needs}")] if needs else []
    return found + [component("library", name, scope="optional") for name in FOR_TOOLS]


def text_of(program: bytes, version: str, moment: int) -> bytes:
    """The bill of a package; the same files and version give the same."""
    known = manifest_words(release.manifest_for(program))
    properties = [{"name": f"dist:{key}", "value": known[key]} for key in ("kit", "sources") if key in known]
    whole = component("application", "sqs_rehearse", version, release.sum_of(program), properties=properties)
    parts = components(program, version)
    crates = [part["bom-ref"] for part in parts if "scope" not in part]
    bill = {"bomFormat": "CycloneDX", "specVersion": "1.5", "version": 1,
            "metadata": {"timestamp": time.strftime("%Y-%m-%dT%H:%M:%SZ", time.gmtime(moment)), "component": whole},
            "components": parts, "dependencies": [{"ref": whole["bom-ref"], "dependsOn": crates}]}
    return (json.dumps(bill, indent=2) + "\n").encode()
