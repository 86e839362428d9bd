"""The text of the page: the files of page/ in one, with the module, the examples and the help on each key. tools/page
imports it; it is not a command."""
import base64
import binascii
import gzip
import hashlib
import html
import json
import os
import re
import shutil
import subprocess
import tempfile
from collections.abc import Iterable
from typing import Any

import release
from rehearse_tools import explain, scripts, summaries
from rehearse_tools.console import Fault, read_bytes, read_text, refuse, write_bytes
from rehearse_tools.fact_tables import rows_of
from rehearse_tools.keys import ACTORS, ITEMS, VERSIONS, Key, keys_of
from rehearse_tools.programs import TOP
from rehearse_tools.scenarios import parsed

PARTS = os.path.join(TOP, "page")
# The modules with which the page and its worker begin.
PAGE, WORKER = "app.js", "worker.js"
# What puts a module and those that it imports into one script, for browsers of mid-2023 and later, and where Debian's
# packages have libraries. Another version may give other bytes.
BUNDLER, BUNDLER_VERSION, LIBRARIES = "esbuild", "0.17.0", "/usr/share/nodejs"
BUNDLED = ("--bundle", "--minify", "--format=iife", "--target=es2022", "--log-level=warning")
FIRST = "retries/three_tries.toml"
TO_BEGIN = "What is a scenario?"
# What those that list or show the page say of it.
TITLE = "What will our SQS queues do?"
ABOUT = ("Change a number and look: a proved simulator plays a network of Amazon SQS queues with its producers and "
         "consumers. All of it runs in the page.")
PREVIEW_PICTURE = "preview.png"
QUESTION = re.compile(r"\]\(examples/([a-z_]+)/README[.]md\)")
# A number of a queue, an actor or a task that a command line of a README varies.
VARIED = re.compile(r"--vary '?((?:queue|actor|task)[.][^ =']+[.][a-z_]+)=")
MODULE = re.compile(rb'<script type="text/plain" id="module">([A-Za-z0-9+/=]*)</script>')
MARK = re.compile("@([A-Z]+)@")
# What the page may do: its own script and style, compiled code, and a worker of its own text. Nothing is loaded.
POLICY = ("default-src 'none'; script-src 'sha256-{script}' 'wasm-unsafe-eval'; worker-src blob:; "
          "style-src 'sha256-{style}'; img-src data:; base-uri 'none'; form-action 'none'")
SCHEMA_OF = {"": "", "queue": "queue", "task": "task", "script": "script", "producer": "producer",
             "consumer": "consumer", "scaler": "scaler"}


def module_in(path: str, page: bytes) -> bytes:
    """The module that a page has."""
    found = MODULE.search(page)
    if not found:
        raise Fault(f"{path} is no module of WebAssembly, and no page with one")
    try:
        return gzip.decompress(base64.b64decode(found[1]))
    except (binascii.Error, OSError, EOFError):
        raise Fault(f"{path} is a page whose module cannot be unpacked") from None


def examples() -> list[dict[str, Any]]:
    """The scenarios in examples/, each with its folder, the question that this folder's
    README asks, the numbers that it varies, what the scenario answers by its own first line, its version and its text.
    Those of no folder come first, and the others in the order of the questions in the README of the whole.
    """
    found: list[dict[str, Any]] = []
    for folder in ("", *QUESTION.findall(read_text(os.path.join(TOP, "README.md")))):
        place = os.path.join(TOP, "examples", folder)
        readme = read_text(os.path.join(place, "README.md")) if folder else TO_BEGIN
        question = first_line(readme)
        texts = {name: read_text(os.path.join(place, name)) for name in sorted(os.listdir(place))
                 if name.endswith(".toml")}
        tables = {name: parsed(text, name) for name, text in texts.items()}
        differ = differing(tables.values()) if folder else []
        varies = list(dict.fromkeys([*VARIED.findall(readme), *differ]))
        found += [{"folder": folder, "name": name, "question": question, "varies": varies, "text": text,
                   "answer": first_line(text).removeprefix(question).strip(), "version": tables[name]["version"]}
                  for name, text in sorted(texts.items(), key=lambda it: [
                      numbers_of(tables[it[0]]).get(path, -1) for path in varies])]
    return found


def numbers_of(scenario: dict[str, Any]) -> dict[str, int]:
    """The numbers of a scenario, as `sweep` names them. Names that end in a number are taken as one."""
    return {f"{of}.{re.sub(r'-[0-9]+$', '-*', table['name'])}.{key}": value
            for of in ("queue", "actor", "task") for table in scenario.get(of, []) for key, value in table.items()
            if isinstance(value, int) and not isinstance(value, bool)}


def differing(scenarios: Iterable[dict[str, Any]]) -> list[str]:
    """The numbers by which some scenarios differ, of tables of the same name; one of them may lack the number."""
    all_numbers = [numbers_of(scenario) for scenario in scenarios]

    def values(path: str) -> set[int | None]:
        table = f"{path.rpartition('.')[0]}."
        return {numbers.get(path) for numbers in all_numbers if any(other.startswith(table) for other in numbers)}

    return [path for path in dict.fromkeys(path for numbers in all_numbers for path in numbers) if len(values(path)) > 1]


def first_line(text: str) -> str:
    """What the heading or the comment says with which a text begins."""
    return text.partition("\n")[0].removeprefix("#").strip()


def abouts() -> dict[str, dict[str, str]]:
    """What the schema says of each key, by the kind of its table, the top one being without a name."""
    schema = json.loads(read_text(os.path.join(TOP, "docs", "scenario.schema.json")))
    tables = {"": schema, **schema["definitions"]}
    return {name: {key: about["description"] for key, about in tables[name]["properties"].items()
                   if isinstance(about, dict) and "description" in about} for name in SCHEMA_OF}


def key_of(key: Key, about: str) -> dict[str, Any]:
    return {**key._asdict(), "about": about, "items": ITEMS.get(key.name)}


def keys() -> dict[str, list[dict[str, Any]]]:
    """The keys of each kind of table, by its kind, that of an actor, and the version."""
    told, found = abouts(), {}
    for version in VERSIONS:
        for of, kind in (("", ""), ("queue", ""), ("task", ""), ("actor", ""), *(("actor", kind) for kind in ACTORS)):
            about = told[kind or ("producer" if of == "actor" else of)]
            found[f"{of}/{kind}/{version}"] = [key_of(key, about.get(key.name, ""))
                                               for key in keys_of(of, kind or None, version)]
    return found


def rules() -> dict[str, dict[str, str]]:
    """What tools/explain says of names, and of lists and their items by their kinds."""
    return {"names": explain.NAMES, "lists": explain.LISTS, "forms": explain.ITEM_FORMS, "rules": explain.ITEM_RULES}


def printed_by_summary() -> dict[str, Any]:
    """What tools/summary prints: the lines of a queue but for those of --door, each with the name of what writes its
    number, and which are shares of what came in. And the kinds of actors, and the first record of a script."""
    lines = [{"key": row["key"], "label": row["label"], "always": bool(row["always"]), "written": row["written"]}
             for row in rows_of("lines") if not row["key"].startswith("door_")]
    return {"BACKLOG": summaries.BACKLOG, "SHARES": summaries.SHARES, "LINES": lines, "ACTORS": list(ACTORS),
            "SCRIPT_HEADER": ",".join(scripts.HEADER)}


def write_modules(folder: str) -> None:
    """Writes the modules of the page into a folder, and facts.js, which has what the repository tells the page."""
    for name in sorted(os.listdir(PARTS)):
        if name.endswith(".js") or name == "package.json":
            write_bytes(os.path.join(folder, name), read_bytes(os.path.join(PARTS, name)))
    facts = {"KEYS": keys(), "RULES": rules(), "EXAMPLES": examples(), "FIRST": FIRST, **printed_by_summary()}
    text = "".join(f"export const {name} = {as_json(value)};\n" for name, value in facts.items())
    write_bytes(os.path.join(folder, "facts.js"), text.encode())


def missing() -> str:
    """What is missing to put the modules together; '' if nothing is."""
    if shutil.which(BUNDLER) is None:
        return f"{BUNDLER} is missing: Debian's package {BUNDLER} has it"
    return "" if os.path.exists(os.path.join(LIBRARIES, "dagre")) else "dagre is missing: Debian's package node-dagre-layout has it"


def bundler_fault() -> str:
    """Why the page of dist/ cannot be made again here, to the byte; '' if it can."""
    if missing():
        return missing()
    version = release.printed_by([BUNDLER, "--version"]).decode().strip()
    return "" if version == BUNDLER_VERSION else f"{BUNDLER} is {version} and not {BUNDLER_VERSION}, so that its bytes differ"


def bundled(folder: str, name: str) -> str:
    """A module in a folder with those that it imports, as one script."""
    refuse(missing(), missing())
    ran = subprocess.run([BUNDLER, name, *BUNDLED], cwd=folder, stdin=subprocess.DEVNULL, capture_output=True, text=True,
                         env={**os.environ, "NODE_PATH": LIBRARIES})
    refuse(ran.returncode, f"{BUNDLER} cannot put page/{name} together: {ran.stderr.strip()}")
    return ran.stdout


def as_json(value: Any) -> str:
    """JSON as a script takes it, with nothing in it that could end the script."""
    return json.dumps(value, separators=(",", ":"), sort_keys=True).replace("<", "\\u003c")


def checked(text: str, what: str) -> str:
    """A text that stands between tags as it is."""
    refuse(re.search("</(script|style)|<!--", text, re.I), f"{what} has a text that ends the script of the page")
    return text


def sum_of(text: str) -> str:
    """A checksum as a policy of a page names it."""
    return base64.b64encode(hashlib.sha256(text.encode()).digest()).decode()


def about_site(address: str) -> str:
    """What the page of a site says of itself to those that list or show it: its picture has to have a whole address."""
    told = {"og:type": "website", "og:title": TITLE, "og:description": ABOUT, "og:url": address,
            "og:image": f"{address}{PREVIEW_PICTURE}", "twitter:card": "summary_large_image"}
    lines = (f'<meta property="{html.escape(name)}" content="{html.escape(value)}">\n' for name, value in told.items())
    return f'<link rel="canonical" href="{html.escape(address)}">\n{"".join(lines)}'


def page_of(module: bytes, address: str | None = None) -> bytes:
    """The page with a module in it; that of a site with its address, which ends in a slash."""
    with tempfile.TemporaryDirectory() as folder:
        write_modules(folder)
        script, worker = (checked(f"\n{bundled(folder, name)}", f"page/{name}") for name in (PAGE, WORKER))
    style = checked(f"\n{read_text(os.path.join(PARTS, 'page.css'))}", "page/page.css")
    version = read_text(os.path.join(TOP, "tools", "VERSION")).strip()
    parts = {"STYLE": style, "SCRIPT": script, "WORKER": worker,
             "POLICY": POLICY.format(script=sum_of(script), style=sum_of(style)),
             "MODULE": base64.b64encode(release.packed(module)).decode(),
             "VERSIONS": f"version {version}, module {release.sum_of(module)}", "ABOUT": html.escape(ABOUT),
             "LICENCES": html.escape(read_text(os.path.join(PARTS, "licences.txt"))),
             "SITE": about_site(address) if address else ""}
    page = MARK.sub(lambda mark: parts[mark[1]], read_text(os.path.join(PARTS, "page.html")))
    return page.encode()
