"""Makes manual pages from the help texts that helps.py reads. tools/package imports it; it is not a command.

The page of a tool has its first commands as the synopsis; its lists of options and its examples are sections too. The
page of the program has a section for each of its words, and a list of the tools.
"""
import re
import textwrap
import time
from collections.abc import Iterable, Mapping, Sequence

import helps

# mandoc wants lines of at most 80 bytes.
LINE_MOST = 78
SPECIAL = {"\\": r"\e", "'": r"\(aq", "`": r"\(ga", "^": r"\(ha", "~": r"\(ti"}
# Hyphenates no word, as commands are among them. The ends of a synopsis and of an example take this back.
WHOLE_WORDS = ".nh"
# How a page is set: flush left on a terminal, and one space after a sentence, as in the help texts.
SETTING = [".if n .ad l", ".ss 12 0", WHOLE_WORDS]
# What is bold in a text; and what is bold or slanted in a synopsis, where a word in capitals stands for another.
BOLD = re.compile(r"`[^`]*`|(?<![\w-])--?[a-z][a-z0-9-]*")
MARKED = re.compile(rf"(?P<bold>{BOLD.pattern})|(?P<slanted><[a-z]+>|(?<![\w.])[A-Z][A-Z0-9]*(?:\.[A-Za-z]+)*(?!\w))")
# What stays in one line of a synopsis.
TOGETHER = re.compile(r"\[[^\]]*\]|'[^']*'|\S+")


def escaped(text: str, is_literal: bool = False) -> str:
    """A text in which roff finds no command of its own. In commands to type, hyphens are those of ASCII."""
    text = "".join(SPECIAL.get(letter, letter if letter < "\x7f" else f"\\[u{ord(letter):04X}]") for letter in text)
    return text.replace("-", r"\-") if is_literal else text


def marked(text: str, pattern: re.Pattern[str] = BOLD, is_literal: bool = False) -> str:
    """A text in which the matches of a pattern are bold or slanted."""
    made, at = "", 0
    for match in pattern.finditer(text):
        font = "I" if match.groupdict().get("slanted") else "B"
        made += escaped(text[at:match.start()], is_literal)
        made += rf"\f{font}{escaped(match[0].strip('`'), is_literal=True)}\fR"
        at = match.end()
    return made + escaped(text[at:], is_literal)


def lines_of(text: str) -> list[str]:
    """The lines of a text, which roff fills anew; none is a command of roff."""
    return [guarded(line) for line in textwrap.wrap(text, LINE_MOST, break_long_words=False, break_on_hyphens=False)]


def guarded(line: str) -> str:
    return f"\\&{line}" if line.startswith((".", "'")) else line


def synopsis(command: str, known: Sequence[str]) -> list[str]:
    """A command of the synopsis. Its next lines begin in the column where its first words end."""
    head = next((words for words in known if command.startswith(words + " ")), command.split(" ", 1)[0])
    rest = [marked(piece, MARKED, is_literal=True).replace(" ", r"\~")
            for piece in TOGETHER.findall(command[len(head):])]
    return [f'.SY "{escaped(head, is_literal=True)}"', *lines_of(" ".join(rest)), ".YS"]


def synopses(commands: Iterable[str], known: Sequence[str]) -> list[str]:
    """The section of the synopsis."""
    return ['.SH "SYNOPSIS"', *(line for command in commands for line in synopsis(command, known)), WHOLE_WORDS]


def example(commands: Iterable[str]) -> list[str]:
    """Commands, printed as they are."""
    return [".RS 4", ".EX", *(guarded(escaped(command, is_literal=True)) for command in commands), ".EE", ".RE",
            WHOLE_WORDS]


def body(block: helps.Block) -> list[str]:
    """A block as part of a section."""
    if block.kind == "commands":
        return [".PP", *example(block.rows)]
    if block.kind == "paragraph":
        return [".PP", *lines_of(marked(block.lead))]
    lead = [".PP", *lines_of(marked(block.lead))] if block.lead else []
    if not any(text for _, text in block.rows):
        return [*lead, *example(term for term, _ in block.rows)]
    return [*lead, *(line for term, text in block.rows for line in (".TP", term_of(term), *lines_of(marked(text))))]


def term_of(term: str) -> str:
    """The term of a list: an option with what it takes, or words that are bold as a whole."""
    has_marks = MARKED.match(term) is not None
    return marked(term, MARKED, is_literal=True) if has_marks else rf"\fB{escaped(term, is_literal=True)}\fR"


def section(name: str, blocks: Iterable[helps.Block], macro: str = ".SH") -> list[str]:
    """A section of blocks, or nothing if there are none. Its first paragraph needs no command before it."""
    lines = [line for block in blocks for line in body(block)]
    return [f'{macro} "{escaped(name, is_literal=True)}"', *lines[lines[0] == ".PP":]] if lines else []


def head(name: str, purpose: str, version: str, moment: float) -> list[str]:
    """The head of a page, with the purpose of its command. Its foot has room for the version without the commit."""
    day = time.strftime("%Y-%m-%d", time.gmtime(moment))
    title, version = escaped(name.upper(), is_literal=True), version.partition("+")[0]
    return [f'.TH "{title}" 1 "{day}" "sqs_rehearse {escaped(version)}" "User Commands"', *SETTING,
            '.SH "NAME"', *lines_of(rf"{escaped(name, is_literal=True)} \- {escaped(purpose)}")]


def see_also(names: Iterable[str], documents: str) -> list[str]:
    pages = [rf"\fB{escaped(name, is_literal=True)}\fR(1)," for name in names]
    return ['.SH "SEE ALSO"', *pages, *lines_of(f"and the documents in {escaped(documents, is_literal=True)}")]


def is_options(block: helps.Block) -> bool:
    return block.kind == "list" and all(term.startswith("-") for term, _ in block.rows)


def page_of_tool(name: str, text: str, about: tuple[str, float], documents: str) -> str:
    """The page of a tool. `about` is the version and its moment; `documents` the folder of the documents."""
    first, usage, *blocks = helps.blocks_of(text)
    options = [block for block in blocks if is_options(block)]
    examples = [block for pair in zip(blocks, blocks[1:]) if pair[1].kind == "commands" for block in pair]
    description = [first._replace(lead=first.lead.rstrip(":.") + "."),
                   *(block for block in blocks if block not in options and block not in examples)]
    lines = [*head(f"sqs_rehearse-{name}", helps.purpose_of(text), *about),
             *synopses(usage.rows, [f"sqs_rehearse {name}", "sqs_rehearse run"]),
             *section("DESCRIPTION", description), *section("OPTIONS", options), *section("EXAMPLES", examples),
             *see_also(["sqs_rehearse"], documents)]
    return "\n".join(lines) + "\n"


def page_of_program(help_of: helps.Texts, tools: Mapping[str, str], about: tuple[str, float], documents: str) -> str:
    """The page of the program. `help_of` has the help texts of ./sqs_rehearse, of the program itself, and of its words
    by name; `tools` has those of the tools by name."""
    first, own, words = help_of
    blocks = [block for block in helps.blocks_of(first)
              if block not in helps.blocks_of(own) and not is_of_tools(block, tools)]
    purpose = re.split("[.,:;]", blocks[0].lead, 1)[0].removeprefix("sqs_rehearse ")
    usage = [*filter(None, map(helps.usage_of, words.values())), "sqs_rehearse TOOL [WORD ...]"]
    of_words = [line for word, text in words.items() for line in section(f"sqs_rehearse {word}", [
        block for block in helps.blocks_of(text) if not helps.is_usage(block)], ".SS")]
    of_tools = helps.Block("list", "", [[name, helps.purpose_of(text)] for name, text in tools.items()])
    known = [f"sqs_rehearse {word}" for word in words]
    lines = [*head("sqs_rehearse", purpose, *about),
             *synopses(usage, known),
             *section("DESCRIPTION", blocks), *(['.SH "COMMANDS"', *of_words] if words else []),
             *section("TOOLS", [of_tools]), *see_also([f"sqs_rehearse-{name}" for name in tools], documents)]
    return "\n".join(lines) + "\n"


def is_of_tools(block: helps.Block, tools: Mapping[str, str]) -> bool:
    """Whether a block is the list of the tools, for which the page has a section."""
    return block.kind == "list" and all(term.split()[-1] in tools for term, _ in block.rows)
