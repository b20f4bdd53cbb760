"""Reads docs/REFUSALS.md, the one table of what refusals mean, for the tools beside this file.

Each row is a `Fact`: a kind, of what it is where a kind has several rows, what its number counts, and the row's sentences.
"""
import dataclasses
import os
import re

import listing

TOP = os.path.dirname(os.path.dirname(os.path.abspath(__file__)))
PAGE = os.path.join(TOP, "docs", "REFUSALS.md")
# What the number of a refusal counts, by the heading over its row.
NUMBERS = {"Places in bytes": "byte", "Numbers of nodes": "node", "Lines of a script": "line"}
ROW = re.compile(r"\| `([A-Za-z0-9]+)`(?: of ([^|]*?))? \| (.*?) \| (.*?) \| (.*?) \| (.*) \|")
EXAMPLE = re.compile(r"`([^`]*)` gives `(refused [^`]*)`")
LINK = re.compile(r"\[([^\]]*)\]\(([^)]*)\)")
REPEATED = re.compile(r"\((\d+) times (.*?)\)", re.DOTALL)
BYTE = re.compile(rb"\\x([0-9A-F]{2})")


@dataclasses.dataclass(frozen=True)
class Fact:
    """A row of the page. `of` is empty where the kind has one row under its heading."""

    kind: str
    of: str
    number: str
    cause: str
    cure: str
    limit: str
    example: str
    answer: str


def plain(cell: str) -> str:
    """The words of a cell, with the paths of pages in place of links."""
    return LINK.sub(r"docs/\2", cell)


def read_page() -> str:
    with open(PAGE, encoding="utf-8") as file:
        return file.read()


def read_facts(text: str) -> list[Fact]:
    """The rows of the page in order."""
    facts, number = [], None
    for line in text.splitlines():
        if line.startswith("## "):
            number = NUMBERS.get(line[3:])
        row = ROW.fullmatch(line)
        if row and number:
            facts.append(fact_of(row, number))
    return facts


def fact_of(row: re.Match[str], number: str) -> Fact:
    kind, of, cause, cure, limit, example = row.groups()
    shown = EXAMPLE.fullmatch(example)
    if shown is None and not example.startswith("none: "):
        raise listing.InputError(f"docs/REFUSALS.md: the example of {kind} gives no line `refused ..`")
    return Fact(kind, (of or "").strip("`"), number, plain(cause), plain(cure), plain(limit), *(shown.groups() if shown else ("", "")))


def examples(text: str) -> list[tuple[str, str]]:
    """Each example of the page, in a row or in a sentence, with its line."""
    return EXAMPLE.findall(text)


def input_of(example: str) -> bytes:
    """The bytes that an example stands for."""
    text = REPEATED.sub(lambda found: int(found[1]) * found[2], example).replace("\\n", "\n")
    return BYTE.sub(lambda found: bytes([int(found[1], 16)]), text.encode("utf-8"))


def command_of(example: str) -> str:
    return "edit" if "\\n" in example else "layout"
