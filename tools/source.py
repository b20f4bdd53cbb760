"""Reads the nodes of a document, for the tools beside this file: their numbers, their parents, and where they are written.

It takes documents that wm_layout lays out (docs/PROFILE/html.md and nodes.md) and judges nothing but how tags nest.
"""
import argparse
import dataclasses
import itertools
import re
from collections.abc import Iterable, Iterator

import listing

TOKEN = re.compile(r"<!--.*?-->|<(?!!--)[^>\"']*(?:(?:\"[^\"]*\"|'[^']*')[^>\"']*)*>|[^<]+", re.DOTALL)
TAG = re.compile(r"<(/?)([A-Za-z][A-Za-z0-9_-]*)")


@dataclasses.dataclass
class Node:
    """A node: its parent's number, its tag or nothing where it is a text, and the places of its characters in the document."""

    parent: int | None
    tag: str | None
    begin: int
    end: int


class Nodes:
    """Finds the nodes of a document from left to right."""

    def __init__(self) -> None:
        self.nodes: list[Node] = []
        self.open: list[int] = []
        # Where the text of each style sheet begins and ends.
        self.sheets: list[tuple[int, int]] = []
        self.in_head = False

    def add(self, tag: str | None, begin: int, end: int) -> int:
        self.nodes.append(Node(self.open[-1] if self.open else None, tag, begin, end))
        return len(self.nodes) - 1

    def text(self, begin: int, end: int) -> None:
        # Text on both sides of a comment is one node.
        last = self.nodes[-1]
        if last.tag is None and last.parent == self.open[-1]:
            last.end = end
        else:
            self.add(None, begin, end)

    def start(self, tag: str, begin: int, end: int) -> None:
        number = self.add(tag, begin, end)
        if tag != "br":
            self.open.append(number)

    def stop(self, tag: str, begin: int, end: int) -> None:
        if not self.open or self.nodes[self.open[-1]].tag != tag:
            raise listing.InputError(f"the document's tags don't nest at character {begin}")
        self.nodes[self.open.pop()].end = end

    def in_body(self) -> bool:
        return len(self.open) > 1


def tokens(found: Nodes, text: str) -> Iterator[int]:
    """Where each token of a document begins, which is read once the next one is asked for. What follows `</html>` is none."""
    at = 0
    while at < len(text) and not (found.nodes and not found.open):
        yield at
        at = step(found, text, at)


def walk(found: Nodes, text: str) -> None:
    """Finds the nodes and sheets of a document, up to where it breaks off."""
    for _ in tokens(found, text):
        pass
    if found.open or len(found.nodes) < 2:
        raise listing.InputError("this is no whole document")


@dataclasses.dataclass(frozen=True)
class Front:
    """What stands before a token: how many nodes, whether the body or the head is open, and where the token begins."""

    nodes: int
    in_body: bool
    in_head: bool
    begin: int


def front_at(text: str, place: int) -> Front:
    """What stands before the token at a place, as far as the tags before it nest."""
    found, front = Nodes(), Front(0, False, False, 0)
    try:
        for begin in tokens(found, text):
            if begin > place:
                break
            front = Front(len(found.nodes), found.in_body(), found.in_head, begin)
    except listing.InputError:
        pass
    return front


def read_nodes(text: str) -> list[Node]:
    """The nodes of a document by their numbers."""
    found = Nodes()
    walk(found, text)
    return found.nodes


def step(found: Nodes, text: str, at: int) -> int:
    """Reads one token and gives the place behind it."""
    token = TOKEN.match(text, at)
    if token is None:
        raise listing.InputError(f"the document breaks off at character {at}")
    tag, end = TAG.match(token[0]), token.end()
    if tag is None:
        if found.in_body() and not token[0].startswith("<!"):
            found.text(at, end)
        return end
    name = tag[2].lower()
    if not found.in_body() and name not in ("html", "body"):
        return behind_head_tag(found, text, tag[1], name, end)
    if tag[1]:
        found.stop(name, at, end)
    else:
        found.start(name, at, end)
    return end


def behind_head_tag(found: Nodes, text: str, slash: str, name: str, end: int) -> int:
    """The place behind a tag of the head, and behind the text of a title or a style sheet, which may look like anything."""
    if name == "head":
        found.in_head = not slash
    if slash or name not in ("title", "style"):
        return end
    closed = re.compile(rf"</{name}[\t\n\f\r ]*>", re.IGNORECASE | re.ASCII).search(text, end)
    if name == "style":
        found.sheets.append((end, closed.start() if closed else len(text)))
    return closed.end() if closed else len(text)


def script_begin(text: str, nodes: list[Node]) -> int:
    """Where the script behind a document begins: on the line after the one on which the document ends."""
    line_feed = text.find("\n", nodes[0].end)
    return len(text) if line_feed < 0 else line_feed + 1


def depth_of(nodes: list[Node], number: int | None) -> int:
    """How deep a node stands, where `html` is at 1."""
    depth = 0
    while number is not None:
        number, depth = nodes[number].parent, depth + 1
    return depth


def decoded(data: bytes) -> str:
    """The text of a document's bytes, without the mark that may stand at its start."""
    try:
        return data.decode("utf-8").removeprefix("\ufeff")
    except UnicodeDecodeError as error:
        raise listing.InputError(f"the document is no UTF-8 at byte {error.start}") from None


def parents_of(nodes: list[Node]) -> listing.Parents:
    return {number: node.parent for number, node in enumerate(nodes)}


def check_nodes(nodes: list[Node], parts: Iterable[listing.Part]) -> None:
    """Refuses a document that is of another listing. Nodes past its own may have come by a script."""
    pages = [part for part in parts if not isinstance(part, listing.Refusal)]
    for fragment in itertools.chain.from_iterable(page.fragments for page in pages):
        if fragment.node < len(nodes) and (nodes[fragment.node].tag is None) != (fragment.kind == "run"):
            found = "a text" if fragment.kind == "run" else "an element"
            due = f"a <{nodes[fragment.node].tag}>" if nodes[fragment.node].tag else "a text"
            raise listing.InputError(f"the document is of another listing: node {fragment.node} is {found} there and {due} in it")


def nodes_in(path: str | None, parts: Iterable[listing.Part]) -> list[Node] | None:
    """The nodes of the document in a file; nothing where no file is given. It has to be that of the pages."""
    if path is None:
        return None
    nodes = read_nodes(decoded(listing.read_input(path)))
    check_nodes(nodes, parts)
    return nodes


def parents_in(path: str | None, parts: Iterable[listing.Part]) -> listing.Parents | None:
    """The parent of each node of the document in a file; nothing where no file is given. It has to be that of the pages."""
    nodes = nodes_in(path, parts)
    return None if nodes is None else parents_of(nodes)


def add_document(parser: argparse.ArgumentParser) -> None:
    """The option for the document of the listing."""
    parser.add_argument("--document", metavar="DOCUMENT", help="the document of the listing, which settles what stands in what")
