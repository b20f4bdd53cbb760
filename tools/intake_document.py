"""Writes the documents that tools/take-in makes, measures them by the engine's limits and cuts what passes them."""
import dataclasses
import html
from collections.abc import Iterator

from intake_tree import Child, Element

# docs/PROFILE/limits.md.
MOST_BYTES = 1_048_576
MOST_NODES = 65_536
MOST_TURNED = 6
# `html` and `body`.
ROOTS = 2


@dataclasses.dataclass
class Document:
    """A document in its parts: the title, the sheet, and the tree from `html` on."""

    title: str
    sheet: str
    root: Element

    def text(self) -> str:
        return f"{self.front()}{element_text(self.body())}\n</html>\n"

    def front(self) -> str:
        """All before the body."""
        style = f"<style>\n{self.sheet}</style>\n" if self.sheet else ""
        title = f"<title>{escaped(self.title)}</title>\n" if self.title else ""
        return f'<!DOCTYPE html>\n{start_tag(self.root)}\n<head>\n<meta charset="utf-8">\n{title}{style}</head>\n'

    def body(self) -> Element:
        return self.root.elements()[0]

    def with_content(self, children: list[Child]) -> "Document":
        """The same document with another content of the body."""
        body = dataclasses.replace(self.body(), children=children)
        return Document(self.title, self.sheet, dataclasses.replace(self.root, children=[body]))


# The text of a document.

def escaped(text: str) -> str:
    return html.escape(text, quote=False).replace("\u00a0", "&nbsp;")


def start_tag(element: Element) -> str:
    attributes = (attribute_text(name, value) for name, value in element.attributes.items())
    return f"<{element.tag}{''.join(attributes)}>"


def attribute_text(name: str, value: str) -> str:
    return ' {}="{}"'.format(name, value.replace("&", "&amp;").replace('"', "&quot;"))


def element_text(element: Element) -> str:
    if element.tag == "br":
        return start_tag(element)
    content = "".join(escaped(each) if isinstance(each, str) else element_text(each) for each in element.children)
    return f"{start_tag(element)}{content}</{element.tag}>"


# How large a part of it is.

@dataclasses.dataclass(frozen=True)
class Size:
    """How many bytes something takes, and how many nodes."""

    bytes: int
    nodes: int

    def __add__(self, other: "Size") -> "Size":
        return Size(self.bytes + other.bytes, self.nodes + other.nodes)

    def __sub__(self, other: "Size") -> "Size":
        return Size(self.bytes - other.bytes, self.nodes - other.nodes)

    def fits(self, room: "Size") -> bool:
        return self.bytes <= room.bytes and self.nodes <= room.nodes


def byte_count(text: str) -> int:
    return len(text.encode("utf-8"))


def size_of(part: Child) -> Size:
    if isinstance(part, str):
        return Size(byte_count(escaped(part)), 1)
    return sum(map(size_of, part.children), tags_size(part))


def tags_size(element: Element) -> Size:
    end = "" if element.tag == "br" else f"</{element.tag}>"
    return Size(byte_count(start_tag(element) + end), 1)


def passed_limits(document: Document) -> Iterator[str]:
    """The limits that a document passes, as words."""
    found = size_of(document.root)
    count = byte_count(document.text())
    if count > MOST_BYTES:
        yield f"{count:,} bytes, where the engine takes {MOST_BYTES:,}"
    if found.nodes > MOST_NODES:
        yield f"{found.nodes:,} nodes, where the engine takes {MOST_NODES:,}"


# Cutting.

def parts_of(document: Document) -> list[Document]:
    """Documents within the limits that have the content of one after the other."""
    frame = document.with_content([])
    room = Size(MOST_BYTES - byte_count(frame.text()), MOST_NODES - ROOTS)
    if room.bytes <= 0:
        return [document]
    return [document.with_content(children) for children in packed(document.body().children, room)]


def packed(children: list[Child], room: Size) -> list[list[Child]]:
    """The children of an element in groups that fit; those that don't fit by themselves are cut."""
    groups: list[list[Child]] = [[]]
    left = room
    for child in children:
        for piece in pieces_of(child, room):
            size = size_of(piece)
            if groups[-1] and not size.fits(left):
                groups.append([])
                left = room
                # A line break at a cut has done what it is for.
                if is_break(piece):
                    continue
            groups[-1].append(piece)
            left -= size
    return groups


def is_break(part: Child) -> bool:
    return isinstance(part, Element) and part.tag == "br"


def pieces_of(part: Child, room: Size) -> list[Child]:
    """A part of the document in pieces that fit, if there is a way."""
    if size_of(part).fits(room):
        return [part]
    if isinstance(part, str):
        return text_pieces(part, room.bytes)
    pieces = [dataclasses.replace(part, children=group) for group in packed(part.children, room - tags_size(part))]
    # The name of an element is that of its first piece.
    rest = {name: value for name, value in part.attributes.items() if name != "id"}
    return [pieces[0], *(dataclasses.replace(piece, attributes=rest) for piece in pieces[1:])]


def text_pieces(text: str, most: int) -> list[Child]:
    """A text in pieces of at most so many bytes, cut behind a space where one is near the end."""
    pieces: list[Child] = []
    at = 0
    # An `&` is written with five bytes, a no-break space with six; no character takes more.
    length = max(1, most // 6)
    while at < len(text):
        end = min(at + length, len(text))
        space = text.rfind(" ", at + length // 2, end)
        end = space + 1 if space > at and end < len(text) else end
        pieces.append(text[at:end])
        at = end
    return pieces
