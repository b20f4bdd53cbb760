"""The text of a page in the order in which it is read, for the tools beside this file. docs/TOOLS.md says what can't be known."""
from collections.abc import Iterator

import listing


class Texts:
    """The texts of one page. What stands in what may be as deep as it likes: no function here calls itself."""

    def __init__(self, page: listing.Page, owners: list[int | None]) -> None:
        self.fragments = page.fragments
        self.inside: list[list[int]] = [[] for _ in page.fragments]
        for place, owner in enumerate(owners):
            if owner is not None:
                self.inside[owner].append(place)
        self.outermost = [place for place, owner in enumerate(owners) if owner is None]
        # The text of each inline-block, by its place, once it is known.
        self.atoms: dict[int, str] = {}
        self.read_atoms(owners)

    def read_atoms(self, owners: list[int | None]) -> None:
        """Reads the text of each inline-block, the inner before the outer, which stand before them."""
        for place in reversed(range(len(self.fragments))):
            owner = owners[place]
            if self.fragments[place].kind == "box" and owner is not None and self.fragments[owner].kind in ("line", "span"):
                self.atoms[place] = " ".join(line for lines in self.paragraphs([place]) for line in lines)

    def paragraphs(self, places: list[int] | None = None) -> Iterator[list[str]]:
        """The lines of each paragraph, in tree order. An inline-block is part of its line."""
        # What is left to be read of each open box, and the lines of it since the last box in it.
        waiting: list[tuple[Iterator[int], list[str]]] = [(iter(self.outermost if places is None else places), [])]
        while waiting:
            rest, lines = waiting[-1]
            place = next(rest, None)
            if place is None:
                waiting.pop()
                if lines:
                    yield lines
            elif self.fragments[place].kind == "line":
                lines.append(self.line(place))
            elif self.fragments[place].kind == "box":
                waiting.append((iter(self.inside[place]), []))

    def line(self, place: int, atoms: bool = True) -> str:
        """The text of a line, by the order of nodes and characters, with its inline-blocks or without."""
        return "".join(text for _, _, text in sorted(self.pieces(place, atoms), key=lambda piece: piece[:2]))

    def pieces(self, place: int, atoms: bool) -> Iterator[tuple[int, int, str]]:
        """What stands on a line or in a span of it, each with its node and its place in the node's text."""
        for at in self.on_line(place):
            each = self.fragments[at]
            if each.kind == "run":
                yield each.node, each.begin, each.logical()
            elif each.kind == "box" and atoms:
                yield each.node, 0, self.atoms[at]

    def on_line(self, place: int) -> Iterator[int]:
        """The places of all that stands on a line or in a box and in no other box, in the order of the listing."""
        waiting = list(reversed(self.inside[place]))
        while waiting:
            at = waiting.pop()
            yield at
            if self.fragments[at].kind != "box":
                waiting.extend(reversed(self.inside[at]))
