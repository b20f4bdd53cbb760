"""What stands under a pointer on a page, and where a caret stands there, as the program answers it, for tools/picture.

The command `probe` (docs/PROFILE/points.md) tells the caret of each place of a text. The carets in a run cut it into its cells.
Each half of a cell is cut along the edges of the runs that come later and lie over it, so that all points of a piece hit the same,
and the program tells what. So nothing of a cell is worked out here but its two halves.
"""
import collections
import itertools
import json
import re
from collections.abc import Iterable, Iterator
from typing import NamedTuple

import listing
import programs

# The most lines that one probe has (docs/PROFILE/limits.md), and the most places and pieces for which a page has carets.
MOST_LINES, MOST_ASKED = 10_000, 60_000
HIT = re.compile(r"hit ([0-9]+) ([0-9]+) ([0-9]+) ([0-9]+)")
CARET = re.compile(r"caret (-?[0-9]+) (-?[0-9]+) (-?[0-9]+) (-?[0-9]+)")
# Which way lines run, by the orientation of a run on them.
LEFT_TO_RIGHT, TOP_TO_BOTTOM, BOTTOM_TO_TOP = range(3)
WAYS = {"h": LEFT_TO_RIGHT, "u": TOP_TO_BOTTOM, "s": TOP_TO_BOTTOM, "c": TOP_TO_BOTTOM, "l": BOTTOM_TO_TOP}
# How high the bands of a page are by which runs that lie over one another are looked for, in 1/64 px.
BAND = 64 * 64

Place = tuple[int, int]


class Piece(NamedTuple):
    """A piece of a page, and what its points hit: the text node, the first place and the end, and that of the caret."""

    rect: listing.Rect
    hit: tuple[int, int, int, int]


class Carets(NamedTuple):
    """All pieces of a page at which something is hit, in the order of its listing, and the carets that are hit, by node and place."""

    pieces: list[Piece]
    carets: dict[Place, listing.Rect]


class TooMuch(Exception):
    """A page has too many places, or its document leaves no room for a probe."""


class Program:
    """The program, asked about the page of one document."""

    def __init__(self, path: str, options: list[str], document: str) -> None:
        self.path = path
        self.options = options
        self.document = document

    def asked(self, lines: list[str]) -> list[str]:
        """The answers to lines of a probe, as many at once as it takes."""
        answers: list[str] = []
        most = self.most_lines(lines)
        for begin in range(0, len(lines), most):
            text = "\n".join([self.document, *lines[begin : begin + most], ""])
            written, status = programs.ran(self.path, programs.LAYOUT, ["probe", *self.options], text.encode("utf-8"))
            if status:
                raise listing.InputError(f"the program refused a probe: {listing.shown(programs.line_of(written))}")
            answers += written.decode("ascii").splitlines()
        if len(answers) != len(lines):
            raise listing.InputError(f"the program answered {len(answers):,} of {len(lines):,} lines of a probe")
        return answers

    def most_lines(self, lines: list[str]) -> int:
        """How many of these lines one input has room for."""
        if len(lines) > MOST_ASKED:
            raise TooMuch
        room = listing.MOST_INPUT - len(self.document.encode("utf-8")) - 1
        found = min(MOST_LINES, room // (1 + max(map(len, lines), default=0)))
        if found < 1:
            raise TooMuch
        return found


def way_of(run: listing.Run) -> int:
    return WAYS["c" if run.natural is not None else run.orientation]


def along(way: int, rect: listing.Rect) -> tuple[int, int]:
    """Where a rectangle begins and ends along a line, counted from line-left."""
    if way == LEFT_TO_RIGHT:
        return rect.x, rect.right
    return (rect.y, rect.bottom) if way == TOP_TO_BOTTOM else (-rect.bottom, -rect.y)


def part(way: int, rect: listing.Rect, begin: int, end: int) -> listing.Rect:
    """The part of a rectangle between two places along its line."""
    if way == LEFT_TO_RIGHT:
        return listing.Rect(begin, rect.y, end - begin, rect.height)
    return listing.Rect(rect.x, begin if way == TOP_TO_BOTTOM else -end, rect.width, end - begin)


def places_of(runs: Iterable[listing.Run]) -> list[Place]:
    """Each place of the texts at which a caret can stand."""
    return sorted({(run.node, place) for run in runs for place in range(run.begin, run.end + 1)})


def caret_of(answer: str) -> listing.Rect | None:
    found = CARET.fullmatch(answer)
    return listing.Rect(*map(int, found.groups())) if found else None


def cuts(run: listing.Run, carets: dict[Place, listing.Rect]) -> list[int]:
    """Where the cells of a run begin and end along its line: at its edges, and at the carets that stand in it."""
    way = way_of(run)
    low, high = along(way, run.rect)
    if run.natural is not None:
        return [low, high]
    inside = (carets[place] for place in places_of([run]) if place in carets)
    found = {along(way, caret)[0] for caret in inside if listing.touches(caret, run.rect)}
    return sorted({low, high} | found)


def halves_of(run: listing.Run, carets: dict[Place, listing.Rect]) -> Iterator[listing.Rect]:
    """The halves of the cells of a run from line-left; a point with twice its distance below the extent is in the first one."""
    way = way_of(run)
    for begin, end in itertools.pairwise(cuts(run, carets)):
        middle = begin + (end - begin + 1) // 2
        yield from (part(way, run.rect, *sides) for sides in ((begin, middle), (middle, end)) if sides[0] < sides[1])


def bands(rect: listing.Rect) -> range:
    """The bands of the page that a rectangle meets."""
    return range(rect.y // BAND, (rect.bottom - 1) // BAND + 1)


def laid_over(runs: list[listing.Run]) -> Iterator[list[listing.Rect]]:
    """For each run the rectangles of the later ones that meet it."""
    later: dict[int, list[int]] = collections.defaultdict(list)
    found: list[list[listing.Rect]] = []
    for number, run in reversed(list(enumerate(runs))):
        near = {other for band in bands(run.rect) for other in later[band]}
        found.append([runs[other].rect for other in sorted(near) if meet(run.rect, runs[other].rect)])
        for band in bands(run.rect):
            later[band].append(number)
    return reversed(found)


def meet(one: listing.Rect, other: listing.Rect) -> bool:
    across = one.x < other.right and other.x < one.right
    return across and one.y < other.bottom and other.y < one.bottom


def pieces_of(rect: listing.Rect, over: list[listing.Rect]) -> Iterator[listing.Rect]:
    """The pieces into which the edges of others cut a rectangle: each of the others holds a piece whole, or none of it."""
    columns = edges(rect.x, rect.right, (side for other in over for side in (other.x, other.right)))
    rows = edges(rect.y, rect.bottom, (side for other in over for side in (other.y, other.bottom)))
    for (left, right), (top, bottom) in itertools.product(itertools.pairwise(columns), itertools.pairwise(rows)):
        yield listing.Rect(left, top, right - left, bottom - top)


def edges(low: int, high: int, sides: Iterable[int]) -> list[int]:
    return sorted({low, high} | {side for side in sides if low < side < high})


def point_in(rect: listing.Rect) -> str:
    return f"point {rect.x} {rect.y}"


def carets_on(page: listing.Page, program: Program) -> Carets | None:
    """What is hit on a page, and its carets; none where there is too much to ask."""
    try:
        return found_on(page, program)
    except TooMuch:
        return None


def found_on(page: listing.Page, program: Program) -> Carets:
    runs = [fragment for fragment in page.fragments if fragment.kind == "run" and fragment.rect.width > 0 and fragment.rect.height > 0]
    places = places_of(runs)
    answers = map(caret_of, program.asked([f"caret {node} {place}" for node, place in places]))
    carets = {place: caret for place, caret in zip(places, answers) if caret is not None}
    rects = [rect for run, over in zip(runs, laid_over(runs)) for half in halves_of(run, carets) for rect in pieces_of(half, over)]
    pieces = []
    for rect, answer in zip(rects, program.asked([point_in(rect) for rect in rects])):
        found = HIT.fullmatch(answer)
        if found:
            node, first, end, place = map(int, found.groups())
            pieces.append(Piece(rect, (node, first, end, place)))
    return Carets(pieces, carets)


def script_of(found: Carets) -> str:
    """The pieces and the carets as a value of JavaScript: each piece with its hit, each caret by its node and place."""
    pieces = [[*numbers_of(piece.rect), *piece.hit] for piece in found.pieces]
    hit = {(piece.hit[0], piece.hit[3]) for piece in found.pieces}
    carets = {f"{node} {place}": numbers_of(rect) for (node, place), rect in found.carets.items() if (node, place) in hit}
    return json.dumps({"pieces": pieces, "carets": carets}, separators=(",", ":"))


def numbers_of(rect: listing.Rect) -> list[int]:
    return [rect.x, rect.y, rect.width, rect.height]
