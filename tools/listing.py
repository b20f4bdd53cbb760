"""Reads the listings that wm_layout writes, for the tools beside this file.

A text may have several listings in a row, with lines `refused KIND NUMBER` between them, as the command `edit` writes them, or
the listing of a flow before those of its pages, as `modes` does. `read` gives them as a list of `Page`, `Flow` and `Refusal`, or
raises one `ListingError` with the line at which the text is no listing.
Every word of a listing is said in docs/PROFILE/listing.md.

A listing doesn't say which fragment stands in which. `owners` finds it out, from the order of the lines, from places, and
from the document where there is one.
"""
import argparse
import contextlib
import dataclasses
import itertools
import os
import re
import sys
from collections.abc import Callable, Iterable, Iterator, Sequence
from typing import Any, ClassVar, Literal, NoReturn

MODES = ("horizontal-tb", "vertical-rl", "vertical-lr", "sideways-rl", "sideways-lr")
# The modes to which the command `modes` turns a flow, in the order of their pages, with how the runs on those stand; and how they
# stand in the listing of the flow.
TURNED = {"horizontal-tb": "h", "vertical-rl": "s", "sideways-rl": "s", "sideways-lr": "l"}
UNTOLD = "-"
UNITS_PER_PIXEL = 64
# The most bytes that the program takes (docs/PROFILE/limits.md), and that are read as listings.
MOST_INPUT, MOST_READ = 1_048_576, 1 << 30
# How much of a file is read at once, and how much of a line is shown that isn't understood.
CHUNK, MOST_SHOWN = 1 << 20, 60
# How deep elements stand in one another at most (docs/PROFILE/limits.md, "nodes"), where `html` has depth 1.
DEEPEST = 64
# The characters that take each other's places in text from right to left (docs/PROFILE/characters.md, "Mirrors").
MIRROR_PAIRS = ("()", "[]", "{}", "<>", "\u00ab\u00bb", "〈〉", "《》", "「」", "『』", "【】", "（）")
MIRRORS = {pair[side]: pair[1 - side] for pair in MIRROR_PAIRS for side in (0, 1)}


class ListingError(Exception):
    """The text is no listing: the number of the line, from 1, and what is wrong there."""

    def __init__(self, line: int, what: str) -> None:
        super().__init__(f"line {line}: {what}")
        self.line = line
        self.what = what


class InputError(Exception):
    """What a tool was given can't be taken, for another reason than that it is no listing."""


@dataclasses.dataclass(frozen=True)
class Rect:
    """A rectangle on the page, in 1/64 px."""

    x: int
    y: int
    width: int
    height: int

    @property
    def right(self) -> int:
        return self.x + self.width

    @property
    def bottom(self) -> int:
        return self.y + self.height

    def upright(self) -> "Rect":
        """The same area with extents of at least zero. A span may end before it begins, where margins in it are below zero."""
        left, top = min(self.x, self.right), min(self.y, self.bottom)
        return Rect(left, top, abs(self.width), abs(self.height))


@dataclasses.dataclass(frozen=True)
class Box:
    """The border box of a block container or an inline-block; with an ordinal above 0 it is anonymous."""

    node: int
    box: int
    rect: Rect
    kind: ClassVar[Literal["box"]] = "box"

    def words(self) -> tuple[int, ...]:
        return (self.node, self.box, *dataclasses.astuple(self.rect))


@dataclasses.dataclass(frozen=True)
class Line:
    """A line of the paragraph of a box; the baseline is counted from its line-over edge."""

    node: int
    box: int
    line: int
    rect: Rect
    baseline: int
    kind: ClassVar[Literal["line"]] = "line"

    def words(self) -> tuple[int, ...]:
        return (self.node, self.box, self.line, *dataclasses.astuple(self.rect), self.baseline)


@dataclasses.dataclass(frozen=True)
class Span:
    """A fragment of an inline box."""

    node: int
    box: int
    rect: Rect
    kind: ClassVar[Literal["span"]] = "span"

    def words(self) -> tuple[int, ...]:
        return (self.node, self.box, *dataclasses.astuple(self.rect))


@dataclasses.dataclass(frozen=True)
class Run:
    """Characters of a text node that stand side by side. Clusters are texts, one for each unit from line-left."""

    node: int
    begin: int
    end: int
    rect: Rect
    orientation: str
    natural: int | None
    level: int
    clusters: tuple[str, ...]
    kind: ClassVar[Literal["run"]] = "run"

    def words(self) -> tuple[int | str, ...]:
        stands = self.orientation if self.natural is None else f"c{self.natural}"
        clusters = ",".join("+".join(f"{ord(character):04X}" for character in cluster) for cluster in self.clusters)
        return (self.node, self.begin, self.end, *dataclasses.astuple(self.rect), stands, self.level, clusters)

    @property
    def is_horizontal(self) -> bool:
        """Whether its units stand side by side and upright. In a flow they do, as it has the places of `horizontal-tb`."""
        return self.orientation in ("h", UNTOLD)

    def logical(self) -> str:
        """The characters of the run in the order of the text, each as it was written."""
        if self.natural is not None or self.level % 2 == 0:
            # What is in a combined run is ordered by levels of its own, which the listing doesn't tell.
            return "".join(self.clusters)
        return "".join(MIRRORS.get(cluster[0], cluster[0]) + cluster[1:] for cluster in reversed(self.clusters))


@dataclasses.dataclass(frozen=True)
class Page:
    """One listing."""

    width: int
    height: int
    mode: str
    direction: str
    fragments: tuple["Fragment", ...]

    def text(self) -> str:
        """The listing as the program writes it."""
        return listed(f"page {self.width} {self.height} {self.mode} {self.direction}", self.fragments)


@dataclasses.dataclass(frozen=True)
class Flow:
    """The listing of a flow: what the pages of a document in its modes have in common. It has the places of the page in
    `horizontal-tb`, and doesn't tell how runs stand: their orientation is `-`."""

    inline: int
    block: int
    direction: str
    fragments: tuple["Fragment", ...]

    def text(self) -> str:
        """The listing as the program writes it."""
        return listed(f"flow {self.inline} {self.block} {self.direction}", self.fragments)

    def page(self) -> Page:
        """Its page in `horizontal-tb`, on which it stays untold how runs stand."""
        return Page(self.inline, self.block, "horizontal-tb", self.direction, self.fragments)

    def turned(self, mode: str) -> Page:
        """Its page in one of `TURNED` (docs/PROFILE/turned-pages.md)."""
        width, height = (self.inline, self.block) if mode == "horizontal-tb" else (self.block, self.inline)
        return Page(width, height, mode, self.direction, tuple(self.fragment_turned(each, mode) for each in self.fragments))

    def fragment_turned(self, fragment: "Fragment", mode: str) -> "Fragment":
        rect = self.rect_turned(fragment.rect, mode)
        if fragment.kind == "run":
            return dataclasses.replace(fragment, rect=rect, orientation=TURNED[mode])
        return dataclasses.replace(fragment, rect=rect)

    def rect_turned(self, rect: Rect, mode: str) -> Rect:
        """The rectangle that stands as far from line-left and from block-start."""
        if mode == "horizontal-tb":
            return rect
        if mode == "sideways-lr":
            return Rect(rect.y, self.inline - rect.right, rect.height, rect.width)
        return Rect(self.block - rect.bottom, rect.x, rect.height, rect.width)


def listed(head: str, fragments: Iterable["Fragment"]) -> str:
    """A listing by its first line and its fragments."""
    rows = (" ".join(map(str, (fragment.kind, *fragment.words()))) for fragment in fragments)
    return "\n".join((head, *rows, "end")) + "\n"


@dataclasses.dataclass(frozen=True)
class Refusal:
    """A document or an edit that was refused: the kind, and the place, the node or the line of the script."""

    kind: str
    number: int

    def text(self) -> str:
        """The line as the program writes it."""
        return f"refused {self.kind} {self.number}\n"


Fragment = Box | Line | Span | Run
# What has fragments, and what a text has in a row.
Listing = Page | Flow
Part = Page | Flow | Refusal
# The parent of each node of a document.
Parents = dict[int, int | None]


# Reading. Each kind of line has a pattern of its words, and a function from their match to the fragment.

# No place and no size of a page is further than 2^60 units from 0, which has this many digits.
MOST_DIGITS = 19
NUMBER, SIGNED = rf"(0|[1-9]\d{{,{MOST_DIGITS - 1}}})", rf"(0|-?[1-9]\d{{,{MOST_DIGITS - 1}}})"
LONG_NUMBER = re.compile(r"(?<=[ c-])[0-9]{20,}", re.ASCII)
# The extent of a span may be below zero, where margins in it are.
RECT = rf"{SIGNED} {SIGNED} {SIGNED} {SIGNED}"
CHARACTER = r"(?:[0-9A-F]{4}|[1-9A-F][0-9A-F]{4,5})"
CLUSTER = rf"{CHARACTER}(?:\+{CHARACTER})*"
CLUSTERS = rf"({CLUSTER}(?:,{CLUSTER})*)"
PAGE_LINE = re.compile(rf"page {NUMBER} {NUMBER} ({'|'.join(MODES)}) (ltr|rtl)", re.ASCII)
FLOW_LINE = re.compile(rf"flow {NUMBER} {NUMBER} (ltr|rtl)", re.ASCII)
REFUSED_LINE = re.compile(rf"refused ([A-Za-z0-9]+) {NUMBER}", re.ASCII)
FRAGMENT_LINES = {
    "box": re.compile(rf"box {NUMBER} {NUMBER} {RECT}", re.ASCII),
    "line": re.compile(rf"line {NUMBER} {NUMBER} {NUMBER} {RECT} {SIGNED}", re.ASCII),
    "span": re.compile(rf"span {NUMBER} {NUMBER} {RECT}", re.ASCII),
    "run": re.compile(rf"run {NUMBER} {NUMBER} {NUMBER} {RECT} (?:([husl{UNTOLD}])|c{NUMBER}) {NUMBER} {CLUSTERS}", re.ASCII),
}


Words = Sequence[str]


def rect_of(words: Words) -> Rect:
    return Rect(*map(int, words))


def character_of(digits: str) -> str:
    """The character of a number in hexadecimal digits, of which a listing has no surrogate and none past the end of Unicode."""
    number = int(digits, 16)
    if number > sys.maxunicode or 0xD800 <= number <= 0xDFFF:
        raise ValueError(f"U+{digits} is no character")
    return chr(number)


def clusters_of(text: str) -> tuple[str, ...]:
    """The clusters of a run as texts."""
    return tuple("".join(map(character_of, cluster.split("+"))) for cluster in text.split(","))


def box_of(words: Words) -> Box:
    return Box(int(words[0]), int(words[1]), rect_of(words[2:6]))


def line_of(words: Words) -> Line:
    return Line(int(words[0]), int(words[1]), int(words[2]), rect_of(words[3:7]), int(words[7]))


def span_of(words: Words) -> Span:
    return Span(int(words[0]), int(words[1]), rect_of(words[2:6]))


def run_of(words: Words) -> Run:
    plain, natural, level, clusters = words[7:11]
    stands = ("c", int(natural)) if plain is None else (plain, None)
    return Run(int(words[0]), int(words[1]), int(words[2]), rect_of(words[3:7]), *stands, int(level), clusters_of(clusters))


MAKERS: dict[str, Callable[[Words], Fragment]] = {"box": box_of, "line": line_of, "span": span_of, "run": run_of}


def read_fragment(line: str, number: int) -> Fragment:
    """The fragment that a line of a listing tells."""
    kind = line.split(" ", 1)[0]
    if kind not in MAKERS:
        raise ListingError(number, what_is_wrong(line, "no word of a listing stands at its start"))
    found = FRAGMENT_LINES[kind].fullmatch(line)
    if found is None:
        raise ListingError(number, what_is_wrong(line, f"these are not the words of a line `{kind}`"))
    try:
        return MAKERS[kind](found.groups())
    except ValueError as error:
        raise ListingError(number, str(error)) from None


def what_is_wrong(line: str, otherwise: str) -> str:
    """Why a line is none of a listing."""
    if line.endswith("\r"):
        return "it ends with a carriage return and a line feed, where the program writes line feeds alone"
    long = LONG_NUMBER.search(line)
    if long:
        return f"a number of {len(long[0]):,} digits, where a listing has {MOST_DIGITS} at most"
    return otherwise


def first_line(line: str) -> re.Match[str] | None:
    """The first line of a listing, if this is one."""
    return PAGE_LINE.fullmatch(line) or FLOW_LINE.fullmatch(line)


def no_first_line(line: str) -> str:
    """Why a line begins no listing."""
    if line.startswith("usage: "):
        return f"the program was given words that are no job: {shown(line)}"
    if line.startswith("gen "):
        return f"this is what the command `gen` counted, and no listing: {shown(line)}"
    return what_is_wrong(line, f"a listing begins with a line `page` or `flow`, and this is {shown(line)}")


def shown(line: str) -> str:
    """A line in a message: its front, where it is long."""
    return f"`{line if len(line) <= MOST_SHOWN else line[:MOST_SHOWN] + '…'}`"


def read_listing(lines: list[str], at: int) -> tuple[Listing, int]:
    """The listing that begins with the line at this place, and the place behind its `end`."""
    head = first_line(lines[at])
    if head is None:
        raise ListingError(at + 1, no_first_line(lines[at]))
    is_flow = head.re is FLOW_LINE
    fragments: list[Fragment] = []
    for place in range(at + 1, len(lines)):
        if lines[place] == "end":
            return listing_of(head.groups(), tuple(fragments)), place + 1
        fragment = read_fragment(lines[place], place + 1)
        if fragment.kind == "run" and (fragment.orientation == UNTOLD) != is_flow:
            raise ListingError(place + 1, f"in a flow a run has `{UNTOLD}` for how it stands, and on a page it doesn't")
        fragments.append(fragment)
    raise ListingError(len(lines), "the listing was cut off: it has no `end`")


def listing_of(head: Words, fragments: tuple[Fragment, ...]) -> Listing:
    """A page or a flow, by the words of its first line."""
    if len(head) == 4:
        width, height, mode, direction = head
        return Page(int(width), int(height), mode, direction, fragments)
    inline, block, direction = head
    return Flow(int(inline), int(block), direction, fragments)


def read(text: str) -> list[Part]:
    """All listings and refusals of a text, in order."""
    if not text:
        raise ListingError(1, "nothing stands here")
    *lines, rest = text.split("\n")
    if rest:
        if lines and (first_line(lines[0]) or REFUSED_LINE.fullmatch(lines[0])):
            raise ListingError(len(lines) + 1, "the listing was cut off within a line")
        raise ListingError(1, no_first_line(lines[0] if lines else rest))
    parts: list[Part] = []
    at = 0
    while at < len(lines):
        refused = REFUSED_LINE.fullmatch(lines[at])
        if refused:
            parts.append(Refusal(refused[1], int(refused[2])))
            at += 1
        else:
            found, at = read_listing(lines, at)
            parts.append(found)
    return parts


# What stands in what.

def between(low: int, high: int, begin: int, end: int) -> float:
    """How much of a length from `low` to `high` lies from `begin` to `end`, from 0 to 1. One without extent has to lie inside."""
    if low == high:
        return 1.0 if begin < low < end or begin == low == end else 0.0
    return max(0, min(high, end) - max(low, begin)) / (high - low)


def share(inner: Rect, outer: Rect) -> float:
    """How much of a rectangle lies in another, from 0 to 1."""
    inner, outer = inner.upright(), outer.upright()
    across = between(inner.x, inner.right, outer.x, outer.right)
    return across * between(inner.y, inner.bottom, outer.y, outer.bottom)


def touches(inner: Rect, outer: Rect) -> bool:
    """Whether a rectangle lies in another, its edges included."""
    across = outer.x <= inner.x and inner.right <= outer.right
    return across and outer.y <= inner.y and inner.bottom <= outer.bottom


def distance(one: Rect, other: Rect) -> int:
    """How far two rectangles lie from each other, across and down together; 0 where they meet."""
    across = max(0, one.x - other.right, other.x - one.right)
    return across + max(0, one.y - other.bottom, other.y - one.bottom)


class Owners:
    """Finds for each fragment of a page the one in which it stands.

    The fragments come in tree order, so a fragment stands in the last one or in one round that. A line is known by its box, an
    anonymous box by its element's, and a box stays open up to its last line. What this leaves open is settled by `parents`, the
    parent of each node in the document, where it is given, and else by the place: the innermost in which most of it lies. A box
    that lies in none of them stands beside the one that it lies nearest to.

    No more than `DEEPEST` boxes and inline boxes are open at once, so the work grows with the count of fragments alone.
    """

    def __init__(self, page: Listing, parents: Parents | None = None) -> None:
        self.fragments = page.fragments
        self.parents = parents
        self.open: list[int] = []
        # How many boxes and inline boxes are open up to each of `open`, it included.
        self.depths: list[int] = []
        self.owners: list[int | None] = []
        # For each fragment the last one of what stands in it.
        self.last_inside: dict[int, int] = {}
        self.with_lines = {(each.node, each.box) for each in self.fragments if each.kind == "line"}
        self.last = self.last_places()
        self.needs_line = self.places_before_text()

    def last_places(self) -> dict[tuple[int, int], int]:
        """For each box the place of the last line or anonymous box that is known to stand in it."""
        last = {}
        for place, each in enumerate(self.fragments):
            if each.kind == "line":
                last[each.node, each.box] = place
            elif each.kind == "box":
                last[each.node, 0] = place
        # A line of an anonymous block keeps its element's box open too.
        for (node, box), place in list(last.items()):
            if box:
                last[node, 0] = max(last.get((node, 0), 0), place)
        return last

    def places_before_text(self) -> list[bool]:
        """For each place whether text or an inline box comes behind it with no line of its own before: then a line stays open."""
        needs, found = [], False
        for each in reversed(self.fragments):
            needs.append(found)
            found = each.kind in ("run", "span") or (found and each.kind != "line")
        return needs[::-1]

    def find(self) -> list[int | None]:
        for place, each in enumerate(self.fragments):
            owner = self.owner_of(place, each)
            while self.open and self.open[-1] != owner:
                self.open.pop()
                self.depths.pop()
            self.owners.append(owner)
            if owner is not None:
                self.last_inside[owner] = place
            if each.kind != "run":
                self.open.append(place)
                self.depths.append((self.depths[-1] if self.depths else 0) + (each.kind != "line"))
        return self.owners

    def owner_of(self, place: int, each: Fragment) -> int | None:
        if each.kind == "line":
            return self.named(each.node, each.box)
        if each.kind == "box" and each.box:
            return self.named(each.node, 0)
        candidates = self.by_document(each, [at for at in self.still_open(place) if self.may_hold(at, each)])
        if not candidates:
            return None
        fits = {at: self.fit(each, self.fragments[at]) for at in candidates}
        if each.kind == "box" and max(fits.values()) <= 0:
            return self.beside_nearest(each, candidates)
        return max(candidates, key=lambda at: (fits[at], at))

    def beside_nearest(self, each: Box, candidates: list[int]) -> int:
        """The candidate of which the last part lies nearest to a box that lies in none of them: what flows out of its container
        goes on where the box before it ended, most often as wide as that. Of several the outermost, so that the fewest are
        overflowed."""
        def key(at: int) -> tuple[int, bool, int]:
            last = self.fragments[self.last_inside.get(at, at)].rect.upright()
            here = each.rect.upright()
            alike = (here.x, here.width) == (last.x, last.width) or (here.y, here.height) == (last.y, last.height)
            return distance(here, last), not alike, at

        return min(candidates, key=key)

    def named(self, node: int, box: int) -> int | None:
        """The open box of this name."""
        for at in reversed(self.open):
            each = self.fragments[at]
            if each.kind == "box" and (each.node, each.box) == (node, box):
                return at
        return None

    def still_open(self, place: int) -> Iterator[int]:
        """The open fragments from the innermost out to the first that can't be closed yet."""
        last_line = self.outermost_line() if self.needs_line[place] else None
        for at, depth in zip(reversed(self.open), reversed(self.depths)):
            if depth < DEEPEST:
                yield at
            if at == last_line or self.reaches(at) > place:
                return

    def outermost_line(self) -> int | None:
        return next((at for at in self.open if self.fragments[at].kind == "line"), None)

    def reaches(self, at: int) -> int:
        """The place up to which a fragment is known to stay open. All before the next line of a box stands in this one."""
        each = self.fragments[at]
        return self.last.get((each.node, each.box), at) if each.kind == "box" or each.kind == "line" else at

    def may_hold(self, at: int, each: Fragment) -> bool:
        holder = self.fragments[at]
        if holder.kind in ("line", "span"):
            return True
        # The box of `html` holds that of `body` alone.
        holds = holder.kind == "box" and holder.box == 0 and (holder.node, 0) not in self.with_lines
        return each.kind == "box" and holds and (holder.node > 0 or each.node <= 1)

    def by_document(self, each: Fragment, candidates: list[int]) -> list[int]:
        """Those of the candidates whose node is the nearest round the fragment's, by the document where it is there."""
        node: int | None = each.node
        while self.parents is not None and node is not None and candidates:
            node = self.parents.get(node)
            nearest = [at for at in candidates if self.fragments[at].node == node and not self.is_cut_by(each, at)]
            if nearest:
                return nearest
        return candidates

    def is_cut_by(self, each: Fragment, at: int) -> bool:
        """Whether a box lies outside of the line of an inline box in an anonymous block: then that is a piece of one that the box cuts."""
        if each.kind != "box" or self.fragments[at].kind != "span":
            return False
        lines = (self.fragments[around] for around in reversed(self.open) if around < at)
        line = next((around for around in lines if around.kind == "line"), None)
        return line is not None and line.box > 0 and self.fit(each, line) <= 0

    def fit(self, each: Fragment, holder: Fragment) -> float:
        """How well a fragment stands in another, by their places. Things reach out of boxes and lines, hardly out of inline boxes."""
        if each.kind == "box" and holder.kind == "box":
            if each.rect == holder.rect and 0 in (holder.rect.width, holder.rect.height):
                # An empty box stands beside an empty box of its size and place rather than in it.
                return 0.0
            if touches(each.rect, holder.rect):
                return 1.0
        found = share(each.rect, holder.rect)
        return -1.0 if holder.kind == "span" and found == 0 else found


def owners(page: Listing, parents: Parents | None = None) -> list[int | None]:
    """For each fragment of a page or a flow the place in `fragments` of the one in which it stands, or nothing for the outermost."""
    return Owners(page, parents).find()


# What all tools share.

class Parser(argparse.ArgumentParser):
    """Words of the command line, refused by one line."""

    def __init__(self, description: str | None, **more: Any) -> None:
        super().__init__(description=description, formatter_class=argparse.RawDescriptionHelpFormatter, **more)

    def error(self, message: str) -> NoReturn:
        self.exit(2, f"{self.prog}: {message} (--help says more)\n")


def name_of(path: str) -> str:
    return "standard input" if path == "-" else path


def chunks_of(path: str) -> Iterator[bytes]:
    """What a file holds, or standard input where it is `-`, in parts, so that one without an end can be left."""
    if path == "":
        raise InputError("the name of a file is empty")
    if path == "-" and sys.stdin is None:
        raise InputError("standard input is closed")
    try:
        with contextlib.ExitStack() as files:
            file = sys.stdin.buffer if path == "-" else files.enter_context(open(path, "rb"))
            while chunk := file.read(CHUNK):
                yield chunk
    except OSError as error:
        # A failed read doesn't say of which file it was.
        raise OSError(error.errno, error.strerror, name_of(path)) from None


def front_of(chunks: Iterable[bytes], most: int) -> tuple[bytes, bool]:
    """The first bytes of what comes in parts, and whether there are more."""
    parts, count = [], 0
    for chunk in chunks:
        parts.append(chunk)
        count += len(chunk)
        if count > most:
            break
    return b"".join(parts)[:most], count > most


def read_bytes(path: str, most: int = MOST_READ) -> bytes:
    """What a file holds, or standard input where it is `-`: at most so many bytes."""
    data, is_longer = front_of(chunks_of(path), most)
    if is_longer:
        raise InputError(f"{name_of(path)}: it has more than {most:,} bytes")
    return data


def read_input(path: str) -> bytes:
    """What the program is to read. It refuses what is longer than its limit, so one byte past that is enough."""
    return front_of(chunks_of(path), MOST_INPUT + 1)[0]


def read_given(path: str) -> bytes:
    """A document or listings, whichever a file holds."""
    chunks = chunks_of(path)
    first = next(chunks, b"")
    if is_document(first):
        return front_of(itertools.chain([first], chunks), MOST_INPUT + 1)[0]
    return read_rest(path, first, chunks)


def read_rest(path: str, first: bytes, chunks: Iterable[bytes]) -> bytes:
    """All of what may be listings. What doesn't begin as one isn't read to its end, which may never come."""
    begins_as_one = any(first.startswith(word[: len(first)]) for word in (b"page ", b"flow ", b"refused "))
    data, is_longer = front_of(itertools.chain([first], chunks if begins_as_one else ()), MOST_READ)
    if is_longer:
        raise InputError(f"{name_of(path)}: it has more than {MOST_READ:,} bytes")
    return data


def is_document(data: bytes) -> bool:
    return data.removeprefix("\ufeff".encode()).lstrip().startswith(b"<")


def read_file(path: str) -> list[Part]:
    """The listings and refusals of a file, or of standard input where it is `-`."""
    chunks = chunks_of(path)
    return read_listing_bytes(read_rest(path, next(chunks, b""), chunks))


def read_listing_bytes(data: bytes) -> list[Part]:
    if data.startswith("\ufeff".encode()):
        raise ListingError(1, "a byte order mark stands before the listing, which the program doesn't write")
    try:
        return read(data.decode("ascii"))
    except UnicodeDecodeError as error:
        number = data.count(b"\n", 0, error.start) + 1
        raise ListingError(number, f"the byte {data[error.start]:02X}, and all bytes of a listing are ASCII") from None


def listings_of(parts: Sequence[Part]) -> list[Listing]:
    """The pages and flows among what was read; at least one."""
    found = [part for part in parts if not isinstance(part, Refusal)]
    refused = next((part for part in parts if isinstance(part, Refusal)), None)
    if not found and refused:
        raise InputError(f"there is no page, but a refusal, which tools/where shows: {refused.text().strip()}")
    return found


def pages_of(parts: Sequence[Part]) -> list[Page]:
    """The pages among what was read; at least one."""
    found = listings_of(parts)
    pages = [part for part in found if isinstance(part, Page)]
    if found and not pages:
        raise InputError("there is no page, but a flow: `modes` writes its pages behind it")
    return pages


def put(text: str, path: str = "-") -> None:
    """Writes the whole of a text to a new file, or to standard output. A file that is there stays as it is."""
    # The name of a file may have bytes that are no UTF-8: they go out as they came.
    put_bytes(text.encode("utf-8", "surrogateescape"), path)


def put_bytes(data: bytes, path: str = "-") -> None:
    """Writes bytes to a new file, or to standard output. A file that is there stays as it is."""
    if path == "-":
        if sys.stdout is None:
            raise InputError("standard output is closed")
        sys.stdout.buffer.write(data)
        sys.stdout.buffer.flush()
        return
    if path == "":
        raise InputError("the name of a file is empty")
    with open(path, "xb") as file:
        file.write(data)


def run_tool(main: Callable[[], None]) -> None:
    """Runs a tool. What it can't take ends it with one line on standard error and the status 1."""
    name = os.path.basename(sys.argv[0])
    try:
        main()
    except BrokenPipeError:
        # Whoever reads has seen enough. Nothing more may go out, not even as the interpreter ends.
        os.dup2(os.open(os.devnull, os.O_WRONLY), sys.stdout.fileno())
        sys.exit(1)
    except OSError as error:
        sys.exit(f"{name}: {'standard output' if error.filename is None else error.filename}: {error.strerror}")
    except MemoryError:
        sys.exit(f"{name}: out of memory")
    except KeyboardInterrupt:
        sys.exit(130)
    except (ListingError, InputError) as error:
        sys.exit(f"{name}: {error}")


def pixels(units: int) -> str:
    """A length in px, as short as it is exact."""
    return f"{units / UNITS_PER_PIXEL:.6f}".rstrip("0").rstrip(".")
