"""Draws pages as one SVG picture, for tools/picture.

All lengths in the picture are px, a sixty-fourth of those of the listing, so each rectangle is exactly that of its fragment.
What is drawn later lies over what was drawn before, in the order of the listing. Colours stand in one table, for light and
for dark.
"""
import dataclasses
import html
import itertools
import unicodedata
from collections.abc import Iterable, Iterator, Mapping, Sequence
from typing import NamedTuple

import listing

KINDS = ("box", "line", "span", "run")
# Room round a page, and for the words over and under it.
MARGIN, CAPTION, LEGEND_ROW = 12, 16, 16
LEGEND_SIZE, LEGEND_LETTER, SWATCH = 11, 6.2, 14
# Nothing is drawn further out than this many px.
FURTHEST = 100000
FONTS = "'DejaVu Sans Mono', 'Noto Sans Mono CJK JP', 'Noto Sans CJK JP', monospace"
# Where a text's baseline lies in a run, from line-over: of narrow characters as the engine's first face has it, of wide ones so
# that their square is inside. An upright character has its middle this far over its baseline.
NARROW_BASELINE, WIDE_BASELINE, UPRIGHT_MIDDLE = 0.75, 0.84, 0.37
# How far characters advance in the fonts that are asked for first, in parts of the font size; longer ones are squeezed, at most
# so much.
NARROW_EM, WIDE_EM, LEAST_SQUEEZE = 0.602, 1.0, 0.01
# Arabic letters that join no other, and those that join the letter before them alone.
UNJOINED, JOINED_BEFORE_ALONE = "\u0621\u0640", "\u0622\u0623\u0624\u0625\u0627\u0629\u062f\u0630\u0631\u0632\u0648"

# The selector, the property, its value in light and in dark.
COLOURS = (
    (".ground", "fill", "#e9e7e2", "#131416"),
    (".paper", "fill", "#ffffff", "#24262a"),
    (".words", "fill", "#3a3834", "#d4d1ca"),
    (".box", "stroke", "#2f5f9e", "#86b4f0"),
    (".box", "fill", "#2f5f9e0c", "#86b4f012"),
    (".line", "fill", "#ffd04a40", "#f0be502c"),
    (".baseline", "stroke", "#c47f00", "#e0a83a"),
    (".span", "stroke", "#1f8a55", "#63c795"),
    (".span", "fill", "#1f8a5526", "#63c79526"),
    (".level0", "fill", "#ffffffb0", "#191a1db0"),
    (".level1", "fill", "#ffdcdfd8", "#54262cd8"),
    (".level2", "fill", "#dfe0ffd8", "#2b2f66d8"),
    (".level3", "fill", "#f2d8f7d8", "#4b2956d8"),
    (".even", "fill", "#1c1b19", "#f2f0ea"),
    (".odd", "fill", "#9c1c2a", "#ffa3a3"),
    (".swatch", "stroke", "#3a383459", "#d4d1ca59"),
    (".name", "fill", "#2f5f9e", "#86b4f0"),
    (".name", "stroke", "#ffffff", "#24262a"),
)
SHAPES = """\
.box, .span, .baseline { vector-effect: non-scaling-stroke; stroke-width: 1 }
.anonymous { stroke-dasharray: 4 3; fill: none; pointer-events: all }
.baseline { stroke-width: 0.75; stroke-opacity: 0.7; fill: none }
.box:hover, .span:hover { stroke-width: 2.5 }
.line:hover, .run:hover { fill-opacity: 0.5 }
text { white-space: pre; pointer-events: none; font-family: FONTS }
.odd { direction: rtl; unicode-bidi: bidi-override }
.even { direction: ltr; unicode-bidi: bidi-override }
.part { text-anchor: middle }
.vertical { font-feature-settings: "vert" }
.words { font-family: sans-serif; font-size: 11px }
.name { font-size: 8px; font-weight: bold; paint-order: stroke; stroke-width: 2.5 }
""".replace("FONTS", FONTS)
LEGEND = (
    ("box", "box", "box"),
    ("anonymous", "box anonymous", "anonymous box"),
    ("line", "line", "line with its baseline"),
    ("span", "span", "inline box"),
    ("level0", "level0", "text from left to right"),
    ("level1", "level1", "text from right to left"),
    ("level2", "level2", "left to right within that"),
    ("level3", "level3", "deeper levels"),
)

# For each fragment of a page the place of the one in which it stands.
Owners = list[int | None]
Attributes = dict[str, object]


class Choices(NamedTuple):
    """What to draw: the kinds, a number for each box or none, the legend or none, the one node or none."""

    kinds: tuple[str, ...]
    names: bool
    legend: bool
    node: int | None


class Area(NamedTuple):
    """The area of a picture, in px."""

    left: float
    top: float
    right: float
    bottom: float


class Drawn(NamedTuple):
    """A page with the places of the fragments that are drawn, those of all owners, and the area that they take."""

    page: listing.Page
    places: Sequence[int]
    owners: Owners
    area: Area
    caption: str


def number(value: float) -> str:
    """A length in px as short as can be, to a thousandth."""
    told = f"{value:.3f}".rstrip("0").rstrip(".")
    return "0" if told == "-0" else told


def element(name: str, attributes: Mapping[str, object], content: str | None = None) -> str:
    """An element of the picture; attributes without a value are left out."""
    words = "".join(f' {key}="{html.escape(str(value))}"' for key, value in attributes.items() if value is not None)
    return f"<{name}{words}/>" if content is None else f"<{name}{words}>{content}</{name}>"


def style() -> str:
    """The colours in light and in dark, and all else of the look."""
    light = "\n".join(f"{selector} {{ {name}: {value} }}" for selector, name, value, _ in COLOURS)
    dark = "\n".join(f"  {selector} {{ {name}: {value} }}" for selector, name, _, value in COLOURS)
    # The shapes come last: an anonymous box isn't filled.
    return f"<style>\n{light}\n@media (prefers-color-scheme: dark) {{\n{dark}\n}}\n{SHAPES}</style>"


# Rectangles.

def rect_attributes(rect: listing.Rect) -> Attributes:
    rect = rect.upright()
    return {name: listing.pixels(getattr(rect, name)) for name in ("x", "y", "width", "height")}


def title(fragment: listing.Fragment) -> str:
    """What is told of a fragment where one points at it: its words in the listing, and the same in px."""
    x, y, width, height = map(listing.pixels, dataclasses.astuple(fragment.rect))
    place = f"at {x}, {y}: {width} x {height} px"
    said = " ".join(map(str, (fragment.kind, *fragment.words())))
    text = f"\n\u201c{fragment.logical()}\u201d" if fragment.kind == "run" else ""
    return element("title", {}, html.escape(f"{said}\n{place}{text}"))


def rectangle(fragment: listing.Fragment, classes: str) -> str:
    attributes = {"class": classes} | rect_attributes(fragment.rect) | {"data-node": fragment.node}
    return element("rect", attributes, title(fragment))


def box_name(box: listing.Box) -> str:
    return str(box.node) if box.box == 0 else f"{box.node}.{box.box}"


def names_drawn(boxes: Iterable[listing.Box]) -> Iterator[str]:
    """The names of boxes over all else, at their left top corners; boxes that share one have their names side by side."""
    corners: dict[tuple[int, int], list[str]] = {}
    for box in boxes:
        rect = box.rect.upright()
        corners.setdefault((rect.x, rect.y), []).append(box_name(box))
    for (x, y), names in corners.items():
        attributes = {"class": "name", "x": number(x / 64 + 2), "y": number(y / 64 + 3)}
        yield element("text", attributes, " ".join(names))


# Lines. Their mode is that of the runs on them; the listing says no more.

OVER_BY_ORIENTATION = {"h": "top", listing.UNTOLD: "top", "u": "right", "s": "right", "c": "right", "l": "left"}
OVER_BY_MODE = {
    "horizontal-tb": "top",
    "vertical-rl": "right",
    "vertical-lr": "right",
    "sideways-rl": "right",
    "sideways-lr": "left",
}


def line_over_sides(page: listing.Page, owners: Owners) -> dict[int, str]:
    """For each line, by its place, the side that is line-over: by a run on it, else by other lines of its box, else by what is
    round it."""
    by_line: dict[int, str] = {}
    by_box: dict[int | None, str] = {}
    for place, fragment in enumerate(page.fragments):
        if fragment.kind == "run":
            line = line_round(page, owners, place)
            if line is not None:
                side = OVER_BY_ORIENTATION[fragment.orientation]
                by_line.setdefault(line, side)
                by_box.setdefault(owners[line], side)
    sides = {}
    for place, fragment in enumerate(page.fragments):
        if fragment.kind == "line":
            sides[place] = by_line.get(place) or side_round(page, owners, place, by_box)
    return sides


def line_round(page: listing.Page, owners: Owners, place: int | None) -> int | None:
    """The line that a fragment stands on."""
    while place is not None and page.fragments[place].kind != "line":
        place = owners[place]
    return place


def side_round(page: listing.Page, owners: Owners, place: int | None, by_box: dict[int | None, str]) -> str:
    """The side that is line-over in the innermost box round a line for which it is known."""
    while place is not None:
        place = owners[place]
        if place in by_box:
            return by_box[place]
    return OVER_BY_MODE[page.mode]


def baseline_path(line: listing.Line, side: str) -> str:
    """The baseline, along the line."""
    rect, away = line.rect, line.baseline
    x, y = rect.x, rect.y
    if side == "top":
        return f"M{listing.pixels(x)} {listing.pixels(y + away)}h{listing.pixels(rect.width)}"
    x = rect.right - away if side == "right" else rect.x + away
    return f"M{listing.pixels(x)} {listing.pixels(y)}v{listing.pixels(rect.height)}"


def line_rectangle(line: listing.Line, side: str) -> str:
    baseline = {"class": "baseline", "d": baseline_path(line, side), "data-node": line.node}
    return rectangle(line, "line") + element("path", baseline)


# Text. Units are set at steps that fill the run: a wide character takes two where a narrow one takes one. Each has its own
# place, in the middle of its step, so that no two run over each other whatever font draws them.

def is_wide(cluster: str) -> bool:
    return unicodedata.east_asian_width(cluster[0]) in ("W", "F")


class Part(NamedTuple):
    """Units that are drawn together: one, or several Arabic letters that join. From line-left, in px along the run."""

    clusters: list[str]
    begin: float
    length: float

    @property
    def middle(self) -> float:
        return self.begin + self.length / 2

    @property
    def ems(self) -> float:
        """How far the units advance in the fonts that are asked for first, in parts of the font size."""
        return sum(WIDE_EM if is_wide(cluster) else NARROW_EM for cluster in self.clusters)


def parts_of(run: listing.Run, length: float) -> list[Part]:
    """The units of a run with the length of each, by which they fill it; those that join are one part."""
    step = length / sum(2 if is_wide(cluster) else 1 for cluster in run.clusters)
    parts: list[Part] = []
    begin = 0.0
    for place, cluster in enumerate(run.clusters):
        extent = step * (2 if is_wide(cluster) else 1)
        # From right to left the one before in the text stands on the right.
        if place and is_odd(run) and join(cluster, run.clusters[place - 1]):
            last = parts.pop()
            parts.append(Part([*last.clusters, cluster], last.begin, last.length + extent))
        else:
            parts.append(Part([cluster], begin, extent))
        begin += extent
    return parts


def join(first: str, second: str) -> bool:
    """Whether two units that follow one another in the text are Arabic letters that join."""
    both = all("\u0620" <= cluster[0] <= "\u064a" and cluster[0] not in UNJOINED for cluster in (first, second))
    return both and first[0] not in JOINED_BEFORE_ALONE


def text(attributes: Attributes, content: str) -> str:
    return element("text", attributes | {"xml:space": "preserve"}, content)


def is_odd(run: listing.Run) -> bool:
    return run.level % 2 == 1


def in_order(run: listing.Run, clusters: Sequence[str]) -> str:
    """The characters as the picture has them: from right to left they stand as written, and the picture's reader turns them."""
    if not is_odd(run):
        return "".join(clusters)
    return "".join(listing.MIRRORS.get(cluster[0], cluster[0]) + cluster[1:] for cluster in reversed(clusters))


def squeeze(part: Part, size: float) -> float:
    """How much narrower than the font has it a part is drawn, where it would be longer than its place."""
    return max(LEAST_SQUEEZE, min(1.0, part.length / (part.ems * size)))


def is_shown(part: Part) -> bool:
    """Whether something is seen of a part: spaces aren't drawn."""
    return bool("".join(part.clusters).strip(" \u00a0\u3000"))


def middles(run: listing.Run) -> list[float]:
    """Where the middles of what is drawn of a horizontal run are, from its left edge, in px."""
    return [part.middle for part in parts_of(run, run.rect.width / 64) if is_shown(part)]


def parts_drawn(run: listing.Run, parts: list[Part], size: float, origin: float, top: float) -> Iterator[str]:
    """Texts of a row of parts, those in one text that are equally squeezed. `top` is line-over, `origin` line-left."""
    def look(part: Part) -> tuple[str, bool, bool]:
        return number(squeeze(part, size)), is_wide(part.clusters[0]), len(part.clusters) > 1

    for (factor, wide, is_joined), group in itertools.groupby(filter(is_shown, parts), look):
        attributes: Attributes = {
            "class": ("odd" if is_odd(run) else "even") + " part",
            "y": number(top + size * (WIDE_BASELINE if wide else NARROW_BASELINE)),
            "font-size": number(size),
            "transform": None if factor == "1" else f"scale({factor} 1)",
        }
        for some in ([part] for part in group) if is_joined else [list(group)]:
            if is_joined:
                # Letters that join can't be set one by one. Where the reader can, it stretches them to their length.
                attributes |= {"textLength": number(some[0].length / float(factor)), "lengthAdjust": "spacingAndGlyphs"}
            yield text(attributes, "".join(part_drawn(run, part, origin, float(factor)) for part in some))


def part_drawn(run: listing.Run, part: Part, origin: float, factor: float) -> str:
    place = {"x": number((origin + part.middle) / factor)}
    return element("tspan", place, html.escape(in_order(run, part.clusters), quote=False))


def along_text(run: listing.Run, size: float) -> str:
    """The text of a run whose units lie along the line, turned as they are."""
    rect = run.rect
    x, y = rect.x / 64, rect.y / 64
    turned = {
        "h": f"translate({number(x)} {number(y)})",
        "s": f"translate({number(rect.right / 64)} {number(y)}) rotate(90)",
        "l": f"translate({number(x)} {number(rect.bottom / 64)}) rotate(-90)",
    }["h" if run.is_horizontal else run.orientation]
    length = (rect.width if run.is_horizontal else rect.height) / 64
    return element("g", {"transform": turned}, "".join(parts_drawn(run, parts_of(run, length), size, 0, 0)))


def upright_text(run: listing.Run) -> Iterator[str]:
    """Units that stand upright, one under the other, each with its middle in the middle of its step."""
    step = run.rect.height / 64 / len(run.clusters)
    size = min(step, run.rect.width / 64)
    for place, cluster in enumerate(run.clusters):
        attributes: Attributes = {
            "class": ("odd" if is_odd(run) else "even") + " part vertical",
            "x": number((run.rect.x + run.rect.width / 2) / 64),
            "y": number(run.rect.y / 64 + step * (place + 0.5) + UPRIGHT_MIDDLE * size),
            "font-size": number(size),
        }
        yield text(attributes, html.escape(in_order(run, [cluster]), quote=False))


def combined_text(run: listing.Run) -> str:
    """Units side by side in the square of one."""
    rect, length = run.rect, (run.natural or 0) / 64
    size = rect.height / 64
    # An upright character has its middle in that of the square.
    top = rect.y / 64 + size * (0.5 + UPRIGHT_MIDDLE - NARROW_BASELINE)
    return "".join(parts_drawn(run, parts_of(run, length), size, (rect.x + rect.width / 2) / 64 - length / 2, top))


def run_text(run: listing.Run) -> str:
    """The text of a run, as it stands; nothing where it has no extent."""
    if run.rect.width <= 0 or run.rect.height <= 0:
        return ""
    if run.orientation == "u":
        return "".join(upright_text(run))
    if run.orientation == "c":
        return combined_text(run) if run.natural else ""
    return along_text(run, (run.rect.height if run.is_horizontal else run.rect.width) / 64)


def run_drawn(run: listing.Run) -> str:
    return rectangle(run, f"run level{min(run.level, 3)}") + run_text(run)


# Pages.

def below(owners: Owners, places: Iterable[int]) -> list[int]:
    """Those places and all fragments that stand in them."""
    held = set(places)
    for place, owner in enumerate(owners):
        if owner in held:
            held.add(place)
    return sorted(held)


def area_of(rects: Iterable[listing.Rect]) -> Area:
    """The area that rectangles take, in px."""
    rects = [rect.upright() for rect in rects]
    sides = (min(r.x for r in rects), min(r.y for r in rects), max(r.right for r in rects), max(r.bottom for r in rects))
    return Area(*(max(-FURTHEST, min(FURTHEST, side / 64)) for side in sides))


def prepared(page: listing.Page, owners: Owners, choices: Choices, caption: str) -> Drawn | None:
    """What is drawn of a page."""
    if choices.node is None:
        places: Sequence[int] = range(len(page.fragments))
        rects = [listing.Rect(0, 0, page.width, page.height)]
    else:
        places = below(owners, [place for place, each in enumerate(page.fragments) if each.node == choices.node])
        rects = []
    rects += [page.fragments[place].rect for place in places]
    return Drawn(page, places, owners, area_of(rects), caption) if places or choices.node is None else None


def fragments_drawn(drawn: Drawn, choices: Choices) -> Iterator[str]:
    """The fragments in the order of the listing."""
    sides = line_over_sides(drawn.page, drawn.owners)
    for place in drawn.places:
        fragment = drawn.page.fragments[place]
        if fragment.kind not in choices.kinds:
            continue
        if fragment.kind == "box":
            yield rectangle(fragment, "box anonymous" if fragment.box else "box")
        elif fragment.kind == "line":
            yield line_rectangle(fragment, sides[place])
        else:
            yield rectangle(fragment, "span") if fragment.kind == "span" else run_drawn(fragment)
    if choices.names and "box" in choices.kinds:
        fragments = (drawn.page.fragments[place] for place in drawn.places)
        yield from names_drawn(each for each in fragments if each.kind == "box")


def paper(drawn: Drawn) -> str:
    page = drawn.page
    attributes = {"class": "paper"} | rect_attributes(listing.Rect(0, 0, page.width, page.height))
    return element("rect", attributes)


def cut_to(area: Area, identity: str) -> str:
    """The area of one node's part, as what is outside it isn't drawn."""
    sizes = {"x": area.left - 2, "y": area.top - 2, "width": area.right - area.left + 4, "height": area.bottom - area.top + 4}
    return element("clipPath", {"id": identity}, element("rect", {key: number(value) for key, value in sizes.items()}))


def page_group(drawn: Drawn, choices: Choices, left: float, top: float, identity: str) -> str:
    """A page with its place in the picture."""
    content = [paper(drawn), *fragments_drawn(drawn, choices)]
    clip = None
    if choices.node is not None:
        content.insert(0, cut_to(drawn.area, identity))
        clip = f"url(#{identity})"
    moved = f"translate({number(left - drawn.area.left)} {number(top - drawn.area.top)})"
    drawing = element("g", {"clip-path": clip}, "\n".join(["", *content, ""]))
    return element("g", {"class": "page", "transform": moved}, drawing)


def legend_entries(all_drawn: Iterable[Drawn], choices: Choices) -> list[tuple[str, str]]:
    """The rows of the legend of which the pictures have something."""
    seen = set()
    for drawn in all_drawn:
        for place in drawn.places:
            fragment = drawn.page.fragments[place]
            if fragment.kind in choices.kinds:
                seen.add(legend_key(fragment))
    return [(classes, words) for key, classes, words in LEGEND if key in seen]


def legend_key(fragment: listing.Fragment) -> str:
    if fragment.kind == "run":
        return f"level{min(fragment.level, 3)}"
    return "anonymous" if fragment.kind == "box" and fragment.box else fragment.kind


def legend_drawn(entries: list[tuple[str, str]], width: float, top: float) -> tuple[str, float]:
    """The legend in rows as wide as the picture, and its height."""
    x, y = float(MARGIN), top
    drawn: list[str] = []
    for classes, words in entries:
        extent = SWATCH + 5 + LEGEND_LETTER * len(words) + 12
        if x > MARGIN and x + extent > width:
            x, y = MARGIN, y + LEGEND_ROW
        drawn.append(swatch(classes, x, y) + plain_words(x + SWATCH + 5, y + 9, words))
        x += extent
    return "\n".join(drawn), y + LEGEND_ROW - top if entries else 0


def plain_words(x: float, y: float, words: str) -> str:
    return element("text", {"class": "words", "x": number(x), "y": number(y)}, html.escape(words))


def swatch(classes: str, x: float, y: float) -> str:
    # Boxes have an edge of their own; on the ground the others would hardly be seen without one.
    edged = classes if classes.startswith(("box", "span")) else f"{classes} swatch"
    drawn = element("rect", {"class": edged, "x": number(x), "y": number(y), "width": SWATCH, "height": 10})
    if classes == "line":
        drawn += element("path", {"class": "baseline", "d": f"M{number(x)} {number(y + 7)}h{SWATCH}"})
    return drawn


def placed(all_drawn: list[Drawn]) -> Iterator[tuple[Drawn, float, float, float, float]]:
    """Each page with its left and top edge: side by side, or one under the other where they are wider than high."""
    sizes = [(each.area.right - each.area.left, each.area.bottom - each.area.top) for each in all_drawn]
    wide = sum(width for width, _ in sizes) > sum(height for _, height in sizes)
    x, y = float(MARGIN), float(MARGIN)
    for drawn, (width, height) in zip(all_drawn, sizes):
        caption = CAPTION if drawn.caption else 0
        yield drawn, x, y + caption, width, height
        x, y = (x, y + caption + height + MARGIN) if wide else (x + width + MARGIN, y)


def svg_of(all_drawn: list[Drawn], choices: Choices, scale: float) -> str:
    """The picture of one page or of several."""
    groups: list[str] = []
    right, bottom = 0.0, 0.0
    for place, (drawn, left, top, width, height) in enumerate(placed(all_drawn)):
        if drawn.caption:
            groups.append(plain_words(left, top - 5, drawn.caption))
        groups.append(page_group(drawn, choices, left, top, f"part{place}"))
        right, bottom = max(right, left + width + MARGIN), max(bottom, top + height + MARGIN)
    entries = legend_entries(all_drawn, choices) if choices.legend else []
    right = max([right, *(MARGIN + SWATCH + 17 + LEGEND_LETTER * len(words) for _, words in entries)])
    legend, high = legend_drawn(entries, right, bottom)
    bottom += high + (MARGIN / 2 if entries else 0)
    ground = element("rect", {"class": "ground", "width": number(right), "height": number(bottom)})
    attributes = {
        "xmlns": "http://www.w3.org/2000/svg",
        "width": number(right * scale),
        "height": number(bottom * scale),
        "viewBox": f"0 0 {number(right)} {number(bottom)}",
    }
    return element("svg", attributes, "\n".join(["", style(), ground, *groups, *([legend] if legend else []), ""])) + "\n"
