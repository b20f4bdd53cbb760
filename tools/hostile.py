"""Jobs for the program wm_layout at the limits of docs/PROFILE/limits.md, for tools/stack: the deepest, the longest, and those with
the most parts.
"""
from collections.abc import Iterator, Sequence
from typing import NamedTuple

import listing

# The elements on a line of ancestors within `body`: the tree has 64 levels, with `html`, `body` and a text.
DEEPEST = listing.DEEPEST - 3
# The most nodes of a document, and of them those in its body; rules, declarations; edits of a script, or questions of a probe;
# pages of a script; boxes on a line of ancestors that turn; paragraphs of the made input.
MOST_NODES, MOST_RULES, MOST_DECLARATIONS, MOST_EDITS, MOST_SHOWS, MOST_TURNS, MOST_MADE = 65_536, 4_096, 65_536, 10_000, 64, 6, 1_000
MOST_IN_BODY = MOST_NODES - 2
BLOCK, ATOM, SHIFTED = ("div", ""), ("span", "display:inline-block"), ("div", "position:relative;top:1px")
INLINE, RAISED = ("b", ""), ("b", "vertical-align:1px;padding:1px;unicode-bidi:isolate")
TURNS = ("writing-mode:vertical-rl", "writing-mode:horizontal-tb")
FSI, PDI, RLE, ACCENT = "\u2068", "\u2069", "\u202b", "\u0301"
# The tag of an element and its style.
Shape = tuple[str, str]


class Job(NamedTuple):
    """A job: its name, the words of the command, and its input."""

    name: str
    words: tuple[str, ...]
    input: bytes


def start_of(shape: Shape) -> str:
    tag, style = shape
    return f'<{tag} style="{style}">' if style else f"<{tag}>"


def inside(shapes: Sequence[Shape], content: str = "to be", before: str = "") -> str:
    """Elements of these shapes inside one another, from the outermost on, with something before what is in each."""
    starts = "".join(start_of(shape) + before for shape in shapes)
    return starts + content + "".join(f"</{tag}>" for tag, _ in reversed(shapes))


def document(content: str, sheet: str = "", attributes: str = "") -> str:
    head = f"<head><style>{sheet}</style></head>" if sheet else ""
    return f"<html>{head}<body{attributes}>{content}</body></html>"


def by_turns(count: int, *shapes: Shape) -> list[Shape]:
    """So many shapes, these by turns."""
    return [shapes[at % len(shapes)] for at in range(count)]


def turning(most: int, between: Shape) -> list[Shape]:
    """As many boxes as may turn on a line of ancestors, evenly among others of one shape, so many together."""
    each = most // MOST_TURNS
    turns = [("div", TURNS[at % 2]) for at in range(MOST_TURNS)]
    shapes = [shape for turn in turns for shape in (turn, *[between] * (each - 1))]
    return shapes + [between] * (most - len(shapes))


def deep_contents() -> Iterator[tuple[str, str]]:
    """Contents of a body, as deep as one may be, each with its name."""
    paragraph = "<p>or</p>"
    plain = (("blocks", BLOCK), ("inline boxes", INLINE), ("inline-blocks", ATOM))
    for name, shape in *plain, ("shifted blocks", SHIFTED), ("raised inline boxes", RAISED):
        yield f"{name} inside one another", inside([shape] * DEEPEST)
    yield "inline boxes and blocks by turns", inside(by_turns(DEEPEST, INLINE, BLOCK))
    yield "inline boxes and inline-blocks by turns", inside(by_turns(DEEPEST, INLINE, ATOM))
    yield "blocks and inline-blocks by turns", inside(by_turns(DEEPEST, BLOCK, ATOM))
    yield "blocks in inline boxes beside text", inside([*[INLINE] * (DEEPEST - 1), BLOCK], before="a")
    for name, shape in plain:
        # A paragraph has a text, which is a level.
        yield f"{name} beside paragraphs", inside([shape] * (DEEPEST - 1), before=paragraph)
        yield f"boxes that turn, with {name}", inside(turning(DEEPEST, shape))
        yield f"boxes that turn, with {name}, beside paragraphs", inside(turning(DEEPEST - 1, shape), before=paragraph)
    shrinking = by_turns(MOST_TURNS, *(("span", f"display:inline-block;{turn}") for turn in TURNS))
    yield "boxes that turn and shrink", inside([*shrinking, *[ATOM] * (DEEPEST - MOST_TURNS)])
    yield "inline boxes round a text of many lines", inside([INLINE] * DEEPEST, "to be " * 2000)


def deep_jobs() -> Iterator[Job]:
    """Jobs as deep as a document may be."""
    for name, content in deep_contents():
        yield Job(name, ("layout",), document(content).encode())
    sheet = " ".join(["div"] * DEEPEST) + " *{color:red}" + ">".join(["div"] * DEEPEST) + "{width:9px}"
    yield Job("selectors as deep as blocks", ("layout",), document(inside([BLOCK] * DEEPEST), sheet).encode())
    fragment = inside([ATOM] * (DEEPEST - 1), before="<p>or</p>")
    steps = (f"insert 1 0 {fragment}", "show", "move 2 1 0", "style 0 writing-mode:vertical-rl", "show", "undo", "undo", "undo", "redo", "show")
    yield Job("inline-blocks put in by an edit", ("edit",), "\n".join((document(""), *steps)).encode())
    asked = "\n".join(f"point {at} {at}\ncaret {at} 1" for at in range(200))
    for name, content in deep_contents():
        if name == "inline-blocks beside paragraphs":
            yield Job(f"{name}, asked", ("probe",), f"{document(content)}\n{asked}".encode())
            yield Job(f"{name}, in all modes", ("modes",), document(content).encode())
            yield Job(f"{name}, in a view of one px", ("layout", "--view-inline", "1", "--view-block", "1"), document(content).encode())


def long_texts() -> Iterator[tuple[str, str]]:
    """Texts of many characters, each with its name."""
    room = listing.MOST_INPUT - len(document(""))
    yield "one word", "m" * room
    yield "spaces", "a" + " " * (room - 2) + "b"
    yield "accents on one letter", "e" + ACCENT * ((room - 1) // 2)
    yield "isolates inside one another", FSI * (room // 7) + "a" + PDI * (room // 7)
    yield "embeddings that nothing closes", RLE * (room // 3)
    yield "brackets that nothing closes", "(" * room
    yield "references", "&lt;" * (room // 4)
    yield "line breaks", "<br>" * (room // 4 // 5)


def unread_inputs() -> Iterator[tuple[str, str]]:
    """Documents in which readers have to go deep, or far, whether they are refused or not; each with its name."""
    most = listing.MOST_INPUT - 100
    yield "one level too many", document(inside([BLOCK] * (DEEPEST + 1)))
    yield "a hundred thousand elements inside one another", document(inside([INLINE] * 100_000))
    yield "start tags that nothing closes", "<html><body>" + "<p>" * (most // 3)
    yield "end tags that close nothing", "<html><body>" + "</p>" * (most // 4)
    yield "one tag of many attributes that isn't closed", "<html><body><p" + "".join(f' data-{at}=""' for at in range(most // 14))
    yield "a comment that isn't closed", "<html><body><!--" + "-" * most
    yield "brackets in a value", document("", "p{width:" + "(" * (most // 2) + ")" * (most // 2) + "}")
    yield "brackets of all kinds that nothing closes", document("", "p{width:" + "([" * (most // 2))
    yield "functions in a value", document(f'<p style="x:{"a(" * (most // 3)}{")" * (most // 3)}"></p>')
    yield "a comment in a sheet that isn't closed", document("", "/*" + "*" * most)
    yield "opening braces", document("", "p{" * (most // 2))
    yield "one turn too many", document(inside(by_turns(MOST_TURNS + 1, *(("div", turn) for turn in TURNS))))
    yield "one declaration too many", document("", ",".join(["p"] * 256) + "{" + "width:1px;" * 257 + "}")


def wide_documents() -> Iterator[tuple[str, str]]:
    """Documents with the most parts, each with its name."""
    letters = [f"c{at}" for at in range(MOST_RULES)]
    yield "as many nodes as there may be", document("<p>" + "<b></b>" * (MOST_IN_BODY - 1) + "</p>")
    yield "as many blocks as there may be", document("<p></p>" * MOST_IN_BODY)
    yield "blocks that cut sixty inline boxes", document(inside([INLINE] * (DEEPEST - 1), "<p></p>a" * 2000))
    yield "as many rules as there may be", document('<p class="c0 c9">a</p>' * 500, "".join(f".{name}{{width:9px}}" for name in letters))
    yield "as many declarations as there may be", document("<p>a</p>" * 50, ",".join(["p"] * 256) + "{" + "width:1px;" * 256 + "}")
    yield "one selector of many names", document("<p>a</p>" * 100, " ".join([".a"] * 200_000) + "{width:9px}")
    yield "one compound of many classes", document(f'<p class="{" ".join(letters)}">a</p>', "." + ".".join(letters) + "{width:9px}")
    yield "as many class words as there is room for", document("<p></p>" * 100, "p{}", f' class="{"a " * 400_000}"')


def long_jobs() -> Iterator[Job]:
    """Jobs that are as long or as wide as they may be."""
    for name, text in long_texts():
        yield Job(name, ("layout",), document(text).encode())
    for name, source in (*wide_documents(), *unread_inputs()):
        yield Job(name, ("layout",), source.encode())
    page = document("<p>a</p>" * 30)
    edits = "\n".join(f"text {2 * (at % 30) + 3} b\nundo" for at in range(MOST_EDITS // 2))
    yield Job("as many edits as there may be, half of them taken back", ("edit",), f"{page}\n{edits}\nshow".encode())
    yield Job("as many pages as there may be", ("edit",), (page + "\nshow" * MOST_SHOWS).encode())
    many = document(f"<div>{'<p></p>' * (MOST_IN_BODY - 1)}</div>")
    yield Job("as many nodes as there may be, taken out and put back", ("edit",), f"{many}\nremove 2\nundo\nredo\nundo\nshow".encode())
    asked = "\n".join(f"point {at} {at}" if at % 2 else f"caret {at % 62} {at % 3}" for at in range(MOST_EDITS))
    yield Job("as many questions as there may be", ("probe",), f"{page}\n{asked}".encode())
    yield Job("a page in all modes", ("modes",), page.encode())
    yield Job("the longest made input", ("gen", "--count", str(MOST_MADE)), b"")
    yield Job("words that give no job", ("layout", "layout"), b"")
