"""Finds where in an input a refusal stands, and which row of docs/REFUSALS.md tells of it, for tools/where.

Places are counted in characters. The engine tells a byte, a node or a line of a script; of a `style` attribute and of a line of
a script that isn't read it tells the start alone. There the part that was refused is given to the program by itself, in a small
document, and its place counts where it is refused by the same kind. Where a node begins tells the program report_nodes, which
reads the document as the engine does.
"""
import dataclasses
import re
import unicodedata
from collections.abc import Callable, Sequence

import listing
import source
import syntax_hints
from refusals import Fact

MOST_NODES, MOST_LEVELS = 65_536, 64
# How many open elements are told of.
MOST_OPEN = 4
SIGNS = "@:[+~"
# Which words of a script's line are numbers of nodes.
NAMED = {"text": 1, "style": 1, "class": 1, "insert": 1, "remove": 1, "move": 2}
# Rows that lines of one word alone can have.
FOREIGN = {"a sign": "rule ", "dir": "insert "}
# Which kinds of the reading of a script are about the whole line.
WHOLE_LINES = ("ScriptSyntax", "TooManyEdits", "TooManyShows")
REFERENCE = re.compile(r"&#(?:[xX]([0-9A-Fa-f]{1,6})|([0-9]{1,7}));")
LONG_NUMBER = re.compile(r"\d{8}")
SPACE = "[\t\n\f\r ]*"
STYLE = re.compile(rf"style{SPACE}={SPACE}(?:\"([^\"]*)\"|'([^']*)')", re.IGNORECASE)
BRINGING_LINE = re.compile(r"(?:(text|style) \d{1,7}|(insert) \d{1,7} \d{1,7}|(rule)) ", re.ASCII)
# What stands round declarations, round rules and round content in a small document, and what means something else there than in an
# attribute.
SHEET = ("<html><head><style>x{", "}</style></head><body></body></html>")
RULES = ("<html><head><style>", "</style></head><body></body></html>")
CONTENT = ("<html><body>", "</body></html>")
OTHERWISE = set("@{}<&")


# Rows of docs/REFUSALS.md.
Facts = Sequence[Fact]
# The program as a function from an input to its refusal, or to nothing.
Probe = Callable[[bytes], listing.Refusal | None]


@dataclasses.dataclass(frozen=True)
class Place:
    """A place of the input in characters, and what is to be said of it."""

    at: int
    facts: tuple[Fact, ...]
    notes: tuple[str, ...] = ()


@dataclasses.dataclass(frozen=True)
class Known:
    """What is known of the run: its command, whether edits were refused, and the program as a function from an input to its
    refusal. Each may be nothing."""

    command: str | None
    of_edit: bool | None
    probe: Probe | None


class Input:
    """The bytes of a file as characters, where a byte that is no UTF-8 counts as one; and the document in it, if it is whole.
    Where its nodes begin tells a function from the input to their places in bytes, which is asked once it is needed."""

    def __init__(self, name: str, data: bytes, tell_begins: Callable[[bytes], list[int]] | None = None) -> None:
        self.name = "standard input" if name == "-" else name
        self.data = data
        self.text = data.decode("utf-8", "surrogateescape")
        self.found, self.broken = source.Nodes(), None
        try:
            source.walk(self.found, self.text)
        except listing.InputError as error:
            self.broken = error
        self.nodes = [] if self.broken else self.found.nodes
        self.tell_begins = tell_begins
        self.begins: list[int] | None = None

    def characters_before(self, byte: int) -> int:
        """The place in characters of a byte, or of the character that it is a part of."""
        if byte > len(self.data):
            raise listing.InputError(f"{self.name} has {len(self.data)} bytes: another input was refused at byte {byte}")
        front = self.data[:byte].decode("utf-8", "surrogateescape")
        while not self.text.startswith(front):
            byte -= 1
            front = self.data[:byte].decode("utf-8", "surrogateescape")
        return len(front)

    def line_and_column(self, at: int) -> tuple[int, int]:
        return self.text.count("\n", 0, at) + 1, at - self.text.rfind("\n", 0, at)

    def position(self, at: int) -> str:
        line, column = self.line_and_column(at)
        return f"{self.name}:{line}:{column}"

    def line_round(self, at: int) -> tuple[str, str]:
        """The line of a place in two parts: before it, and from it on."""
        begin, end = self.text.rfind("\n", 0, at) + 1, self.text.find("\n", at)
        rest = self.text[at:] if end < 0 else self.text[at:end]
        return self.text[begin:at], rest.removesuffix("\r")

    def script_begin(self) -> int:
        """Where a script would begin; at the end of the text where no whole document stands before it."""
        return source.script_begin(self.text, self.nodes) if self.nodes else len(self.text)

    def script_line_number(self, at: int) -> int:
        return self.text.count("\n", self.script_begin(), at) + 1

    def node(self, number: int) -> source.Node:
        if self.broken:
            raise self.broken
        if number >= len(self.nodes):
            raise listing.InputError(f"the document in {self.name} has {len(self.nodes)} nodes, and none of the number {number}")
        return self.nodes[number]

    def begin(self, number: int) -> int:
        """The place at which a node of the document begins."""
        if self.begins is None:
            self.begins = self.tell_begins(self.data) if self.tell_begins else []
        if number >= len(self.begins):
            raise listing.InputError(f"the document in {self.name} is read with {len(self.begins)} nodes")
        return self.characters_before(self.begins[number])


# What a refusal is about.

def place_of(given: Input, refusal: listing.Refusal, facts: list[Fact], known: Known) -> Place:
    """The place of a refusal, by what its number counts."""
    rows = [fact for fact in facts if fact.kind == refusal.kind]
    numbers = {fact.number for fact in rows}
    if not rows:
        raise listing.InputError(f"docs/REFUSALS.md has no refusal {refusal.kind}")
    if "byte" in numbers and not (numbers != {"byte"} and is_of_edit(given, refusal, known)):
        return place_of_byte(given, refusal, [row for row in rows if row.number == "byte"], known)
    if "node" not in numbers or (not fits_node(given, refusal) if known.of_edit is None else known.of_edit):
        return place_of_edit(given, refusal.number, [fact for fact in rows if fact.number == "line"])
    return place_of_node(given, refusal.number, [fact for fact in rows if fact.number == "node"])


def is_of_edit(given: Input, refusal: listing.Refusal, known: Known) -> bool:
    """Whether a kind of bytes and of lines tells of a line: by the status, else where its number is no place of a sheet or of rules in a script."""
    if known.of_edit is not None:
        return known.of_edit
    at = given.characters_before(min(refusal.number, len(given.data)))
    return not in_sheet(given, at) and not script_line(given, at).startswith("rule ")


def fits_node(given: Input, refusal: listing.Refusal) -> bool:
    """Whether the document can have been refused with this node; else the number is that of a line."""
    if given.script_begin() == len(given.text):
        return True
    if refusal.number >= len(given.nodes):
        return False
    if refusal.kind == "TooManyNodes":
        return refusal.number >= MOST_NODES
    return refusal.kind != "TooDeep" or source.depth_of(given.nodes, refusal.number) > MOST_LEVELS


def place_of_byte(given: Input, refusal: listing.Refusal, rows: Facts, known: Known) -> Place:
    at = given.characters_before(refusal.number)
    if given.nodes and at >= given.nodes[0].end:
        return place_behind_document(given, refusal, rows, known, at)
    rows = rows_at(given, refusal.kind, rows, at)
    if refusal.kind == "Syntax" and not syntax_hints.is_in_number(given.text, at):
        rows = without_limits(rows)
    if is_style_attribute(given, refusal.kind, at):
        return place_in_attribute(given, refusal.kind, rows, known, at)
    return Place(at, rows, notes_of_byte(given, refusal.kind, at))


def rows_at(given: Input, kind: str, rows: Facts, at: int) -> tuple[Fact, ...]:
    """The rows of a kind for a place in a document."""
    return tuple(row for row in rows if kind != "Unsupported" or row.of == of_what(given, at))


def without_limits(rows: Facts) -> tuple[Fact, ...]:
    """Rows of which the limit isn't what was passed."""
    return tuple(dataclasses.replace(row, limit="none") for row in rows)


def is_style_attribute(given: Input, kind: str, at: int) -> bool:
    return kind in ("CssSyntax", "Unsupported", "NotTurnable") and not in_sheet(given, at) and STYLE.match(given.text, at) is not None


def place_in_attribute(given: Input, kind: str, rows: Facts, known: Known, at: int) -> Place:
    inner = inside_attribute(given, known.probe, kind, at)
    if inner is None:
        return Place(at, tuple(rows), ("somewhere in this style attribute: its name is pointed at",))
    return Place(inner, tuple(rows), (f"in the style attribute at {given.position(at)}",))


def place_behind_document(given: Input, refusal: listing.Refusal, rows: Facts, known: Known, at: int) -> Place:
    """A place behind `</html>`: in a script or a probe, or where there should be neither."""
    if known.command not in ("edit", "probe") and (known.command or at < given.script_begin()):
        return Place(at, tuple(rows), ("this stands behind the document; lines there are read by the commands edit and probe alone",))
    note = f"line {given.script_line_number(at)} of the {'probe' if known.command == 'probe' else 'script'}"
    if known.command == "probe":
        return Place(at, tuple(rows), (note,))
    if refusal.kind == "ScriptSyntax" and not LONG_NUMBER.search(script_line(given, at)):
        rows = without_limits(rows)
    if refusal.kind in WHOLE_LINES:
        return Place(at, tuple(rows), (note,))
    return place_in_line(given, refusal.kind, rows, known, at, note)


def place_in_line(given: Input, kind: str, rows: Facts, known: Known, at: int, note: str) -> Place:
    """A place behind the words of a script's line; its start where no more is known."""
    inner = inside_line(given, known.probe, kind, at)
    if inner is None:
        line = script_line(given, at)
        rows = [row for row in rows if row.of not in FOREIGN or line.startswith(FOREIGN[row.of])]
        return Place(at, tuple(rows), (f"{note}, somewhere behind its words: its start is pointed at",))
    rows = rows_at(given, kind, rows, inner)
    if kind == "Syntax":
        hint = syntax_hints.reference_hint(given.text, inner)
        return Place(inner, without_limits(rows), (note, hint) if hint else (note,))
    character = (name_of_character(given.text, inner),) if kind == "Character" else ()
    return Place(inner, rows, (note, *character))


def script_line(given: Input, at: int) -> str:
    end = given.text.find("\n", at)
    return given.text[at:] if end < 0 else given.text[at:end]


def in_sheet(given: Input, at: int) -> bool:
    return any(begin <= at <= end for begin, end in given.found.sheets)


def of_what(given: Input, at: int) -> str:
    """Which row of `Unsupported` a place in a document has."""
    if in_sheet(given, at):
        return "a sign" if given.text[at : at + 1] in tuple(SIGNS) else "a declaration"
    return "dir" if given.text[at : at + 3].lower() == "dir" else "a declaration"


def notes_of_byte(given: Input, kind: str, at: int) -> tuple[str, ...]:
    """What the input itself tells of a refusal in a document."""
    if at == len(given.text):
        return ("the input ends here", *told_open(given, given.found.open))
    if kind == "Character":
        return (name_of_character(given.text, at),)
    if kind == "Syntax":
        return syntax_hints.hints(given.text, at)
    return told_open(given, given.found.open[-1:]) if kind == "Nesting" else ()


def told_open(given: Input, numbers: list[int]) -> tuple[str, ...]:
    """The elements that are open where the document breaks off, the innermost first."""
    nodes = [given.found.nodes[each] for each in reversed(numbers)]
    told = [f"open is the <{node.tag}> at {given.position(node.begin)}" for node in nodes[:MOST_OPEN]]
    return (*told, f"and {len(nodes) - MOST_OPEN} more round these") if len(nodes) > MOST_OPEN else tuple(told)


def name_of_character(text: str, at: int) -> str:
    """The number and the name of a character, which may be written as a reference."""
    reference = REFERENCE.match(text, at)
    number = ord(text[at]) if reference is None else int(reference[1], 16) if reference[1] else int(reference[2])
    name = unicodedata.name(chr(number), "") if number < 0x110000 else ""
    return f"U+{number:04X} {name}".rstrip()


def told_node(given: Input, number: int) -> str:
    """A node in words, with its place in the document."""
    if number >= len(given.nodes):
        return f"node {number} isn't written in the document: an edit brought it, or none has this number"
    node = given.nodes[number]
    return f"node {number} is {named(node)} at {given.position(given.begin(number))}"


def named(node: source.Node) -> str:
    return f"a <{node.tag}>" if node.tag else "a text"


def place_of_node(given: Input, number: int, rows: Facts) -> Place:
    return Place(given.begin(number), tuple(rows), (f"node {number} is {named(given.node(number))}",))


def place_of_edit(given: Input, number: int, rows: Facts) -> Place:
    """The line of a script, counted from 1, and the nodes that it names."""
    at = given.script_begin()
    for _ in range(number - 1):
        at = given.text.find("\n", at) + 1 or len(given.text)
    if at == len(given.text) or number < 1:
        raise given.broken or listing.InputError(f"{given.name} has no script with a line {number}")
    words = script_line(given, at).removesuffix("\r").split(" ")
    numbers = words[1 : 1 + NAMED.get(words[0], 0)]
    notes = (told_node(given, int(each)) for each in dict.fromkeys(numbers) if each.isdecimal())
    return Place(at, tuple(rows), (f"line {number} of the script", *notes))


# Parts that are given to the program by themselves.

def inside(given: Input, probe: Probe | None, kind: str, begin: int, end: int, around: tuple[str, str]) -> int | None:
    """The place at which a part of the input is refused in a small document; nothing where it isn't refused by this kind."""
    part = given.text[begin:end].encode("utf-8", "surrogateescape")
    found = probe(around[0].encode() + part + around[1].encode()) if probe else None
    # An end tag too many, or one that is missing at the end, is a Syntax in what is inserted and a Nesting in a document.
    if found is None or found.kind not in ({kind, "Nesting"} if kind == "Syntax" else {kind}):
        return None
    at = found.number - len(around[0])
    return begin + len(part[:at].decode("utf-8", "surrogateescape")) if 0 <= at <= len(part) else None


def inside_declarations(given: Input, probe: Probe | None, kind: str, begin: int, end: int) -> int | None:
    return None if OTHERWISE & set(given.text[begin:end]) else inside(given, probe, kind, begin, end, SHEET)


def inside_attribute(given: Input, probe: Probe | None, kind: str, at: int) -> int | None:
    found = STYLE.match(given.text, at)
    return inside_declarations(given, probe, kind, *found.span(1 if found[1] is not None else 2)) if found else None


def inside_line(given: Input, probe: Probe | None, kind: str, at: int) -> int | None:
    """The place behind the words of a line `style`, `text`, `insert` or `rule`."""
    line = script_line(given, at).removesuffix("\r")
    words = BRINGING_LINE.match(line)
    if words is None:
        return None
    begin, end = at + words.end(), at + len(line)
    if words[1] == "style":
        return inside_declarations(given, probe, kind, begin, end)
    if words[3]:
        # The element `style` ends at a tag.
        return None if "<" in line else inside(given, probe, kind, begin, end, RULES)
    if "</body" in line.lower():
        # This would end the small document and not what is in it.
        return None
    if words[1] == "text" and "<" in line and kind == "Syntax":
        # A text has no tags, so it is read up to the first.
        end = given.text.index("<", begin)
        return inside(given, probe, kind, begin, end, CONTENT) or (end if probe else None)
    inner = inside(given, probe, kind, begin, end, CONTENT)
    if inner is not None and is_style_attribute(given, kind, inner):
        return inside_attribute(given, probe, kind, inner) or inner
    return inner
