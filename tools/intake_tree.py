"""Makes the tree of a document of the profile (docs/PROFILE/html.md) from the tree of a page, for tools/take-in.

The tables say what stands for each tag and attribute that the profile doesn't have.
"""
from __future__ import annotations

import dataclasses
import re
import typing
import xml.etree.ElementTree
from collections.abc import Iterator

if typing.TYPE_CHECKING:
    import intake_losses
    import intake_text

BLOCK_TAGS = frozenset(
    "html body div section article header footer main nav aside address p h1 h2 h3 h4 h5 h6 blockquote figure figcaption"
    " ul ol li".split()
)
INLINE_TAGS = frozenset("span a b strong i em u s small code abbr cite mark bdo".split())
TAGS = BLOCK_TAGS | INLINE_TAGS | {"br"}

# What stands for a tag that the profile doesn't have. Those that aren't here become a span, as HTML shows unknown tags.
NEAREST = {
    # Groups of blocks.
    **dict.fromkeys("center details summary dialog form fieldset legend hgroup search marquee optgroup".split(), "div"),
    **dict.fromkeys("pre listing xmp plaintext dl dt dd hr frameset".split(), "div"),
    **dict.fromkeys("table caption thead tbody tfoot tr td th".split(), "div"),
    **dict.fromkeys("menu dir".split(), "ul"),
    # Words that are marked.
    **dict.fromkeys("kbd samp tt".split(), "code"),
    **dict.fromkeys("var dfn".split(), "i"),
    **dict.fromkeys("strike del".split(), "s"),
    "ins": "u",
    "acronym": "abbr",
}
# What has nothing to read in it, or what isn't read where it stands: it goes with all in it.
DROPPED = frozenset(
    "head title meta link base style script template iframe frame noframes noembed embed source track param area col colgroup"
    " input select datalist rp wbr svg basefont bgsound keygen".split()
)
# Of these nothing is lost that a page shows, or it is told elsewhere.
UNSAID = frozenset("head title meta link base style rp svg".split())
# Tags that leave no box of their own: their content goes into what is round them.
UNWRAPPED = frozenset("math mrow mi mo mn mtext semantics map picture switch case default".split())
# Text before and behind an element. HTML's own sheet has the marks of `q`; a reading stands in brackets where ruby can't.
AROUND = {"q": ("\u201c", "\u201d"), "rt": ("\uff08", "\uff09")}
# How browsers show a tag or an attribute that something else stands for. The class `was-NAME` keeps what it was.
LOOKS = {
    "center": "text-align: center",
    "pre": "margin-block: 1em",
    "listing": "margin-block: 1em",
    "dl": "margin-block: 1em",
    "dd": "margin-inline-start: 40px",
    "hr": "margin-block: 0.5em; border-block-start: 1px solid",
    "fieldset": "border: 2px solid; padding: 0.35em 0.75em 0.62em; margin-inline: 2px",
    "caption": "text-align: center",
    "th": "text-align: center",
    "sub": "vertical-align: -0.3em; font-size: 0.83em",
    "sup": "vertical-align: 0.4em; font-size: 0.83em",
    "rt": "font-size: 0.67em",
    "big": "font-size: 1.2em",
    "bdi": "unicode-bidi: isolate",
    "hidden": "display: none",
    "auto": "unicode-bidi: plaintext",
    "align-left": "text-align: left",
    "align-right": "text-align: right",
    "align-center": "text-align: center",
}
KEPT_ATTRIBUTES = frozenset("id class style dir lang title href role".split())
KEPT_ATTRIBUTE = re.compile(r"(?:data|aria)-[a-z0-9_-]*$")
PREFORMATTED = frozenset("pre listing xmp plaintext".split())
LISTS = frozenset("ol ul menu dir".split())
TAB = 8
# `html` has depth 1 and a text may stand in each element.
DEEPEST_ELEMENT = 63
SPACES = re.compile(r"[ \t\r\f\n]+")


@dataclasses.dataclass
class Element:
    """An element of the document: its tag, the tag that it came with, its attributes, its elements and texts."""

    tag: str
    was: str
    attributes: dict[str, str]
    children: list[Child] = dataclasses.field(default_factory=list)

    def elements(self) -> list["Element"]:
        return [child for child in self.children if isinstance(child, Element)]

    def classes(self) -> list[str]:
        return [name for name in SPACES.split(self.attributes.get("class", "")) if name]

    def add_class(self, name: str) -> None:
        self.attributes["class"] = " ".join([*self.classes(), name])

    def add_text(self, text: str) -> None:
        # Text beside text is one node.
        if self.children and isinstance(self.children[-1], str):
            self.children[-1] += text
        elif text:
            self.children.append(text)


# What stands in an element: an element or a text.
Child = typing.Union[Element, str]
# An element of the page as it came.
Tree = xml.etree.ElementTree.Element
# A start or an end of an element, or a text.
Event = tuple[str, typing.Any]


def walk(element: Element) -> Iterator[Element]:
    """An element and all elements in it, in document order."""
    yield element
    for child in element.elements():
        yield from walk(child)


# The page as it came, from left to right.

def events(root: Tree) -> Iterator[Event]:
    """Starts and ends of elements, and texts. A page may be nested deeper than a function may call itself."""
    stack = [(root, iter(root))]
    yield "start", root
    while stack:
        element, rest = stack[-1]
        child = next(rest, None)
        if child is None:
            stack.pop()
            yield "end", element
            if stack and element.tail:
                yield "text", element.tail
        elif local(child):
            yield "start", child
            stack.append((child, iter(child)))
        elif child.tail:
            yield "text", child.tail


def with_text(root: Tree) -> Iterator[Event]:
    """The events, with the text that an element begins with behind its start."""
    for kind, what in events(root):
        yield kind, what
        if kind == "start" and what.text:
            yield "text", what.text


# The document.

@dataclasses.dataclass
class Open:
    """An open element of the page: the element of the document that its content goes into, or none, and its name."""

    into: Element | None
    name: str


class Builder:
    """Builds the document's tree from the events of the page."""

    def __init__(self, characters: "intake_text.Characters", losses: "intake_losses.Losses", markers: bool = False) -> None:
        self.characters = characters
        self.losses = losses
        self.markers = markers
        self.html = Element("html", "html", {})
        self.body = Element("body", "body", {})
        self.html.children.append(self.body)
        self.open = [Open(self.html, "")]
        self.dropped = 0
        self.preformatted = 0
        self.column = 0
        self.numbers: list[int | None] = [1]

    def build(self, root: Tree) -> Element:
        for kind, what in with_text(root):
            if kind == "text":
                self.text(what)
            elif kind == "start":
                self.start(local(what), attributes_of(what))
            else:
                self.end()
        return self.html

    def start(self, name: str, attributes: dict[str, str]) -> None:
        if self.dropped or name in DROPPED:
            self.drop(name, attributes)
        elif name in ("html", "body"):
            self.root(self.html if name == "html" else self.body, attributes)
        elif name in ("img", "image"):
            self.picture(name, attributes)
        elif name in UNWRAPPED or self.depth() >= DEEPEST_ELEMENT and name != "br":
            self.unwrap(name, attributes)
        else:
            self.element(name, attributes)

    def drop(self, name: str, attributes: dict[str, str]) -> None:
        """Leaves an element out with all in it; of a drawing its words are kept."""
        if not self.dropped and name == "svg":
            self.words(name, attributes)
        elif not self.dropped and name not in UNSAID:
            self.losses.add("elements left out", name)
        self.dropped += 1
        self.open.append(Open(None, name))

    def root(self, element: Element, attributes: dict[str, str]) -> None:
        element.attributes.update(self.taken_attributes(attributes))
        # What stands behind the body is shown in it.
        self.open.append(Open(self.body, element.tag))

    def picture(self, name: str, attributes: dict[str, str]) -> None:
        self.words(name, attributes)
        self.open.append(Open(self.current(), name))

    def words(self, name: str, attributes: dict[str, str]) -> None:
        """Puts the words that a picture has in its place."""
        words = attributes.get("alt", "")
        self.losses.add("pictures by their words" if words.strip() else "pictures left out", name)
        self.put(words)

    def unwrap(self, name: str, attributes: dict[str, str]) -> None:
        if name not in UNWRAPPED:
            self.losses.add("levels past 64 taken out", name)
        self.open.append(Open(self.current(), name))
        self.enter(name, attributes)

    def element(self, name: str, attributes: dict[str, str]) -> None:
        tag = name if name in TAGS else NEAREST.get(name, "span")
        if tag != name:
            self.losses.add("elements replaced", f"{name} by {tag}")
        made = Element(tag, name, self.taken_attributes(attributes))
        if name == "li" and self.markers:
            made.add_text(self.marker(attributes))
        elif name == "li":
            self.losses.add("marks of list items left out", "numbers" if self.numbers[-1] is not None else "bullets")
        self.current().children.append(made)
        # A `br` of XHTML may have content, that of the profile not.
        self.open.append(Open(self.current() if tag == "br" else made, name))
        self.enter(name, attributes)

    def enter(self, name: str, attributes: dict[str, str]) -> None:
        """What changes within an element."""
        if name in PREFORMATTED:
            self.preformatted += 1
            self.column = 0
        if name in LISTS:
            self.numbers.append(number_of(attributes.get("start"), 1) if name == "ol" else None)
        if name in AROUND:
            self.put(AROUND[name][0])

    def leave(self, name: str) -> None:
        if name in AROUND:
            self.put(AROUND[name][1])
        if name in PREFORMATTED:
            self.preformatted -= 1
        if name in LISTS:
            self.numbers.pop()

    def end(self) -> None:
        closed = self.open[-1]
        if closed.into is None:
            self.dropped -= 1
        else:
            self.leave(closed.name)
        self.open.pop()

    def current(self) -> Element:
        # Where an element is left out nothing is put into it.
        return self.open[-1].into or self.body

    def depth(self) -> int:
        """How deep the element stands that is open in the document. `html` has depth 1."""
        return len({id(each.into) for each in self.open})

    def marker(self, attributes: dict[str, str]) -> str:
        """What a list shows before an item, as text: its number, or a hyphen."""
        number = number_of(attributes.get("value"), self.numbers[-1])
        if number is None:
            return "- "
        self.numbers[-1] = number + 1
        return f"{number}. "

    # Attributes.

    def taken_attributes(self, attributes: dict[str, str]) -> dict[str, str]:
        """Those of the profile. A few that the profile doesn't have become classes with a look of their own."""
        taken = {}
        for name, value in attributes.items():
            if name == "dir" and value.strip().lower() in ("ltr", "rtl"):
                taken["dir"] = value.strip().lower()
            elif name != "dir" and (name in KEPT_ATTRIBUTES or KEPT_ATTRIBUTE.match(name)):
                taken[name] = value
            elif looks_like(name, value) is None and name not in ("alt", "src", "xmlns", "name"):
                self.losses.add("attributes left out", name)
        looks = [looks_like(name, value) for name, value in attributes.items()]
        classes = [f"was-{look}" for look in looks if look]
        if classes:
            taken["class"] = " ".join([taken.get("class", ""), *classes]).strip()
        return taken

    # Text.

    def text(self, text: str) -> None:
        # Between `html` and `body` stands white space alone.
        if self.dropped or (self.open[-1].name == "html" and not text.strip()):
            return
        if self.preformatted:
            self.lines(self.characters.taken(text))
        else:
            self.current().add_text(SPACES.sub(shortened, self.characters.taken(text)))

    def put(self, text: str) -> None:
        """Puts text that the page shows where no text of it stands."""
        if text.strip():
            self.text(text)

    def lines(self, text: str) -> None:
        """Text whose line feeds and spaces are seen: line breaks, and spaces at which no line ends."""
        for number, line in enumerate(re.split(r"\r\n|\r|\n", text)):
            if number:
                self.current().children.append(Element("br", "br", {}))
                self.column = 0
            spaced = "".join(self.spaced(character) for character in line)
            self.current().add_text(spaced)

    def spaced(self, character: str) -> str:
        width = TAB - self.column % TAB if character == "\t" else 1
        self.column += width
        return "\u00a0" * width if character in " \t\f" else character


def shortened(spaces: re.Match[str]) -> str:
    """A run of white space as one character, which is all that is laid out of it; the lines of the source stay."""
    return "\n" if "\n" in spaces[0] else " "


def local(element: Tree) -> str:
    """The name of an element without its namespace, in small letters; the empty text for comments and instructions."""
    return element.tag.rpartition("}")[2].lower() if isinstance(element.tag, str) else ""


def attributes_of(element: Tree) -> dict[str, str]:
    """The attributes of an element of the page by their names in small letters, without those of other vocabularies."""
    found: dict[str, str] = {}
    for name, value in element.attrib.items():
        if name == "{http://www.w3.org/XML/1998/namespace}lang":
            name = "lang"
        if isinstance(name, str) and not name.startswith("{"):
            found.setdefault(name.lower(), value)
    return found | {"alt": drawing_words(element, found)} if local(element) == "svg" else found


def drawing_words(element: Tree, attributes: dict[str, str]) -> str:
    """The words of a drawing: its label, or its title."""
    titles = ("".join(child.itertext()) for child in element if local(child) == "title")
    return attributes.get("aria-label") or next(titles, "") or ""


def looks_like(name: str, value: str) -> str | None:
    """The look of an attribute that the profile doesn't have."""
    value = value.strip().lower()
    if name == "hidden" and value != "until-found":
        return "hidden"
    if name == "dir" and value == "auto":
        return "auto"
    if name == "align" and value in ("left", "right", "center"):
        return f"align-{value}"
    return None


def number_of(text: str | None, otherwise: int | None) -> int | None:
    """The whole number that an attribute says."""
    found = re.match(r"\s*([+-]?[0-9]{1,9})", text or "")
    return int(found[1]) if found else otherwise


def title_of(root: Tree) -> str:
    """The title of a page."""
    for element in root.iter():
        if local(element) == "title":
            return SPACES.sub(" ", "".join(element.itertext())).strip()
    return ""
