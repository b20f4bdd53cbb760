"""Says what stands where a document doesn't follow the grammar of docs/PROFILE/html.md, for tools/where.

Each hint is one sentence about the text at the place of a `Syntax`, for what pages of one's own are refused for first.
"""
import html.entities
import re

import intake_text
import source

# What may stand in the head, and what HTML has there that the profile doesn't.
HEAD_TAGS = ("title", "meta", "style")
NOT_IN_HEAD = {
    "link": "sheets that are linked aren't read, so their rules go into a `<style>`",
    "script": "scripts aren't run",
    "base": "nothing is loaded from elsewhere",
}
# The words of references that the profile has.
REFERENCES = frozenset("amp lt gt quot apos nbsp lrm rlm ndash mdash hellip lsquo rsquo ldquo rdquo laquo raquo".split())
REFERENCE = re.compile(r"&(?:#[xX][0-9A-Fa-f]*|#[0-9]*|[A-Za-z][A-Za-z0-9]*)?")
# How far before a place its `&` may stand.
LONGEST_REFERENCE = 40
TAG_NAME = re.compile(r"</?([A-Za-z][A-Za-z0-9_-]*)")
VALUE_BEGINS = re.compile(r"([A-Za-z][A-Za-z0-9_-]*)[\t\n\f\r ]*=[\t\n\f\r ]*\Z")
UNQUOTED = re.compile(r"[^\t\n\f\r >]*")
NAME = re.compile(r"[A-Za-z][A-Za-z0-9_-]*")
BEGINNING = "a document begins with `<html>`; `<!DOCTYPE html>`, comments and white space alone may stand before it"


def hints(text: str, at: int) -> tuple[str, ...]:
    """What is to be said of a place of a document; nothing where no rule of this page knows it."""
    if at >= len(text):
        return ()
    front = source.front_at(text, at)
    # A reference that isn't closed is refused at what follows it.
    said = reference_hint(text, at) if front.in_body and front.begin == at else ""
    if not said:
        said = tag_hint(text, at, front) if text.startswith("<", front.begin) else text_hint(text, at, front)
    return (said,) if said else ()


def text_hint(text: str, at: int, front: source.Front) -> str:
    if not front.nodes:
        return BEGINNING
    if not front.in_body:
        return "text stands in `<body>` alone"
    return reference_hint(text, at)


# References.

def reference_at(text: str, at: int) -> str:
    """The reference that has this place in it or at its end, as far as it goes; the empty text where there is none."""
    begin = text.rfind("&", max(0, at - LONGEST_REFERENCE), at)
    found = REFERENCE.match(text, begin) if begin >= 0 else None
    return found[0] if found and at <= found.end() else ""


def is_in_number(text: str, at: int) -> bool:
    """Whether a place is in a reference by number, of which alone the digits are limited."""
    return reference_at(text, at).startswith("&#")


def reference_hint(text: str, at: int) -> str:
    reference = reference_at(text, at)
    if not reference:
        return ""
    end = text.rfind("&", 0, at) + len(reference)
    if reference.startswith("&#"):
        return number_hint(reference, at < end, text.startswith(";", end))
    word, is_closed = reference[1:], text.startswith(";", end)
    if word in REFERENCES and not is_closed:
        return f"the reference `{reference}` has to end with `;`"
    if is_closed and f"{word};" in html.entities.html5:
        return other_reference(reference, html.entities.html5[f"{word};"])
    said = f"there is no reference `{reference};`; " if is_closed and word else ""
    return f"{said}a plain `&` is written `&amp;`"


def number_hint(reference: str, is_within: bool, is_closed: bool) -> str:
    """What is to be said of a reference by number."""
    if is_within:
        return "the number of a reference is that of a character, with 7 decimal or 6 hexadecimal digits at most"
    if is_closed:
        return f"`{reference};` is no character"
    return f"the reference `{reference}` goes on with digits or ends with `;`"


def other_reference(reference: str, characters: str) -> str:
    """What is to be said of a reference of HTML that the profile doesn't have."""
    if not intake_text.read_repertoire().issuperset(characters):
        return f"the profile has neither the reference `{reference};` nor its character: leave it out, or write another one"
    numbers = "".join(f"&#{ord(each)};" for each in characters)
    return f"the profile doesn't have the reference `{reference};`: write its number, `{numbers}`"


# Tags.

def tag_hint(text: str, at: int, front: source.Front) -> str:
    """What is to be said of a place in a tag, or at its first sign."""
    begin = front.begin
    name = TAG_NAME.match(text, begin)
    tag = name[1].lower() if name else ""
    if not front.nodes and tag != "html":
        return front_hint(text, begin)
    if front.nodes and not front.in_body and not (tag == "body" or front.in_head and tag in HEAD_TAGS):
        return before_body_hint(text, begin, tag, front)
    if name is None:
        is_markup = text.startswith("<!", begin)
        return "of what begins with `<!` comments alone are read" if is_markup else "a plain `<` is written `&lt;`"
    if at == name.end() and text[at] != "/":
        return "the name of a tag has letters, digits, `-` and `_` alone"
    return attribute_hint(text, at, begin, tag)


def front_hint(text: str, begin: int) -> str:
    if text.startswith("<?", begin):
        return f"an XML declaration isn't read: leave it out; {BEGINNING}"
    if text[begin : begin + 9].lower() == "<!doctype":
        return "the doctype is `<!DOCTYPE html>`, without more words"
    return BEGINNING


def before_body_hint(text: str, begin: int, tag: str, front: source.Front) -> str:
    if front.nodes > 1:
        return "after `</body>` comes `</html>`"
    if not front.in_head:
        return "in `<html>` stand a `<head>`, which may be left out, and a `<body>`"
    if text.startswith("</", begin):
        return ""
    why = f": {NOT_IN_HEAD[tag]}" if tag in NOT_IN_HEAD else ""
    return f"the head holds `<title>`, `<meta>` and `<style>` alone{why}"


def attribute_hint(text: str, at: int, begin: int, tag: str) -> str:
    reference = reference_hint(text, at)
    before = text[begin:at]
    value = VALUE_BEGINS.search(before)
    if value and text[at] not in "\"'":
        found = UNQUOTED.match(text, at)
        word = found[0] if found else ""
        return f'the value of an attribute stands in quotes: `{value[1]}="{word}"`'
    if reference and before.count('"') % 2 + before.count("'") % 2:
        return reference
    if text[at] == "/":
        return f"`<br>` and `<meta>` alone may end with `/>`: write `</{tag}>` where the element ends"
    if before[-1:] in "\"'" and NAME.match(text, at):
        return "white space has to stand between two attributes"
    twice = NAME.match(text, at)
    if twice and re.search(rf"[\t\n\f\r ]{re.escape(twice[0])}[\t\n\f\r =]", before, re.IGNORECASE):
        return f"the attribute `{twice[0]}` stands twice in this tag"
    return "" if twice else "the name of an attribute begins with a letter, and has letters, digits, `-` and `_` alone"
