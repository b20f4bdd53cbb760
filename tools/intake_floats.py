"""Negative margins and insets of what a page floats or takes out of the flow, for tools/take-in.

The profile has neither floats nor positions out of the flow, so such a box comes where the flow puts it. A negative margin that
pulled it beside something else would then pull it off the page, as would an inset where another rule makes it relative, so these
go together with the float or the position.
"""
import re
from collections.abc import Iterable

FLOATED = re.compile(r"float:\s*(?:left|right|inline-start|inline-end)\b", re.IGNORECASE)
LIFTED = re.compile(r"position:\s*(?:absolute|fixed|sticky)\b", re.IGNORECASE)
INSET = re.compile(r"(?:top|right|bottom|left|inset(?:-[a-z-]+)?):", re.IGNORECASE)
MARGIN = re.compile(r"(margin(?:-[a-z-]+)?):(.*)", re.IGNORECASE | re.DOTALL)
NEGATIVE = re.compile(r"(?<![\w.%)+-])-(?:\d+\.?\d*|\.\d+)(?:[a-z]+|%)?", re.IGNORECASE)
# Of these a negative part is written as 0, since the other parts stay; a name of one side is left out whole.
SHORTHANDS = frozenset(("margin", "margin-block", "margin-inline"))


def is_taken_out(declarations: Iterable[str]) -> bool:
    """Whether declarations of one rule take a box out of the flow."""
    return any(FLOATED.match(each) or LIFTED.match(each) for each in declarations)


def without_pull(declaration: str) -> str | None:
    """The declaration with 0 for negative parts of a margin; nothing where all of it is one, and of an inset. Others stay as
    they are.
    """
    if INSET.match(declaration):
        return None
    found = MARGIN.match(declaration)
    if found is None or not NEGATIVE.search(found[2]):
        return declaration
    return f"{found[1]}:{NEGATIVE.sub('0', found[2])}" if found[1].lower() in SHORTHANDS else None
