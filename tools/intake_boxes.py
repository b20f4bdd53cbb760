"""How many boxes of a document turn within each other, of which the engine takes six (docs/PROFILE/boxes.md), for tools/take-in.

It needs `display` and `writing-mode` alone, so it finds these two for each element, from what the engine's own reader said of
the sheets.
"""
import dataclasses
import re
from collections.abc import Iterable, Iterator

import intake_sheets
import intake_tree

# One of the two properties, its value, and whether it is important.
Declared = tuple[str, str, bool]
PROPERTIES = {"Display": "display", "WritingMode": "mode"}
INITIAL = {"display": "inline", "mode": "horizontal-tb"}
RULE = re.compile(r"([^{}]+) \{([^{}]*)\}")
DECLARATION = re.compile(r"(\w+) (?:Keyword\((\w+)\)|(\w+))( important)? at ")


@dataclasses.dataclass
class Compound:
    """A compound of a selector: what joins it to the one on its left, its type or none, its classes and ids."""

    is_child: bool
    tag: str | None
    classes: frozenset[str]
    ids: frozenset[str]

    def matches(self, known: "Known") -> bool:
        own = self.tag in (None, known.element.tag) and self.classes <= known.classes
        return own and self.ids <= known.ids


@dataclasses.dataclass
class Known:
    """An element with what selectors ask for."""

    element: intake_tree.Element
    classes: frozenset[str]
    ids: frozenset[str | None]


def known(element: intake_tree.Element) -> Known:
    return Known(element, frozenset(element.classes()), frozenset([element.attributes.get("id")]))


@dataclasses.dataclass
class Rule:
    """A rule with the declarations of the two properties."""

    compounds: list[Compound]
    declared: list[Declared]

    def says(self, prop: str) -> bool:
        return any(name == prop for name, _, _ in self.declared)

    def weight(self) -> tuple[int, ...]:
        """How specific the selector is: ids, classes, types."""
        return tuple(sum(count(each) for each in self.compounds) for count in (count_ids, count_classes, count_types))

    def matches(self, line: list[Known]) -> bool:
        """Whether it is of the last element of a line of ancestors."""
        # All places at which what is left of the selector may end, so that none is tried twice.
        places = {len(line) - 1} if self.compounds[-1].matches(line[-1]) else set()
        for right, left in zip(self.compounds[:0:-1], self.compounds[-2::-1]):
            above = {place - 1 for place in places} if right.is_child else range(max(places, default=0))
            places = {place for place in above if place >= 0 and left.matches(line[place])}
        return bool(places)


def count_ids(compound: Compound) -> int:
    return len(compound.ids)


def count_classes(compound: Compound) -> int:
    return len(compound.classes)


def count_types(compound: Compound) -> int:
    return compound.tag is not None


# The one look that takes boxes away.
HIDDEN = Rule([Compound(False, None, frozenset(["was-hidden"]), frozenset())], [("display", "none", False)])


# What the reader of sheets said.

def compounds_of(selector: str) -> list[Compound]:
    found, is_child = [], False
    for word in selector.split():
        if word == ">":
            is_child = True
            continue
        tag = re.split("[.#]", word, maxsplit=1)[0]
        names = word[len(tag) :]
        classes, ids = (frozenset(re.findall(rf"{mark}([^.#]+)", names)) for mark in (r"\.", "#"))
        found.append(Compound(is_child, None if tag == "*" else tag, classes, ids))
        is_child = False
    return found


def declared_in(text: str) -> Iterator[Declared]:
    """Each declaration of the two properties with its value, and whether it is important."""
    for name, keyword, plain, important in DECLARATION.findall(text):
        if name in PROPERTIES:
            prop = PROPERTIES[name]
            word = re.sub(r"(?<=.)([A-Z])", r"-\1", keyword).lower() if keyword else plain.lower()
            yield prop, INITIAL[prop] if word == "initial" else word, bool(important)


def rules_of(answer: str) -> list[Rule]:
    """The rules of a sheet that say something about the two properties, by what the reader answered."""
    rules = []
    for selector, text in RULE.findall(answer):
        if declared := list(declared_in(text)):
            rules.append(Rule(compounds_of(selector.strip()), declared))
    return rules


# The elements.

class Boxes:
    """The boxes of a document's elements."""

    def __init__(self, rules: list[Rule], judge: "intake_sheets.Judge | None") -> None:
        # By weight, and by place where two weigh the same: the last one wins.
        ordered = sorted(rules, key=Rule.weight)
        self.rules = {name: [rule for rule in ordered if rule.says(name)] for name in INITIAL}
        self.judge = judge

    def most_turned(self, root: intake_tree.Element) -> int:
        """How many boxes turn within each other at most."""
        above, body = known(root), known(root.elements()[0])
        # The mode of `html` is that of `body`.
        mode = self.value([above, body], "mode", self.value([above], "mode", INITIAL["mode"]))
        return self.most_inside([above], mode)

    def most_inside(self, line: list[Known], mode: str) -> int:
        """How many do inside the last element of a line, which has this mode."""
        return max((self.most_of([*line, known(child)], mode) for child in line[-1].element.elements()), default=0)

    def most_of(self, line: list[Known], mode: str) -> int:
        """How many do with the last element of a line, which stands in one of this mode."""
        if line[-1].element.tag == "br" or self.value(line, "display", INITIAL["display"]) == "none":
            return 0
        # An inline element that turns is an atom.
        own = self.value(line, "mode", mode)
        return (is_vertical(own) != is_vertical(mode)) + self.most_inside(line, own)

    def value(self, line: list[Known], prop: str, otherwise: str) -> str:
        """The value that wins for the last element of a line: an important one before others, its attribute before sheets.
        Where none is declared, or it is inherited, it is `otherwise`.
        """
        won = (otherwise, False)
        for rule in self.rules[prop]:
            if rule.matches(line):
                won = latest(rule.declared, prop, *won)
        word = latest(self.attribute(line[-1].element), prop, *won)[0]
        return otherwise if word == "inherit" else word

    def attribute(self, element: intake_tree.Element) -> list[Declared]:
        text = element.attributes.get("style")
        return list(declared_in(self.judge.answer("declarations", text))) if text and self.judge else []


def latest(declared: Iterable[Declared], prop: str, won: str, was_important: bool) -> tuple[str, bool]:
    """What wins once these declarations come behind what has won so far."""
    for name, word, important in declared:
        if name == prop and (important or not was_important):
            won, was_important = word, important
    return won, was_important


def is_vertical(mode: str) -> bool:
    return mode != "horizontal-tb"
