"""Style sheets and style attributes of a page, cut rule by rule and judged by the engine's own reader, for tools/take-in.

tinycss2 cuts a sheet as CSS says. Each selector and each declaration is then put to the program check_css, which is that
reader; what it refuses is left out, and what it passes over too, since neither would act.
"""
import dataclasses
import os
import re
import subprocess
import sys
from collections.abc import Iterable, Iterator
from typing import Any

import tinycss2
import tinycss2.ast

import intake_floats
import intake_losses
import intake_tree
import programs
from intake_files import Beside, path_of
from intake_tree import Tree, local

# Names that some engines gave properties before the standards had them. Books in vertical lines still use them.
STANDARD_NAMES = {
    "-epub-writing-mode": "writing-mode",
    "-webkit-writing-mode": "writing-mode",
    "-ms-writing-mode": "writing-mode",
    "-epub-text-orientation": "text-orientation",
    "-webkit-text-orientation": "text-orientation",
    "-epub-text-combine": "text-combine-upright",
    "-webkit-text-combine": "text-combine-upright",
    "-ms-text-combine-horizontal": "text-combine-upright",
}
# Values that the profile doesn't have, and the nearest ones.
NEAREST_VALUES = {
    "display": {
        **dict.fromkeys("flex grid table list-item run-in".split(), "block"),
        **dict.fromkeys("table-row table-cell table-caption table-row-group".split(), "block"),
        **dict.fromkeys("table-header-group table-footer-group".split(), "block"),
        **dict.fromkeys("inline-flex inline-grid inline-table".split(), "inline-block"),
        **dict.fromkeys("contents ruby".split(), "inline"),
    },
    "font-size": {
        "xx-small": "9px",
        "x-small": "10px",
        "small": "13px",
        "medium": "16px",
        "large": "18px",
        "x-large": "24px",
        "xx-large": "32px",
        "smaller": "83%",
        "larger": "120%",
    },
    "text-align": {"justify": "start"},
    "text-combine-upright": {"horizontal": "all"},
    "text-orientation": {"vertical-right": "mixed", "sideways-right": "sideways"},
    "writing-mode": {
        "tb-rl": "vertical-rl",
        "tb": "vertical-rl",
        "tb-lr": "vertical-lr",
        "lr-tb": "horizontal-tb",
        "lr": "horizontal-tb",
        "rl-tb": "horizontal-tb",
    },
}
# Units of fixed size in px (CSS Values and Units 3, 6.2), and the one of the root's font size at its initial 16 px.
PIXELS = {"pt": 4 / 3, "pc": 16, "in": 96, "cm": 96 / 2.54, "mm": 9.6 / 2.54, "q": 2.4 / 2.54, "rem": 16}
# Media that a page is laid out for.
TAKEN_MEDIA = frozenset(("", "all", "screen", "only screen", "only all"))
DEEPEST_IMPORT = 8


class Judge:
    """Asks the engine's reader, and keeps what it said: pages of one book have their sheets in common."""

    def __init__(self, program: str = programs.SHEETS.path) -> None:
        self.program = program
        self.known: dict[tuple[str, str], str] = {}

    def ask(self, reader: str, texts: Iterable[str]) -> None:
        """Reads texts together, so that the program runs once for many."""
        new = [text for text in dict.fromkeys(texts) if (reader, text) not in self.known]
        if not new:
            return
        lines = "".join(f"{reader} 0 {text.encode('utf-8', 'replace').hex() or '-'}\n" for text in new)
        try:
            ran = subprocess.run([self.program], input=lines, capture_output=True, encoding="utf-8", check=True)
        except OSError:
            # It would be missing for each page, so the tool ends here.
            sys.exit(f"take-in: {programs.missing(self.program, programs.SHEETS, '--judge')}")
        except subprocess.CalledProcessError as error:
            sys.exit(f"take-in: {self.program} ended with status {error.returncode}")
        answers = ran.stdout.split("\n")[:-1]
        if len(answers) != len(new):
            sys.exit(f"take-in: {self.program} answered {len(answers)} of {len(new)} texts")
        self.known.update({(reader, text): answer for text, answer in zip(new, answers)})

    def answer(self, reader: str, text: str) -> str:
        self.ask(reader, [text])
        return self.known[reader, text]


# The tokens of a selector.
Selector = list[Any]


@dataclasses.dataclass
class Rule:
    """A rule of a sheet as it came: its selectors as tokens, its declarations as texts."""

    selectors: list[Selector]
    declarations: list[str]


@dataclasses.dataclass
class WrittenRule:
    """A rule of the document's sheet: its selectors and its declarations as texts."""

    selectors: list[str]
    declarations: list[str]


class Sheets:
    """The sheets of one page."""

    def __init__(self, judge: Judge, losses: intake_losses.Losses) -> None:
        self.judge = judge
        self.losses = losses
        self.rules: list[Rule] = []

    # Where sheets come from.

    def collect(self, tree: Tree, beside: Beside) -> None:
        """The rules of all sheets of a page, in their order."""
        for element in tree.iter():
            if is_sheet(element) and self.for_screens(element.get("media")):
                self.take_element(element, beside)

    def take_element(self, element: Tree, beside: Beside) -> None:
        if local(element) == "style":
            self.take(tinycss2.parse_stylesheet("".join(element.itertext()), True, True), beside, 0)
        else:
            self.take_file(element.get("href") or "", beside, 0)

    def for_screens(self, media: str | None) -> bool:
        taken = is_for_screens(media or "")
        if not taken:
            self.losses.add("sheets left out", f"for {(media or '').strip()}")
        return taken

    def take_file(self, link: str, beside: Beside, depth: int) -> None:
        path = path_of(link)
        data = None if path is None else beside.read(path)
        if path is None or data is None:
            self.losses.add("sheets left out", "not beside the page")
        elif depth > DEEPEST_IMPORT:
            self.losses.add("sheets left out", "imported too deep")
        else:
            rules, _ = tinycss2.parse_stylesheet_bytes(data, skip_comments=True, skip_whitespace=True)
            self.take(rules, BesideSheet(beside, os.path.dirname(path)), depth)

    # The parts of a sheet.

    def take(self, parts: Iterable[Any], beside: Beside, depth: int) -> None:
        for part in parts:
            if part.type == "qualified-rule":
                self.rules.append(Rule(selectors_of(part.prelude), self.declarations_of(part.content)))
            elif part.type == "at-rule":
                self.take_at_rule(part, beside, depth)
            else:
                self.losses.add("rules left out", "not CSS")

    def take_at_rule(self, part: Any, beside: Beside, depth: int) -> None:
        name = part.lower_at_keyword
        if name == "import":
            link, media = import_of(part.prelude)
            if is_for_screens(media):
                self.take_file(link, beside, depth + 1)
                return
        elif name == "media" and part.content is not None and is_for_screens(tinycss2.serialize(part.prelude)):
            self.take(tinycss2.parse_rule_list(part.content, True, True), beside, depth)
            return
        if name not in ("charset", "namespace"):
            self.losses.add("rules left out", f"@{name}")

    def declarations_of(self, content: Any) -> list[str]:
        found = tinycss2.parse_declaration_list(content, True, True)
        return list(filter(None, map(self.declaration_text, found)))

    def declaration_text(self, part: Any) -> str | None:
        """A declaration as text, with what is nearest in place of a few values that the profile doesn't have."""
        if part.type != "declaration":
            self.losses.add("declarations left out", f"@{part.lower_at_keyword}" if part.type == "at-rule" else "not CSS")
            return None
        value = tinycss2.serialize(list(map(self.in_pixels, part.value))).strip()
        name = STANDARD_NAMES.get(part.lower_name, part.name)
        near = NEAREST_VALUES.get(name.lower(), {}).get(value.lower())
        if near or name != part.name:
            self.losses.add("declarations replaced", f"{part.lower_name}: {value.lower()}")
        return f"{name}: {near or value}{' !important' if part.important else ''}"

    def in_pixels(self, token: Any) -> Any:
        if token.type != "dimension" or token.lower_unit not in PIXELS:
            return token
        self.losses.add("declarations replaced", f"unit {token.lower_unit}")
        size = f"{token.value * PIXELS[token.lower_unit]:.2f}".rstrip("0").rstrip(".")
        return tinycss2.ast.DimensionToken(0, 0, float(size), None, size, "px")

    # What is kept.

    def kept(self, root: intake_tree.Element) -> str:
        """The sheet that is left for the document of this tree, a rule a line."""
        names = names_of(root)
        rules = [WrittenRule(list(map(rewritten, rule.selectors)), rule.declarations) for rule in self.rules]
        floated = floated_selectors(rules)
        rules = [part for rule in rules for part in self.without_pulling(rule, floated)]
        self.ask_all(rules)
        return "".join(filter(None, (self.kept_rule(rule, names) for rule in rules)))

    def without_pulling(self, rule: WrittenRule, floated: set[str]) -> list[WrittenRule]:
        """The rule, in which the selectors that a rule takes out of the flow have no negative margins and no insets."""
        pulled, others = ([each for each in rule.selectors if (each in floated) is side] for side in (True, False))
        if pulled and (less := self.without_pull(rule.declarations)) != rule.declarations:
            return [WrittenRule(part, declarations) for part, declarations in ((others, rule.declarations), (pulled, less)) if part]
        return [rule]

    def without_pull(self, declarations: list[str]) -> list[str]:
        found = [(each, intake_floats.without_pull(each)) for each in declarations]
        for before, after in found:
            if after != before:
                self.losses.add("negative margins and insets of floats and positions left out", before.partition(":")[0].lower())
        return [after for _, after in found if after is not None]

    def ask_all(self, rules: list[WrittenRule]) -> None:
        self.judge.ask("sheet", [f"{selector}{{}}" for rule in rules for selector in rule.selectors])
        self.judge.ask("sheet", [f"a{{{each}}}" for rule in rules for each in rule.declarations])

    def kept_rule(self, rule: WrittenRule, names: set[str]) -> str:
        selectors = [each for each in rule.selectors if self.takes_selector(each, names)]
        if not selectors:
            return ""
        declarations = [each for each in rule.declarations if self.takes("sheet", each, f"a{{{each}}}")]
        return f"{', '.join(selectors)} {{ {'; '.join(declarations)} }}\n" if declarations else ""

    def takes_selector(self, selector: str, names: set[str]) -> bool:
        answer = self.judge.answer("sheet", f"{selector}{{}}")
        if answer.startswith("refused "):
            self.losses.add("selectors left out", refused_part(selector, answer))
            return False
        if not names_in(answer) <= names:
            self.losses.add("selectors that nothing in the document has")
            return False
        return True

    def takes(self, reader: str, declaration: str, text: str) -> bool:
        """Whether a declaration is kept by the engine's reader."""
        answer = self.judge.answer(reader, text)
        name = declaration.partition(":")[0].lower()
        if answer.startswith("refused ") or "</" in declaration:
            self.losses.add("declarations left out", "--name" if name.startswith("--") else name)
            return False
        if answer in ("", "a {}"):
            self.losses.add("declarations without effect", name)
            return False
        return True

    # Style attributes.

    def in_flow(self, declarations: list[str]) -> list[str]:
        """The declarations of an attribute, without negative margins and insets where they take the box out of the flow."""
        return self.without_pull(declarations) if intake_floats.is_taken_out(declarations) else declarations

    def mend_attributes(self, root: intake_tree.Element) -> None:
        """Leaves in each style attribute what the engine's reader keeps."""
        held = {}
        for element in intake_tree.walk(root):
            text = element.attributes.pop("style", None)
            if text is not None:
                held[id(element)] = (element, self.in_flow(self.declarations_of(text)))
        self.judge.ask("declarations", [each for _, declarations in held.values() for each in declarations])
        for element, declarations in held.values():
            kept = [each for each in declarations if self.takes("declarations", each, each)]
            if kept:
                element.attributes["style"] = "; ".join(kept)
        # All together once more, for those that ask what an attribute says.
        self.judge.ask("declarations", filter(None, (element.attributes.get("style") for element, _ in held.values())))


def floated_selectors(rules: list[WrittenRule]) -> set[str]:
    """The selectors of rules that take a box out of the flow, which the profile doesn't do."""
    return {each for rule in rules if intake_floats.is_taken_out(rule.declarations) for each in rule.selectors}


def looks_of(root: intake_tree.Element) -> str:
    """The sheet of the looks that the document has classes for. It comes first, so that the page's own rules go before it."""
    looks = {f"was-{name}": text for name, text in intake_tree.LOOKS.items()}
    used = {name for element in intake_tree.walk(root) for name in element.classes() if name in looks}
    return "".join(f".{name} {{ {looks[name]} }}\n" for name in looks if name in used)


def mark_tags(root: intake_tree.Element, rules: Iterable[Rule] = ()) -> None:
    """Gives elements that something else stands for the class of what they were, where a look or a selector is of it."""
    wanted = set(intake_tree.LOOKS)
    wanted.update(name for rule in rules for each in rule.selectors for name in replaced_types(each))
    for element in intake_tree.walk(root):
        if element.was != element.tag and element.was in wanted:
            element.add_class(f"was-{element.was}")


def is_for_screens(media: str) -> bool:
    """Whether a list of media has screens without a condition."""
    return any(" ".join(each.lower().split()) in TAKEN_MEDIA for each in media.split(","))


def is_sheet(element: Tree) -> bool:
    """Whether an element holds or links a sheet of CSS that counts unless a reader chooses another."""
    if (element.get("type") or "text/css").partition(";")[0].strip().lower() != "text/css":
        return False
    words = (element.get("rel") or "").lower().split()
    return local(element) == "style" or local(element) == "link" and "stylesheet" in words and "alternate" not in words


class BesideSheet:
    """Files beside a sheet: a path in it is meant from the sheet on."""

    def __init__(self, beside: Beside, folder: str) -> None:
        self.beside = beside
        self.folder = folder

    def read(self, path: str) -> bytes | None:
        return self.beside.read(os.path.join(self.folder, path))


def import_of(prelude: list[Any]) -> tuple[str, str]:
    """The link and the media of an import."""
    parts = [token for token in prelude if token.type != "whitespace"]
    first = parts[0] if parts else None
    if first is None or first.type not in ("string", "url", "function"):
        return "", ""
    named = first.arguments[0] if first.type == "function" and first.arguments else first
    return getattr(named, "value", ""), tinycss2.serialize(parts[1:])


# Selectors.

def selectors_of(prelude: list[Any]) -> list[Selector]:
    """The selectors of a list, each as its tokens."""
    found: list[Selector] = [[]]
    for token in prelude:
        if token.type == "literal" and token.value == ",":
            found.append([])
        else:
            found[-1].append(token)
    return found


def types_in(tokens: Selector) -> Iterator[tuple[int, str]]:
    """The places of types in a selector, and their names in small letters."""
    for place, token in enumerate(tokens):
        behind = tokens[place - 1] if place else None
        if token.type == "ident" and not (behind and behind.type == "literal" and behind.value in (".", ":", "|")):
            yield place, token.lower_value


def replaced_types(tokens: Selector) -> set[str]:
    return {name for _, name in types_in(tokens) if name not in intake_tree.TAGS}


def rewritten(tokens: Selector) -> str:
    """A selector's text, with a class in the place of each type that the profile doesn't have."""
    replaced = {place: name for place, name in types_in(tokens) if name not in intake_tree.TAGS}
    texts = (f".was-{replaced[place]}" if place in replaced else selector_text(token) for place, token in enumerate(tokens))
    return "".join(texts).strip()


def selector_text(token: Any) -> str:
    # What a comment says isn't needed, but it parts what it stands between.
    return "/**/" if token.type == "comment" else token.serialize()


def refused_part(selector: str, answer: str) -> str:
    """The part of a selector that the engine's reader didn't take, as far as it is a kind."""
    place = int(answer.split()[2])
    rest = selector.encode("utf-8", "replace")[place:].decode("utf-8", "replace")
    found = re.match(r"::?[A-Za-z-]+|[\[+~]", rest)
    return found[0] if found else "not of the profile"


def names_in(answer: str) -> set[str]:
    """The types, classes and ids that an answer's one selector asks for."""
    selector = answer.partition(" {")[0]
    return {name for name in re.findall(r"[.#]?[^.#\s>*]+", selector)}


def names_of(root: intake_tree.Element) -> set[str]:
    """The types, classes and ids of a document."""
    found = set()
    for element in intake_tree.walk(root):
        found.add(element.tag)
        found.update(f".{name}" for name in element.classes())
        found.add(f"#{element.attributes.get('id', '')}")
    return found
