"""Documents and scripts by the grammar, for tools/fuzz: their tags, characters, properties and values are those of the tables in
docs/PROFILE, so that all of them are read.
"""
import os
import re
from random import Random

from fuzz_trees import NOTHING, REDO, SHOW, UNDO, Edit, Node, Tree

TOP = os.path.dirname(os.path.dirname(os.path.abspath(__file__)))
KEPT = re.compile(r"\| (`.*?) \| (.*?) \| [^|]* \| (yes|no) \| .*\|")
SHORTHAND = re.compile(r"\| `([a-z-]+)` \| (one to four|one or two|width, style, colour) \| (.*) \|")
CHARACTERS = re.compile(r"^\| U\+([0-9A-F]{4})(?: to U\+([0-9A-F]{4}))? \| (?!U\+)", re.MULTILINE)
UNITS = {"length": ["#px", "#em"], "percentage": ["#%"], "number": ["#"]}
# A word that a number may follow, with its numbers.
NUMBERED = {"digits": ("", " 2", " 3", " 4")}
COUNTS = {"one to four": 4, "one or two": 2}
# For each of the values that may follow one another its choices: words, or `#` and the unit of a number.
Choices = tuple[list[str], ...]


def read_page(name: str) -> str:
    """A page of docs/PROFILE."""
    with open(os.path.join(TOP, "docs", "PROFILE", name), encoding="utf-8") as file:
        return file.read()


def ticked(text: str) -> list[str]:
    """The words that stand in ticks."""
    return re.findall(r"`([^`]+)`", text)


def read_properties() -> dict[str, Choices]:
    """The properties that are kept, and the shorthands."""
    found: dict[str, Choices] = {}
    for line in read_page("properties.md").splitlines():
        if row := KEPT.fullmatch(line):
            values = row[2].split(";")[0]
            numbers = [unit for word, units in UNITS.items() if word in values for unit in units]
            words = ticked(values if numbers or "`" in values else row[2])
            numbered = [word + behind for word, ends in NUMBERED.items() if f"`{word}`" in row[2] for behind in ends]
            words += numbered + ["initial"] + ["inherit"] * (row[3] == "yes")
            found |= {name: (words + numbers,) for name in ticked(row[1])}
        elif row := SHORTHAND.fullmatch(line):
            first, last = (found[ticked(row[3])[at]][0] for at in (0, -1))
            found[row[1]] = (first,) * COUNTS[row[2]] if row[2] in COUNTS else (first, last)
    return found


def read_tags(kind: str) -> list[str]:
    return ticked(read_page("html.md").split(f"{kind} tags: ")[1].split(". ")[0])


PROPERTIES, BLOCK, INLINE = read_properties(), read_tags("Block"), read_tags("Inline")
REPERTOIRE = [range(int(row[1], 16), int(row[2] or row[1], 16) + 1) for row in CHARACTERS.finditer(read_page("characters.md"))]
# What is taken more often than the rest.
FAVOURED = "writing-mode direction display text-orientation text-combine-upright unicode-bidi inline-size height margin font-size".split()
# Those that tie a document to one mode (docs/PROFILE/turned-pages.md): of a side or an axis of the page, and of how text is turned.
SIDE = "top|right|bottom|left"
TYING = re.compile(
    "writing-mode|text-orientation|text-combine-upright"
    rf"|(min-|max-)?(width|height)|(inset|{SIDE})|(margin|padding)(-({SIDE}))?|border(-({SIDE}))?(-(width|style))?"
)
UNTIED = [name for name in PROPERTIES if not TYING.fullmatch(name)]
LETTERS = "aab  1.-( אב بت 東京、\u0301\u2067\u2069\u202e\u202c"
USUAL = "0 1 3 7 12.5 16 33.33 50 100 200".split()
# The words of edits, and those of the lines of a script that change the document.
EDITS = "text text style class insert remove move rule"
SCRIPTED = f"{EDITS} undo undo redo"
EDGES = (
    "-1 -0.001 .005 0.01 00 63 64 65 255 256 1023 1024 4096 4097 9999 10000 10001 16384 16385 65535 65536 65537 1048575 1048576"
    " 9999999 9999999.99 10000000 67108864 2147483648 4294967295 4294967296 18446744073709551616"
).split()


def is_fitting(word: str, node: Node) -> bool:
    """Whether an edit of this word is likely one of this node, or puts others into it."""
    if word in ("text", "remove"):
        return not node.tag if word == "text" else node.number > 1
    return bool(node.tag) and (word in ("style", "class") or node.number > 0 and node.tag != "br")


class Maker:
    """Makes documents and edits by chance."""

    def __init__(self, random: Random) -> None:
        self.random, self.choice, self.left = random, random.choice, 0
        # The properties that declarations have, and those that they have more often.
        self.names, self.favoured = list(PROPERTIES), FAVOURED

    def is_so(self, chance: float) -> bool:
        return self.random.random() < chance

    def declarations(self) -> str:
        return ";".join(self.declaration() for _ in range(self.choice((0, 1, 1, 2, 3, 6))))

    def declaration(self) -> str:
        name = self.choice(self.favoured if self.is_so(0.5) else self.names)
        words = [self.choice(each) for each in PROPERTIES[name][: self.random.randint(1, 4)]]
        numbers = USUAL if self.is_so(0.85) else EDGES
        value = " ".join(self.choice(numbers) + word[1:] if word[0] == "#" else word for word in words)
        return f"{name}:{value}" + " !important" * self.is_so(0.05)

    def rule(self) -> str:
        parts = self.random.choices(("p", "div", "span", "body", "*", ".a", "b.b", "#i", "html", ".a.c"), k=self.random.randint(1, 3))
        return f"{self.choice((' ', '>', ' > ', ', ')).join(parts)} {{ {self.declarations()} }}"

    def text(self) -> str:
        def character() -> str:
            return self.choice(LETTERS) if self.is_so(0.8) else chr(self.choice(self.choice(REPERTOIRE)))

        return "".join(character() for _ in range(1 + int(self.random.expovariate(0.1))))

    def attributes(self) -> dict[str, str]:
        made = {"id": "i", "class": self.choice(("a", "b a", "c")), "dir": self.choice(("ltr", "RTL")), "style": self.declarations()}
        return {name: value for name, value in made.items() if self.is_so(0.4 if name == "style" else 0.12)}

    def node(self, levels: int, inline: bool, behind_text: bool) -> Node:
        if self.is_so(0.4) and not behind_text:
            return Node(text=self.text())
        inline = (inline or self.is_so(0.4)) ^ self.is_so(0.1)
        tag = "br" if self.is_so(0.1) else self.choice(INLINE if inline else BLOCK)
        return Node(tag, attributes=self.attributes(), children=[] if tag == "br" else self.content(levels - 1, inline, 0.8))

    def content(self, levels: int, inline: bool, more: float) -> list[Node]:
        """What stands in an element: so many levels of it, and no more nodes than are left."""
        nodes: list[Node] = []
        while self.left > 0 and levels > 0 and self.is_so(more):
            self.left -= 1
            nodes.append(self.node(levels, inline, bool(nodes) and not nodes[-1].tag))
        return nodes

    def nodes(self, mean: int, more: float) -> list[Node]:
        """Some nodes, at least one."""
        self.left = 1 + int(self.random.expovariate(1 / mean))
        return self.content(self.choice((3, 6, 12)), False, more) or [Node(text=self.text())]

    def tree(self) -> Tree:
        """A document, now and then one of many nodes, or a deep one."""
        content = self.nodes(12, 0.97)
        if self.is_so(0.03):
            content = [each.copied() for _ in range(self.random.randint(2, 60)) for each in (*content, Node("br"))]
        for _ in range(self.random.randint(20, 66) if self.is_so(0.03) else 0):
            content = [Node(self.choice(BLOCK), children=content)]
        sheet = "\n".join(self.rule() for _ in range(self.choice((0, 0, 1, 2, 5))))
        return Tree(sheet, Node("body", attributes=self.attributes(), children=content))

    def edit(self, tree: Tree, words: str = EDITS) -> Edit:
        """An edit of one of these words, most often one that the tree doesn't refuse."""
        word, living = self.choice(words.split()), tree.living()
        if word in NOTHING:
            return Edit(word)
        if word == "rule":
            return Edit(word, text=self.rule())
        fitting = [number for number, node in living.items() if is_fitting(word, node)]
        number = self.choice(fitting) if fitting and self.is_so(0.95) else self.random.randrange(tree.next + 2)
        index = self.random.randint(0, len(living[number].children) if number in living else 1)
        if word == "insert":
            return Edit(word, (number, index), nodes=tuple(self.nodes(3, 0.5)))
        if word == "move":
            return Edit(word, (self.choice([*living][2:] or [1]), number, index))
        return Edit(word, (number,), {"text": self.text(), "style": self.declarations(), "class": "b a"}.get(word, ""))

    def script(self, tree: Tree) -> list[Edit]:
        """Edits of a document with pages between them."""
        tree, steps = tree.copied(), [SHOW] * self.is_so(0.5)
        for _ in range(self.random.randint(1, 12)):
            steps.append(self.edit(tree, SCRIPTED) if self.is_so(0.7) else self.choice((SHOW, SHOW, SHOW, Edit(""), Edit("#", text="show"))))
            if steps[-1].is_edit() and not tree.refusal(steps[-1]):
                tree.apply(steps[-1])
        if self.is_so(0.03):
            # About as many edits as are kept, about as many taken back, and some of them done again.
            many = [self.edit(tree, "text class") for _ in range(self.random.randint(60, 70))]
            steps += [*many, *[UNDO] * self.random.randint(60, 70), SHOW, *[REDO] * self.random.randint(0, 70)]
        return [*steps, SHOW]

    def edits(self, tree: Tree) -> list[Edit]:
        """Edits of a document, none of which takes another back."""
        tree, edits = tree.copied(), list[Edit]()
        for _ in range(self.random.randint(1, 8)):
            edits.append(self.edit(tree))
            if not tree.refusal(edits[-1]):
                tree.apply(edits[-1])
        return edits

    def undone(self, tree: Tree) -> list[Edit]:
        """Edits of a document, each with what leads back from it; an insertion draws numbers, where it isn't refused, so it is the last."""
        edits = [self.edit(tree, words) for words in ("text style class move", "style move", "insert")]
        return [step for edit in edits for step in (edit, *tree.undoing(edit))]
