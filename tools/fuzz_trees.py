"""Documents that tools/fuzz made, and the edits of scripts: what becomes of a document under edits is known here, by the rules of
docs/PROFILE/edits.md, so that it can be written down as a document again.
"""
import copy
import dataclasses
import html
import itertools
from collections.abc import Iterator, Sequence
from typing import NamedTuple, Optional


@dataclasses.dataclass(eq=False)
class Node:
    """An element, or a text, which has no tag."""

    tag: str = ""
    text: str = ""
    attributes: dict[str, str] = dataclasses.field(default_factory=dict)
    children: list["Node"] = dataclasses.field(default_factory=list)
    parent: Optional["Node"] = None
    number: int = 0

    def written(self, front: str = "") -> str:
        """The node as it is written, with something in front of its content."""
        if not self.tag:
            return letters_of(self.text)
        attributes = "".join(f' {name}="{html.escape(value)}"' for name, value in self.attributes.items())
        content = front + "".join(child.written() for child in self.children)
        return f"<br{attributes}>" if self.tag == "br" else f"<{self.tag}{attributes}>{content}</{self.tag}>"

    def below(self) -> Iterator["Node"]:
        """The node and all below it, in document order."""
        waiting = [self]
        while waiting:
            node = waiting.pop()
            yield node
            waiting += reversed(node.children)

    def above(self) -> Iterator["Node"]:
        """The node and all above it."""
        yield self
        if self.parent:
            yield from self.parent.above()

    def hold(self, index: int, nodes: list["Node"]) -> None:
        self.children[index:index] = nodes
        for node in nodes:
            node.parent = self

    def copied(self) -> "Node":
        made = Node(self.tag, self.text, dict(self.attributes), number=self.number)
        made.hold(0, [child.copied() for child in self.children])
        return made


def letters_of(text: str) -> str:
    """A text as it is written: what can't stand in a line of a script, and some other characters, by references."""
    return "".join(f"&#x{ord(each):X};" if each in "<&" or each < " " or ord(each) % 5 == 0 else each for each in text)


class Edit(NamedTuple):
    """A line of a script: its word, its numbers, and what follows them."""

    word: str
    numbers: tuple[int, ...] = ()
    text: str = ""
    nodes: tuple[Node, ...] = ()

    def is_edit(self) -> bool:
        """Whether the line changes the document: its tree, by numbers of nodes, its rules, or all of it as the history has it."""
        return bool(self.numbers) or self.word in ("rule", *NOTHING)

    def line(self) -> str:
        rest = letters_of(self.text) if self.word == "text" else self.text + "".join(node.written() for node in self.nodes)
        return " ".join((self.word, *map(str, self.numbers))) + (f" {rest}" if rest else "")


SHOW, UNDO, REDO = Edit("show"), Edit("undo"), Edit("redo")
# By which kind it is refused to take an edit back, or to do it again, where there is none; and how many are kept.
NOTHING, MOST_KEPT = {"undo": "NoUndo", "redo": "NoRedo"}, 64


def script_of(steps: Sequence[Edit]) -> bytes:
    """A script as it stands behind a document."""
    return "".join(f"\n{step.line()}" for step in steps).encode()


class Tree:
    """A document, whose nodes keep their numbers under edits, with copies of what it was before them and before they were taken back."""

    def __init__(self, sheet: str, body: Node) -> None:
        self.sheet, self.root, self.next = sheet, Node("html", children=[body]), 0
        self.past: list[tuple[str, Node]] = []
        self.future: list[tuple[str, Node]] = []
        self.number([self.root])

    def number(self, nodes: Sequence[Node]) -> None:
        """Gives new nodes their numbers, and those in them their parents."""
        for each in (below for node in nodes for below in node.below()):
            each.number, self.next = self.next, self.next + 1
            for child in each.children:
                child.parent = each

    def copied(self) -> "Tree":
        made = copy.copy(self)
        made.root, made.past, made.future = self.root.copied(), [*self.past], [*self.future]
        return made

    def written(self) -> bytes:
        return self.root.written(f"<head><style>{self.sheet}</style></head>").encode()

    def is_writable(self) -> bool:
        """Whether a document has this tree: no text is empty, and none stands directly behind another."""
        pairs = ((one, other) for node in self.root.below() for one, other in zip(node.children, node.children[1:]))
        return all(node.tag or node.text for node in self.root.below()) and all(one.tag or other.tag for one, other in pairs)

    def living(self) -> dict[int, Node]:
        """All nodes by their numbers, in document order."""
        return {node.number: node for node in self.root.below()}

    def refusal(self, edit: Edit) -> str | None:
        """Why an edit is refused by its numbers alone: the first reason in the order of docs/PROFILE/edits.md."""
        if edit.word in NOTHING:
            return None if self.side(edit.word) else NOTHING[edit.word]
        if edit.word == "rule":
            return None
        living, word, numbers, is_move = self.living(), edit.word, edit.numbers, edit.word == "move"
        if not all(number in living for number in numbers[: 1 + is_move]):
            return "NoNode"
        target, holder = living[numbers[0]], living[numbers[is_move]] if word in ("insert", "move") else None
        reasons = {
            "IsRoot": word in ("remove", "move") and target.number < 2 or holder is self.root,
            "NotText": word == "text" and target.tag,
            "NotElement": word in ("style", "class") and not target.tag or holder and holder.tag in ("", "br"),
            "Inside": is_move and holder and target in holder.above(),
            "BadIndex": holder and numbers[-1] > sum(child is not target for child in holder.children),
        }
        return next((kind for kind, is_so in reasons.items() if is_so), None)

    def side(self, word: str) -> list[tuple[str, Node]]:
        """The side of the history from which an edit is taken back or done again, the next one last."""
        return self.past if word == "undo" else self.future

    def go(self, word: str) -> None:
        """Takes the last edit back, or does it again; the next number stays."""
        self.side("redo" if word == "undo" else "undo").append((self.sheet, self.root))
        self.sheet, root = self.side(word).pop()
        self.root = root.copied()

    def apply(self, edit: Edit) -> None:
        """Does an edit that isn't refused."""
        if edit.word in NOTHING:
            self.go(edit.word)
            return
        self.past, self.future = [*self.past, (self.sheet, self.root.copied())][-MOST_KEPT:], []
        if edit.word == "rule":
            self.sheet += f"\n{edit.text}"
            return
        living, new = self.living(), [node.copied() for node in edit.nodes]
        node = living[edit.numbers[0]]
        if edit.word == "text":
            node.text = edit.text
        elif edit.word in ("style", "class"):
            node.attributes[edit.word] = edit.text
        elif edit.word == "insert":
            self.number(new)
            node.hold(edit.numbers[1], new)
        elif node.parent:
            node.parent.children.remove(node)
            if edit.word == "move":
                living[edit.numbers[1]].hold(edit.numbers[2], [node])

    def undoing(self, edit: Edit) -> list[Edit]:
        """What leads back from an edit, also where that is refused; there is nothing for a removal."""
        node = self.living().get(edit.numbers[0], Node())
        if edit.word == "insert":
            sizes = (len(list(new.below())) for new in edit.nodes)
            return [Edit("remove", (number,)) for number in list(itertools.accumulate(sizes, initial=self.next))[:-1]]
        if edit.word == "move" and node.parent:
            return [Edit("move", (node.number, node.parent.number, node.parent.children.index(node)))]
        return [edit._replace(text=node.text if edit.word == "text" else node.attributes.get(edit.word, ""))]
