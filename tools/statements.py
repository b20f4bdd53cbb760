"""The lemmas of antt files, each with a form of its statement that two lemmas share where they say one thing, for tools/names.

The form has neither the names of what is bound, nor the order in which it is bound, nor its types: statements that differ by
the type of a list's elements alone are cases of one lemma. Types stand in it where they decide: of what has a named field, and
where a statement has no words but those of logic. Each word that a file of the repository defines stands there by that file, so
that two crates may use one word for two things.
"""
import re
from collections.abc import Iterator
from dataclasses import dataclass
from typing import NamedTuple

# A declaration, which isn't indented: its name, what it binds before the colon, and its type up to the next line that isn't.
DECLARATION = re.compile(
    r"^(?:(?:pub|abbrev|unfoldable|opaque) )*([^\s(){}]+)((?: [({][^\n=]*[)}])?) :(?= )((?:.*\n)(?:[ \t].*\n)*)", re.MULTILINE
)
# A module of a file: what it binds, and the lines that stand in it.
MODULE = re.compile(r"^module \S+ (.*?)\s*\bwhere\n((?:[ \t].*\n|\n)*)", re.MULTILINE)
# One pair of brackets of what a module binds; those inside it are at most two deep.
BIND = re.compile(r"[({](?:[^(){}]|[({](?:[^(){}]|[({][^(){}]*[)}])*[)}])*[)}]")
USE = re.compile(r"^(?:pub )?use ([^\s{]+?)(?:\.\{([^}]*)\}| as (\S+))?\s*$", re.MULTILINE)
COMMENT = re.compile(r"(?:^|(?<=\s))--.*$", re.MULTILINE)
TOKEN = re.compile(r'"(?:[^"\\]|\\.)*"|[(){}\[\],;]|[^\s(){}\[\],;"]+')
CLOSING = {"(": ")", "{": "}", "[": "]"}
# The words of logic, which are said of any type.
LOGIC = frozenset(("≡", "≢", "×", "⊎", "⊥", "→", "λ", ".", ":", "(", ")"))


class Lemma(NamedTuple):
    """A lemma: its line, its name, and the form of its statement."""

    line: int
    name: str
    form: str


@dataclass
class Bracket:
    """What stands in a pair of brackets."""

    opening: str
    inside: "list[str | Bracket]"


Node = str | Bracket
# The number of a variable, once it is known.
Cell = list[int]


class Group(NamedTuple):
    """Names that are bound together, with their type."""

    names: list[str]
    type: list[Node]


def read_nodes(text: str) -> list[Node]:
    """The words of a type, with what is in brackets apart. A dot that ends the names of a λ is a word of its own."""
    open_lists: list[tuple[str, list[Node]]] = [("", [])]
    for token in TOKEN.findall(text):
        if token in CLOSING:
            open_lists.append((token, []))
        elif token in CLOSING.values() and len(open_lists) > 1:
            opening, inside = open_lists.pop()
            open_lists[-1][1].append(Bracket(opening, inside))
        elif len(token) > 1 and token.endswith("."):
            open_lists[-1][1].extend((token[:-1], "."))
        else:
            open_lists[-1][1].append(token)
    return open_lists[0][1]


def group_of(node: Node) -> Group | None:
    """The names that a bracket binds, if it does."""
    if isinstance(node, str) or ":" not in node.inside:
        return None
    colon = node.inside.index(":")
    names = [name for name in node.inside[:colon] if isinstance(name, str)]
    return Group(names, node.inside[colon + 1 :]) if names and len(names) == colon else None


def parts_of(nodes: list[Node]) -> list[list[Node]]:
    """What the arrows of a type part. What stands behind a λ is in one part with it."""
    parts: list[list[Node]] = [[]]
    for node in nodes:
        if node == "→" and "λ" not in parts[-1]:
            parts.append([])
        else:
            parts[-1].append(node)
    return parts


def words_in(nodes: list[Node]) -> Iterator[str]:
    for node in nodes:
        if isinstance(node, str):
            yield node.partition(".")[0]
        else:
            yield from words_in(node.inside)


class Writer:
    """Writes a statement with numbers in place of what it binds, counted in the order in which it is first named."""

    def __init__(self, meanings: dict[str, str]) -> None:
        self.meanings = meanings
        self.count = 0
        # The variables whose fields are named.
        self.opened: dict[str, None] = {}

    def number(self, cell: Cell) -> str:
        if not cell:
            cell.append(self.count)
            self.count += 1
        return f"#{cell[0]}"

    def word(self, word: str, bound: dict[str, Cell]) -> str:
        name, dot, fields = word.partition(".")
        if name in bound:
            if dot and not fields[0].isdigit():
                self.opened[name] = None
            return self.number(bound[name]) + dot + fields
        return self.meanings.get(name, name) + dot + fields

    def write(self, nodes: list[Node], bound: dict[str, Cell]) -> Iterator[str]:
        """The words of what the nodes say. What is bound on the way is bound to their end."""
        bound, binds = dict(bound), False
        for node in nodes:
            group = group_of(node)
            if group is not None:
                # The type of what a λ takes follows from what it is given to.
                if not binds:
                    yield from self.write(group.type, bound)
                    yield ":"
                for name in group.names:
                    bound[name] = []
                    yield self.number(bound[name])
            elif isinstance(node, Bracket):
                yield node.opening
                yield from self.write(node.inside, bound)
                yield CLOSING[node.opening]
            elif node in ("λ", "."):
                binds = node == "λ"
                yield node
            elif binds:
                bound[node] = []
                yield self.number(bound[node])
            else:
                yield self.word(node, bound)


def form_of(statement: str, meanings: dict[str, str]) -> str | None:
    """The form of a statement. There is none where it is the type of a definition: what comes out tells nothing of what is bound."""
    parts: list[list[Node]] = []
    bound: dict[str, Cell] = {}
    types: dict[str, list[Node]] = {}
    nodes = read_nodes(statement)
    named = list(words_in(nodes))
    for part in parts_of(nodes):
        groups = [group for group in map(group_of, part) if group is not None]
        if not part or len(groups) < len(part):
            parts.append(part)
            continue
        for group in groups:
            used = [name for name in group.names if named.count(name) > 1]
            parts += [group.type for _ in range(len(group.names) - len(used))]
            bound.update((name, []) for name in used)
            types.update((name, group.type) for name in used)
    values = [name for name in bound if types[name][:1] != ["Type"]]
    if not set(values) & set(words_in(parts[-1])):
        return None
    writer = Writer(meanings)
    written = " → ".join(" ".join(writer.write(part, bound)) for part in parts)
    of_any_type = all(word in LOGIC or word.startswith("#") for word in written.split())
    told = [name for name in (list(bound) if of_any_type else list(writer.opened)) if name in types]
    return written + "".join(", " + " ".join(writer.write([name, ":", *types[name]], bound)) for name in told)


def meanings_of(text: str, module: str, own: str) -> dict[str, str]:
    """What each word of a file means that stands for one of the repository, whose modules begin as `own` tells."""
    meanings = {}
    for module_used, items, renamed in USE.findall(text):
        if not re.match(own, module_used):
            continue
        for item in items.split(","):
            name, _, short = item.strip().partition(" as ")
            if name:
                meanings[(short or name).strip("◌ ")] = f"{module_used}.{name}"
        if not items:
            meanings[renamed or module_used.rpartition(".")[2]] = module_used
    meanings.update((found.group(1), f"{module}.{found.group(1)}") for found in DECLARATION.finditer(text))
    return meanings


def blocks_of(text: str, line: int = 1, binds: str = "") -> Iterator[tuple[str, int, str]]:
    """The text of a file without its modules, and then what stands in each of these, moved to the left: with the line at which it
    begins, and what the modules round it bind."""
    rest, inner = text, []
    for found in MODULE.finditer(text):
        inside = re.sub(r"^  ", "", found.group(2), flags=re.MULTILINE)
        inner.append((inside, text.count("\n", 0, found.start(2)), found.group(1)))
    for found in reversed(list(MODULE.finditer(text))):
        rest = rest[: found.start()] + "\n" * text.count("\n", found.start(), found.end()) + rest[found.end() :]
    yield rest, line, binds
    for inside, begins, own in inner:
        yield from blocks_of(inside, line + begins, f"{binds} {own}".strip())


def with_binds(binds: str, said: str) -> str:
    """What is said in a module that binds these, of which only what is named counts."""
    for bind in reversed(BIND.findall(binds)):
        names = bind[1:].partition(":")[0].split()
        if set(names) & {word.partition(".")[0] for word in TOKEN.findall(said)}:
            said = f"{bind} → {said}"
    return said


def lemmas_of(text: str, module: str, own: str) -> Iterator[Lemma]:
    """The lemmas of a file, which is the module of this name."""
    text = COMMENT.sub("", text)
    meanings = meanings_of(text, module, own)
    for block, line, binds in blocks_of(text):
        for found in DECLARATION.finditer(block):
            said = f"{found.group(2)} → {found.group(3)}" if found.group(2) else found.group(3)
            form = form_of(with_binds(binds, said), meanings)
            if form is not None:
                yield Lemma(line + block.count("\n", 0, found.start()), found.group(1), form)
