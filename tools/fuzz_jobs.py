"""The jobs of tools/fuzz. A seed and a number make the same job again, as long as the files that jobs are made of are the same."""
import functools
import glob
import json
import os
import re
from random import Random
from typing import NamedTuple

import listing
from fuzz_grammar import EDGES, FAVOURED, SCRIPTED, TOP, UNTIED, Maker
from fuzz_trees import Edit, Tree, script_of
from stored import bytes_of, lines_of

COMMANDS = ("layout", "edit", "modes", "probe", "gen")
OPTIONS = {"--view-inline": 16_384, "--view-block": 16_384, "--count": 1_000}
# Each makes that good words give no job, where it stands before them.
BAD_WORDS = (
    ["", "mode", "--help", "-h", "-", "page.html", "Layout", "layout ", "edit", "\udcff", "-x", "--none", "--view=5", "--count"]
    + ["--count=0", "--count=1001", "--count=1.5", "--count=000001", "--count=+1", "--count=1 ", "--count=\u0663", "--count="]
    + ["--view-inline=0", "--view-inline=16385", "--view-block=-1", "--view-block=99999999999999999999"]
)
# The longest input that others are made of, and how often a mutated one is grown.
LONGEST_PART, GROWN = 16_384, 0.002
BODY = re.compile(rb"<body[^>]*>(.*)</body", re.DOTALL)
TAG, ELEMENT = rb"(<[^>]*>)", rb"(<[a-z0-9]+[^>]*>[^<]*</[a-z0-9]+>)"
DECLARATION, LINE = rb"([a-z-]+:[^;\"{}<>]+)", rb"(\n[^\n]*)"


class Job(NamedTuple):
    """A job: its words and its input; and where it is of the grammar, its document, the script behind it, edits that undo one
    another, edits that are to be taken back, and how many points and places of a text are asked for. Where a stream is to fail is
    told by a number from 0 to 1."""

    kind: str
    words: list[str]
    input: bytes
    is_usage: bool = False
    tree: Tree | None = None
    steps: tuple[Edit, ...] = ()
    undone: tuple[Edit, ...] = ()
    edits: tuple[Edit, ...] = ()
    asked: int = 0
    failing: float = 0.0

    @property
    def command(self) -> str:
        """The command, of words that give a job."""
        return "" if self.is_usage else next(word for word in self.words if word in COMMANDS)

    def words_of(self, command: str) -> list[str]:
        """The same words with another command."""
        return [command if word == self.command else word for word in self.words]

    def option(self, name: str, otherwise: int) -> int:
        found = re.search(rf"{name}[ =]([0-9]+)", " ".join(self.words))
        return int(found[1]) if found else otherwise


@functools.cache
def corpus() -> list[Job]:
    """The stored cases, each under its status, and the examples; but for the longest."""
    found = []
    for name in ("document-cases.txt", "script-cases.txt"):
        for _, line in lines_of(os.path.join(TOP, "tools", name)):
            words, data, status = line.split("\t")[:3]
            found.append(Job(status, json.loads(words) if words.startswith("[") else words.split(), bytes_of(data), status == "1"))
    for command, end in ("layout", "html"), ("edit", "script"), ("probe", "probe"):
        for path in sorted(glob.glob(os.path.join(TOP, "examples", f"*.{end}"))):
            with open(path, "rb") as file:
                found.append(Job("", [command], file.read()))
    return [job for job in found if len(job.input) <= LONGEST_PART]


class JobMaker(Maker):
    """Makes jobs by chance: each kind by a method of its name."""

    def good_words(self, command: str) -> list[str]:
        groups = [[command]]
        for name, most in OPTIONS.items():
            value = str(self.choice((1, 50, 100, 320, most, self.random.randint(1, most)))).zfill(self.choice((1, 5)))
            forms: list[list[str]] = [[], [], [f"{name}={value}"], [name, value]]
            groups.append(self.choice(forms))
        self.random.shuffle(groups)
        return [word for group in groups for word in group] + ["--"] * self.is_so(0.03)

    def change_part(self, data: bytes) -> bytes:
        """Cuts or doubles a part, mostly a short one, or puts a byte in its place."""
        start = self.random.randrange(len(data) + 1)
        part = data[start : start + int(self.random.expovariate(0.05))]
        changed = self.choice((b"", part * 2, part * 9, part * 70, bytes([self.random.randrange(128)])))
        return data[:start] + changed + data[start + len(part) :]

    def flip_bit(self, data: bytes) -> bytes:
        at = self.random.randrange(len(data) + 1)
        return data[:at] + bytes(byte ^ 1 << self.random.randrange(8) for byte in data[at : at + 1]) + data[at + 1 :]

    def replace_number(self, data: bytes) -> bytes:
        at = self.choice(list(re.finditer(rb"[0-9.]+", data)) or list(re.finditer(rb"\Z", data)))
        return data[: at.start()] + self.choice(EDGES).encode() + data[at.end() :]

    def pieces_of(self, data: bytes, *patterns: bytes) -> tuple[bytes, list[bytes], int, int]:
        """An input cut by one of these patterns that is found in it, with the places of two pieces that it finds, if any."""
        pattern = self.choice([each for each in patterns if re.search(each, data)] or [LINE])
        pieces = re.split(pattern, data)
        places = range(1, len(pieces), 2) or [0]
        return pattern, pieces, self.choice(places), self.choice(places)

    def swap_pieces(self, data: bytes) -> bytes:
        _, pieces, one, other = self.pieces_of(data, TAG, ELEMENT, DECLARATION, LINE)
        pieces[one], pieces[other] = pieces[other], pieces[one]
        return b"".join(pieces)

    def put_piece(self, data: bytes) -> bytes:
        """A piece of the grammar behind another one, or in its place."""
        pattern, pieces, at, _ = self.pieces_of(data, ELEMENT, DECLARATION, LINE)
        made = {DECLARATION: f";{self.declaration()}", LINE: f"\n{self.edit(self.tree(), SCRIPTED).line()}"}.get(pattern)
        pieces[at] = pieces[at] * self.random.randrange(2) + (made or self.nodes(2, 0.5)[0].written()).encode()
        return b"".join(pieces)

    def grow(self, data: bytes) -> bytes:
        """One piece so many times that the input is about as long as it may be, or half as long."""
        _, pieces, at, _ = self.pieces_of(data, TAG, ELEMENT, DECLARATION, LINE)
        piece, most = pieces[at] or b"a", self.choice((listing.MOST_INPUT, listing.MOST_INPUT // 2))
        pieces[at] = piece * (1 + (most - len(data) + self.choice((0, 1, len(piece)))) // len(piece))
        return b"".join(pieces)

    def stored(self) -> Job:
        """A job of the corpus, most often one that isn't refused."""
        jobs = [self.choice(corpus()) for _ in range(3)]
        return next((job for job in jobs if job.kind == "0"), jobs[0])

    def mutated(self) -> Job:
        job = self.stored() if self.is_so(0.8) else self.script_job()
        data = job.input
        for _ in range(self.choice((1, 1, 1, 2, 3, 8))):
            data = self.choice((self.change_part, self.flip_bit, self.replace_number, self.swap_pieces, self.put_piece))(data)
        return Job("mutated", job.words, self.grow(data) if self.is_so(GROWN) else data, job.is_usage)

    def spliced(self) -> Job:
        """The front of an input with the back of another, or the content of a body in another document."""
        one, other = self.stored(), self.stored().input
        (_, front, at, _), (_, back, start, _) = self.pieces_of(one.input, ELEMENT), self.pieces_of(other, TAG)
        body = BODY.search(other)
        middle = [body[1], *front[at + 1 :]] if body and self.is_so(0.6) else back[start:]
        return Job("spliced", one.words, b"".join(front[: at + 1] + middle), one.is_usage)

    def document_job(self) -> Job:
        tree = self.tree()
        return Job("document", self.good_words("layout"), tree.written(), tree=tree, undone=tuple(self.undone(tree)), edits=tuple(self.edits(tree)))

    def script_job(self) -> Job:
        tree = self.tree()
        steps = tuple(self.script(tree))
        return Job("script", self.good_words("edit"), tree.written() + script_of(steps), tree=tree, steps=steps)

    def modes_job(self) -> Job:
        """Most often a document that nothing ties to a mode."""
        if self.is_so(0.85):
            self.names, self.favoured = UNTIED, [name for name in FAVOURED if name in UNTIED]
        tree = self.tree()
        return Job("modes", self.good_words("modes"), tree.written(), tree=tree)

    def asked_line(self, tree: Tree) -> str:
        """A line of a probe: mostly of a point on the page or a place of a text that there is."""
        numbers, many = self.random, self.choice((12_800, 51_200, 9_999_999_999))
        if self.is_so(0.5):
            return f"point {numbers.randint(-many // 8, many)} {numbers.randint(-many // 8, many)}"
        return f"caret {numbers.randint(0, max(tree.living()) + 2)} {numbers.randint(0, 12)}"

    def probe_job(self) -> Job:
        tree = self.tree()
        lines = [self.asked_line(tree) for _ in range(self.random.randint(1, 12))]
        asked = "".join(f"\n{line}" for line in lines).encode()
        return Job("probe", self.good_words("probe"), tree.written() + asked, tree=tree, asked=len(lines))

    def words_job(self) -> Job:
        words = [self.choice(BAD_WORDS), *self.good_words(self.choice(COMMANDS))]
        return Job("words", words if self.is_so(0.95) else [], self.stored().input, is_usage=True)

    def made_job(self) -> Job:
        return Job("gen", self.good_words("gen"), self.choice((b"", self.stored().input)))


# How often each kind comes.
KINDS = {
    JobMaker.mutated: 40,
    JobMaker.spliced: 12,
    JobMaker.document_job: 22,
    JobMaker.script_job: 18,
    JobMaker.modes_job: 6,
    JobMaker.probe_job: 6,
    JobMaker.words_job: 5,
    JobMaker.made_job: 3,
}


def job_of(seed: int, number: int) -> Job:
    """The job of this number."""
    random = Random(f"{seed} {number}")
    make = random.choices(list(KINDS), list(KINDS.values()))[0]
    return make(JobMaker(random))._replace(failing=random.random())
