"""Runs the jobs of tools/fuzz, and holds what is true of every job: each law yields what is wrong, in words."""
import collections
import contextlib
import dataclasses
import re
import resource
import subprocess
from collections.abc import Iterator
from random import Random
from subprocess import PIPE
from typing import NamedTuple

import listing
import refusals
from fuzz_grammar import read_page
from fuzz_jobs import Job
from fuzz_trees import MOST_KEPT, REDO, SHOW, UNDO, Edit, Tree, script_of

FACTS = refusals.read_facts(refusals.read_page())
BYTES, NODES, LINES = ({fact.kind for fact in FACTS if fact.number == number} for number in ("byte", "node", "line"))
OF_SCRIPTS, OF_MODES = {"ScriptSyntax", "TooManyEdits", "TooManyShows"}, {"NotTurnable"}
USAGE = b"".join(re.findall(rb"^usage: .*\n", read_page("commands.md").encode(), re.MULTILINE))
# The answer to a line of a probe, with the text node and two places of a hit.
ANSWER = re.compile(rb"(?:hit ([0-9]+) ([0-9]+) ([0-9]+) [0-9]+|miss|caret(?: -?[0-9]+){4}|nocaret)\n")
# How many runs, places of the page and places of a text a page is asked about; and how long a unit is, on an average of its run, at
# least, so that each of its halves has a point, in 1/64 px.
MOST_POINTED, LEAST_UNIT = 8, 8
# The first number that a line of a probe can't have.
TOO_FAR = 10**10
COUNTED = re.compile(rb"gen [0-9]+ bytes [0-9]+ lines [0-9]+\n")
# A letter for each part of an output, and which parts each command writes where it refuses nothing.
SIGNS = {listing.Page: "p", listing.Flow: "f", listing.Refusal: "r"}
SHAPES = {"layout": "p", "edit": "[pr]*", "modes": "f" + "p" * len(listing.TURNED)}
DOCUMENT_ENDS = re.compile(rb"</html[ \t\n\f\r]*>[ \t\n\f\r]*\Z", re.IGNORECASE)
# After how many seconds by the clock a run is ended, whatever it did in them.
LONGEST = 120


class Limits(NamedTuple):
    """What a run may take: seconds of processor time and bytes of memory, each with more of it for each byte of the input."""

    seconds: float = 0.5
    seconds_a_byte: float = 1 / 100_000
    memory: int = 64 << 20
    memory_a_byte: int = 512

    def seconds_of(self, data: bytes) -> float:
        return self.seconds + len(data) * self.seconds_a_byte

    def told(self) -> str:
        more = f"1 more for each {1 / self.seconds_a_byte:,.0f} bytes of its input", f"{self.memory_a_byte} more for each"
        return f"{self.seconds} seconds, with {more[0]}, and {self.memory:,} bytes of memory, with {more[1]}"


class Ended(NamedTuple):
    """How a run ended: its status, what it wrote, what stands on standard error, and its seconds of processor time."""

    status: int
    out: bytes
    said: bytes
    seconds: float

    def parts(self) -> list[listing.Part]:
        return listing.read_listing_bytes(self.out) if self.out else []

    def told(self) -> str:
        return f"status {self.status}, output {self.out[:80]!r}, error {self.said[:80]!r}"


@dataclasses.dataclass(frozen=True)
class Program:
    """The program, and the library that shortens its streams, where there is one."""

    path: str
    library: str | None
    limits: Limits

    def run(self, words: list[str], data: bytes, **streams: int) -> Ended:
        names = {"LD_PRELOAD": self.library or "", **{name: str(number) for name, number in streams.items()}} if streams else {}
        before, hard = spent(), resource.getrlimit(resource.RLIMIT_AS)[1]
        memory = self.limits.memory + len(data) * self.limits.memory_a_byte
        process = subprocess.Popen([self.path, *words], env=names, stdin=PIPE, stdout=PIPE, stderr=PIPE)
        with contextlib.suppress(ProcessLookupError):
            resource.prlimit(process.pid, resource.RLIMIT_AS, (memory, hard))
        try:
            out, said = process.communicate(data, LONGEST)
        except subprocess.TimeoutExpired:
            process.kill()
            out, said = process.communicate()
        return Ended(process.returncode, out, said, spent() - before)


def spent() -> float:
    """The processor time of all runs that ended, in seconds."""
    used = resource.getrusage(resource.RUSAGE_CHILDREN)
    return used.ru_utime + used.ru_stime


class Trial:
    """A job that ran, how it ended, and what is wrong with that."""

    def __init__(self, program: Program, job: Job) -> None:
        self.program, self.job = program, job
        self.due = program.run(job.words, job.input)
        self.parts: list[listing.Part] = []
        self.share = self.due.seconds / program.limits.seconds_of(job.input)
        self.wrong = list(self.wrong_end())
        for law in (self.streamed, self.shown, self.undone, self.taken_back, self.kept, self.followed, self.turned, self.pointed, self.made, self.broken_off) if not self.wrong else ():
            self.wrong += law()

    def again(self, command: str, data: bytes) -> Ended:
        """How another job with the same options ends."""
        return self.program.run(self.job.words_of(command), data)

    # ---- one run

    def wrong_end(self) -> Iterator[str]:
        """What is wrong with the end of the run."""
        due, ended = self.due_at_once(), self.due
        if self.share > 1:
            yield f"it took {ended.seconds:.2f} seconds, {self.share:.1f} times what it may take"
        if ended.said or ended.status not in (0, 1, 2) or due and due != ended[:2]:
            yield f"it ended with {ended.told()}; due is {due or 'a page or a refusal'}"
        elif not due:
            try:
                yield from self.wrong_output()
            except listing.ListingError as error:
                yield f"the output is no listing: {error}"

    def due_at_once(self) -> tuple[int, bytes] | None:
        """Status and output that are due by the words alone, or by the length and the encoding of the input."""
        if self.job.is_usage:
            return 1, USAGE
        if self.job.command == "gen":
            return None
        if len(self.job.input) > listing.MOST_INPUT:
            return 2, b"refused TooLong %d\n" % listing.MOST_INPUT
        valid = re.split("[\udc80-\udcff]", self.job.input.decode("utf-8", "surrogateescape"), 1)
        return (2, b"refused Utf8 %d\n" % len(valid[0].encode())) if len(valid) > 1 else None

    def wrong_output(self) -> Iterator[str]:
        """What is wrong with what was written, by the command and the status."""
        status = self.due.status
        if self.job.command == "gen":
            if status or not COUNTED.fullmatch(self.due.out):
                yield f"`gen` ended with {self.due.told()}"
            return
        if self.job.command == "probe" and not status:
            yield from self.wrong_answers()
            return
        self.parts, last = self.due.parts(), 0
        shape = "".join(SIGNS[type(part)] for part in self.parts)
        due = {0: SHAPES.get(self.job.command, ""), 2: "r"}.get(status, "nothing")
        if not re.fullmatch(due, shape):
            yield f"with the status {status} flows, pages and refusals are {shape[:40]}"
        for part in self.parts:
            if not isinstance(part, listing.Refusal):
                yield from self.wrong_page(part if isinstance(part, listing.Page) else part.page())
            elif status == 2:
                if part.kind not in self.due_kinds() or part.number > len(self.job.input):
                    yield f"no such input is refused so: {part}"
            elif part.kind not in LINES or not last < part.number <= self.job.input.count(b"\n"):
                yield f"no line of a script is refused so: {part}"
            else:
                last = part.number

    def due_kinds(self) -> set[str]:
        """The kinds by which an input can be refused under the command."""
        # What the grammar made can be refused by its nodes alone, and by what ties it to a mode.
        kinds = NODES if self.job.tree else NODES | BYTES - OF_MODES
        if self.job.command not in ("edit", "probe"):
            kinds = kinds - OF_SCRIPTS
        return kinds | OF_MODES if self.job.command == "modes" else kinds

    def wrong_answers(self) -> Iterator[str]:
        """What is wrong with the answers to the lines of a probe: their form, how many there are, and the texts that are hit."""
        answers = self.due.out.splitlines(keepends=True)
        if any(not ANSWER.fullmatch(answer) for answer in answers) or self.job.asked not in (0, len(answers)):
            yield f"these aren't the answers to {self.job.asked} lines: {self.due.out[:80]!r}"
        living = self.job.tree.living() if self.job.tree else {}
        found = [ANSWER.fullmatch(answer) for answer in answers] if living else []
        for hit in filter(None, found):
            node, first, end = map(int, hit.groups(default=0)) if hit[1] else (0, 0, 0)
            if hit[1] and not (node in living and not living[node].tag and first < end <= len(living[node].text)):
                yield f"no text has what is hit: {hit[0]!r}"

    def wrong_page(self, page: listing.Page) -> Iterator[str]:
        """What is wrong with a page by itself: its size, and what stands before what."""
        sizes = self.job.option("--view-inline", 800) * 64, self.job.option("--view-block", 600) * 64
        if (page.width, page.height) != (sizes if page.mode == "horizontal-tb" else sizes[::-1]):
            yield f"the page is {page.width} by {page.height}"
        # For each box how many lines it has so far; for each text the places of its runs.
        lines: dict[tuple[int, int], int] = {}
        places: dict[int, list[tuple[int, int]]] = {}
        has_line = False
        for each in page.fragments:
            name, is_right = (each.node, 0 if each.kind == "run" else each.box), has_line
            if each.kind == "box":
                is_right = name not in lines and ((name[0], 0) in lines if name[1] else bool(lines) or name == (0, 0))
                lines[name] = 0
            elif each.kind == "line":
                is_right = lines.get(name) == each.line
                lines[name], has_line = each.line + 1, True
            elif each.kind == "run":
                places.setdefault(each.node, []).append((each.begin, each.end))
            if not is_right:
                yield f"what should stand before it doesn't, or stands twice: {each}"
        for node, found in places.items():
            flat = [place for pair in sorted(found) for place in pair]
            if flat != sorted(flat) or any(begin == end for begin, end in found):
                yield f"runs of the text {node} have characters in common, or none"

    @staticmethod
    def wrong_in_tree(tree: Tree, page: listing.Page) -> Iterator[str]:
        """What is wrong with the page of a tree: a run or an inline box stands behind a fragment of its node's parent, a run has the letters of its text."""
        living, seen = tree.living(), set()
        for each in page.fragments:
            node = living.get(each.node)
            # A block in an inline box may stand before all pieces of that which are on lines.
            is_inline = each.kind in ("run", "span")
            if not node or (each.kind == "run") == bool(node.tag) or is_inline and node.parent and node.parent.number not in seen:
                yield f"the node is another, or its parent doesn't stand before it: {each}"
            elif each.kind == "run" and each.natural is None:
                text = iter(node.text[each.begin : each.end])
                if each.end > len(node.text) or not all(letter in text for letter in each.logical() if not letter.isspace()):
                    yield f"the text is {node.text!r}: {each}"
            seen.add(each.node)

    # ---- the same in other ways

    def streamed(self) -> Iterator[str]:
        """One byte a read and few bytes a write change nothing; where a call fails that is told, after a front of what is due."""
        if not self.program.library:
            return
        words, data, chance, due = self.job.words, self.job.input, self.job.failing, self.due[:3]
        again = self.program.run(words, data, SHORT_READ=1, SHORT_WRITE=1 + int(chance * 20))
        if again[:3] != due:
            yield f"with one byte a read it ended with {again.told()}"
        failed = 1 + int(chance * (len(data) + 1))
        if self.job.command in ("layout", "edit", "modes", "probe") and len(data) <= listing.MOST_INPUT:
            again = self.program.run(words, data, SHORT_READ=1, FAILED_READ=failed)
            if again[:3] != (4, b"", b""):
                yield f"where read {failed} fails it ended with {again.told()}"
        front = int(chance * min(len(due[1]), 5000))
        again = self.program.run(words, data, SHORT_WRITE=1, FAILED_WRITE=front + 1)
        if again[:3] != ((5, due[1][:front], b"") if due[1] else due):
            yield f"where write {front + 1} fails it ended with {again.told()}"

    def shown(self) -> Iterator[str]:
        """A page that is shown twice is the same; before any edit it is that of `layout`, which refuses a document as `edit` does."""
        status, out, data, command = self.due.status, self.due.out, self.job.input, self.job.command
        if command == "edit" and not status:
            again = self.again("edit", data + script_of([SHOW, SHOW]))
            pages = again.out[len(out) :]
            if not again.status and (again.out[: len(out)] != out or not pages or pages[: len(pages) // 2] * 2 != pages):
                yield f"what is shown twice is shown otherwise: {again.told()}"
        elif command == "layout" and DOCUMENT_ENDS.search(data) and len(data) + 10 <= listing.MOST_INPUT:
            again = self.again("edit", data.rstrip() + script_of([SHOW, SHOW]))
            is_due = not status or int(out.split()[2]) < data.lower().find(b"</html")
            if is_due and again[:3] != (status, out * (1 if status else 2), b""):
                yield f"`edit` shows another page, or refuses otherwise: {again.told()}"

    def undone(self) -> Iterator[str]:
        """Edits that are undone leave the page as it was."""
        if self.job.tree and self.job.undone and not self.due.status:
            yield from self.wrong_in_tree(self.job.tree, listing.pages_of(self.parts)[0])
            again = self.again("edit", self.job.input + script_of([*self.job.undone, SHOW]))
            if again.status or again.parts()[-1:] != self.parts:
                yield f"after {script_of(self.job.undone)!r} `edit` shows another page: {again.told()}"

    def taken_back(self) -> Iterator[str]:
        """After edits `undo` for each that was done leads to the page before them, and `redo` to the page after them; then there is none."""
        if not self.job.edits or self.due.status:
            return
        more = len(self.job.edits) + 1
        again = self.again("edit", self.job.input + script_of([*self.job.edits, SHOW, *[UNDO] * more, SHOW, *[REDO] * more, SHOW]))
        kinds, pages = self.kinds_and_pages(again.parts())
        # One more line than edits that were done, and one for each that was refused.
        none = kinds.index("") + 1 if "" in kinds else 0
        due = [*kinds[: none - 1], "", *["NoUndo"] * none, "", *["NoRedo"] * none, ""]
        if again.status or kinds != due or pages[1:] != [*self.parts, pages[0]]:
            yield f"after {script_of(self.job.edits)!r} `undo` or `redo` leads to another page: {again.told()}"

    def kept(self) -> Iterator[str]:
        """All that is kept of a script's edits, taken back and done again, leads to the page that there was."""
        if self.job.command != "edit" or self.due.status:
            return
        undo, redo = [UNDO] * (MOST_KEPT + 1), [REDO] * (MOST_KEPT + 1)
        again = self.again("edit", self.job.input + script_of([*redo, SHOW, *undo, *redo, SHOW]))
        if not again.status:
            kinds, pages = self.kinds_and_pages(again.parts()[len(self.parts) :])
            none = kinds.count("NoUndo")
            first = kinds.index("") if "" in kinds else 0
            due = [*["NoRedo"] * first, "", *["NoUndo"] * none, *["NoRedo"] * none, ""]
            if kinds != due or not first or not none or pages[:1] != pages[1:]:
                yield f"what `undo` and `redo` lead to isn't the page that there was: {again.told()}"

    @staticmethod
    def kinds_and_pages(parts: list[listing.Part]) -> tuple[list[str], list[listing.Part]]:
        """The kinds of the refusals in order, with no kind where a page stands, and the pages."""
        kinds = [part.kind if isinstance(part, listing.Refusal) else "" for part in parts]
        return kinds, [part for part in parts if not isinstance(part, listing.Refusal)]

    def followed(self) -> Iterator[str]:
        """Each page of a script is that of the document as the edits left it, and what is refused would be so in a document."""
        if not self.job.tree or not self.job.steps or self.due.status:
            return
        tree, parts = self.job.tree.copied(), collections.deque(self.parts)
        for line, step in enumerate(self.job.steps, 1):
            if step == SHOW and parts and isinstance(page := parts.popleft(), listing.Page):
                yield from self.wrong_show(tree, page)
            elif step == SHOW:
                yield f"line {line} shows no page"
            elif step.is_edit():
                is_told = bool(parts) and isinstance(parts[0], listing.Refusal) and parts[0].number == line
                yield from self.wrong_edit(tree, step, parts.popleft() if is_told else None)
                if not is_told and not tree.refusal(step):
                    tree.apply(step)
        if parts:
            yield f"behind the page of the last line stands {parts[0].text()[:80]!r}"

    def wrong_show(self, tree: Tree, page: listing.Page) -> Iterator[str]:
        """What is wrong with a page of a script: `layout` of the same document lists it otherwise, but for the numbers of nodes."""
        yield from self.wrong_in_tree(tree, page)
        if tree.is_writable():
            ended, numbers = self.again("layout", tree.written()), list(tree.living())
            parts = [part for part in ended.parts() if isinstance(part, listing.Page)]
            fragments = (dataclasses.replace(each, node=numbers[each.node]) for part in parts for each in part.fragments)
            if not parts or dataclasses.replace(parts[0], fragments=tuple(fragments)) != page:
                yield f"`edit` shows another page than `layout` of {tree.written()!r}, which ends with {ended.told()}"

    def wrong_edit(self, tree: Tree, step: Edit, told: listing.Part | None) -> Iterator[str]:
        """What is wrong with what is told of an edit: it is refused by its numbers, or as `layout` refuses the document that it makes."""
        due, kind = tree.refusal(step), told.kind if isinstance(told, listing.Refusal) else None
        if kind and not due:
            other = tree.copied()
            other.apply(step)
            ended = self.again("layout", other.written())
            due = ended.out.decode().split()[1] if ended.status == 2 else None
        if kind != due:
            yield f"`{step.line()[:80]}` is refused by {kind}, due is {due}"

    def turned(self) -> Iterator[str]:
        """The pages of `modes` are its flow, turned, and the first is that of `layout`, which refuses all else but what ties to a mode."""
        if self.job.command != "modes" or not self.parts:
            return
        told, ended = self.parts[0], self.again("layout", self.job.input)
        due: tuple[int, bytes] = self.due.status, self.due.out
        if isinstance(told, listing.Flow):
            yield from self.wrong_turns(told)
            due = 0, told.turned("horizontal-tb").text().encode()
        elif isinstance(told, listing.Refusal) and told.kind in OF_MODES:
            due = 0, ended.out
        if ended[:2] != due:
            yield f"`layout` lists or refuses it otherwise than `modes`: {ended.told()}"

    def wrong_turns(self, flow: listing.Flow) -> Iterator[str]:
        """What is wrong with the pages of a flow."""
        for mode, page in zip(listing.TURNED, self.parts[1:]):
            due = flow.turned(mode)
            if isinstance(page, listing.Page) and len(page.fragments) != len(due.fragments):
                yield f"the page in {mode} has another count of lines than the flow"
            if page != due:
                yield f"the page in {mode} isn't the flow, turned"
        if self.job.tree:
            yield from self.wrong_in_tree(self.job.tree, flow.page())

    # ---- points, the made input, and documents that break off

    def pointed(self) -> Iterator[str]:
        """What a point of a page hits is in the last run that holds it, and nothing where none does; a caret stands at a run that has
        its place, and a point beside it leads back to it."""
        if self.job.command != "layout" or not DOCUMENT_ENDS.search(self.job.input) or not (self.parts and isinstance(self.parts[0], listing.Page)):
            return
        random, page = Random(self.job.failing), self.parts[0]
        runs = [each for each in page.fragments if isinstance(each, listing.Run)]
        asked = random.sample(runs, min(MOST_POINTED, len(runs)))
        points = [(random.randrange(page.width), random.randrange(page.height)) for _ in range(MOST_POINTED)]
        for run in asked:
            rect = run.rect
            points += [(rect.x, rect.y), (rect.right - 1, rect.bottom - 1), (rect.right, rect.y), (rect.x, rect.bottom), (rect.x + rect.width // 2, rect.y)]
        points = [point for point in points if is_near(point)]
        places = [(run.node, place) for run in asked for place in (run.begin, run.end, random.randint(run.begin, run.end))]
        answers = self.answers([*(f"point {x} {y}" for x, y in points), *(f"caret {node} {place}" for node, place in places)])
        for point, answer in zip(points, answers):
            yield from wrong_hit(runs, point, answer)
        carets = list(zip(places, answers[len(points) :]))
        beside = [(place, wanted) for place, answer in carets if (wanted := points_beside(runs, place, answer))]
        again = iter(self.answers([f"point {x} {y}" for _, wanted in beside for x, y in wanted]))
        for (node, place), answer in carets:
            yield from wrong_caret(runs, node, place, answer)
        for (node, place), wanted in beside:
            hits = [next(again, "") for _ in wanted]
            if not any(re.fullmatch(rf"hit {node} [0-9]+ [0-9]+ {place}", hit) for hit in hits):
                yield f"no point of {wanted} leads back to the caret of the text {node} at {place}: {hits}"

    def answers(self, lines: list[str]) -> list[str]:
        """The answers to lines of a probe of the document; none where there is no room for them."""
        data = self.job.input.rstrip() + "".join(f"\n{line}" for line in lines).encode()
        ended = self.again("probe", data) if lines and len(data) <= listing.MOST_INPUT else None
        return ended.out.decode("ascii", "replace").splitlines() if ended else []

    def made(self) -> Iterator[str]:
        """The made input of docs/PROFILE/commands.md gives what `gen` counts."""
        if self.job.command == "gen":
            ended = self.again("edit", made_input(self.job.option("--count", 100)))
            due = b"gen %d bytes %d lines %d\n" % (self.job.option("--count", 100), len(ended.out), ended.out.count(b"\n"))
            if ended.status or due != self.due.out:
                yield f"`gen` tells {self.due.out!r}, and of the same input `edit` writes {due!r}"

    def broken_off(self) -> Iterator[str]:
        """A document that breaks off is refused as one that breaks off there, or is laid out where all is there but what may follow."""
        end = self.job.input.rfind(b"</html")
        if self.job.kind == "document" and not self.due.status and end > 0:
            front = self.job.input[: int(self.job.failing * (end + 6))]
            front = front.decode("utf-8", "ignore").encode()
            ended = self.again("layout", front)
            if ended[:2] != (2, b"refused Syntax %d\n" % len(front)):
                yield f"the front of {len(front)} bytes ends with {ended.told()}"


def is_near(point: tuple[int, int]) -> bool:
    """Whether a probe can ask for a point."""
    return all(abs(number) < TOO_FAR for number in point)


def holds(rect: listing.Rect, point: tuple[int, int]) -> bool:
    return rect.x <= point[0] < rect.right and rect.y <= point[1] < rect.bottom


def run_at(runs: list[listing.Run], point: tuple[int, int]) -> listing.Run | None:
    """The last run that holds a point."""
    return next((run for run in reversed(runs) if holds(run.rect, point)), None)


def wrong_hit(runs: list[listing.Run], point: tuple[int, int], answer: str) -> Iterator[str]:
    """What is wrong with what a point hits."""
    run, found = run_at(runs, point), re.fullmatch(r"hit ([0-9]+) ([0-9]+) ([0-9]+) ([0-9]+)", answer)
    if not run or not found:
        is_right = answer == ("hit" if run else "miss")
    else:
        node, first, end, place = map(int, found.groups())
        is_right = node == run.node and run.begin <= first < end <= run.end and place in (first, end)
    if not is_right:
        yield f"the point {point} is answered by {answer!r}; the last run that holds it is {run}"


def has_caret(run: listing.Run, caret: listing.Rect) -> bool:
    """Whether a caret stands in a run, as far across its line as it."""
    rect = run.rect
    if run.is_horizontal:
        return (caret.width, caret.y, caret.height) == (0, rect.y, rect.height) and rect.x <= caret.x <= rect.right
    return (caret.height, caret.x, caret.width) == (0, rect.x, rect.width) and rect.y <= caret.y <= rect.bottom


def caret_of(answer: str) -> listing.Rect | None:
    found = re.fullmatch(r"caret (-?[0-9]+) (-?[0-9]+) ([0-9]+) ([0-9]+)", answer)
    return listing.Rect(*map(int, found.groups())) if found else None


def runs_with(runs: list[listing.Run], node: int, place: int) -> list[listing.Run]:
    """The runs of a text that have a place."""
    return [run for run in runs if run.node == node and run.begin <= place <= run.end]


def wrong_caret(runs: list[listing.Run], node: int, place: int, answer: str) -> Iterator[str]:
    """What is wrong with the caret of a place of a text, in whose runs it is."""
    caret, near = caret_of(answer), runs_with(runs, node, place)
    is_due = any(place in (run.begin, run.end) for run in near)
    if caret is None and (answer != "nocaret" or is_due) or caret and not any(has_caret(run, caret) for run in near):
        yield f"the caret of the text {node} at {place} is answered by {answer!r}; the runs with it are {near}"


def points_beside(runs: list[listing.Run], of: tuple[int, int], answer: str) -> list[tuple[int, int]]:
    """The two points at the line-over edge of a caret on both sides of it, where runs of its text alone hold them and their units are
    long enough."""
    caret, near = caret_of(answer), runs_with(runs, *of)
    if caret is None:
        return []
    back = (1, 0) if caret.width == 0 else (0, 1)
    points = [(caret.x, caret.y), (caret.x - back[0], caret.y - back[1])]
    held = [run_at(runs, point) for point in points]
    is_clear = any(held) and all(run is None or run in near for run in held) and all(map(is_near, points))
    is_long = all(length_of(run) >= LEAST_UNIT * len(run.clusters) for run in near)
    return points if is_clear and is_long else []


def length_of(run: listing.Run) -> int:
    return run.rect.width if run.is_horizontal else run.rect.height


def made_input(count: int) -> bytes:
    """The input that `gen` makes, with so many paragraphs (docs/PROFILE/commands.md)."""
    paragraphs, lines, number = "", list[str](), 2
    for at in range(count):
        is_turned = at % 4 == 3
        paragraphs += '<div style="writing-mode:vertical-rl"><p>a b</p></div>' if is_turned else "<p>a</p>"
        number += 3 if is_turned else 2
        lines.append(f"text {number - 1} {' '.join('a' * (at % 7 + 1))}")
    return "\n".join((f"<html><body>{paragraphs}</body></html>", "show", *lines, "show")).encode()
