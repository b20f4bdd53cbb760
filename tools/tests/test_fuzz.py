"""Tests of tools/fuzz: what its jobs are made of, and that it finds what wrong programs do."""
import os
import re
import shutil
from collections.abc import Sequence

import fuzz_grammar
from fuzz_jobs import Job, job_of
from fuzz_laws import Limits, Program, Trial
from fuzz_trees import REDO, UNDO, Edit, Node, Tree

from tools.tests import support
from tools.tests.support import tried

# Programs that are wrong: what is to be held of them, and the shell's lines by which they run the program $P.
WRONG = (
    ("is no listing", '"$P" "$@" >"$0.out"; status=$?; head -c -1 "$0.out"; exit $status'),
    ("error b'oh", 'echo oh >&2; exec "$P" "$@"'),
    ("status -11", '"$P" "$@"; kill -SEGV $$'),
    ("status 3", '"$P" "$@"; exit 3'),
    ("error b'limited", 'cat >"$0.in"; [ "$(ulimit -v)" = unlimited ] || echo limited >&2'),
    ("seconds", 'i=0; while [ $i -lt 200000 ]; do i=$((i+1)); done; exec "$P" "$@"'),
    ("stands twice", '"$P" "$@" >"$0.out"; status=$?; sed "/^box 1 0 /d" "$0.out"; exit $status'),
    ("have characters in common", '"$P" "$@" >"$0.out"; status=$?; sed "s/^\\(run .*\\)/\\1\\n\\1/" "$0.out"; exit $status'),
    ("due is (2, b'refused Utf8", 'case "$*" in *edit*) tr -d "\\200-\\377" | "$P" "$@";; *) exec "$P" "$@";; esac'),
    ("shows another page, or", 'case "$*" in *edit*) sed "s/^show/#/" | "$P" "$@";; *) exec "$P" "$@";; esac'),
    ("shows another page than", 'case "$*" in *edit*) sed "s/^text .*/#/" | "$P" "$@";; *) exec "$P" "$@";; esac'),
    ("shows another page: ", 'case "$*" in *edit*) sed "s/^remove .*/#/" | "$P" "$@";; *) exec "$P" "$@";; esac'),
    ("`undo` or `redo` leads to another page", 'case "$*" in *edit*) sed "s/^redo/#/" | "$P" "$@";; *) exec "$P" "$@";; esac'),
    ("isn't the page that there was", 'case "$*" in *edit*) sed "s/^undo/#/" | "$P" "$@";; *) exec "$P" "$@";; esac'),
    ("isn't the flow, turned", '"$P" "$@" >"$0.out"; status=$?; sed "s/ l \\([0-9]\\)/ s \\1/" "$0.out"; exit $status'),
    ("another count of lines", '"$P" "$@" >"$0.out"; status=$?; sed "/^run .* l /d" "$0.out"; exit $status'),
    ("`layout` lists or refuses it otherwise", 'case "$*" in *modes*) sed "s/1/2/g" | "$P" "$@";; *) exec "$P" "$@";; esac'),
    ("flows, pages and refusals are", 'case "$*" in *modes*) "$P" "$@" >"$0.out"; status=$?; sed "1,/^end/d" "$0.out"; exit $status;; *) exec "$P" "$@";; esac'),
    ("the last run that holds it is", 'case "$*" in *probe*) "$P" "$@" >"$0.out"; status=$?; sed "s/^hit .*/miss/" "$0.out"; exit $status;; *) exec "$P" "$@";; esac'),
    ("is answered by 'nocaret'", 'case "$*" in *probe*) "$P" "$@" >"$0.out"; status=$?; sed "s/^caret .*/nocaret/" "$0.out"; exit $status;; *) exec "$P" "$@";; esac'),
    ("leads back to the caret", 'case "$*" in *probe*) "$P" "$@" >"$0.out"; status=$?; sed "s/^\\(hit [0-9]* \\([0-9]*\\) [0-9]*\\) .*/\\1 \\2/" "$0.out"; exit $status;; *) exec "$P" "$@";; esac'),
    ("of the same input `edit` writes", 'case "$*" in *gen*) "$P" "$@" >"$0.out"; status=$?; sed "s/ bytes / bytes 1/" "$0.out"; exit $status;; *) exec "$P" "$@";; esac'),
    ("the front of", 'case "$*" in *layout*) cat >"$0.in"; grep -qi "</html" "$0.in" || printf "</body></html>" >>"$0.in"; exec "$P" "$@" <"$0.in";; *) exec "$P" "$@";; esac'),
    ("is refused by None, due is", '"$P" "$@" >"$0.out"; status=$?; sed "/^refused No/d" "$0.out"; exit $status'),
)

# Lines of a script with the nodes that they bring, how each is refused, and which nodes there are then (docs/PROFILE/edits.md).
HISTORY: tuple[tuple[str, tuple[int, ...], tuple[Node, ...], str | None, list[int]], ...] = (
    ("undo", (), (), "NoUndo", [0, 1, 2, 3, 4]),
    ("insert", (1, 0), (Node("b", children=[Node(text="x")]),), None, [0, 1, 5, 6, 2, 3, 4]),
    ("remove", (2,), (), None, [0, 1, 5, 6, 4]),
    ("undo", (), (), None, [0, 1, 5, 6, 2, 3, 4]),
    ("undo", (), (), None, [0, 1, 2, 3, 4]),
    ("redo", (), (), None, [0, 1, 5, 6, 2, 3, 4]),
    ("insert", (1, 0), (Node(text="y"),), None, [0, 1, 7, 5, 6, 2, 3, 4]),
    ("redo", (), (), "NoRedo", [0, 1, 7, 5, 6, 2, 3, 4]),
)


class Fuzz(support.ToolCase):
    """Jobs are made again, edits of documents are those of the pages, and wrong programs are found."""

    def wrong_program(self, lines: str) -> str:
        path = os.path.join(self.folder(), "wrong")
        with open(path, "w", encoding="utf-8") as file:
            file.write(f"#!/bin/sh\nP='{self.program}'\n{lines}\n")
        os.chmod(path, 0o755)
        return path

    def found(self, path: str, due: str, jobs: Sequence[Job]) -> bool:
        """Whether this is said of a program in one of these jobs; its streams are left as they are."""
        program = Program(path, None, Limits(seconds=0.15))
        return any(due in wrong for job in jobs for wrong in Trial(program, job).wrong)

    def test_tables(self) -> None:
        properties, characters = fuzz_grammar.PROPERTIES, fuzz_grammar.REPERTOIRE
        self.same((len(properties), sum(map(len, characters))), (64 + 26, 33048), "properties with shorthands, and characters")
        self.same(properties["margin-block"], (properties["margin-top"][0],) * 2, "the values of a shorthand")
        combined = ["none", "all", "digits", "digits 2", "digits 3", "digits 4", "initial", "inherit"]
        self.same(properties["text-combine-upright"], (combined,), "the values of a property")

    def test_untied(self) -> None:
        """The properties by which documents of `modes` are made are those that the program takes there."""
        self.needs(self.program, "which properties tie a document to a mode")
        for name in fuzz_grammar.PROPERTIES:
            document = f'<html><body><p style="{name}:initial">a</p></body></html>'
            is_refused = self.ran("modes", document.encode()) == "refused NotTurnable 15\n"
            self.same(is_refused, name not in fuzz_grammar.UNTIED, f"{name} ties a document to a mode")

    def test_jobs_are_made_again(self) -> None:
        for number in range(40):
            one, other = job_of(7, number), job_of(7, number)
            self.same((one.words, one.input), (other.words, other.input), f"job {number}")

    def test_edits(self) -> None:
        """The examples of docs/PROFILE/edits.md that are refused, and edits that are undone."""
        tree = Tree("", Node("body", children=[Node("p", children=[Node(text="a")]), Node("br")]))
        page = fuzz_grammar.read_page("edits.md")
        examples = re.findall(r"^\| `(\w+) ([0-9 ]+)( \w)?` \| `(\w+)` \|", page, re.MULTILINE)
        for word, numbers, rest, kind in examples:
            edit = Edit(word, tuple(map(int, numbers.split())), nodes=(Node(text=rest.strip()),) if rest else ())
            self.same(tree.refusal(edit), kind, edit.line())
        self.same(len(examples), 5, "examples of docs/PROFILE/edits.md that are refused")
        before = tree.written()
        for edit in (Edit("text", (3,), "<&"), Edit("style", (2,), "a:b"), Edit("move", (4, 2, 0)), Edit("insert", (1, 0), nodes=(Node("b"),))):
            back = tree.undoing(edit)
            tree.apply(edit)
            self.hold(tree.written() != before and tree.refusal(edit) in (None, "Inside"), f"{edit.line()} changes the document")
            for each in back:
                tree.apply(each)
            self.same(tree.written().replace(b' style=""', b""), before, f"{edit.line()} is undone")

    def test_history(self) -> None:
        """The examples of docs/PROFILE/edits.md that take edits back, and how many are kept."""
        tree = Tree("", Node("body", children=[Node("p", children=[Node(text="a")]), Node("br")]))
        before = tree.written()
        for word, numbers, nodes, kind, living in HISTORY:
            edit = Edit(word, numbers, nodes=nodes)
            self.same(tree.refusal(edit), kind, edit.line())
            if not kind:
                tree.apply(edit)
            self.same([*tree.living()], living, f"the nodes after {edit.line()}")
        for length in range(70):
            tree.apply(Edit("text", (7,), "a" * length))
        for _ in range(64):
            tree.apply(UNDO)
        self.same((tree.refusal(UNDO), tree.living()[7].text), ("NoUndo", "a" * 5), "the oldest state that is kept")
        for _ in range(64):
            tree.apply(REDO)
        self.same((tree.refusal(REDO), tree.living()[7].text), ("NoRedo", "a" * 69), "the newest state")
        copied = tree.copied()
        copied.apply(UNDO)
        self.hold(copied.living()[7].text != tree.living()[7].text and tree.written() != before, "a copy has a history of its own")

    def test_wrong_programs(self) -> None:
        self.needs(self.program, "what tools/fuzz finds")
        jobs = [job_of(1, number) for number in range(150)]
        self.hold(not self.found(self.program, "", jobs), "nothing is wrong with the program")
        for due, lines in WRONG:
            self.hold(self.found(self.wrong_program(lines), due, jobs), f"`{due}` is found of a program that runs {lines}")

    def test_command_line(self) -> None:
        self.hold(tried("fuzz", "--help").out.startswith("usage: "), "fuzz --help")
        self.refuses("fuzz", ("--program", "none"), "")
        self.needs(self.program, "what tools/fuzz says")
        words = ("--seed", "1", "--count", "8", "--at-once", "1")
        ended = tried("fuzz", "--program", self.program, *words)
        self.hold(ended.status == 0 and "\nfuzz: 8 jobs of the seed 1, 0 failed, " in ended.out, f"fuzz: {ended}")
        # A program that reads by itself passes over what fails.
        ended = tried("fuzz", "--program", self.wrong_program('cat | "$P" "$@"'), *words)
        self.hold(ended.status == 1 and (shutil.which("cc") is None or "fails it ended with" in ended.out), f"fuzz of a wrong program: {ended}")
        for path in re.findall(r"(/\S+)/1-\d+$", ended.out, re.MULTILINE):
            shutil.rmtree(path, ignore_errors=True)
