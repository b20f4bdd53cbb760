"""Tests of how tools/wrong-bodies puts edits together and reads what a check says; nothing is checked here."""
import importlib.machinery
import importlib.util
import os
from types import ModuleType
from typing import Any

from tools.tests import support
from tools.tests.support import TOOLS

FILE = """\
use crate::low::half;

const MOST: u32 = 3;

impl Size {
    /// Half of it.
    pub fn half(self) -> u32
        ensures { result ≡ half self }
    {
        self.now / 2
    }
}

#[cycle(walk)]
fn down(n: u32) -> u32
    requires { n < 4 }
{
    if n == 0 { 0 } else { up(n - 1) }
}

#[cycle(walk)]
pub(crate) fn up(n: u32) -> u32 {
    down(n)
}

fn nothing() {}
"""
TEXTS = {"src/size.rt": FILE, "src/lib.rt": "mod size;\n"}


def script() -> ModuleType:
    """The script tools/wrong-bodies, as a module."""
    loader = importlib.machinery.SourceFileLoader("wrong_bodies", os.path.join(TOOLS, "wrong-bodies"))
    spec = importlib.util.spec_from_loader("wrong_bodies", loader)
    assert spec is not None
    module = importlib.util.module_from_spec(spec)
    loader.exec_module(module)
    return module


class WrongBodies(support.ToolCase):
    """Which functions an edit changes, which edits go together, and what is a refusal."""

    def setUp(self) -> None:
        super().setUp()
        self.script = script()

    def edit(self, name: str, *pairs: tuple[str, str]) -> Any:
        return self.script.Edit("size", name, tuple(("src/size.rt", old, new) for old, new in pairs))

    def test_functions(self) -> None:
        found = [(it.name, it.first, it.last, it.cycle) for it in self.script.functions_in("src/size.rt", FILE)]
        self.same(found, [("half", 7, 11, None), ("down", 15, 19, "walk"), ("up", 22, 24, "walk"), ("nothing", 26, 26, None)], "functions")

    def test_edits_that_apply(self) -> None:
        self.hold(self.script.applied(self.edit("one", ("/ 2", "/ 3")), TEXTS) is not None, "an edit applies")
        for name, old in ("gone", "/ 4"), ("twice", "u32"):
            self.hold(self.script.applied(self.edit(name, (old, "x")), TEXTS) is None, f"an edit of what stands there {name}")
        self.hold(self.script.applied(self.edit("same", ("/ 2", "/ 2")), TEXTS) is None, "an edit that changes nothing")

    def test_what_an_edit_changes(self) -> None:
        changed = self.script.functions_of(self.edit("one", ("/ 2", "/ 3"), ("down(n)", "n")), TEXTS)
        self.same(sorted(it.name for it in changed), ["half", "up"], "functions that an edit changes")
        self.hold(self.script.functions_of(self.edit("table", ("= 3;", "= 4;")), TEXTS) is None, "an edit of no function")

    def test_edits_that_go_together(self) -> None:
        edits = [
            self.edit("a", ("/ 2", "/ 3")),
            self.edit("b", ("/ 2", "/ 4")),
            self.edit("c", ("up(n - 1)", "n")),
            self.edit("d", ("    down(n)", "    n")),
        ]
        groups = self.script.groups_of([(it, self.script.functions_of(it, TEXTS)) for it in edits], TEXTS)
        self.same([[it.name for it, _ in group] for group in groups], [["a", "c"], ["b", "d"]], "edits of different functions in one copy")

    def test_what_a_check_says(self) -> None:
        half, down = list(self.script.functions_in("src/size.rt", FILE))[:2]
        for line, of_half, of_down in (
            ("note: src/size.rt:10:9: this goal is open", True, False),
            ("note: src/size.rt:18:5: this goal is open", False, True),
            ("note: src/lib.rt:10:9: this goal is open", False, False),
            ("proofs/size/Size/half/Answers.antt:3:1: error: no proof", True, False),
            ("proofs/size/+walk/Answers.antt:3:1: error: no proof", False, True),
            ("proofs/other/half/Answers.antt:3:1: error: no proof", False, False),
            ("logic=not-proved", False, False),
        ):
            self.same((self.script.is_of(half, line), self.script.is_of(down, line)), (of_half, of_down), line)

    def test_what_is_not_proved(self) -> None:
        for line, due in (
            ("logic=not-proved", True),
            ("logic=proved functions=12", False),
            ("only=12 proved=11", True),
            ("only=12 proved=12", False),
            ("only=10 proved=1", True),
        ):
            self.same(bool(self.script.NOT_PROVED.match(line)), due, line)

    def test_verdicts(self) -> None:
        open_goal = "note: src/size.rt:10:9: this goal is open"
        name = "proofs/size/Size/half/Answers.antt:3:1: error: `c` has no field `double`"
        for lines, due in (([], "says nothing"), (["logic=not-proved"], "says nothing"), ([name], "only names"), ([name, open_goal], "refused")):
            self.same(self.script.verdict(lines), due, f"what {lines} comes to")
