"""Tests of tools/changes."""
import json

from tools.tests import support
from tools.tests.support import FLOW, FLOW_TURNED, SCRIPT, example, tried

SCRIPT_CHANGES = """\
page 1 to page 2:
  box 2  text "a" -> "a b"
refused NoNode 4
page 2 to page 3:
  box 0             40 px taller (48 -> 88)
  box 1             40 px taller (32 -> 72)
  box 2             20 px taller (16 -> 36)
  boxes 4 to 5 (2)  moved 20 px down
+ box 6             at 0, 52, 100 x 16 px "c"
"""


class Changes(support.ToolCase):
    """What changed between listings."""

    def test_changes_between_listings(self) -> None:
        self.same(tried("changes", "-", given=SCRIPT).out, SCRIPT_CHANGES, "changes of a script's listings")
        signs, other = example("signs"), example("upright_text")
        self.same(tried("changes", signs, signs).out, "  nothing changed\n", "changes of a listing to itself")
        there, back = tried("changes", signs, other).out, tried("changes", other, signs).out
        self.hold("- box 3" in there and "+ box 3" in back, "changes: what goes on the way there comes on the way back")
        turned = tried("changes", "-", given=FLOW + 2 * FLOW_TURNED).out
        self.same(turned, "page 1 to page 2:\n  nothing changed\n", "changes of pages with a flow before them")
        twice = json.loads(tried("changes", "--json", "-", given=FLOW + 2 * FLOW_TURNED).out)
        self.same(twice, [{"from": 1, "to": 2, "boxes": []}], "changes --json of pages with a flow before them")
        self.same(json.loads(tried("changes", "--json", signs, signs).out), [{"from": 1, "to": 2, "boxes": []}], "changes --json: none")
        for words in ((signs,), (signs, "-"), ("-", signs)):
            self.same(tried("changes", *words, given=SCRIPT).status, 1, f"changes {words}: the count of pages")

    def test_changes_as_json(self) -> None:
        first, refused, second = json.loads(tried("changes", "--json", "-", given=SCRIPT).out)
        box = {"x": 0, "y": 0, "width": 6400, "height": 1024}
        due = {"node": 2, "box": 0, "old": box, "new": box, "lines": [["a"], ["a b"]]}
        self.same(first, {"from": 1, "to": 2, "boxes": [due]}, "changes --json: a text")
        self.same(refused, {"refused": "NoNode", "number": 4}, "changes --json: what was refused")
        self.same([each["node"] for each in second["boxes"]], [0, 1, 2, 4, 5, 6], "changes --json: the boxes that changed")
        came = second["boxes"][-1]
        self.same((came["old"], came["lines"]), (None, [None, ["c"]]), "changes --json: a box that came")
