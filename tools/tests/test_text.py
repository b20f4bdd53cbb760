"""Tests of tools/text."""
from tools.tests import support
from tools.tests.support import FLOW, FLOW_TURNED, SCRIPT, example, tried

SCRIPT_TEXT = "a\n---\na b\n--- refused NoNode 4\n---\na b\n\nc\n"
# The text of each example, as it is read.
TEXTS = {
    "signs": "Signs\n\nRead this first.\n\n東京 12\n",
    "isolate_in_a_line": "x\u05d0\u05d1(1)2\n",
    "number_behind_an_arabic_letter": "\u06271\n\u0628\n",
    "two_digits_combined": "aあ12\n",
    "turned_child_of_an_atom": "ab\n",
    "where_lines_end": None,
    "empty_body": "",
}


class Text(support.ToolCase):
    """The text of a listing as it is read."""

    def test_texts_of_listings(self) -> None:
        for name, due in TEXTS.items():
            ended = tried("text", example(name))
            self.same((ended.status, ended.said), (0, ""), f"text {name}")
            if due is not None:
                self.same(ended.out, due, f"text {name}")
        self.same(tried("text", given=SCRIPT).out, SCRIPT_TEXT, "text of a script's listings")
        self.same(tried("text", given=FLOW + FLOW_TURNED).out, "a\n", "text of a flow and its page")
