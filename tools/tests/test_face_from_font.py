"""Tests of tools/face-from-font."""
import importlib.util
import os

from tools.tests import support
from tools.tests.support import Ended, TOP, held, tried

FONT = "/usr/share/fonts/truetype/dejavu/DejaVuSans.ttf"


class Faces(support.ToolCase):
    """The module of a font has its advances."""

    def test_what_is_no_font(self) -> None:
        """The module of crates/check_face is what the tool prints for its font, and what is no font is refused."""
        self.refuses("face-from-font", (os.path.join(TOP, "README.md"),), "")
        self.refuses("face-from-font", (FONT, "--most", "4097"), "")
        self.refuses("face-from-font", (FONT, "--name", "fn"), "")

    def test_module_of_check_face(self) -> None:
        if importlib.util.find_spec("fontTools") is None or not os.path.exists(FONT):
            self.skipTest("the module of crates/check_face: there is no python3-fonttools or no fonts-dejavu-core")
        made = tried("face-from-font", FONT, "--most", "150", "--name", "dejavu_sans")
        due = held(os.path.join(TOP, "crates", "check_face", "src", "font.rt"))
        self.same(made, Ended(0, due, ""), "face-from-font of the font of crates/check_face")
        first = tried("face-from-font", FONT, "--text", "-", "--most", "2", given="\u00e9\u6771a\u00e9\n").out
        self.hold("[('a', 613), ('\\u{00E9}', 615)];" in first, "face-from-font: the rows of a text come first")
