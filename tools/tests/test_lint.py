"""Tests of tools/lint."""
import os

from tools.tests import support
from tools.tests.support import put_input, tried

# A document with each end of a declaration, and what is told of it; and old spellings with what is said of them.
LINT_PAGE = """\
<html><head><style>
p { width: 1px; colour: red; height: 2 }
p:hover { height: 3px } div { float: left; height: 3px }
@media print { p { height: 1px } }
b { height: /* } */ 5em }
</style></head><body><p style="width: 3px; widht: 4px">é</p></body></html>
"""
LINT_DUE = """\
page:2:17: colour: dropped: no property of the profile has this name
page:2:30: height: dropped: the property doesn't take this value
page:3:2: refused Unsupported: the profile doesn't have this selector or rule
page:3:31: float: the document is refused for it: the profile doesn't have this
page:4:1: refused Unsupported: the profile doesn't have this selector or rule
page:6:25: widht: dropped: no property of the profile has this name (is `width` meant?)
"""
LINT_HINTS = (
    ("writing-mode: tb-rl", "write `writing-mode: vertical-rl`"),
    ("-epub-writing-mode: vertical-rl", "write `writing-mode`"),
    ("-webkit-text-combine: horizontal", "write `text-combine-upright: all`"),
    ("text-align: justify", "lines aren't stretched: write `start`, or leave it out"),
    ("text-orientation: sideways-right", "write `text-orientation: sideways`"),
    ("margin-inline-strat: 1px", "is `margin-inline-start` meant?"),
)
SHEET = "<html><head><style>{}</style></head><body></body></html>"


class Lint(support.ToolCase):
    """What becomes of declarations, and what is said of old spellings."""

    def new_path(self) -> str:
        return os.path.join(self.folder(), "page.html")

    def lint(self, text: str, *words: str) -> str:
        """What is told of a document."""
        path = self.new_path()
        put_input(path, text)
        return tried("lint", path, *words).out.replace(path, "page")

    def test_what_is_missing(self) -> None:
        path = self.new_path()
        put_input(path, LINT_PAGE)
        self.refuses("lint", (f"{path}.none",), "")
        self.refuses("lint", (path, "--program", f"{path}.none"), "")

    def test_each_end_of_a_declaration(self) -> None:
        self.needs_built("report_styles")
        self.same(self.lint(LINT_PAGE), LINT_DUE, "lint of a page")
        self.same(self.lint(LINT_PAGE, "--all").count(": kept\n"), 4, "lint: what is kept")
        self.same(tried("lint", given=LINT_PAGE).out.replace("standard input", "page"), LINT_DUE, "lint of standard input")

    def test_hints(self) -> None:
        self.needs_built("report_styles")
        for declaration, meant in LINT_HINTS:
            page = f'<html><head></head><body style="{declaration}"></body></html>'
            self.hold(f"({meant})" in self.lint(page), f"lint: {declaration}")

    def test_what_comes_after_what_is_wrong(self) -> None:
        self.needs_built("report_styles")
        self.hold(": refused CssSyntax: " in self.lint(SHEET.format("p { width: 1px; height")), "lint: a sheet that breaks off")
        told = self.lint(SHEET.format("p { @x y; width: 0; colour: red }"), "--all")
        found = (told.count(": refused "), ": kept\n" in told, "colour" in told)
        self.same(found, (1, True, True), "lint: after a refused declaration")
        told = self.lint(SHEET.format("p { @x { a: b } height: 1px; width: 2px }"), "--all")
        self.same(told.count(": kept\n"), 2, "lint: after the block of an at-rule")
        # A string that isn't closed is passed at once, however many quotes are in it.
        told = self.lint(SHEET.format('p { width: 1px; quotes: "' + 400000 * '\\"'), "--all")
        self.same(told.count("\n"), 2, "lint: a string that isn't closed")
        self.hold(": refused Nesting: " in self.lint("<html><body><b></body></html>"), "lint: a document that is none")

    def test_too_many_rules(self) -> None:
        self.needs_built("report_styles")
        for sheet in 4097 * "p{}", "p" + 4096 * ",p" + "{}", "p{" + 16385 * "margin:0;" + "}":
            told = self.lint(SHEET.format(sheet))
            self.same(told.count(": refused TooManyRules: "), 1, f"lint: too many rules, as {sheet[:12]}")
