"""Tests of tools/where and of docs/REFUSALS.md, which it tells."""
import os
import re

import refusals
import syntax_hints

from tools.tests import support
from tools.tests.support import Ended, SCRIPT, TOP, held, put_input, tried

# Where a refusal stands: an input, the words of the refusal, its line and column, and the line of the input with its caret.
WHERE_CASES = (
    ("<html><body><hr></body></html>", "UnknownTag 12", "1:13", "<html><body><hr></body></html>", " " * 12 + "^"),
    ("<html><body>\r\n\t<p>東<hr>\r\n", "UnknownTag 21", "2:6", "\t<p>東<hr>", "\t     ^"),
    ("<html><body>é̂<hr>", "UnknownTag 17", "1:16", "<html><body>é̂<hr>", " " * 13 + "^"),
    ("<html><body>xé", "Character 14", "1:15", "<html><body>xé", " " * 13 + "^"),
    ("﻿<html><body><hr>", "UnknownTag 15", "1:14", "<U+FEFF><html><body><hr>", " " * 20 + "^"),
    ("<html><body>‮a", "Character 12", "1:13", "<html><body><U+202E>a", " " * 12 + "^"),
    ("<html><body>\n", "Syntax 13", "2:1", "", "^"),
    ("<html><body>東<hr>", "UnknownTag 14", "1:13", "<html><body>東<hr>", " " * 12 + "^"),
    ("a" * 200 + "<hr>" + "b" * 200, "UnknownTag 200", "1:201", "…" + "a" * 60 + "<hr>" + "b" * 56 + "…", " " * 61 + "^"),
    ("<html><body>\n\n</body></html> \nshow\ntext 9 a\r\n", "NoNode 2", "5:1", "text 9 a", "^"),
    ("<html><body></body></html>\nshow\nundo\n", "NoUndo 2", "3:1", "undo", "^"),
    ("<html><body></body></html>\nredo", "NoRedo 1", "2:1", "redo", "^"),
    ("<html><head><style>p{top:0}</style></head><body></body></html>", "NotTurnable 21", "1:22", "<html><head><style>p{top:0}</style></head><body></body></html>", " " * 21 + "^"),
)
# The same for refusals by the number of a node.
WHERE_NODES = (
    ("<html><body>\n<p>a</p></body></html>", "TooDeep 4", "2:4", "<p>a</p></body></html>", "   ^"),
    ("\ufeff<html><body>東<p><!-- a -->b</p></body></html>", "TooDeep 4", "1:18", "<U+FEFF><html><body>東<p><!-- a -->b</p></body></html>", " " * 25 + "^"),
)
# Where a row of docs/REFUSALS.md hangs on the place: an input, the words, and what the cause begins with.
WHERE_ROWS = (
    ('<html><body><p dir="auto">', "Unsupported 15", "`dir` has"),
    ('<html><body><p style="float:left">', "Unsupported 15", "this declaration"),
    ("<html><head><style>p{float:left}</style></head><body></body></html>", "Unsupported 21", "this declaration"),
    ("<html><head><style>dir:x{}</style></head><body></body></html>", "Unsupported 22", "with this sign"),
    ("<html><head><!-- <style> --></head><body><p dir='x'></p></body></html>", "Unsupported 44", "`dir` has"),
    ("<html><body></body></html>\nshow\n", "Syntax 27", "no document"),
    ("<html><body><p style='width:9px'></p></body></html>", "NotTurnable 15", "under `modes`, this declaration ties"),
)
# The same of a limit on rules, which a sheet, a line `rule` and an edit can pass: the words, and the place that is pointed at.
WHERE_RULES = (
    ("<html><head><style>" + "a{}" * 4097 + "</style></head><body></body></html>", "TooManyRules 12307", "1:12308"),
    ("<html><body></body></html>\nrule " + "a," * 4096 + "a{}\n", "TooManyRules 27", "2:1"),
    ("<html><head><style>" + "a{}" * 4096 + "</style></head><body></body></html>\nshow\nrule b{}\n", "TooManyRules 2", "3:1"),
)
# The same of a number that may be that of a node.
WHERE_NUMBER = ("<html><body></body></html>\nremove 1\nshow\n", "TooDeep 1", "a node would stand")
# What the program tells no more than the start of: an input, its command, and the place that `where` finds.
WHERE_INSIDE = (
    ('<html><body><p style="width:1px;;float:left"></p></body></html>', "layout", "1:34"),
    ("<html><body>\n<p style = 'width'></p></body></html>", "layout", "2:18"),
    ('<html><body><p style="width:1px/*"></p></body></html>', "layout", "1:16"),
    ('<html><body><p style="a:&quot;"></p></body></html>', "layout", "1:16"),
    ("<html><body></body></html>\nstyle 1 東:a;float:left\n", "edit", "2:13"),
    ("<html><body></body></html>\nstyle 1 a:b}\n", "edit", "2:1"),
    ("<html><body>a</body></html>\ntext 2 東a<b\r\n", "edit", "2:10"),
    ("<html><body>a</body></html>\ntext 2 a&b<c", "edit", "2:10"),
    ("<html><body>a</body></html>\ninsert 1 0 <b>x&#x200B;</b>", "edit", "2:16"),
    ("<html><body>a</body></html>\ninsert 1 0 <p style='color:red;float:left'></p>", "edit", "2:32"),
    ("<html><body>a</body></html>\ninsert 1 0 <p dir='auto'></p>", "edit", "2:15"),
    ("<html><body>a</body></html>\ninsert 1 0 a</b>", "edit", "2:13"),
    ("<html><body>a</body></html>\ninsert 1 0 a<b>", "edit", "2:16"),
    ("<html><body>a</body></html>\ninsert 1 0 a</body></html>b", "edit", "2:1"),
    ("<html><body>a</body></html>\nrule p{a:b} 東:hover{}", "edit", "2:14"),
    ("<html><body>a</body></html>\nrule p{float:left}\r\n", "edit", "2:8"),
    ("<html><body>a</body></html>\nrule p{a:b", "edit", "2:11"),
    ("<html><body>a</body></html>\nrule p{}</style>", "edit", "2:1"),
    ("<html><body><p style='inline-size:9px;width:-1px;width:9px'>a</p></body></html>", "modes", "1:50"),
    ('<html>\n<body style = "color:red;&#x6D;argin:0"></body></html>', "modes", "2:7"),
    ("<html><head><style>p{color:red}\ni{color:red;writing-mode:inherit}</style></head><body>a</body></html>", "modes", "2:13"),
    ("<html><body><p style='width:9px;float:left'>a</p></body></html>", "modes", "1:33"),
    ("<html><body>a</body></html>\nshow", "modes", "2:1"),
)
# Documents that are refused as Syntax, with the place of the byte, and how the hint for it begins.
HINTS = (
    ("<html><head><link rel='stylesheet' href='a.css'></head>", 13, "the head holds `<title>`, `<meta>` and `<style>` alone: sheets"),
    ("<html><head><script>x</script></head>", 14, "the head holds `<title>`, `<meta>` and `<style>` alone: scripts"),
    ("<html><head><meta charset=utf-8></head>", 26, 'the value of an attribute stands in quotes: `charset="utf-8"`'),
    ("<html><head></head><p>", 20, "in `<html>` stand a `<head>`, which may be left out, and a `<body>`"),
    ("<p>a</p>", 1, "a document begins with `<html>`"),
    ("hello", 0, "a document begins with `<html>`"),
    ('<?xml version="1.0"?><html>', 1, "an XML declaration isn't read"),
    ('<!DOCTYPE html PUBLIC "x"><html>', 15, "the doctype is `<!DOCTYPE html>`"),
    ("<html>text<body></body></html>", 6, "text stands in `<body>` alone"),
    ("<html><body></body><p>x</html>", 20, "after `</body>` comes `</html>`"),
    ("<html><body><p dir = rtl>", 21, 'the value of an attribute stands in quotes: `dir="rtl"`'),
    ('<html><body><p title=""class="a">', 23, "white space has to stand between two attributes"),
    ('<html><body><p id="1" id="2"></p>', 22, "the attribute `id` stands twice"),
    ('<html><body><p 1="a">', 15, "the name of an attribute begins with a letter"),
    ("<html><body><hr/>", 15, "`<br>` and `<meta>` alone may end with `/>`: write `</hr>`"),
    ("<html><body><svg:a>", 16, "the name of a tag has letters"),
    ("<html><body><![CDATA[x]]>", 14, "of what begins with `<!` comments alone are read"),
    ("<html><body>a < b", 15, "a plain `<` is written `&lt;`"),
    ("<html><body>a & b", 15, "a plain `&` is written `&amp;`"),
    ('<html><body><p title="a & b">', 25, "a plain `&` is written `&amp;`"),
    ('<html><body><a href="x?a=1&b=2">', 27, "a plain `&` is written `&amp;`"),
    ("<html><body>&foo;", 13, "there is no reference `&foo;`"),
    ("<html><body>&alpha;", 14, "the profile doesn't have the reference `&alpha;`: write its number, `&#945;`"),
    ("<html><body>&copy;", 13, "the profile has neither the reference `&copy;` nor its character"),
    ("<html><body>&nbsp</body>", 17, "the reference `&nbsp` has to end with `;`"),
    ("<html><body>&#xD800;", 19, "`&#xD800;` is no character"),
    ("<html><body>&#65 ", 16, "the reference `&#65` goes on with digits or ends with `;`"),
    ("<html><body>&#0000000065;", 21, "the number of a reference is that of a character"),
)


class Where(support.ToolCase):
    """Each refusal is shown at its place, with its cause and its cure."""

    def test_rows_of_the_page(self) -> None:
        """Each kind that docs/PROFILE/commands.md names has its row, and no other kind has one."""
        facts = refusals.read_facts(refusals.read_page())
        rows = re.findall(r"^\| `refused [^|]*\| .*$", held(os.path.join(TOP, "docs", "PROFILE", "commands.md")), re.MULTILINE)
        named = set(re.findall(r"`(?:refused )?([A-Z][A-Za-z0-9]+)(?: [0-9A-Z]+)?`", " ".join(rows))) - {"KIND", "PLACE", "LINE"}
        self.same({fact.kind for fact in facts}, named, "the kinds of docs/REFUSALS.md")
        self.same(len(facts), 35, "the count of rows of docs/REFUSALS.md")
        for fact in (each for each in facts if each.answer):
            self.same(fact.answer.split()[1], fact.kind, f"docs/REFUSALS.md: the example of {fact.kind}")

    def test_places_in_bytes(self) -> None:
        for case in WHERE_CASES:
            self.check_where_case(*case)

    def test_hints(self) -> None:
        """What is said of the first thing for which a page of one's own is refused, and that a limit is told at numbers alone."""
        for given, at, due in HINTS:
            said = syntax_hints.hints(given, at)
            self.hold(len(said) == 1 and said[0].startswith(due), f"the hint of {given!r}: {said}")
            path = self.new_path()
            put_input(path, given)
            shown = tried("where", path, f"refused Syntax {at}").out
            self.hold(f"\nhere: {due}" in shown, f"where shows the hint of {given!r}: {shown}")
            self.same("\nlimit: " in shown, "&#" in given, f"where shows a limit for {given!r}")

    def test_hints_are_of_refusals(self) -> None:
        self.needs(self.program, "what the program says of the hints' documents")
        for given, at, _ in HINTS:
            self.same(self.ran("layout", given.encode("utf-8")), f"refused Syntax {at}\n", f"{given!r} is refused")

    def test_rows_by_the_place(self) -> None:
        for row in WHERE_ROWS:
            self.check_where_row(*row)

    def test_limits_on_rules(self) -> None:
        self.needs_built("report_nodes")
        for given, words, place in WHERE_RULES:
            path = self.new_path()
            put_input(path, given)
            self.hold(tried("where", path, f"refused {words}").out.startswith(f"{path}:{place}: refused {words}\n"), f"where {words}")

    def test_places_of_nodes(self) -> None:
        self.needs_built("report_nodes")
        self.check_where_row(*WHERE_NUMBER)
        for case in WHERE_NODES:
            self.check_where_case(*case)

    def new_path(self) -> str:
        return os.path.join(self.folder(), "page.html")

    def check_where_row(self, given: str, words: str, cause: str) -> None:
        path = self.new_path()
        put_input(path, given)
        self.hold(f"\ncause: {cause}" in tried("where", path, f"refused {words}").out, f"where {words}: {cause}")

    def check_where_case(self, given: str, words: str, place: str, line: str, caret: str) -> None:
        path = self.new_path()
        put_input(path, given)
        found = tried("where", path, "refused", *words.split())
        self.same(found.out.split("\n")[:3], [f"{path}:{place}: refused {words}", line, caret], f"where {words}")
        self.same(tried("where", path, "-", given=f"refused {words}\n"), found, f"where {words} on standard input")

    def test_what_is_refused(self) -> None:
        path = self.new_path()
        put_input(path, "<html><body></body></html>\n")
        wrong = ("refused Syntax 99", "refused TooDeep 9", "refused NoNode 1", "refused Strange 1", "Syntax 9", "refused Syntax")
        for words in wrong:
            self.refuses("where", (path, words), "")
        self.refuses("where", ("-", "-"), "refused Syntax 1\n")
        self.refuses("where", (path, "-"), "usage: wm_layout layout\n")
        self.refuses("where", (path, "--program", f"{path}.none"), "")
        self.refuses("where", ("--nodes", f"{path}.none", path, "refused TooDeep 1"), "")
        shown = tried("where", path, "-", given=SCRIPT.split("refused")[0])
        self.same(shown, Ended(0, f"{path}: nothing is refused\n", ""), "where of a page")

    def test_runs_of_the_program(self) -> None:
        """Each example of docs/REFUSALS.md is refused as it says, and `where` finds that place by running the program itself."""
        self.needs_built("report_nodes")
        self.needs(self.program, "the examples of docs/REFUSALS.md")
        path = self.new_path()
        for given, command, place in WHERE_INSIDE:
            put_input(path, given)
            ended = tried("where", path, "--program", self.program, "--words", command)
            self.hold(ended.out.startswith(f"{path}:{place}: "), f"where inside {given!r}: {ended}")
        self.check_probe(path)
        for example_text, answer in refusals.examples(refusals.read_page()):
            with open(path, "wb") as file:
                file.write(refusals.input_of(example_text))
            ended = tried("where", path, "--program", self.program, "--words", refusals.command_of(example_text))
            first = ended.out.split("\n", 1)[0]
            self.hold(first.endswith(f": {answer}") and "\ncause: " in ended.out, f"{example_text} gives {answer}: {ended}")

    def check_probe(self, path: str) -> None:
        """A line of a probe that is refused is told by its number; what is answered is no refusal."""
        words = (path, "--program", self.program, "--words", "probe")
        put_input(path, "<html><body>a</body></html>\npoint 1 1\npoint 1\n")
        self.hold("\nhere: line 2 of the probe\n" in tried("where", *words).out, "where a line of a probe is refused")
        put_input(path, "<html><body>a</body></html>\npoint 1 1\n")
        self.same(tried("where", *words), Ended(0, f"{path}: nothing is refused\n", ""), "where of a probe that is answered")
