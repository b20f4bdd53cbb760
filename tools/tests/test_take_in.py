"""Tests of tools/take-in."""
import json
import os
import re
import subprocess
import sys
import zipfile
from collections.abc import Sequence

import intake_text
import intake_tree

from tools.tests import support
from tools.tests.support import TOOLS, TOP, built, held, tried

# A page, a part of the document that becomes of it, and words for the tool.
PAGES = (
    ("<P>a &amp; b<BR>c", "<p>a &amp; b<br>c</p>", ()),
    ("<b>x<p>y</p></b>", "<b>x<p>y</p></b>", ()),
    ("<i><b><span>x</span></b></i>", "<i><b><span>x</span></b></i>", ()),
    ("<span>x<div hidden>y</div></span>", '<span>x<div class="was-hidden">y</div></span>', ()),
    ("<pre>a\n\tb</pre>", f'<div class="was-pre">a<br>{"&nbsp;" * 8}b</div>', ()),
    ("<table><tr><td>a<td>b</table>", "<div><div><div><div>a</div><div>b</div></div></div></div>", ()),
    ("<dl><dt>a<dd>b</dl>", '<div class="was-dl"><div>a</div><div class="was-dd">b</div></div>', ()),
    ("a<svg><title>dog</title><path/></svg>", "<body>adog</body>", ()),
    ('a<img alt="cat">b<img>c<script>d</script><wbr>', "<body>acatbc</body>", ()),
    ("<ruby>漢<rp>(</rp><rt>かん</rt></ruby>", '<span>漢<span class="was-rt">（かん）</span></span>', ()),
    ("<ol start=3><li>a<li>b</ol>", "<ol><li>3. a</li><li>4. b</li></ol>", ("--markers",)),
    ('<p onclick=x dir=RTL data-a=1 title="&quot;&amp;">x', '<p dir="rtl" data-a="1" title="&quot;&amp;">x</p>', ()),
    ("<p>a·b→人々\u00ad\ufb01\u1f00😀", "<p>a.b-&gt;人人fiα\u0313?</p>", ()),
    ("<p>a·b😀", "<p>a?b?</p>", ("--replace", "question")),
    ("<p>a·b😀", "<p>ab</p>", ("--replace", "out")),
    ("<div>" * 200 + "x", "<div>" * 61 + "x" + "</div>" * 61, ()),
    ("<style>p{margin:0}</style><p style='margin:0'>x", "<body><p>x</p></body>", ()),
)
# The same with the sheets judged.
SHEET_PAGES = (
    ("<style>span{display:block}</style><b><span>x</span></b>", "<b><span>x</span></b>"),
    ("<style>a:hover,p,q{float:left;margin:1pt;color:red}</style><p>x", "\np { margin: 1.33px }\n"),
    ("<style>pre b{padding:0}@media print{p{}}</style><pre><b>x</b></pre>", ".was-pre b { padding: 0 }"),
    ("<style>p{-epub-writing-mode:vertical-rl}</style><p>x", "p { writing-mode: vertical-rl }"),
    ("<p style='float:left;margin:0;color:red'>x", '<p style="margin: 0">x</p>'),
    ("<style>p{float:left;margin-left:-100%;padding:1px}</style><p>x", "\np { padding: 1px }\n"),
    ("<style>p{float:none;margin-left:-9%}</style><p>x", "\np { margin-left: -9% }\n"),
    ("<style>p{float:left}p,b{margin:-1px 2px}</style><p>x<b>y", "\nb { margin: -1px 2px }\np { margin: 0 2px }\n"),
    ("<style>p{position:relative;margin-top:-1em}</style><p>x", "\np { position: relative; margin-top: -1em }\n"),
    ("<style>b{position:relative;top:1px;inset-inline:-1em 0}</style><b>x", "\nb { position: relative; top: 1px; inset-inline: -1em 0 }\n"),
    ("<p style='position:absolute;margin-block-start:-1em;top:1px;padding:0'>x", '<p style="padding: 0">x</p>'),
    ("<style>p{position:sticky}p,b{left:1px;padding:0}</style><p>x<b>y", "\nb { left: 1px; padding: 0 }\np { padding: 0 }\n"),
    ("<style>p{text-combine-upright:digits 3}</style><p>x", "\np { text-combine-upright: digits 3 }\n"),
)
# What isn't taken in, with a word of what is said.
NO_PAGES = (
    (b"", "empty"),
    (b"hello", "no tag"),
    (b"%PDF-1.4 <a>", "no text"),
    (b"<a>\0\1", "no text"),
    (b"PK\3\4", "EPUB"),
    (b"<p>" + b"x" * 1_048_576, "1,048,576"),
    (b"<p>" + b"x<br>" * 33_000, "65,536"),
)
CONTAINER = '<container><rootfiles><rootfile full-path="in/book.opf"/></rootfiles></container>'
PACKAGE = """\
<package xmlns="http://www.idpf.org/2007/opf"><manifest>
<item id="a" href="one.xhtml" media-type="application/xhtml+xml"/>
<item id="b" href="t%20wo.xhtml" media-type="application/xhtml+xml"/>
<item id="c" href="look.css" media-type="text/css"/>
</manifest><spine><itemref idref="b"/><itemref idref="a"/></spine></package>
"""
CHAPTER = """\
<?xml version="1.0"?><!DOCTYPE html><html xmlns="http://www.w3.org/1999/xhtml"><head><title/>
<link rel="stylesheet" href="look.css"/></head><body><a id="here"/><p>{}&eacute;</p></body></html>
"""


class TakeIn(support.ToolCase):
    """Pages and books become documents of the profile."""

    def test_tables(self) -> None:
        """The tables speak of the profile's characters and tags alone."""
        repertoire = intake_text.read_repertoire()
        self.same(len(repertoire), 33048, "the repertoire that is read from the engine's table")
        for character, near in intake_text.near_table().items():
            self.hold(character not in repertoire and repertoire.issuperset(near), f"what is near {character!r}")
        page = held(os.path.join(TOP, "docs", "PROFILE", "html.md"))
        rows = re.search(r"Block tags: (.*?)\. Inline tags: (.*?)\. ", page)
        blocks, inlines = (set(re.findall(r"`([a-z0-9]+)`", row)) for row in (rows.groups() if rows else ("", "")))
        blocks.update(f"h{number}" for number in range(1, 7))
        self.same(intake_tree.BLOCK_TAGS - {"html", "body"}, blocks, "the block tags")
        self.same(intake_tree.INLINE_TAGS, inlines, "the inline tags")
        self.hold(intake_tree.TAGS.issuperset(intake_tree.NEAREST.values()), "the nearest tags")

    def needs_packages(self) -> None:
        """Ends the test where a library that take-in needs isn't installed."""
        if "apt-get install" in tried("take-in", given="<p>x").said:
            self.skipTest("pages and books: there is no package python3-html5lib or python3-tinycss2")

    def test_pages(self) -> None:
        self.needs_packages()
        for words in dict.fromkeys(words for _, _, words in PAGES):
            self.check_taken([page[:2] for page in PAGES if page[2] == words], ("--no-sheets", *words))

    def test_pages_with_sheets(self) -> None:
        self.needs_packages()
        self.needs_built("check_css")
        self.check_taken(SHEET_PAGES, ())

    def test_documents_are_laid_out(self) -> None:
        self.needs_packages()
        self.needs_built("wm_layout")
        for words in dict.fromkeys(words for _, _, words in PAGES):
            self.check_laid_out([page[0] for page in PAGES if page[2] == words], ("--no-sheets", *words))
        self.needs_built("check_css")
        self.check_laid_out([page for page, _ in SHEET_PAGES], ())

    def taken(self, pages: Sequence[str], words: Sequence[str]) -> list[str]:
        """The documents that become of pages, in one run."""
        folder = self.folder()
        paths = [written(folder, f"{number}.html", given.encode("utf-8")) for number, given in enumerate(pages)]
        new = os.path.join(folder, "new")
        self.same(tried("take-in", *words, "--output", new, *paths).status, 0, f"take-in {words}")
        return [held(os.path.join(new, os.path.basename(path))) for path in paths]

    def check_taken(self, pages: Sequence[tuple[str, str]], words: Sequence[str]) -> None:
        """A part of each document that becomes of a page."""
        for document, (given, due) in zip(self.taken([given for given, _ in pages], words), pages):
            self.hold(due in document, f"take-in {words} of {given[:60]!r}: {document}")

    def check_laid_out(self, pages: Sequence[str], words: Sequence[str]) -> None:
        for document, given in zip(self.taken(pages, words), pages):
            data = document.encode("utf-8")
            ran = subprocess.run([built("wm_layout"), "layout"], input=data, capture_output=True, check=False)
            self.same((ran.returncode, ran.stdout[-4:]), (0, b"end\n"), f"{given[:60]!r} is laid out")

    def test_losses(self) -> None:
        """What is lost is told by kind and count."""
        self.needs_packages()
        page = "<ul><li>a<li>b</ul><ol><li>c</ol>"
        said = tried("take-in", "--no-sheets", given=page).said
        self.hold("take-in: marks of list items left out: 3 (bullets 2, numbers 1)\n" in said, f"take-in counts marks: {said}")
        self.hold("marks" not in tried("take-in", "--no-sheets", "--markers", given=page).said, "take-in --markers loses none")
        self.needs_built("check_css")
        said = tried("take-in", given="<style>p{float:left;margin:-1px -2px;margin-left:-3px;top:1px}</style><p>x").said
        due = "take-in: negative margins and insets of floats and positions left out: 3 (margin 1, margin-left 1, top 1)\n"
        self.hold(due in said, f"take-in counts negative margins and insets: {said}")

    def test_unpacked_book(self) -> None:
        self.needs_packages()
        folder = self.folder()
        os.mkdir(os.path.join(folder, "META-INF"))
        container = written(folder, "META-INF/container.xml", CONTAINER.encode())
        for path in (folder, container):
            said = self.refuses("take-in", (path,), "")
            self.hold(f"(cd {folder} && zip " in said, f"take-in of an unpacked book: {said}")

    def test_encodings(self) -> None:
        """Encodings that a page names, that its first bytes tell, and that an option names."""
        self.needs_packages()
        folder = self.folder()
        text = "日本語"
        pages = (
            (b"<meta charset=shift_jis>", "shift_jis", ()),
            (b'<meta http-equiv=content-type content="text/html; charset=euc-jp">', "euc-jp", ()),
            (b'<?xml version="1.0" encoding="gb2312"?>', "gb18030", ()),
            (b"", "utf-16", ()),
            (b"", "utf-8", ()),
            (b"<meta charset=utf-8>", "big5", ("--encoding", "big5")),
        )
        for front, encoding, words in pages:
            path = written(folder, "page.html", front + f"<html><body><p>{text}</p></body></html>".encode(encoding))
            ended = tried("take-in", "--no-sheets", "--quiet", *words, path)
            self.hold(f"<p>{text}</p>" in ended.out and ended.said == "", f"take-in of {encoding}: {ended}")

    def test_what_is_not_taken(self) -> None:
        """What isn't taken is told by one line, and nothing is written."""
        self.needs_packages()
        folder = self.folder()
        for data, word in NO_PAGES:
            ended = tried("take-in", "--no-sheets", written(folder, "wrong.html", data))
            one_line = ended.said.startswith("take-in: ") and ended.said.count("\n") == 1 and word in ended.said
            self.hold(ended.status == 1 and ended.out == "" and one_line, f"take-in of {data[:20]!r}: {ended}")
        page, none = written(folder, "a.html", b"<style>p{margin:0}</style><p>x"), os.path.join(folder, "none")
        for words in ((none,), ("--judge", none, page), ("--no-sheets", page, page), ("--encoding", "none", page), ("--none",)):
            self.refuses("take-in", words, "")

    def test_parts(self) -> None:
        """A page that passes a limit is cut, and a file that is there stays as it was."""
        self.needs_packages()
        folder = self.folder()
        page, new = written(folder, "long.html", b"<p id=a>" + b"x<br>" * 33_000), os.path.join(folder, "parts")
        self.same(tried("take-in", "--no-sheets", "--split", "--output", new, page).status, 0, "take-in --split")
        texts = [held(os.path.join(new, name)) for name in sorted(os.listdir(new))]
        self.same([text.count('<p id="a">') for text in texts], [1, 0], "take-in --split: the parts")
        counts = [sum(text.count(each) for text in texts) for each in (">x", "<br>")]
        self.same(counts, [33_000, 32_999], "take-in --split: all that was in it, but the line break at the cut")
        small = written(folder, "small.html", b"<p>x")
        words = ("--no-sheets", "--output", new, small)
        self.same([tried("take-in", *words).status for _ in range(2)], [0, 1], "take-in over a file")

    def check_list(self, folder: str, path: str, names: list[str]) -> None:
        """What became of each page, in JSON, and how far the tool is, at a terminal."""
        wrong, told = written(folder, "wrong.html", b"hello"), os.path.join(folder, "list.json")
        words = ("--no-sheets", "--output", os.path.join(folder, "listed"), "--list", told, path, wrong)
        said = terminal_words("take-in", *words)
        self.hold(said.startswith("\rtake-in: chapter 1 of 2\rtake-in: chapter 2 of 2\r"), f"take-in at a terminal: {said!r}")
        rows = json.loads(held(told))
        self.same([row["document"] for row in rows], [*names, None], "take-in --list: the documents")
        self.same([row["source"] for row in rows], ["in/t wo.xhtml", "in/one.xhtml", wrong], "take-in --list: where they came from")
        self.hold("no tag" in rows[2]["refused"], "take-in --list: why a page wasn't taken")
        sizes = [os.path.getsize(os.path.join(folder, "listed", name)) for name in names]
        self.same([row["bytes"] for row in rows[:2]], sizes, "take-in --list: the sizes")
        self.refuses("take-in", ("--list", told, path), "")

    def test_books(self) -> None:
        """The chapters of a book in the order of its spine."""
        self.needs_packages()
        folder = self.folder()
        path, new = os.path.join(folder, "book.epub"), os.path.join(folder, "chapters")
        with zipfile.ZipFile(path, "w") as book:
            parts = {"META-INF/container.xml": CONTAINER, "in/book.opf": PACKAGE, "in/look.css": "p { margin: 0 }"}
            for name, text in {**parts, "in/one.xhtml": CHAPTER.format("1"), "in/t wo.xhtml": CHAPTER.format("2")}.items():
                book.writestr(name, text)
        self.same(tried("take-in", "--no-sheets", "--output", new, path).status, 0, "take-in of a book")
        names = sorted(os.listdir(new))
        self.same(names, ["book-01-t-wo.html", "book-02-one.html"], "take-in: the names of chapters")
        self.check_list(folder, path, names)
        for name, text in zip(names, ("2é", "1é")):
            self.hold(f'<a id="here"></a><p>{text}</p>' in held(os.path.join(new, name)), f"take-in: {name}")
        if os.access(built("check_css"), os.X_OK):
            tried("take-in", "--output", os.path.join(folder, "styled"), path)
            self.hold("\np { margin: 0 }\n" in held(os.path.join(folder, "styled", names[0])), "take-in: the sheet of a book")


def terminal_words(*words: str) -> str:
    """What a tool says on standard error where that is a terminal."""
    master, terminal = os.openpty()
    with open(master, "rb", buffering=0) as read:
        with open(terminal, "wb", buffering=0) as error:
            command = [sys.executable, os.path.join(TOOLS, words[0]), *words[1:]]
            subprocess.run(command, stdin=subprocess.DEVNULL, stderr=error, check=False)
        return read.read(4096).decode("utf-8")


def written(folder: str, name: str, data: bytes) -> str:
    path = os.path.join(folder, name)
    with open(path, "wb") as file:
        file.write(data)
    return path
