"""Tests of what pages of docs/ say of the program and of the tools."""
import os
import re
import shutil
from collections.abc import Iterator

import listing

from tools.tests import support
from tools.tests.support import TOP, held, put_input, tried


class Docs(support.ToolCase):
    """The examples and tables of pages are those of the program."""

    def test_examples_of_the_page_of_tools(self) -> None:
        """The examples of docs/TOOLS.md: a command in a block of its own, then what it writes."""
        examples = examples_of_tools()
        for command, due in examples:
            if not command.startswith("tools/lint"):
                self.check_example(command, due)
        self.same(len(examples), 6, "the count of examples in docs/TOOLS.md")

    def test_example_of_lint(self) -> None:
        self.needs_built("report_styles")
        for command, due in examples_of_tools():
            if command.startswith("tools/lint"):
                self.check_example(command, due)

    def check_example(self, command: str, due: str) -> None:
        tool, *words = command.removeprefix("tools/").split()
        found = tried(tool, *(os.path.join(TOP, word) if "/" in word else word for word in words)).out
        self.same(found.replace(f"{TOP}/", ""), due, command)

    def test_what_browsers_do_otherwise(self) -> None:
        """The examples of docs/FROM_BROWSERS.md: what is refused, dropped and listed is so, and all else in HTML is taken."""
        self.needs(self.program, "the examples of docs/FROM_BROWSERS.md")
        said = [self.check_sentence(sentence) for sentence in sentences(held(os.path.join(TOP, "docs", "FROM_BROWSERS.md")))]
        counts = [said.count(word) for word in ("refused", "dropped", "lists", "taken")]
        self.same(counts, [24, 10, 22, 15], "the examples of docs/FROM_BROWSERS.md that are refused, dropped, listed and taken")

    def check_sentence(self, parts: list[str]) -> str:
        """Holds the examples of one sentence, and gives what it says of them."""
        words, codes = "".join(parts[::2]), parts[1::2]
        contents = [code for code in codes if code.startswith("<")]
        listed = [self.listing_of(content) for content in contents]
        if not contents:
            return "nothing"
        if "refused" in words:
            self.hold(all(text.startswith(f"refused {codes[-1]} ") for text in listed), f"{codes}: refused")
            return "refused"
        self.hold(all(text.startswith("page ") for text in listed), f"{codes}: taken")
        if "dropped" in words:
            bare = [self.listing_of(re.sub(r' style="[^"]*"', "", content)) for content in contents]
            self.same(listed, bare, f"{codes}: dropped")
            return "dropped"
        if " lists " not in parts:
            return "taken"
        lines = [code for code in codes[codes.index(contents[-1]) :] if code.startswith(("box ", "span ", "run "))]
        self.hold(lines and all(f"\n{line}\n" in listed[-1] for line in lines), f"{codes}: listed")
        return "lists"

    def listing_of(self, content: str) -> str:
        page = f'<html><head><style>p {{ margin: 0 }}</style></head><body style="margin:0">{content}</body></html>'
        return self.ran("layout --view-inline 200 --view-block 100", page.encode("utf-8"))

    def test_page_of_properties(self) -> None:
        """Where a row of the tables changes the page of properties differs, and what is no row of them is refused."""
        page, folder = "docs/PROFILE/properties.md", self.folder()
        for name in ("crates/css_types/src", "crates/css_values/src"):
            shutil.copytree(os.path.join(TOP, name), os.path.join(folder, name))
        for name in ("tools/property-page", "tools/property-page.txt", "tools/listing.py", page):
            os.makedirs(os.path.dirname(os.path.join(folder, name)), exist_ok=True)
            shutil.copy(os.path.join(TOP, name), os.path.join(folder, name))
        tool = os.path.join(folder, "tools", "property-page")
        table = os.path.join(folder, "crates", "css_types", "src", "table.rt")
        rows = held(table)
        self.same(tried(tool, "--check").status, 0, "property-page --check")
        put_input(table, rows.replace("Value::Px(1600)", "Value::Px(1500)"))
        ended = tried(tool, "--check")
        differs = re.fullmatch(rf"property-page: {page}:\d+ has '.* 16 px .*', and the tables give '.* 15 px .*'\n", ended.out)
        self.hold(ended.status == 1 and differs and not ended.said, f"property-page --check of another row: {ended}")
        put_input(table, rows.replace('"font-size" ', '"font-size '))
        ended = tried(tool)
        one_line = re.fullmatch(r"property-page: crates/css_types/src/table\.rt:\d+: .*\n", ended.said)
        self.hold(ended.status == 1 and one_line and not ended.out, f"property-page of a broken row: {ended}")
        self.same(held(os.path.join(folder, page)), held(os.path.join(TOP, page)), "the page behind a broken row")

    def test_where_lines_do_not_end(self) -> None:
        """The table of docs/PROFILE/text.md on where lines don't end."""
        self.needs(self.program, "the table of docs/PROFILE/text.md")
        text = held(os.path.join(TOP, "docs", "PROFILE", "text.md")).split("### What line breaking doesn't do")[1]
        rows = re.findall(r"^\| `([^`]*)` \| ([^|]*) \|", text, re.MULTILINE)
        for letters, cell in rows:
            document = f'<html><body><div style="inline-size:1px">{letters}</div></body></html>'
            parts = listing.read(self.ran("layout", document.encode("utf-8")))
            if isinstance(parts[0], listing.Refusal):
                self.same(f"is refused `{parts[0].kind}`", cell, letters)
            else:
                lines = [each.logical() for each in parts[0].fragments if each.kind == "run"]
                self.same(" ".join(f"`{line}`" for line in lines), cell, letters)
        self.same(len(rows), 13, "the count of rows of docs/PROFILE/text.md")


def examples_of_tools() -> list[tuple[str, str]]:
    pattern = r"```\n(tools/[^\n]*)\n```\n\nwrites\n\n```\n(.*?)```"
    return re.findall(pattern, held(os.path.join(TOP, "docs", "TOOLS.md")), re.DOTALL)


def sentences(page: str) -> Iterator[list[str]]:
    """The sentences and cells of a page, each as its words and codes by turns: a code stands at each odd place."""
    parts, ended = [""], re.compile(r"\. |[;|\n]")
    for place, part in enumerate(page.split("`")):
        if place % 2:
            parts += [part, ""]
            continue
        first, *others = ended.split(part)
        parts[-1] += first
        for other in others:
            yield parts
            parts = [other]
    yield parts
