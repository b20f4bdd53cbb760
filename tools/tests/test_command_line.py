"""Tests of what all tools do with their words and with what is no listing."""
import os
import subprocess
import sys

import listing
import packages
import programs

from tools.tests import support
from tools.tests.support import NAMES, REFUSED, TOOLS, TOP, example, held, tried

# What no tool takes, with a word of what it says: the line at which the text is no listing, or what was refused.
WRONG = (
    ("", "line 1"),
    ("\n", "line 1"),
    ("hello\n", "line 1"),
    ("<html><body></body></html>", "line 1"),
    ("page 1 1 horizontal-tb ltr\n", "line 1"),
    ("page 1 1 horizontal-tb ltr\nend", "line 2"),
    ("page 1 1 vertical ltr\nend\n", "line 1"),
    ("page 01 1 horizontal-tb ltr\nend\n", "line 1"),
    ("page 1 1 horizontal-tb ltr\nend\nend\n", "line 3"),
    ("page 1 1 horizontal-tb ltr\nbox 0 0 0 0 1\nend\n", "line 2"),
    ("page 1 1 horizontal-tb ltr\nbox 0 0 -0 0 1 1\nend\n", "line 2"),
    ("page 1 1 horizontal-tb ltr\nrun 0 0 1 0 0 1 1 x 0 0061\nend\n", "line 2"),
    ("page 1 1 horizontal-tb ltr\nrun 0 0 1 0 0 1 1 h 0 61\nend\n", "line 2"),
    ("page 1 1 horizontal-tb ltr\nrun 0 0 1 0 0 1 1 h 0 110000\nend\n", "line 2"),
    ("page 1 1 horizontal-tb ltr\nbox 0 0 0 0 1 1 \nend\n", "line 2"),
    ("page 1 1 horizontal-tb ltr\r\nend\r\n", "line 1"),
    ("page 1 1 horizontal-tb ltr\nbox \u0663 0 0 0 1 1\nend\n", "line 2"),
    ("usage: wm_layout layout\n", "line 1: the program was given words that are no job: `usage: wm_layout layout`"),
    ("usage: wm_layout layout", "line 1: the program was given words that are no job: `usage: wm_layout layout`"),
    ("gen 2 bytes 591 lines 20\n", "line 1: this is what the command `gen` counted, and no listing: `gen 2 bytes 591 lines 20`"),
    ("refused TooLong\n", "line 1: a listing begins with a line `page` or `flow`, and this is `refused TooLong`"),
    ("flow 1 1 ltr\n", "line 1: the listing was cut off"),
    ("flow 1 1 ltr\nend", "line 2: the listing was cut off"),
    ("flow 1 1 horizontal-tb ltr\nend\n", "line 1"),
    ("flow 1 1 ltr\nrun 0 0 1 0 0 1 1 h 0 0061\nend\n", "line 2: in a flow a run has `-`"),
    ("page 1 1 horizontal-tb ltr\nrun 0 0 1 0 0 1 1 - 0 0061\nend\n", "line 2: in a flow a run has `-`"),
    ("\ufeffpage 1 1 horizontal-tb ltr\nend\n", "line 1: a byte order mark"),
    ("page 1 1 horizontal-tb ltr\nend\u00e9\n", "line 2: the byte C3"),
    ("page 1 1 horizontal-tb ltr\r\nend\r\n", "line 1: it ends with a carriage return"),
    ("page 1 1 horizontal-tb ltr\nend\r\n", "line 2: it ends with a carriage return"),
    ("page 1 1 horizontal-tb ltr\nrun 0 0 1 0 0 1 1 h 0 D800\nend\n", "line 2: U+D800 is no character"),
    ("page 1 1 horizontal-tb ltr\nrun 0 0 1 0 0 1 1 h 0 0061,0061+DFFF\nend\n", "line 2: U+DFFF is no character"),
    (f"page 1 1 horizontal-tb ltr\nbox 0 0 {'9' * 20} 0 1 1\nend\n", "line 2: a number of 20 digits"),
    (f"page 1 1 horizontal-tb ltr\nbox 0 0 -{'9' * 400} 0 1 1\nend\n", "line 2: a number of 400 digits"),
    (f"page 1 1 horizontal-tb ltr\nrun 0 0 1 0 0 1 1 h {'9' * 5000} 0061\nend\n", "line 2: a number of 5,000 digits"),
    (f"page {'9' * 5000} 1 horizontal-tb ltr\nend\n", "line 1: a number of 5,000 digits"),
    (f"refused Syntax {'9' * 5000}\n", "line 1: a number of 5,000 digits"),
)


class CommandLine(support.ToolCase):
    """What no tool takes is refused by one line."""

    def test_what_is_no_listing(self) -> None:
        """What is no listing is refused by one line, and nothing is written."""
        for text, place in WRONG:
            try:
                listing.read_listing_bytes(text.encode("utf-8"))
                self.hold(False, f"{text!r} is read")
            except listing.ListingError as error:
                self.hold(str(error).startswith(place), f"{text!r}: {error}")
        for tool in NAMES:
            words = ("-",) if tool == "changes" else ()
            for text in ("", "hello\n", held(example("signs"))[:-4]):
                self.refuses(tool, words, text)
            if tool != "json":
                self.refuses(tool, words, REFUSED)
            self.refuses(tool, (os.path.join(TOP, "none"),), "")
        self.refuses("text", ("--none",), "")

    def test_streams_that_are_closed(self) -> None:
        """A closed stream is told by one line."""
        for tool in NAMES:
            words = ("-",) if tool == "changes" else ()
            said = shut(tool, *words, streams="<&-")
            self.same(said, (1, f"{tool}: standard input is closed\n"), f"{tool} without standard input")
        said = shut("text", example("signs"), streams=">&-")
        self.same(said, (1, "text: standard output is closed\n"), "text without standard output")
        if os.path.exists("/dev/full"):
            said = shut("text", example("signs"), streams=">/dev/full")
            self.same(said, (1, "text: standard output: No space left on device\n"), "text on a full device")

    def test_input_without_an_end(self) -> None:
        """What is no listing isn't read to its end, and of a document no more than the program takes."""
        if os.path.exists("/dev/zero"):
            for tool in NAMES:
                said = self.refuses(tool, ("/dev/zero",) if tool != "changes" else ("/dev/zero", "-"), "")
                self.hold("line 1: " in said, f"{tool} of /dev/zero")
            self.same(len(listing.read_input("/dev/zero")), listing.MOST_INPUT + 1, "what is read of an input without an end")

    def test_names_of_files(self) -> None:
        self.same(self.refuses("text", ("",), ""), "text: the name of a file is empty\n", "an empty name")
        self.same(self.refuses("text", (TOP,), ""), f"text: {TOP}: Is a directory\n", "the name of a folder")
        said = self.refuses("picture", ("--output", "", example("signs")), "")
        self.same(said, "picture: the name of a file is empty\n", "an empty name for a new file")

    def test_document_of_another_listing(self) -> None:
        document = example("upright_text").replace(".listing", ".html")
        for tool in NAMES:
            words = (example("signs"), example("signs")) if tool == "changes" else (example("signs"),)
            said = self.refuses(tool, (*words, "--document", document), "")
            self.hold("the document is of another listing: node " in said, f"{tool} --document of another listing: {said}")

    def test_indents(self) -> None:
        for indent in ("-3", "99999999999", "101", "x", "\u0663"):
            self.refuses("json", (f"--indent={indent}", example("signs")), "")
        self.hold(tried("json", "--indent", "100", example("empty_body")).out.startswith("{\n" + 100 * " "), "json --indent 100")

    def test_missing_programs(self) -> None:
        """What is said of a program that isn't there: the command that makes it, and what can be had before."""
        for program in (programs.LAYOUT, programs.NODES, programs.STYLES, programs.SHEETS):
            said = programs.missing(program.path, program, "--program")
            due = (f"`rt run` in crates/{program.crate} ", program.takes, program.before, "--program names another place")
            self.hold(all(words in said for words in due) and "\n" not in said, f"a missing {program.crate}: {said}")
            self.hold(os.path.isdir(os.path.join(TOP, "crates", program.crate)), f"there is a crate {program.crate}")
        document = example("signs").replace(".listing", ".html")
        for tool, option in (("picture", "--program"), ("where", "--program"), ("lint", "--program")):
            said = self.refuses(tool, (document, option, "none"), "")
            self.same(said, f"{tool}: there is no program at none, which {option} names\n", f"{tool} without its program")
            self.hold("Permission denied" in self.refuses(tool, (document, option, TOP), ""), f"{tool}: a folder for a program")

    def test_missing_packages(self) -> None:
        """A library that no interpreter has is told with its package. Without it the tool is started anew once."""
        self.same(packages.missing(["json", "no_such_library"]), ["no_such_library"], "libraries that are missing")
        self.hold(not packages.finds_more(["no_such_library"]), "Debian's interpreter doesn't find what isn't there")
        environment = os.environ | {packages.AGAIN: "1"}
        code = 'import packages; packages.PACKAGES["no_such_library"] = "p"; packages.find_packages(["json", "no_such_library"])'
        command = [sys.executable, "-c", code]
        ran = subprocess.run(command, cwd=TOOLS, env=environment, stderr=subprocess.PIPE, check=False)
        last = ran.stderr.decode("utf-8").splitlines()[-1]
        due = "listing.InputError: there is no no_such_library: on Debian, apt-get install p"
        self.same(last, due, "what is said of a library that is missing")

    def test_help(self) -> None:
        others = ("where", "lint", "face-from-font", "listing-pictures", "property-page", "take-in", "check-tools", "check-gallery")
        for tool in (*NAMES, *others):
            ended = tried(tool, "--help")
            self.hold(os.access(os.path.join(TOOLS, tool), os.X_OK), f"{tool} is a program")
            self.hold(ended.status == 0 and ended.out.startswith("usage: ") and not ended.said, f"{tool} --help")


def shut(tool: str, *words: str, streams: str) -> tuple[int, str]:
    """The status of a tool and what it says where the shell sets its streams."""
    command = ["sh", "-c", f'exec "$@" {streams}', "sh", sys.executable, os.path.join(TOOLS, tool), *words]
    ran = subprocess.run(command, stdin=subprocess.DEVNULL, stdout=subprocess.DEVNULL, stderr=subprocess.PIPE, check=False)
    return ran.returncode, ran.stderr.decode("utf-8")
