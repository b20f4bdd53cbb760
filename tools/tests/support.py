"""What the tests of the tools have in common: how a tool is run, and how what it does is held against what is due."""
import glob
import itertools
import os
import subprocess
import sys
import tempfile
import unittest
from collections.abc import Sequence
from typing import NamedTuple

import listing

TOP = os.path.dirname(os.path.dirname(os.path.dirname(os.path.abspath(__file__))))
TOOLS = os.path.join(TOP, "tools")
NAMES = ("json", "text", "changes", "pages", "picture")

# A script's listings: a paragraph gets a second word; an edit is refused; the paragraph gets a padding, and one comes behind it.
SCRIPT = """\
page 6400 6400 horizontal-tb ltr
box 0 0 0 0 6400 3072
box 1 0 0 0 6400 2048
box 2 0 0 0 6400 1024
line 2 0 0 0 0 6400 1024 768
run 3 0 1 0 0 512 1024 h 0 0061
box 4 0 0 1024 6400 1024
box 5 0 0 2048 6400 0
end
page 6400 6400 horizontal-tb ltr
box 0 0 0 0 6400 3072
box 1 0 0 0 6400 2048
box 2 0 0 0 6400 1024
line 2 0 0 0 0 6400 1024 768
run 3 0 3 0 0 1536 1024 h 0 0061,0020,0062
box 4 0 0 1024 6400 1024
box 5 0 0 2048 6400 0
end
refused NoNode 4
page 6400 6400 horizontal-tb ltr
box 0 0 0 0 6400 5632
box 1 0 0 0 6400 4608
box 2 0 0 0 6400 2304
line 2 0 0 640 640 5120 1024 768
run 3 0 3 640 640 1536 1024 h 0 0061,0020,0062
box 4 0 0 2304 6400 1024
box 5 0 0 3328 6400 0
box 6 0 0 3328 6400 1024
line 6 0 0 0 3328 6400 1024 768
run 7 0 1 0 3328 512 1024 h 0 0063
end
"""
REFUSED = "refused UnknownTag 12\n"
# The flow of a letter in an inline box that is shifted, and its page in sideways-lr.
FLOW = """\
flow 6400 3200 rtl
box 0 0 0 0 6400 1024
line 0 0 0 0 0 6400 1024 768
span 1 0 5888 128 512 1024
run 2 0 1 5888 128 512 1024 - 1 0061
end
"""
FLOW_TURNED = """\
page 3200 6400 sideways-lr rtl
box 0 0 0 0 1024 6400
line 0 0 0 0 0 1024 6400 768
span 1 0 128 0 1024 512
run 2 0 1 128 0 1024 512 l 1 0061
end
"""


class Ended(NamedTuple):
    """How a tool ended: its status, what it wrote and what it said on standard error."""

    status: int
    out: str
    said: str


class Settings:
    """What the command line of tools/check-tools says, and how many things were held."""

    program = os.path.join(TOP, "crates", "wm_layout", "out", "wm_layout")
    all_due = False
    count = 0


class ToolCase(unittest.TestCase):
    """A test that holds many things, and tells of each that fails."""

    # What differs is told whole.
    maxDiff = None

    @property
    def program(self) -> str:
        return Settings.program

    def hold(self, true: object, what: str) -> None:
        Settings.count += 1
        if not true:
            with self.subTest(what):
                self.fail(what)

    def same(self, found: object, due: object, what: str) -> None:
        self.hold(found == due, f"{what}\n  due   {due!r}\n  found {found!r}")

    def needs(self, program: str, what: str) -> None:
        """Goes on where a program of the repository is there; without it the rest is skipped, or fails where all is due."""
        if os.access(program, os.X_OK):
            return
        missing = f"{what}: there is no program {program.removeprefix(TOP + os.sep)}"
        if Settings.all_due:
            Settings.count += 1
            self.fail(missing)
        self.skipTest(missing)

    def needs_built(self, name: str) -> None:
        """Goes on where the gate left a program."""
        self.needs(built(name), f"what {name} would say")

    def folder(self) -> str:
        """A folder that is gone once the test has ended."""
        folder = tempfile.TemporaryDirectory(prefix="check-tools-")
        self.addCleanup(folder.cleanup)
        return folder.name

    def refuses(self, tool: str, words: Sequence[str], text: str) -> str:
        """Holds that a tool refuses something by one line and writes nothing."""
        ended = tried(tool, *words, given=text)
        one_line = ended.said.count("\n") == 1 and ended.said.startswith(f"{tool}: ")
        self.hold(ended.status in (1, 2) and ended.out == "" and one_line, f"{tool} {words} on {text[:20]!r}: {ended}")
        return ended.said

    def ran(self, words: str, document: bytes) -> str:
        """What the program writes, as text."""
        done = subprocess.run([self.program, *words.split()], input=document, stdout=subprocess.PIPE, check=False)
        return done.stdout.decode("ascii")


def tried(tool: str, *words: str, given: str = "") -> Ended:
    """How a tool ended, for a text on standard input."""
    data = given.encode("utf-8")
    # By the interpreter of this process, which starts sooner than one that is looked for.
    command = [sys.executable, os.path.join(TOOLS, tool), *words]
    ran = subprocess.run(command, input=data, stdout=subprocess.PIPE, stderr=subprocess.PIPE, check=False)
    return Ended(ran.returncode, ran.stdout.decode("utf-8"), ran.stderr.decode("utf-8"))


def held(path: str) -> str:
    with open(path, encoding="utf-8") as file:
        return file.read()


def page_of(path: str) -> listing.Page:
    """The page of a file with one listing."""
    return listing.pages_of(listing.read(held(path)))[0]


def flow_and_pages(text: str) -> tuple[listing.Flow, list[listing.Page]]:
    """The flow with which a text begins, and the pages behind it."""
    parts = listing.read(text)
    flow = parts[0]
    assert isinstance(flow, listing.Flow)
    return flow, [part for part in parts if isinstance(part, listing.Page)]


def put_input(path: str, text: str) -> None:
    with open(path, "w", encoding="utf-8", newline="") as file:
        file.write(text)


def built(name: str) -> str:
    return os.path.join(TOP, "crates", name, "out", name)


def example(name: str) -> str:
    return os.path.join(TOP, "examples", f"{name}.listing")


def all_listings() -> list[str]:
    """The listings of documents in examples/ and docs/gallery/ that have a page. Those of scripts have several."""
    folders = (os.path.join(TOP, "examples"), os.path.join(TOP, "docs", "gallery"))
    paths = sorted(itertools.chain.from_iterable(glob.glob(os.path.join(folder, "*.listing")) for folder in folders))
    return [path for path in paths if held(path).startswith("page ") and os.path.exists(path[: -len(".listing")] + ".html")]


def all_flow_listings() -> list[str]:
    """What the command `modes` writes for documents in examples/."""
    paths = sorted(glob.glob(os.path.join(TOP, "examples", "*.listing")))
    return [path for path in paths if held(path).startswith("flow ")]


def all_script_listings() -> list[str]:
    """What the scripts in examples/ write, where a page is listed."""
    paths = sorted(glob.glob(os.path.join(TOP, "examples", "*.script")))
    written = [path[: -len(".script")] + ".listing" for path in paths]
    return [path for path in written if "\nend\n" in held(path)]
