"""Tests of tools/pages."""
import collections
import itertools
from collections.abc import Iterable

import listing

from tools.tests import support
from tools.tests.support import SCRIPT, all_listings, example, page_of, tried

# What `pages` makes of three lines of 16 px in a box with a padding of 8 px, on pages of 40 px, in a horizontal and a vertical
# root.
BOX_OF_LINES = """\
page {0} {1} {2} ltr
box 0 0 {3}
line 0 0 0 {4} 512
line 0 0 1 {5} 512
line 0 0 2 {6} 512
end
"""
PAGE_CASES = (
    (
        BOX_OF_LINES.format(
            6400, 9600, "horizontal-tb", "0 0 6400 4096", "0 512 6400 1024", "0 1536 6400 1024", "0 2560 6400 1024"
        ),
        (
            "page 6400 2560 horizontal-tb ltr\nbox 0 0 0 0 6400 2560\n"
            "line 0 0 0 0 512 6400 1024 512\nline 0 0 1 0 1536 6400 1024 512\nend\n",
            "page 6400 2560 horizontal-tb ltr\nbox 0 0 0 0 6400 1536\nline 0 0 2 0 0 6400 1024 512\nend\n",
        ),
    ),
    (
        BOX_OF_LINES.format(
            9600, 6400, "vertical-rl", "5504 0 4096 6400", "8064 0 1024 6400", "7040 0 1024 6400", "6016 0 1024 6400"
        ),
        (
            "page 2560 6400 vertical-rl ltr\nbox 0 0 0 0 2560 6400\n"
            "line 0 0 0 1024 0 1024 6400 512\nline 0 0 1 0 0 1024 6400 512\nend\n",
            "page 2560 6400 vertical-rl ltr\nbox 0 0 1024 0 1536 6400\nline 0 0 2 1536 0 1024 6400 512\nend\n",
        ),
    ),
    (
        # A line that is higher than a page reaches out of it.
        "page 640 640 sideways-lr ltr\nbox 0 0 0 0 6400 640\nline 0 0 0 640 0 5120 640 512\nend\n",
        (
            "page 2560 640 sideways-lr ltr\nbox 0 0 0 0 640 640\nend\n",
            "page 2560 640 sideways-lr ltr\nbox 0 0 0 0 5120 640\nline 0 0 0 0 0 5120 640 512\nend\n",
            "page 2560 640 sideways-lr ltr\nbox 0 0 0 0 640 640\nend\n",
        ),
    ),
)


class Pages(support.ToolCase):
    """A listing is cut between lines, and nothing of it is lost."""

    def test_pages_of_listings(self) -> None:
        for given, due in PAGE_CASES:
            self.same(tried("pages", "--block", "40", given=given).out, "".join(due), "pages")
        for path in all_listings()[::3]:
            self.check_pieces(path, "25")
        self.check_pieces(example("signs"), "16384")
        self.same(tried("pages", given=SCRIPT).status, 1, "pages of several listings")

    def check_pieces(self, path: str, block: str) -> None:
        """All that isn't cut stands on one page, and the pieces of each box are together as large as the box."""
        page, cut = page_of(path), listing.pages_of(listing.read(tried("pages", "--block", block, path).out))
        side = "height" if page.mode == "horizontal-tb" else "width"
        self.same(totals(cut, side), totals([page], side), f"pages {path} {block}")


def totals(pages: Iterable[listing.Page], side: str) -> collections.Counter[tuple[object, ...]]:
    """How large each box is on the block axis, and how often each other fragment stands on a page."""
    found: collections.Counter[tuple[object, ...]] = collections.Counter()
    for fragment in itertools.chain.from_iterable(page.fragments for page in pages):
        if fragment.kind == "box":
            found["box", fragment.node, fragment.box] += getattr(fragment.rect, side)
        else:
            # A span has no second number: its place may change, its size may not.
            numbers = fragment.words()[:3] if fragment.kind != "span" else fragment.words()[:2]
            found[fragment.kind, numbers, fragment.rect.width, fragment.rect.height] += 1
    return found
