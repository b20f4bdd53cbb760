"""Tests of tools/picture and tools/listing-pictures."""
import collections
import html
import json
import os
import random
import re
import shutil
import struct
import subprocess
from xml.etree.ElementTree import Element, fromstring

import listing
import raster

from tools.tests import support
from tools.tests.support import FLOW, FLOW_TURNED, SCRIPT, TOP, all_listings, example, held, page_of, tried

SVG = "{http://www.w3.org/2000/svg}"
# Documents of each mode and of both directions, by their names in examples/, and one in which text lies over text.
POINTED = ("signs", "isolate_in_a_line", "text_in_vertical_rl", "text_in_sideways_lr", "four_digits_combined")
OVER_TEXT = (
    '<html><body style="margin:0"><p style="margin:0">abcdefghij</p><p style="margin:0;margin-block-start:-12px;'
    'margin-inline-start:12px"><span style="position:relative;inset-inline-start:5px">klm</span></p></body></html>'
)
# Moves the pointer to some points of the page, in 1/64 px, and tells what the page says at each, and the caret that it shows.
POINTER = """\
const points = POINTS, seen = [];
for (const [x, y] of points) {
  const at = new DOMPoint((x + 0.5) / 64, (y + 0.5) / 64).matrixTransform(page.getScreenCTM());
  page.dispatchEvent(new PointerEvent("pointermove", { clientX: at.x, clientY: at.y, bubbles: true }));
  const edges = ["x1", "y1", "x2", "y2"].map(name => Math.round(64 * caret.getAttribute(name)));
  seen.push([told.textContent, ...edges]);
}
document.body.dataset.seen = JSON.stringify(seen);
"""


class Pictures(support.ToolCase):
    """Pictures have each fragment in its place."""

    def test_pictures_of_listings(self) -> None:
        for path in all_listings()[::3]:
            ended = tried("picture", path)
            self.same((ended.status, ended.said), (0, ""), f"picture {path}")
            self.check_rectangles(path, fromstring(ended.out))

    def check_rectangles(self, path: str, svg: Element) -> None:
        """Each fragment has its rectangle, in px, in the order of the listing, and each text its place."""
        rects = [rect for rect in svg.iter(f"{SVG}rect") if rect.get("data-node")]
        sides = ("x", "y", "width", "height")
        found = [(int(rect.get("data-node", "")), *(float(rect.get(name, "")) * 64 for name in sides)) for rect in rects]
        due = [(each.node, *vars(each.rect.upright()).values()) for each in page_of(path).fragments]
        self.same(found, due, f"picture {path}: rectangles")
        texts = [text for text in svg.iter(f"{SVG}text") if text.get("class") != "words"]
        parts = [part for text in texts for part in (text.findall(f"{SVG}tspan") or [text])]
        self.hold(all(part.get("x") and len(part.text or "") for part in parts), f"picture {path}: each text has its place")

    def test_choices(self) -> None:
        whole = {"box": 5, "line": 3, "span": 1, "run": 6}
        self.same(drawn_kinds(), whole, "picture")
        self.same(drawn_kinds("--kinds", "box,span"), {"box": 5, "span": 1}, "picture --kinds")
        self.same(drawn_kinds("--node", "8"), {"span": 1, "run": 1}, "picture --node")
        self.same(drawn_kinds(given=SCRIPT)["box"], 16, "picture of a script's listings")
        self.hold('width="1648"' in tried("picture", "--scale", "2", "--no-legend", example("signs")).out, "picture --scale")
        self.hold(">1 3</text>" in tried("picture", "--names", example("signs")).out, "picture --names")
        self.same(tried("picture", "--node", "99", example("signs")).status, 1, "picture of a node that isn't there")

    def test_flows(self) -> None:
        """A flow is drawn beside its pages, as its page in horizontal-tb, or one of them alone by its mode."""
        both = FLOW + FLOW_TURNED
        flow = tried("picture", "--mode", "flow", given=both)
        self.same(drawn_kinds(given=both), {"box": 2, "line": 2, "span": 2, "run": 2}, "picture of a flow and a page")
        svg = tried("picture", given=both).out
        self.hold(">flow</text>" in svg and ">page 1: sideways-lr</text>" in svg, "picture: the words over a flow and its page")
        self.same(flow.out, tried("picture", given=FLOW).out, "picture --mode flow")
        self.same(tried("picture", "--mode", "sideways-lr", given=both).out, tried("picture", given=FLOW_TURNED).out, "picture --mode sideways-lr")
        untold = flow.out.replace("run 2 0 1 5888 128 512 1024 - 1 0061", "run 2 0 1 5888 128 512 1024 h 1 0061")
        horizontal = FLOW.replace("flow 6400 3200", "page 6400 3200 horizontal-tb").replace("1024 - 1", "1024 h 1")
        self.same(untold, tried("picture", given=horizontal).out, "picture of a flow as a page")
        for words, given in ((("--mode", "vertical-rl"), both), (("--mode", "flow"), FLOW_TURNED), (("--mode", "none"), both)):
            self.refuses("picture", words, given)

    def test_png(self) -> None:
        """A PNG is as large as the picture, by either program."""
        self.refuses("picture", ("--png", "--html", example("signs")), "")
        svg = tried("picture", example("signs")).out
        browser = raster.find_browser()
        if not shutil.which("rsvg-convert") and not browser:
            self.skipTest("PNG: there is no rsvg-convert and no chromium")
        size = raster.SIZE.search(svg)
        due = tuple(int(float(each) + 0.999) for each in (size.groups() if size else ()))
        for data in [raster.png_of(svg)] + ([raster.by_browser(browser, svg)] if browser else []):
            self.hold(data.startswith(raster.PNG), "picture --png is a PNG")
            self.same(struct.unpack(">II", data[16:24]), due, "the size of a PNG")

    def test_carets(self) -> None:
        """A page of HTML says at each point what the program says, and shows its caret, in a browser."""
        self.needs(self.program, "what stands under a pointer")
        browser = raster.find_browser()
        if browser is None:
            self.skipTest("carets: there is no chromium")
        chance = random.Random(41)
        documents = [(name, held(example(name).replace(".listing", ".html")), options_of(name)) for name in POINTED]
        documents.append(("text over text", OVER_TEXT, []))
        for name, document, options in documents:
            words = " ".join(["layout", *options])
            page = listing.pages_of(listing.read(self.ran(words, document.encode("utf-8"))))[0]
            runs = [fragment.rect for fragment in page.fragments if fragment.kind == "run"]
            points = [point_near(chance, chance.choice(runs)) for _ in range(40)]
            made = tried("picture", "--html", "--program", self.program, "--words", words, given=document)
            self.same((made.status, made.said), (0, ""), f"picture --html of {name}")
            script = POINTER.replace("POINTS", json.dumps(points), 1)
            found = seen_in(browser, self.folder(), made.out.replace("</script>", script + "</script>", 1))
            due = self.told(document, options, points)
            self.same(found, due, f"carets of {name}")
            self.hold({bool(words) for words, *_ in due} == {False, True}, f"some points of {name} hit, and some miss")

    def told(self, document: str, options: list[str], points: list[tuple[int, int]]) -> list[list[str | int]]:
        """What the page is to say at each point, by the program: the words, and the edges of the caret."""
        def answers(lines: list[str]) -> list[list[str]]:
            probe = "\n".join([document.rstrip(), *lines, ""])
            return [answer.split() for answer in self.ran(" ".join(["probe", *options]), probe.encode("utf-8")).splitlines()]

        hits = answers([f"point {x} {y}" for x, y in points])
        # Nothing is hit by a miss, and no text has the number 0.
        carets = answers([f"caret {hit[1]} {hit[4]}" if hit[1:] else "caret 0 0" for hit in hits])
        return [told_at(hit, caret) for hit, caret in zip(hits, carets)]

    def test_documents_and_files(self) -> None:
        """A document goes through the program; here one that writes a stored listing takes its place."""
        folder = self.folder()
        program, new = os.path.join(folder, "program"), os.path.join(folder, "new.svg")
        with open(program, "w", encoding="utf-8") as file:
            file.write(f'#!/bin/sh\n[ "$*" = "layout --view-inline 5" ] && exec cat "{example("signs")}"\n')
            file.write('[ "$*" = "probe --view-inline 5" ] && exec sed -n "s/^point .*/miss/p; s/^caret .*/nocaret/p"\n')
        os.chmod(program, 0o755)
        document = held(example("signs").replace(".listing", ".html"))
        words = ("--program", program, "--words", "layout --view-inline 5")
        self.same(drawn_kinds(*words, given=document)["box"], 5, "picture of a document")
        page = tried("picture", "--html", *words, given=document).out
        marked = '<span data-node="9" title="node 9">this</span>' in page
        self.hold(page.startswith("<!DOCTYPE html>") and marked, "picture --html")
        self.same(tried("picture", "--program", program, given=document).status, 1, "picture: the program fails")
        self.same(tried("picture", "--program", f"{folder}/none", given=document).status, 1, "picture without a program")
        self.same(tried("picture", "--html", example("signs")).status, 1, "picture --html without a document")
        self.same(tried("picture", "--output", new, example("signs")).status, 0, "picture --output")
        self.same(tried("picture", "--output", new, example("empty_body")).status, 1, "picture --output over a file")
        self.same(held(new), tried("picture", example("signs")).out, "picture: the file stays as it was")

    def test_pictures_of_the_page_of_listings(self) -> None:
        """The pictures of docs/PROFILE/listing.md are those of their listings, and the listings those of their documents."""
        folder, page = os.path.join(TOP, "docs", "listing"), held(os.path.join(TOP, "docs", "PROFILE", "listing.md"))
        for kind in ("page", "box", "line", "span", "run"):
            self.same(tried("listing-pictures", kind).out, held(os.path.join(folder, f"{kind}.svg")), f"listing-pictures {kind}")
            self.hold(f"](../listing/{kind}.svg)" in page, f"docs/PROFILE/listing.md shows {kind}.svg")
        for name in ("horizontal", "vertical"):
            path = os.path.join(folder, name)
            if os.path.exists(self.program):
                found = self.ran(held(f"{path}.args"), held(f"{path}.html").encode("utf-8"))
                self.same(found, held(f"{path}.listing"), f"{path}.listing")


def told_at(hit: list[str], caret: list[str]) -> list[str | int]:
    """What the page says for a hit and its caret."""
    if hit == ["miss"]:
        return ["", 0, 0, 0, 0]
    x, y, width, height = map(int, caret[1:])
    return [f"text {hit[1]}, characters {hit[2]} to {hit[3]}, caret at {hit[4]}", x, y, x + width, y + height]


def options_of(name: str) -> list[str]:
    """The options of an example, behind the word of the command."""
    path = example(name).replace(".listing", ".args")
    return held(path).split()[1:] if os.path.exists(path) else []


def point_near(chance: random.Random, rect: listing.Rect) -> tuple[int, int]:
    """A point in a rectangle, or a little outside."""
    return chance.randrange(rect.x - 40, rect.right + 40), chance.randrange(rect.y - 40, rect.bottom + 40)


def seen_in(browser: str, folder: str, page: str) -> list[list[str | int]]:
    """What a page wrote into its element `body` in a browser."""
    path = os.path.join(folder, "page.html")
    with open(path, "w", encoding="utf-8") as file:
        file.write(page)
    words = [*raster.browser_words(folder), "--dump-dom", f"file://{path}"]
    ran = subprocess.run([browser, *words], stdout=subprocess.PIPE, stderr=subprocess.DEVNULL, timeout=raster.LONGEST, check=False)
    found = re.search(r'data-seen="([^"]*)"', ran.stdout.decode("utf-8"))
    seen: list[list[str | int]] = json.loads(html.unescape(found[1])) if found else []
    return seen


def drawn_kinds(*words: str, given: str | None = None) -> collections.Counter[str]:
    """How many rectangles of each kind a picture has."""
    svg = fromstring(tried("picture", *words, given=given or held(example("signs"))).out)
    rects = (rect for rect in svg.iter(f"{SVG}rect") if rect.get("data-node"))
    return collections.Counter(rect.get("class", "").split()[0] for rect in rects)
