"""Tests of the reading of listings and of what stands in what (tools/listing.py, tools/source.py)."""
import time

import listing
import source
import texts

from tools.tests import support
from tools.tests.support import FLOW, FLOW_TURNED, all_flow_listings, all_listings, all_script_listings, example, flow_and_pages, held, page_of


class Listings(support.ToolCase):
    """Listings are read as they are written, and nothing else is."""

    def test_what_is_read_is_written_again(self) -> None:
        """What is read is written again as it was, and what a document's nodes are agrees with the listing."""
        for path in all_listings():
            page = page_of(path)
            self.same(page.text(), held(path), f"{path} read and written again")
            nodes = source.read_nodes(held(path.replace(".listing", ".html")))
            texts = {fragment.node for fragment in page.fragments if fragment.kind == "run"}
            elements = {fragment.node for fragment in page.fragments} - texts
            self.hold(all(nodes[number].tag is None for number in texts), f"{path}: runs are of texts")
            self.hold(all(nodes[number].tag for number in elements), f"{path}: boxes are of elements")
        for path in all_script_listings() + all_flow_listings():
            parts = listing.read(held(path))
            self.same("".join(part.text() for part in parts), held(path), f"{path} read and written again")

    def test_flows(self) -> None:
        """A flow doesn't say how text stands, its pages do, and each of them is the flow, turned."""
        flow, pages = flow_and_pages(FLOW + FLOW_TURNED)
        self.same([flow.turned("sideways-lr")], pages, "a flow turned to sideways-lr")
        self.same(flow.page().text(), FLOW.replace("flow 6400 3200", "page 6400 3200 horizontal-tb"), "a flow as a page")
        self.same(listing.owners(flow), [None, 0, 1, 2], "what stands in what in a flow")
        self.hold(all_flow_listings(), "a flow in examples/")
        for path in all_flow_listings():
            flow, pages = flow_and_pages(held(path))
            self.same(pages, [flow.turned(mode) for mode in listing.TURNED], f"{path}: the pages of the flow")

    def test_nodes_of_documents(self) -> None:
        """The nodes of documents, with what may look like a tag and is none."""
        document = (
            "<!DOCTYPE html><!-- <head> --><html><head><title>a<b></title><style>/* </head> */</style></head>"
            "<body title='>'><p>a<br>b</p><!-- <i> --><div></div>d<!-- e -->f</body><!-- g --></html>\nshow\n"
        )
        nodes = source.read_nodes(document)
        self.same([node.tag for node in nodes], ["html", "body", "p", None, "br", None, "div", None], "the tags of nodes")
        self.same([node.parent for node in nodes], [None, 0, 1, 2, 2, 2, 1, 1], "the parents of nodes")
        self.same(document[nodes[7].begin : nodes[7].end], "d<!-- e -->f", "where a text is written")
        for wrong in ("", "<html>", "<html><body></html>", "<html><body><b></i></body></html>", "<html><body", "page 1 1"):
            try:
                source.read_nodes(wrong)
                self.hold(False, f"{wrong!r} is read as a document")
            except listing.InputError:
                self.hold(True, "")

    def test_owners_by_the_document(self) -> None:
        """Each fragment but the first stands in one before it, a line in its box, and by the document in one of its ancestors."""
        for path in all_listings():
            page, nodes = page_of(path), source.read_nodes(held(path.replace(".listing", ".html")))
            owners = listing.owners(page, source.parents_of(nodes))
            for place, (fragment, owner) in enumerate(zip(page.fragments, owners)):
                if place == 0:
                    self.same(owner, None, f"{path}: the owner of the first fragment")
                else:
                    before = owner is not None and owner < place and stands_in(fragment, page.fragments[owner], nodes)
                    self.hold(before, f"{path}: the owner of {fragment}")

    def test_blocks_in_inline_boxes(self) -> None:
        """By the document a block that cuts an inline box stands in the block container, not in the piece before it."""
        moved = next(path for path in all_listings() if path.endswith("moved_boxes.listing"))
        for path, nodes in ((example("block_in_an_inline_box"), {4: 1}), (moved, {20: 1})):
            page, tree = page_of(path), source.read_nodes(held(path.replace(".listing", ".html")))
            owners = listing.owners(page, source.parents_of(tree))
            for fragment, owner in zip(page.fragments, owners):
                if fragment.kind == "box" and fragment.node in nodes:
                    container = page.fragments[owner or 0]
                    self.same((container.kind, container.node), ("box", nodes[fragment.node]), f"{path}: the owner of {fragment}")

    def test_no_front_of_a_listing_is_one(self) -> None:
        """No front of a listing is one."""
        for whole in (held(example("isolate_in_a_line")), FLOW):
            for length in range(len(whole)):
                try:
                    listing.read(whole[:length])
                    self.hold(False, f"the first {length} bytes of a listing are read")
                except listing.ListingError:
                    self.hold(True, "")

    def test_boxes_that_overflow(self) -> None:
        """Boxes that flow out of their container stand beside each other, and their count alone makes the work."""
        for what, rows in (("empty boxes", empty_boxes(4000)), ("boxes with paragraphs", boxes_with_paragraphs(4000))):
            begin = time.process_time()
            page = page_with(rows)
            owners = listing.owners(page)
            read = list(texts.Texts(page, owners).paragraphs())
            self.hold(time.process_time() - begin < 2, f"{what}: the time of {len(owners)} fragments")
            divs = [owner for each, owner in zip(page.fragments, owners) if each.kind == "box" and each.node % 3 == 2]
            # The box of the body is the second one.
            self.same(set(divs), {1}, f"{what}: what they stand in")
            self.same(len(read), rows.count("run "), f"{what}: the paragraphs")

    def test_boxes_deeper_than_elements(self) -> None:
        """Boxes that lie in one another are taken to stand in one another up to the depth that elements may have."""
        rows = "".join(f"box {node} 0 {node} {node} {20000 - 2 * node} {20000 - 2 * node}\n" for node in range(5000))
        owners = listing.owners(page_with(rows))
        depths = [0]
        for owner in owners[1:]:
            depths.append(1 if owner is None else depths[owner] + 1)
        self.same(max(depths), 63, "the depth of 5000 boxes in one another")


def page_with(rows: str) -> listing.Page:
    """A page of 800 px with these lines."""
    return listing.pages_of(listing.read(f"page 51200 38400 horizontal-tb ltr\n{rows}end\n"))[0]


def empty_boxes(count: int) -> str:
    """The lines of a body of 100 px with empty boxes in it."""
    rows = "".join(f"box {3 * number + 2} 0 512 512 50176 0\n" for number in range(count))
    return f"box 0 0 0 0 51200 7424\nbox 1 0 512 512 50176 6400\n{rows}"


def boxes_with_paragraphs(count: int) -> str:
    """The lines of a body of 100 px with boxes that hold a paragraph each."""
    rows = ["box 0 0 0 0 51200 6400\nbox 1 0 0 0 51200 6400\n"]
    for number in range(count):
        node, top = 3 * number + 2, 1024 * number
        rows += [f"box {each} 0 0 {top} 51200 1024\n" for each in (node, node + 1)]
        rows += [f"line {node + 1} 0 0 0 {top} 51200 1024 768\nrun {node + 2} 0 1 0 {top} 512 1024 h 0 0061\n"]
    return "".join(rows)


def stands_in(fragment: listing.Fragment, owner: listing.Fragment, nodes: list[source.Node]) -> bool:
    if fragment.kind == "line" or (fragment.kind == "box" and fragment.box):
        return owner.kind == "box" and owner.node == fragment.node
    above = nodes[fragment.node].parent
    while above is not None and above != owner.node:
        above = nodes[above].parent
    return above is not None
