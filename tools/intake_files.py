"""Reads pages and books for tools/take-in: files of HTML and XHTML in their encodings, and EPUB files.

HTML goes through html5lib, which reads what browsers read and as they do. XHTML that is well formed goes through Python's
reader of XML, since in XHTML `<a id="x"/>` is a whole element and in HTML a start tag alone. Both give trees of one form.
"""
import dataclasses
import html.entities
import io
import itertools
import os
import posixpath
import re
import shlex
import urllib.parse
import zipfile
import zlib
from collections.abc import Iterator
from typing import Protocol
import xml.etree.ElementTree as ElementTree

import html5lib
import webencodings

import listing
from intake_tree import Tree, local

XML_DECLARATION = re.compile(r"\s*<\?xml\s[^>]*?\?>")
DECLARED_ENCODING = re.compile(rb"<\?xml\s[^>]*?encoding\s*=\s*[\"']([A-Za-z0-9._-]+)[\"']")
DOCTYPE = re.compile(r"<!DOCTYPE[^\[>]*(?:\[[^\]]*\]\s*)?>", re.IGNORECASE)
TAG = re.compile(r"<[A-Za-z!?]")
# XML knows five names of characters, XHTML those of HTML.
ENTITIES = "".join(f'<!ENTITY {name} "&#{code};">' for name, code in html.entities.name2codepoint.items() if code > 62)
MARKS = ((b"\xef\xbb\xbf", "utf-8"), (b"\xff\xfe", "utf-16le"), (b"\xfe\xff", "utf-16be"))
CONTAINER = "META-INF/container.xml"
BOOK = b"PK\x03\x04"
CHAPTER_TYPES = ("application/xhtml+xml", "text/html")
# A chapter or a sheet that is larger isn't read: a small book may claim to hold anything.
LARGEST_PART = 1 << 26


class Beside(Protocol):
    """What stands beside a page."""

    def read(self, path: str) -> bytes | None:
        """The bytes of a file beside it, or nothing where there is none."""


@dataclasses.dataclass
class Source:
    """A page as it came: the name for its document, the path that it came from, its number among the chapters of its book and
    their count, its tree or none if it can't be read, and how a file beside it is read."""

    name: str
    path: str
    number: int
    count: int
    tree: Tree | None
    beside: Beside


def sources_of(path: str, encoding: str | None) -> Iterator[Source]:
    """The pages of a file: one of HTML, or the chapters of a book."""
    if path != "-":
        check_unpacked(path)
    data = read_page_or_book(path)
    stem = "standard-input" if path == "-" else os.path.basename(path)
    stem = re.sub(r"\.(x?html?|xht|epub)$", "", stem, flags=re.IGNORECASE)
    if data.startswith(BOOK):
        yield from chapters(data, stem, encoding)
    else:
        yield Source(stem, path, 1, 1, tree_of(data, encoding), FolderBeside("" if path == "-" else os.path.dirname(path)))


def check_unpacked(path: str) -> None:
    """Refuses the folder of an unpacked book, and its container, by what is to be done with it."""
    folder = path
    if os.path.basename(path) == "container.xml":
        folder = os.path.dirname(os.path.dirname(os.path.abspath(path)))
    if os.path.isfile(os.path.join(folder, CONTAINER)):
        pack = f"(cd {shlex.quote(folder)} && zip -q -X -r - mimetype .) > book.epub"
        raise listing.InputError(f"this is a book that was unpacked, which {CONTAINER} tells: `{pack}` packs it")


def read_page_or_book(path: str) -> bytes:
    """The bytes of a file. A book may be as large as its pictures make it, a page not."""
    chunks = listing.chunks_of(path)
    first = next(chunks, b"")
    most = listing.MOST_READ if first.startswith(BOOK) else LARGEST_PART
    data, is_longer = listing.front_of(itertools.chain([first], chunks), most)
    if is_longer:
        raise listing.InputError(f"it has more than {most:,} bytes")
    return data


def check_encoding(encoding: str | None) -> None:
    if encoding and webencodings.lookup(encoding) is None:
        raise listing.InputError(f"there is no encoding {encoding}")


# One page.

def tree_of(data: bytes, encoding: str | None, is_xhtml: bool = False) -> Tree:
    """The tree of a page's bytes."""
    mark = next((name for front, name in MARKS if data.startswith(front)), None)
    if not data.strip():
        raise listing.InputError("it is empty")
    if mark is None and b"\0" in data[:4096] or data.startswith((b"%PDF", b"\x1f\x8b")):
        raise listing.InputError("it is no text")
    declared = DECLARED_ENCODING.match(data.lstrip()[:200])
    named_inside = declared[1].decode("ascii") if declared else None
    named = mark or encoding or named_inside
    if is_xhtml or data.removeprefix(b"\xef\xbb\xbf").lstrip().startswith(b"<?xml"):
        tree = tree_of_xhtml(decoded(data, named or "utf-8"))
        if tree is not None:
            return tree
    return tree_of_html(data, encoding, named_inside)


def decoded(data: bytes, name: str) -> str:
    """The text of bytes in an encoding by the names that pages use."""
    return webencodings.decode(data, webencodings.lookup(name) or webencodings.UTF8)[0]


def tree_of_xhtml(text: str) -> Tree | None:
    """The tree of XHTML, or nothing where it isn't well formed."""
    body = DOCTYPE.sub("", XML_DECLARATION.sub("", text, count=1), count=1)
    try:
        # Without the page's own declarations: they may name files elsewhere, or make a short text a long one.
        tree = ElementTree.fromstring(f"<!DOCTYPE html [{ENTITIES}]>{body.lstrip()}")
    except ElementTree.ParseError:
        return None
    return tree if local(tree) == "html" else None


def tree_of_html(data: bytes, encoding: str | None, declared: str | None) -> Tree:
    """The tree of HTML. Where no encoding is named it is UTF-8 if it can be, else what browsers take, windows-1252."""
    parser = html5lib.HTMLParser()
    likely = "utf-8" if is_utf_8(data) else None
    tree = parser.parse(
        data, override_encoding=encoding, transport_encoding=declared, likely_encoding=likely, useChardet=False
    )
    if not TAG.search(decoded(data, parser.documentEncoding or "utf-8")):
        raise listing.InputError("there is no tag of HTML in it")
    return tree


def is_utf_8(data: bytes) -> bool:
    try:
        data.decode("utf-8")
        return True
    except UnicodeDecodeError:
        return False


# What stands beside a page: the sheets that it names.

class FolderBeside:
    """Files beside a page in a folder."""

    def __init__(self, folder: str) -> None:
        self.folder = folder

    def read(self, path: str) -> bytes | None:
        """The bytes of a file, or nothing where there is none. A page may name anything, also what never ends."""
        found = os.path.join(self.folder, path)
        try:
            if not os.path.isfile(found) or os.path.getsize(found) > LARGEST_PART:
                return None
            with open(found, "rb") as file:
                return file.read()
        except (OSError, ValueError):
            return None


class BookBeside:
    """Files beside a chapter in a book."""

    def __init__(self, book: zipfile.ZipFile, folder: str) -> None:
        self.book = book
        self.folder = folder

    def read(self, path: str) -> bytes | None:
        return part_of(self.book, posixpath.normpath(posixpath.join(self.folder, path)))


def path_of(link: str) -> str | None:
    """The path that a link means, from the page on; nothing where it leads elsewhere than beside it."""
    try:
        parts = urllib.parse.urlsplit(link.strip())
    except ValueError:
        return None
    if parts.scheme or parts.netloc or not parts.path or parts.path.startswith("/"):
        return None
    return urllib.parse.unquote(parts.path)


# Books.

def part_of(book: zipfile.ZipFile, path: str) -> bytes | None:
    """The bytes of a file in a book, or nothing where it isn't there or can't be read."""
    try:
        return book.read(path) if book.getinfo(path).file_size <= LARGEST_PART else None
    except (KeyError, zipfile.BadZipFile, zlib.error, RuntimeError, OSError, EOFError, ValueError):
        # Not there, damaged, or encrypted.
        return None


def xml_of(book: zipfile.ZipFile, path: str) -> Tree:
    """The tree of an XML file that a book can't do without."""
    data = part_of(book, path)
    if data is None:
        raise listing.InputError(f"this is no EPUB: there is no {path} in it")
    try:
        return ElementTree.fromstring(data)
    except ElementTree.ParseError:
        raise listing.InputError(f"this is no EPUB: {path} is not well formed") from None


def chapters(data: bytes, stem: str, encoding: str | None) -> Iterator[Source]:
    """The chapters of a book in the order of its spine."""
    try:
        book = zipfile.ZipFile(io.BytesIO(data))
    except zipfile.BadZipFile:
        raise listing.InputError("it is neither HTML nor an EPUB that can be opened") from None
    paths = chapter_paths(book)
    digits = max(2, len(str(len(paths))))
    for number, path in enumerate(paths, 1):
        part = part_of(book, path)
        try:
            tree = None if part is None else tree_of(part, encoding, is_xhtml=True)
        except listing.InputError:
            tree = None
        name = f"{stem}-{number:0{digits}}-{stem_of(path)}"
        yield Source(name, path, number, len(paths), tree, BookBeside(book, posixpath.dirname(path)))


def stem_of(path: str) -> str:
    """A part of a file's name that any system takes."""
    return re.sub(r"[^\w-]+", "-", posixpath.splitext(posixpath.basename(path))[0]).strip("-") or "chapter"


def chapter_paths(book: zipfile.ZipFile) -> list[str]:
    """The paths of a book's chapters, in the order of its spine."""
    container = xml_of(book, CONTAINER)
    root = next((each.get("full-path") for each in container.iter() if local(each) == "rootfile"), None)
    if root is None:
        raise listing.InputError("this is no EPUB: its container names no package")
    package = xml_of(book, root)
    items = {each.get("id"): each for each in package.iter() if local(each) == "item"}
    spine = [items.get(each.get("idref")) for each in package.iter() if local(each) == "itemref"]
    found = [item for item in spine if item is not None and item.get("media-type") in CHAPTER_TYPES]
    paths = [path_of(item.get("href", "")) for item in found]
    folder = posixpath.dirname(root)
    named = [posixpath.normpath(posixpath.join(folder, path)) for path in paths if path]
    if not named:
        raise listing.InputError("this is no EPUB: its spine has no chapter of HTML")
    return named
