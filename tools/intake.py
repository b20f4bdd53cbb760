"""The work of tools/take-in, from files to documents."""
import argparse
import json
import os
import sys

import intake_boxes
import intake_document
import intake_files
import intake_losses
import intake_sheets
import intake_text
import intake_tree
import listing
import programs


class Intake:
    """Makes documents of pages, by the words of the command line."""

    def __init__(self, words: argparse.Namespace) -> None:
        self.words = words
        self.losses = intake_losses.Losses()
        self.characters = intake_text.Characters(words.replace, self.losses)
        self.judge = None if words.no_sheets else intake_sheets.Judge(words.judge or programs.SHEETS.path)

    def document(self, source: intake_files.Source) -> intake_document.Document:
        """The document of a page."""
        if source.tree is None:
            raise listing.InputError("it can't be read")
        root = intake_tree.Builder(self.characters, self.losses, self.words.markers).build(source.tree)
        kept = self.styled(root, source.tree, source.beside, self.judge) if self.judge else self.unstyled(root)
        looks = intake_sheets.looks_of(root)
        most_turned = intake_boxes.Boxes(self.rules(looks + kept, looks), self.judge).most_turned(root)
        if most_turned > intake_document.MOST_TURNED:
            raise listing.InputError(f"{most_turned} boxes turn within each other, where the engine takes 6")
        return intake_document.Document(intake_tree.title_of(source.tree), looks + kept, root)

    def styled(
        self, root: intake_tree.Element, tree: intake_tree.Tree, beside: intake_files.Beside, judge: intake_sheets.Judge
    ) -> str:
        """What is kept of the page's sheets. In the style attributes stays what is kept of them."""
        sheets = intake_sheets.Sheets(judge, self.losses)
        sheets.collect(tree, beside)
        intake_sheets.mark_tags(root, sheets.rules)
        sheets.mend_attributes(root)
        return sheets.kept(root)

    def unstyled(self, root: intake_tree.Element) -> str:
        intake_sheets.mark_tags(root)
        for element in intake_tree.walk(root):
            if element.attributes.pop("style", None) is not None:
                self.losses.add("attributes left out", "style")
        return ""

    def rules(self, sheet: str, looks: str) -> list[intake_boxes.Rule]:
        """The rules of the document's sheet that say what boxes there are. Of the looks alone that needs no one's judgement."""
        if sheet == looks or self.judge is None:
            return [intake_boxes.HIDDEN]
        answer = self.judge.answer("sheet", sheet)
        if answer.startswith("refused TooManyRules"):
            raise listing.InputError("more than 4,096 rules or 65,536 declarations in its sheets; --no-sheets leaves them out")
        if answer.startswith("refused "):
            raise listing.InputError(f"its sheet is refused: {answer}")
        return intake_boxes.rules_of(answer)

    def documents(self, source: intake_files.Source) -> list[tuple[str, str]]:
        """The names and texts of the documents of a page, within the limits."""
        document = self.document(source)
        passed = list(intake_document.passed_limits(document))
        if not passed:
            return [(source.name, document.text())]
        if not self.words.split:
            raise listing.InputError(f"{' and '.join(passed)}; --split cuts it")
        parts = intake_document.parts_of(document)
        if any(list(intake_document.passed_limits(part)) for part in parts):
            raise listing.InputError(f"{' and '.join(passed)}, and it can't be cut")
        return [(f"{source.name}-part-{number}", part.text()) for number, part in enumerate(parts, 1)]


class Folder:
    """Where documents go: a folder, or standard output for one."""

    def __init__(self, path: str | None) -> None:
        self.path = path
        self.count = 0
        self.names: set[str] = set()
        self.held: str | None = None
        # What became of each page, for those who want it by a machine.
        self.became: list[dict[str, object]] = []
        if path is not None:
            os.makedirs(path, exist_ok=True)

    def write(self, name: str, text: str, source: intake_files.Source) -> None:
        file = None
        if self.path is None:
            self.hold(text)
        else:
            file = f"{self.free(name)}.html"
            listing.put(text, os.path.join(self.path, file))
        title = intake_tree.title_of(source.tree) if source.tree is not None else ""
        self.became.append({"document": file, "source": source.path, "title": title, "bytes": len(text.encode("utf-8"))})
        self.count += 1

    def refuse(self, path: str, why: str) -> None:
        """Says why a page isn't taken."""
        self.became.append({"document": None, "source": path, "refused": why})

    def hold(self, text: str) -> None:
        """Keeps the document for standard output: nothing goes there before it is known that there is one alone."""
        if self.held is not None:
            sys.exit("take-in: there are several documents: --output names a folder for them")
        self.held = text

    def close(self) -> None:
        if self.held is not None:
            listing.put(self.held)

    def free(self, name: str) -> str:
        """A name that no document of this run has."""
        found, number = name, 1
        while found in self.names:
            number += 1
            found = f"{name}-{number}"
        self.names.add(found)
        return found


def say(line: str) -> None:
    print(f"take-in: {line}", file=sys.stderr)


def show_progress(source: intake_files.Source) -> None:
    """Shows how far a book is, to whoever sits at a terminal."""
    if source.count > 1 and sys.stderr is not None and sys.stderr.isatty():
        end = "\r\033[K" if source.number == source.count else ""
        print(f"\rtake-in: chapter {source.number} of {source.count}{end}", end="", file=sys.stderr, flush=True)


def take_in(path: str, intake: Intake, folder: Folder) -> bool:
    """Takes in one file, and says whether all of it was taken."""
    complete = True
    for source in intake_files.sources_of(path, intake.words.encoding):
        if not intake.words.quiet:
            show_progress(source)
        try:
            for name, text in intake.documents(source):
                folder.write(name, text, source)
        except listing.InputError as error:
            say(f"{source.name}: {error}")
            folder.refuse(source.path, str(error))
            complete = False
    return complete


def run(words: argparse.Namespace) -> int:
    """Takes in all files. The status is 1 where one of them, or a part of one, wasn't taken."""
    intake_files.check_encoding(words.encoding)
    intake, folder = Intake(words), Folder(words.output)
    complete = True
    for path in words.files:
        try:
            complete &= take_in(path, intake, folder)
        except listing.InputError as error:
            say(f"{path}: {error}")
            folder.refuse(path, str(error))
            complete = False
        except OSError as error:
            say(f"{error.filename or path}: {error.strerror}")
            folder.refuse(path, str(error.strerror))
            complete = False
    folder.close()
    if words.list is not None:
        listing.put(json.dumps(folder.became, ensure_ascii=False, indent=1) + "\n", words.list)
    if not words.quiet and folder.count:
        tell(intake.losses, folder)
    return 0 if complete else 1


def tell(losses: intake_losses.Losses, folder: Folder) -> None:
    say(f"{folder.count} document{'s' if folder.count > 1 else ''}")
    for line in losses.lines():
        say(line)
