"""Characters outside the repertoire, for tools/take-in: what stands for each of them.

The repertoire is read from the engine's own table, crates/wm_chars/src/rows.rt, so no second list of it can go wrong.
docs/PROFILE/characters.md explains it.
"""
import os
import re
import unicodedata

import intake_losses
import listing

TOP = os.path.dirname(os.path.dirname(os.path.abspath(__file__)))
ROWS = os.path.join(TOP, "crates", "wm_chars", "src", "rows.rt")
ROW = re.compile(r"row!\('(\\u\{[0-9A-F]+\}|\\?.)', '(\\u\{[0-9A-F]+\}|\\?.)',")
MODES = ("near", "question", "out")

# What is near a character: it looks or reads like it. What isn't here goes by Unicode's decompositions; marks and controls
# that have none are left out, and of all others a question mark tells that something stood there.
NEAR_TABLE = """
·.  ・．  ･．  •*  ‣*  ◦*  ●*  ○o  ◎o  ◯o  ■*  □*  ▪*  ▫*  ◆*  ◇*  ★*  ☆*  ▶>  ▷>  ►>  ◀<  ◁<  ▲^  △^  ▼v  ▽v  ※*
→->  ←<-  ↔<->  ⇒=>  ⇐<=  ⇔<=>  ↑^  ↓v  ⟶->  ⟵<-  ￫->  ￩<-  ￪^  ￬v  ➔->  ➜->  ➡->  ⬅<-  ↦->  ↵<-  ⏎<-  ↩<-  ↪->
×x  ÷/  ±+-  −-  ∗*  ∙.  ⋅.  √v  ∞oo  ≈~  ∼~  ≤<=  ≥>=  ≪<<  ≫>>  ∶:  ∕/  ⁄/  ∥||  ∣|  ≡=  ≦<=  ≧>=  ∧^  ∨v
©(c)  ®(R)  °o  µu  ªa  ºo  §S  ¶P  ¡!  ¿?  ¬-  ¦|  ´'  ¨"  ¸,  ¯-  ˜~  ˆ^  ¤*  ¢c  £GBP  ¥JPY  €EUR  ₩KRW  ₪ILS  ￥JPY  ￡GBP
‑‐  ‒–  ―—  ‖||  ‗_  ‚'  ‛‘  „“  ‟“  †+  ‡++  ‥..  ‰o/oo  ′'  ″"  ‴'''  ‹<  ›>  ‾-  ⁃-  ⁎*  ⁓~  ✓v  ✔v  ✗x  ✘x  ✕x  ✖x
〜~  ～~  ゠=  〔（  〕）  〖【  〗】  〘《  〙》  〚『  〛』  ﹁「  ﹂」  ﹃『  ﹄』  ［[  ］]  ｛{  ｝}  ／/
〝“  〞”  〟”  〇零  〆しめ  əe  ʻ‘  ʼ’  ʹ'  ʺ"  ˈ'  ː:  ẞSS  ƒf  ϑθ  ϕφ  єэ  іi  ІI  ґг  ҐГ  ЄЭ  јj  ЈJ  ѕs  ЅS  љль  њнь  ђч  ћч  џц
ЉЛЬ  ЊНЬ  ЂЧ  ЋЧ  ЏЦ
ـ  ؛;  ٪%  ٫,  ٬،  ٭*  ۔.  ٱا  ٲا  ٳا  ٹت  پب  چج  ژز  ڈد  ڑر  ڤف  کك  ڪك  گك  ںن  ھه  ہه  ۀه  ۆو  ۇو  یي  ېي  ےي  ەه  ﷲالله  ﴾(  ﴿)
־-  ׀|  ׃:  ׳'  ״"  װוו  ױוי  ײיי
─-  ━-  │|  ┃|  ═=  ║||  ▏|  ▕|  ▬-  █#  ▉#  ▊#  ▋#  ▌#  ▐#  ░#  ▒#  ▓#  ☐o  ☑v  ☒x  ♪*  ♥*  ♡*  ☎*  ✉*  ￭*  ⌘*  ⏺*
"""
# Spaces that no line ends at, and those at which one may.
NEAR_SPACES = {"\u2007": "\u00a0", "\u202f": "\u00a0", **dict.fromkeys("\u000b\u0085\u1680\u2028\u2029", " ")}
# An iteration mark says the character before it once more.
REPEATS = {"々": "\u4e00\u9fff", "ゝ": "\u3041\u3096", "ヽ": "\u30a1\u30fa", "〻": "\u4e00\u9fff"}
# A question mark is what is near to these, and no sign that something is lost.
LIKE_A_QUESTION = "\u00bf\u2048\u2049\u2753\u2754"
# The corners and crossings of box drawing.
CROSSINGS = ("\u2500", "\u257f")


def near_table() -> dict[str, str]:
    """The table above by its characters, each with what stands for it."""
    return {entry[0]: entry[1:] for entry in NEAR_TABLE.split()} | NEAR_SPACES


def character_of(literal: str) -> str:
    """The character that a literal of the engine's language says."""
    return chr(int(literal[3:-1], 16)) if literal.startswith("\\u{") else literal[-1]


def read_ranges(path: str = ROWS) -> list[tuple[str, str]]:
    """The first and the last character of each row of the engine's table."""
    try:
        with open(path, encoding="utf-8") as file:
            found = [(character_of(first), character_of(last)) for first, last in ROW.findall(file.read())]
    except FileNotFoundError:
        raise listing.InputError(f"there is no table of characters at {path}") from None
    if not found:
        raise listing.InputError(f"{path} has no table of characters")
    return found


def read_repertoire() -> frozenset[str]:
    return frozenset(chr(code) for first, last in read_ranges() for code in range(ord(first), ord(last) + 1))


class Characters:
    """Makes texts of the repertoire alone, and counts what it takes for what."""

    def __init__(self, mode: str, losses: intake_losses.Losses) -> None:
        self.mode = mode
        self.losses = losses
        self.repertoire = read_repertoire()
        self.known = near_table()

    def taken(self, text: str) -> str:
        """The text with all characters outside the repertoire replaced or left out."""
        # Most texts are within the repertoire, and one look tells it.
        if self.repertoire.issuperset(text):
            return text
        found: list[str] = []
        for character in text:
            found.append(character if character in self.repertoire else self.stand_in(character, "".join(found[-1:])))
        return "".join(found)

    def stand_in(self, character: str, before: str) -> str:
        """What is written for a character outside the repertoire, behind what was written before it."""
        near = self.near(character)
        if near == "?" and character in REPEATS and self.mode == "near":
            near = self.repeated(character, before)
        self.losses.add(f"characters {kind_of(character, near)}", shown(character))
        return near

    def repeated(self, character: str, before: str) -> str:
        first, last = tuple(REPEATS[character])
        return before[-1] if before and first <= before[-1] <= last else "?"

    def near(self, character: str) -> str:
        """What stands for a character whatever is before it. Each is looked for once."""
        if self.mode != "near":
            return "?" if self.mode == "question" else ""
        if character not in self.known:
            self.known[character] = self.decomposed(character)
        return self.known[character]

    def decomposed(self, character: str) -> str:
        """By Unicode's data: a decomposition, of which each part is of the repertoire or has a near character itself."""
        for form in ("NFD", "NFKC", "NFKD"):
            parts = unicodedata.normalize(form, character)
            if parts != character and all(part in self.repertoire or part in self.known for part in parts):
                return "".join(part if part in self.repertoire else self.known[part] for part in parts)
        if CROSSINGS[0] <= character <= CROSSINGS[1]:
            return "+"
        return "" if unicodedata.category(character) in ("Mn", "Me", "Cf", "Cc") else "?"


def kind_of(character: str, near: str) -> str:
    """What happened to a character, in a word for a message."""
    if near == unicodedata.normalize("NFD", character):
        return "written as a letter and marks"
    if near == "?" and character not in LIKE_A_QUESTION:
        return "by a question mark"
    return "by near ones" if near else "left out"


def shown(character: str) -> str:
    """A character's name for a message: its number, and itself where it can be seen."""
    seen = "" if unicodedata.category(character)[0] in "CMZ" else " " + character
    return f"U+{ord(character):04X}{seen}"
