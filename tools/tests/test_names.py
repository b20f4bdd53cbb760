"""Tests of what tools/names holds of lemmas: that none is stated twice."""
import importlib.machinery
import importlib.util
import os
from types import ModuleType

import statements

from tools.tests import support
from tools.tests.support import TOOLS, put_input

OWN = r"Rattle\.(?:low|high)\."
# Statements that say one thing, with the lines that tell what their words mean.
SAME = (
    (
        ("", "not_true : (t : Bool) → not t ≡ true → t ≡ false"),
        ("", "is_false : {b : Bool} → not b ≡ true\n    → b ≡ false"),
        ("", "off : (b : Bool) (e : not b ≡ true) → b ≡ false -- by both cases"),
    ),
    (
        ("", "same : (a b : ℕ) → Some a ≡ Some b → a ≡ b"),
        ("", "pub same : {A : Type 0} (b a : A) → Some b ≡ Some a → b ≡ a"),
        ("", "same {A : Type 0} : (x y : A) → Some x ≡ Some y → x ≡ y"),
    ),
    (
        ("use Rattle.low.specs.Sizes.{cap}\n", "near : (z : ℤ) → (k : ℕ) × (cap z ≡ pos k)"),
        ("use Rattle.low.specs.Sizes as sizes\n", "near : (z : ℤ) → (n : ℕ) × (sizes.cap z ≡ pos n)"),
        ("use Rattle.low.specs.Sizes.{cap as bound}\n", "near : (n : ℤ) → (z : ℕ) × (bound n ≡ pos z)"),
    ),
    (
        ("", "all : (n : ℕ) → All (λ p. p < n) (until n)"),
        ("", "all : (p : ℕ) → All (λ (n : ℕ). n < p) (until p)"),
    ),
    (
        ("", 'mark : (rest : List ℕ) → starts (codes "(") (40 ∷ rest) ≡ true'),
        ("", 'opens : (more : List ℕ) → starts (codes "(") (40 ∷ more) ≡ true'),
    ),
)
# Statements each of which says another thing.
APART = (
    ("", "a : (t : Bool) → not t ≡ true → t ≡ false"),
    ("", "a : (t : Bool) → not t ≡ false → t ≡ true"),
    ("", "a : (x y : ℕ) → x < y → f x ≤ f y"),
    ("", "a : (x y : ℕ) → x < y → f y ≤ f x"),
    ("use Rattle.low.specs.Sizes.{f}\n", "a : (x y : ℕ) → x < y → f x ≤ f y"),
    ("", "a : (x y : ℕ) → (x ≡ y) ⊎ (x ≡ y → ⊥)"),
    ("", "a : (x y : Bool) → (x ≡ y) ⊎ (x ≡ y → ⊥)"),
    ("", "a : (x : Child) → x.size ≡ 0"),
    ("", "a : (x : Line) → x.size ≡ 0"),
    ("", "a : (p : ℕ × ℕ) → p.0 ≡ 0"),
    ("", "a : (p : ℕ × ℕ) → p.1 ≡ 0"),
    ("", 'a : (rest : List ℕ) → starts (codes "(") rest ≡ true'),
    ("", 'a : (rest : List ℕ) → starts (codes "[") rest ≡ true'),
)
# Types of definitions, which may be alike.
DEFINITIONS = (
    "f : ℕ → List ℕ → ℕ",
    "IsIn : (x : ℕ) (xs : List ℕ) → Type 0",
    "each : {A : Type 0} → (A → Bool) → List A → List A",
    "read : {A : Type 0} (x : A) → Reader A",
)


def form(text: str) -> str | None:
    """The form of the one lemma of a text."""
    return next((lemma.form for lemma in statements.lemmas_of(text + "\n", "Rattle.high.proofs.Laws", OWN)), None)


def names() -> ModuleType:
    """The script tools/names, as a module."""
    loader = importlib.machinery.SourceFileLoader("names", os.path.join(TOOLS, "names"))
    spec = importlib.util.spec_from_loader("names", loader)
    assert spec is not None
    module = importlib.util.module_from_spec(spec)
    loader.exec_module(module)
    return module


class Names(support.ToolCase):
    """Lemmas that are stated once, and twice."""

    def test_statements_that_say_one_thing(self) -> None:
        for same in SAME:
            forms = {form(uses + text) for uses, text in same}
            self.hold(len(forms) == 1 and None not in forms, f"one form of {same[0][1]}: {forms}")

    def test_statements_apart(self) -> None:
        forms = [form(uses + text) for uses, text in APART]
        self.hold(None not in forms and len(set(forms)) == len(forms), f"a form for each: {forms}")

    def test_definitions(self) -> None:
        self.same([form(text) for text in DEFINITIONS], [None] * len(DEFINITIONS), "definitions are no lemmas")

    def test_a_place_of_each(self) -> None:
        text = "-- Laws.\nuse A.B.{c}\n\nf : ℕ → ℕ\nf n = n\n\n-- one\npub one : (n : ℕ) → f n ≡ n\none n = refl\n"
        found = [(lemma.line, lemma.name) for lemma in statements.lemmas_of(text, "Rattle.high.proofs.Laws", OWN)]
        self.same(found, [(8, "one")], "the line and the name of a lemma")

    def test_lemmas_of_modules(self) -> None:
        apart = "module _ (b : Bool) where\n  module _ {A : Type 0} (a : A) where\n    off : not b ≡ true → b ≡ false\n    off e = cc\n\none : (n : ℕ) → f n ≡ n\n"
        found = list(statements.lemmas_of(apart, "Rattle.high.proofs.Laws", OWN))
        self.same([(lemma.line, lemma.name) for lemma in found], [(6, "one"), (3, "off")], "lemmas in a module and after it")
        self.same(found[1].form, form(SAME[0][0][1]), "what a module binds is bound in its lemmas")

    def test_copies(self) -> None:
        top = self.folder()
        for crate, name in ("low", "first"), ("high", "second"):
            folder = os.path.join(top, "crates", crate, "proofs")
            os.makedirs(folder)
            law = f"pub {name} : (b : Bool) → not b ≡ true → b ≡ false\n{name} b e = cc\n"
            put_input(os.path.join(folder, "Laws.antt"), law)
        script = names()
        setattr(script, "CRATES", os.path.join(top, "crates"))
        setattr(script, "COPIES", os.path.join(top, "copies.txt"))
        stays, gone = "high/proofs/Laws.antt second: first of low\n", "high/proofs/Laws.antt third: first of low\n"
        other, none = "high/proofs/Laws.antt second: third of low\n", "high/proofs/Laws.antt second: because\n"
        for listed, due in ("", 1), (stays, 0), (gone, 2), (other, 1), (none, 1):
            put_input(os.path.join(top, "copies.txt"), f"# reasons\n{listed}")
            count, wrong = script.check_copies()
            self.same((count, len(wrong)), ("2 statements", due), f"copies, where {listed!r} is listed: {wrong}")
