"""What is read of the sources of crates: definitions, functions, numbers and letters."""

from pathlib import Path
from typing import List

import pytest
from defined import clauses_of, names_in, numbers_in, words_in

TEXTS = [
    ('told n = line_of (codes "one: " ∷ decimal n ∷ codes " of " ∷ name n ∷ [])', ["one: .. of .."]),
    ('told (some.Case a b) =\n    line_of (codes "far" ∷ [])\ntold other = line_of (a ∷ codes ": b" ∷ []) ++ rest other', ["far", "..: b"]),
    ('told s =\n    line_of (codes "a: " ∷ one s ∷ [])\n    ++ line_of (codes "b: " ∷ two s ∷ [])', ["a: ..", "b: .."]),
    ('told s = if is s then codes "yes" else codes "no"', ["yes", "no"]),
    ('told s = words s ++ codes " without"', [".. without"]),
    ("told s = words s", []),
]


@pytest.mark.parametrize("text, words", TEXTS)
def test_words(text: str, words: List[str]) -> None:
    """The letters of each clause are found, with `..` between them."""
    assert list(words_in("told", f" ℕ → List ℕ\n{text}\n\n")) == words


def test_clauses() -> None:
    """A clause has a left and a right side; a name that only begins as the definition's is none."""
    assert clauses_of("f", " A → ℕ\nf a.One = 1\nf a.Two = 2\nfor = 3\n") == [("a.One", "1"), ("a.Two", "2\nfor = 3")]


def test_numbers() -> None:
    """Each clause of a law that says a number is found."""
    law = "\n    ensures done { DONE ≡ 0 }\n    ensures byte { kind_of flaw.Byte ≡ 2 }\n    ensures way { WAY ≡ way.Fixed }\n{}"
    assert numbers_in(law) == [("DONE", "0"), ("kind_of flaw.Byte", "2")]


def test_names(scratch: Path) -> None:
    """Definitions and functions are found with their texts, without comments, imports and constants. Texts of one name are joined."""
    text = "use A.{B}\n-- abbrev pub no : A\npub record R : A where\n  pub field : A\n\nabbrev pub a : A\na = B\n"
    (scratch / "A.antt").write_text(text, encoding="utf-8")
    code = "use a::B;\n// B\nimpl A {\n    fn own(&self) {\n        1\n    }\n}\npub(crate) fn own() {\n    2\n}\n\npub const B: u8 = 3;\n"
    (scratch / "a.rt").write_text(code, encoding="utf-8")
    defined, functions = names_in(scratch / "A.antt"), names_in(scratch / "a.rt")
    assert list(defined) == ["R", "a"] and "B" in defined["a"] and "B" not in defined["R"]
    assert list(functions) == ["own"] and all(it in functions["own"] for it in "12") and "B" not in functions["own"]
