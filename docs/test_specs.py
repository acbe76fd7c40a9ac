"""Tests of specs.py, on small sources: run by docs/make --check."""

import tempfile
from pathlib import Path

from specs import definitions_of, first_sentence

LOW = """\
-- Grids. Their rows are equally long.
use Rattle.std.specs.Prelude.{ℕ}

-- a grid
pub record Grid (A : Type 0) : Type 0 where
  pub rows : ℕ

-- the first one
-- lies above the second
abbrev pub ◌⊏◌ : ℕ → ℕ → Type 0
a ⊏ b = a < b
"""


def read(what, text):
    with tempfile.TemporaryDirectory() as folder:
        file = Path(folder) / "Low.antt"
        file.write_text(text)
        return what(file)


def tells_definitions_with_their_words():
    grid, above = read(definitions_of, LOW)
    return (grid.name, grid.words, above.name, above.words) == ("Grid", "a grid", "◌⊏◌", "the first one lies above the second")


def takes_a_definition_whole():
    return read(definitions_of, LOW)[0].text() == "pub record Grid (A : Type 0) : Type 0 where\n  pub rows : ℕ"


def stops_where_no_words_say_what_is_defined():
    try:
        read(definitions_of, LOW.replace("-- a grid\n", ""))
    except SystemExit:
        return True
    return False


def takes_the_first_sentence():
    return read(first_sentence, LOW) == "Grids"


TESTS = [
    tells_definitions_with_their_words, takes_a_definition_whole, stops_where_no_words_say_what_is_defined,
    takes_the_first_sentence,
]
