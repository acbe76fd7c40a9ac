"""Tests of contracts.py, on small sources: run by docs/make --check."""

from pathlib import Path

from contracts import (
    Source, closing, first_sentence, function_text, imports_of_clauses, imports_of_types, items, owner_of, parts_of,
    reexported, used_by,
)

SOURCE = """\
//! A module.

ghost use Rattle.std.specs.Prelude.{◌≡◌, ◌<◌, IfOk, length};
ghost use Rattle.std.specs.FinMap as map;

use a::{B, Counts, Unused};

/// A count. Its words go on.
///
/// ```text
///  picture {
/// ```
#[derive(Clone, Drop)]
pub struct Count {
    /// What all see.
    pub number: usize,
}

pub struct Closed(u32);

impl Count {
    /// The next one.
    pub fn next(mut self, by: &B) -> Result<Count, Error>
        requires small { self.number < 10 }
        // A comment with a { in it.
        ensures {
            IfOk result (λ c.
                c.number ≡ self.number)
        }
    {
        by.add('{', "}")
    }

    fn own(&self) {}

    #[doc(hidden)]
    pub fn of_the_repository(&self) {}
}

impl Does for Count {
    ghost does = { λ _. map.empty };
    ghost acts_like = { Prim.search rules };
}

pub trait Counts {
    /// How many.
    fn add(&self) -> usize
        ensures { length self.now ≡ result };
}
"""
PUBLIC = {"Count", "Closed", "Counts"}


def part(name):
    [found] = [it for it in parts_of(SOURCE, PUBLIC) if it.name == name]
    return found


def ends_at_its_bracket():
    return closing("{ '{' \"}\" // }\n ( ) } after", 0) == len("{ '{' \"}\" // }\n ( ) }")


def finds_each_item():
    kinds = [it.kind for it in items(SOURCE)]
    return kinds == ["ghost use", "ghost use", "use", "struct", "struct", "impl", "impl", "trait"]


def tells_public_names_alone():
    names = [it.name for it in parts_of(SOURCE, PUBLIC)]
    return names == ["Count", "Closed", "Count::next", "Count as Does", "Counts"]


def keeps_words_and_pictures():
    words = part("Count").words
    return words[-2] == " picture {" and first_sentence(words) == "A count."


def puts_a_clause_in_a_line():
    return part("Count::next").lines == [
        "fn Count::next(self, by: &B) -> Result<Count, Error>",
        "  requires small: self.number < 10",
        "  ensures: IfOk result (λ c. c.number ≡ self.number)",
    ]


def shows_what_all_see():
    shown = ["#[derive(Clone, Drop)]", "struct Count", "  // What all see.", "  pub number: usize,"]
    return part("Count").lines == shown and part("Closed").lines == ["struct Closed"]


def leaves_out_what_is_alike():
    return part("Count as Does").lines == ["impl Does for Count", "  ghost does = { λ _. map.empty }"]


def tells_a_trait_with_its_words():
    return part("Counts").lines[1:] == [
        "  // How many.", "  fn add(&self) -> usize", "    ensures: length self.now ≡ result"]


def finds_the_imports_that_are_needed():
    used = used_by(SOURCE, function_text(SOURCE, "next"), {"Counts": {"add"}, "Unused": {"take"}})
    return used == ["ghost use Rattle.std.specs.Prelude.{◌≡◌, ◌<◌, IfOk};", "use a::{B, Counts};"]


def passes_over_words_of_comments_and_bodies():
    text = "ghost use a.{Some, Carries, ◌<◌};\nuse b::{Merged, C};\n"
    quoted = "/// Carries Merged cells.\nfn f(c: C)\n    requires { 0 < c }\n{\n    if let Some(x) = c {}\n}\n"
    return used_by(text, quoted, {}) == ["ghost use a.{◌<◌};", "use b::C;"]


def finds_the_imports_of_clauses_alone():
    told = [(SOURCE, it) for it in parts_of(SOURCE, PUBLIC)]
    return imports_of_clauses(told) == [
        "ghost use Rattle.std.specs.FinMap as map;",
        "ghost use Rattle.std.specs.Prelude.{IfOk, length, ◌<◌, ◌≡◌};",
    ]


def finds_the_paths_of_types():
    text = SOURCE + "pub enum Way {\n    /// Back.\n    Left,\n    Right(usize),\n}\nimpl Model for Seen {\n}\npub struct Seen {\n    pub x: u8,\n}\n"
    source = Source(Path("a/b.rt"), text, ("a", "b"), False, ("a",))
    return [*imports_of_types("low", source, {*PUBLIC, "Way", "Seen"})] == [
        "ghost use Rattle.low.specs.declared.a.b.Count.{Count};",
        "ghost use Rattle.low.specs.declared.a.b.Way.{Way};",
        "ghost use Rattle.low.specs.declared.a.b.Way.TheVariants.{Left, Right};",
    ]


def knows_whose_a_part_is():
    return owner_of(part("Count::next")) == owner_of(part("Count as Does")) == "Count"


def reads_names_that_are_offered_again():
    text = "pub use a::b::{C, D as E};\npub use f::G as H;\npub use i;\npub(crate) use j::K;\n"
    offered = [("a::b", [("C", "C"), ("D", "E")]), ("f", [("G", "H")]), ("", [("i", "i")])]
    return [*reexported(text)] == offered


TESTS = [
    ends_at_its_bracket, finds_each_item, tells_public_names_alone, keeps_words_and_pictures, puts_a_clause_in_a_line,
    shows_what_all_see, leaves_out_what_is_alike, tells_a_trait_with_its_words, finds_the_imports_that_are_needed,
    passes_over_words_of_comments_and_bodies, finds_the_imports_of_clauses_alone, finds_the_paths_of_types, knows_whose_a_part_is, reads_names_that_are_offered_again,
]
