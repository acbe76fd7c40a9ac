"""Tests of api.py and exports.py, on two small crates: run by docs/make --check."""

import tempfile
from pathlib import Path

from api import names, pages

NAMES = """\
//! Names.

/// The names of rows.
pub struct RowNames(usize);

/// The names of columns (`r x c`).
pub struct ColumnNames(usize);

impl Model for ColumnNames {
}

impl RowNames {
    pub fn new() -> Self {}
}

impl ColumnNames {
    pub fn new() -> Self {}
}

/// Goes over names.
pub struct NamesIter(usize);
"""
LOW = {
    "lib.rt": "//! Grids.\n\npub mod config;\npub mod laws;\npub mod rows;\n\n/// A grid: rows.\npub struct Table(usize);\n",
    "config/mod.rt": "//! Places.\n\nmod fitting;\nmod names;\nmod offset;\nmod spans;\n\npub use names::{ColumnNames, NamesIter, RowNames};\npub use offset::Offset;\npub use spans::Spans;\n",
    "config/fitting.rt": """\
//! What fits.

ghost use Rattle.low.specs.Fitting.{fits};

impl Spans {
    /// Says whether all fit.
    pub fn fits(&self) -> bool
        ensures { result ≡ fits self.now }
    {
    }
}

impl Does for Spans {
    ghost does = { fits };
}
""",
    "config/offset.rt": "//! Offsets.\n\n/// An offset.\npub enum Offset {\n    Start,\n}\n",
    "config/spans.rt": "//! Spans.\n\n/// Which cells are merged: rectangles, of which each has an anchor at its upper left, and no two share one.\npub struct Spans(usize);\n",
    "config/names.rt": NAMES,
    "laws.rt": "//! Laws.\n\n/// Spans that fit do so always.\npub fn spans_fit() {}\n",
    "rows.rt": "//! Rows as a store.\n\nimpl<T> Records for Vec<T> {\n}\n\nimpl<T> Grows for Vec<T> {\n}\n",
}
HIGH = {
    "lib.rt": "//! Options.\n\npub mod split;\n\npub use low::{config, rows};\n",
    "split.rt": "//! Splits.\n\npub use low::config::Offset as Way;\n",
}


def made():
    """The pages of the two crates."""
    with tempfile.TemporaryDirectory() as folder:
        for crate, files in (("low", LOW), ("high", HIGH)):
            for name, text in files.items():
                file = Path(folder) / "crates" / crate / "src" / name
                file.parent.mkdir(parents=True, exist_ok=True)
                file.write_text(text)
        return {"API.md": names(Path(folder), ["low", "high"]), **pages(Path(folder), ["low", "high"])}


def lists_calls_behind_their_type():
    return """\
- [`config::Spans`](../crates/low/src/config/spans.rt#L4): Which cells are merged. [`fits`](../crates/low/src/config/fitting.rt#L7)
""" in made()["API.md"]


def leaves_out_what_a_name_says():
    spans, names = "crates/low/src/config/spans.rt", "crates/low/src/config/names.rt"
    rows = f"- [`config::RowNames`](../{names}#L4) [`new`](../{names}#L13)"
    columns = f"[`config::ColumnNames`](../{names}#L7) [`new`](../{names}#L17)"
    plain = f"{rows}, {columns}, [`config::NamesIter`](../{names}#L21), ["
    page = made()["API.md"]
    return plain in page and f"(../{spans}#L4): Which cells are merged. [" in page and page.count("laws.rt#L4)\n") == 1


def names_the_path_behind_a_crate():
    page = made()["API.md"]
    root = "## `low`\n\n- [`Table`](../crates/low/src/lib.rt#L8): A grid: rows.\n- [`config::Spans`]("
    return root in page and "### `low::laws`\n\n[`spans_fit`](../crates/low/src/laws.rt#L4)\n" in page


def tells_what_a_type_means_below_it():
    names = ["## `Offset`", "## `Spans`", "### `Spans::fits`", "impl Does for Spans", "## Imports"]
    places = [made()["low/config.md"].find(it) for it in names]
    return -1 not in places and places == sorted(places)


def names_the_paths_that_code_imports():
    page = made()["low/config.md"]
    return all(it in page for it in (
        "use low::config::Spans;\n// or high::config::Spans\n\nstruct Spans",
        "use low::config::Offset;\n// or high::config::Offset\n// or high::split::Way\n\nenum Offset",
    ))


def names_the_paths_that_contracts_import():
    imported = made()["low/config.md"].partition("## Imports")[2]
    return all(it in imported for it in (
        "ghost use Rattle.low.specs.Fitting.{fits};",
        "ghost use Rattle.low.specs.declared.config.offset.Offset.TheVariants.{Start};",
    ))


def lists_what_is_offered_again_where_it_is_used():
    offered = "Re-exports of [`low`](low.md): [`config`](low/config.md), [`rows`](low/rows.md)."
    renamed = "Re-exports of [`low::config`](../low/config.md): [`Way`](../low/config.md#offset), there `Offset`."
    return offered in made()["high.md"] and renamed in made()["high/split.md"]


def lists_a_module_without_names_of_its_own():
    return "- `rows`: `Vec<T>` is a store, by `Records`, `Grows`.\n" in made()["API.md"]


TESTS = [
    lists_calls_behind_their_type, leaves_out_what_a_name_says, names_the_path_behind_a_crate, tells_what_a_type_means_below_it, names_the_paths_that_code_imports,
    names_the_paths_that_contracts_import, lists_what_is_offered_again_where_it_is_used,
    lists_a_module_without_names_of_its_own,
]
