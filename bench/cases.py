"""The cases of `calls`: what of crates/tabled_bench each of them times."""

from typing import Callable, NamedTuple, Optional

from measure import row_lines

FRAMES = 1_000  # that the program lists in a run
PAIRS = 100_000  # combinations of two cells, likewise
CHANGES = 20  # that are made of a store, likewise


class Case(NamedTuple):
    """Calls, and two sizes. The small size has a tenth of the cells."""

    name: str
    size: int
    small: int
    cells: Callable[[int], int]
    # The script that does the same at a size.
    script: Optional[Callable[[int], bytes]] = None
    # The case that does the same with no merged cells.
    beside: Optional[str] = None


def square(size):
    return size * size


def whole(size):
    return size


def hundredth(size):
    return size // 100


CASES = [
    Case("push", 100_000, 10_000, lambda size: size * 10),
    Case("widen", 2_000, 632, square),
    Case("clean", 1_000, 316, square),
    Case("transpose", 1_000, 316, square),
    Case("frame", 2_000, 200, lambda size: (4 * size - 4) * FRAMES),
    Case("not_frame", 2_000, 632, square),
    Case("and", 1_000, 316, square),
    Case("pairs", 1_000, 316, lambda size: PAIRS),
]
CASES += [Case(f"{store}_store", 1_000, 316, square) for store in ("flat", "nested")]
CASES += [
    Case(f"{store}_{change}", 1_000, 316, lambda size: size * size * CHANGES)
    for change in ("row", "column", "rows", "columns")
    for store in ("flat", "nested")
]

CASES += [
    Case(f"{merged}_{call}", size, size // 10, lambda size: size)
    for merged, size in (("flatspans", 100_000), ("tallspans", 10_000), ("staggeredspans", 10_000), ("coveredspans", 100_000))
    for call in ("fits", "drop")
]
CASES += [
    Case(f"{merged}_{call}", size, size // 10, lambda size: size)
    for merged, size, calls in (
        ("flatspans", 100_000, ("keep",)),
        ("tallspans", 10_000, ("keep",)),
        ("flatsharing", 100_000, ("fits", "keep")),
        ("tallsharing", 10_000, ("fits", "keep")),
        ("staggeredsharing", 10_000, ("fits", "keep")),
        ("coveredspans", 100_000, ("keep",)),
    )
    for call in calls
]
CASES += [Case("tenthspans_cover", 1_000, 316, square)]


def one(size):
    return 1


def hundred(size):
    return 100


def script(rows, columns, steps, text="x"):
    """The script of a size that makes a table and takes steps on it.

    The rows and the columns are a number each of a size, and the steps lines. A text of more letters
    gives each row its letter, round and round.
    """

    def written(size):
        made = row_lines([text[i % len(text)] for i in range(rows(size))], columns(size))
        return b"".join([*made, *(step.replace(" ", "\t").encode() + b"\n" for step in steps(size))])

    return written


def part_lines(words, columns):
    """A step on a quarter of the rows up to three quarters, or on columns alike."""

    def steps(size):
        wide = columns(size)
        return [words.format(size // 4, size - size // 4, wide // 4, wide - wide // 4, size // 2, wide // 2, size)]

    return steps


STEPS = {
    "left": "rotate left",
    "right": "rotate right",
    "top": "rotate top",
    "reverse": "reverse columns 0 end 0",
    "extract": "extract {0} {1} {2} {3}",
    "removerows": "remove rows {0} {4}",
    "removecolumns": "remove columns {2} {5}",
    "concat": None,  # a step would make the second table, too
    "content": None,  # no script says what a closure answers
    "lines": None,
    "clean": "clean all",
    "dup": "dup rows 1 {6} row 0",
}
CASES += [
    Case(
        f"{shape}_{name}",
        size,
        small,
        lambda size, columns=columns: size * columns(size),
        script(whole, columns, part_lines(step, columns)) if step else None,
    )
    for name, step in STEPS.items()
    for shape, size, small, columns in (("square", 1_000, 316, whole), ("tall", 4_000, 1_265, hundredth))
]


def split(index, order, display):
    """Rows cut into pieces of a length, or of all cells but the last one."""

    def steps(size):
        length = size - 1 if index == "last" else index
        return [f"split column {length} {order} {display}"]

    return steps


CASES += [
    Case(
        f"square_{order}-{display}-{index}",
        1_000,
        316,
        square,
        script(whole, whole, split(index, order, display)),
    )
    for index in ("1", "10", "last")
    for order in ("zip", "concat")
    for display in ("clean", "retain")
]
CASES += [
    Case("row_zip-clean-10", 100_000, 10_000, whole, script(one, whole, split("10", "zip", "clean"))),
]

CASES += [
    Case(f"tenths_{name}", 1_000, 316, square, beside=f"square_{name}")
    for name in (
        "left",
        "right",
        "top",
        "reverse",
        "extract",
        "removerows",
        "removecolumns",
        "concat",
        "zip-clean-10",
        "zip-retain-10",
        "concat-retain-10",
    )
]


def put_in(size):
    """The cells of a table of 100 columns and rows each time that a row is put in."""
    return sum(100 * (100 + k) for k in range(size))


# What merges cells: the shape of the table, the name of the change, sizes, cells, and the script.
CASES += [
    Case(f"{shape}_{name}", size, small, cells, steps)
    for shape, name, size, small, cells, steps in (
        ("square", "columnspans", 1_000, 316, square, script(whole, whole, lambda size: ["cspan 2 all"])),
        ("column", "rowspansback", 10_000, 1_000, whole, script(whole, one, lambda size: ["rspan -1 all"])),
        # The frame's cells, each of which meets the anchors that are there by then.
        (
            "square",
            "framespans",
            1_000,
            316,
            square,
            script(whole, whole, lambda size: [f"cspan 2 not all segment 1 {size - 1} 1 {size - 1}"]),
        ),
        (
            "square",
            "widestspans",
            1_000,
            316,
            square,
            script(whole, whole, lambda size: [f"rspan {size} cell 0 {size - 1}", "cspan 10000 all"]),
        ),
        ("hundred", "headers", 1_000, 100, put_in, script(hundred, hundred, lambda size: ["header x"] * size)),
        (
            "hundred",
            "panels",
            1_000,
            100,
            put_in,
            script(hundred, hundred, lambda size: [f"hpanel {(100 + k) // 2} x" for k in range(size)]),
        ),
        ("square", "runs", 1_000, 316, square, script(whole, whole, lambda size: ["vmerge"])),
        ("paired", "runs", 1_000, 316, square, script(whole, whole, lambda size: ["vmerge"], "xxyy")),
    )
]

# What each case calls, and what is counted as its cells.
TOLD = [
    ("push", "n records of 10 texts pushed to a builder, and built", "10n pushed"),
    ("widen", "n records pushed, each a text longer than the one before, and built", "n x n of the table"),
    ("clean", "a builder of n x n texts cleaned whose every second column is empty", "n x n given"),
    ("transpose", "n x n texts indexed, the index hidden, turned over and built", "n x n given"),
    ("frame", "Frame listed 1,000 times in an n x n store", "4n - 4 listed each time"),
    ("not_frame", "Segment::all().not(Frame) listed", "n x n"),
    ("and", "Rows of the upper two thirds and of the lower two thirds listed", "n x n listed"),
    ("pairs", "100,000 combinations of two cells listed, by and, not and intersect in turn", "the combinations"),
    ("flat_.., nested_..", "stores of one vector of cells, and of a vector for each row", ""),
    (".._store", "one row of n made n x n by push_row", "n x n"),
    (".._row, .._column", "one inserted in the middle of n x n and removed again, 20 times", "n x n each time"),
    (".._rows, .._columns", "the first swapped with the last, 20 times", "n x n each time"),
    (".._fits, .._drop, .._keep", "SpannedConfig::fits, drop_hidden and keep_fitting on n rectangles:", "n rectangles"),
    ("flatspans", "1 x 2 side by side", ""),
    ("tallspans", "2 x 1 side by side", ""),
    ("staggeredspans", "100 x 1 side by side, each a row below the last, every hundredth in the first row again", ""),
    ("coveredspans", "1 x 2 under one that covers all, so that none fits", ""),
    (".._sharing", "of flat and tall ones every hundredth shares a cell with the next one, of staggered ones every", ""),
    ("", "thousandth; those left of a rectangle in the rows that it reaches are tested, so it grows", ""),
    ("tenthspans_cover", "a CoverMap of n x n made, with a rectangle of 1 x 2 at each tenth place", "n x n"),
    ("square_.., tall_..", "an option on one-letter texts, n x n or n x n/100:", "those of the table"),
    ("left, right, top", "Rotate", ""),
    ("reverse, extract", "all columns; the middle half of rows and columns", ""),
    ("removerows, removecolumns", "a quarter", ""),
    ("concat, dup", "a second table of the same shape below; the first row to all others", ""),
    ("content, lines, clean", "Format::content, multiline, Charset", ""),
    ("zip-.., concat-..", "rows cut into pieces of 1, of 10, or of all cells but the last one; row_ is one row of n", ""),
    ("tenths_..", "the same with a rectangle of 1 x 2 at each tenth place, beside those of square_..", "n x n"),
    ("square_columnspans", "Span::column(2) on all", "n x n"),
    ("column_rowspansback", "Span::row(-1) on all of n x 1", "n"),
    ("square_framespans", "Span::column(2) on Frame: 4n - 4 entities, which go through some 2n anchors each", "n x n"),
    ("square_widestspans", "ColumnSpan::max() on all, where the last column is one cell", "n x n"),
    ("hundred_headers, ..panels", "n of them put in a table of 100 x 100", "those of the table, each time"),
    ("square_runs, paired_runs", "Merge::vertical on equal texts: n runs, or n x n/2 where rows come in pairs", "n x n"),
]
