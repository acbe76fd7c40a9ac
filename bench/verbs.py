"""Each verb of scripts, on tables of three shapes with about as many cells."""

from measure import row_lines

LARGEST_NUMBER = 10_000  # that a script may name
SHAPES = [(60_000, 10), (775, 775), (10, 60_000)]
TEXTS = ["ab", "ab", "a\\tb"]  # of the rows, round and round: equal neighbours, and tabs


def steps_on(rows, columns):
    """A step of each verb on a table, at most half of which it takes away."""
    row, column = (min(count // 2, LARGEST_NUMBER) for count in (rows, columns))
    last_row, last_column = (min(count, LARGEST_NUMBER) for count in (rows, columns))
    return [
        "set all x",
        "dup all row 0",
        "clean all",
        "tabs 2 all",
        *(f"wrap {width} all" for width in (1, 2)),
        *(f"truncate {width} all" for width in (1, 2)),
        "replace a xy all",
        "cspan 2 column 0",
        "rspan 2 row 0",
        "vmerge",
        "hmerge",
        *(f"merge {side} all" for side in ("vertical", "horizontal")),
        f"merge vertical columns 0 {last_column}",
        f"merge horizontal rows 0 {last_row}",
        "header x",
        "footer x",
        f"hpanel {row} x",
        f"vpanel {column} x",
        f"vpanelw {column} 2 x",
        *(f"rotate {way}" for way in ("left", "right", "top", "bottom")),
        *(f"reverse {lines} 0 end 0" for lines in ("rows", "columns")),
        f"extract 1 {row} 1 {column}",
        f"remove rows 1 {row}",
        f"remove columns 1 {column}",
        "remove named ab",
        f"keep rows 0 {row}:",
        f"keep columns -1 :{column}",
        f"sort rows 0 {last_column - 1} text down",
        "sort rows 1 0 number",
        "concat vertical - 1 1 x",
        "concat horizontal - 1 1 x",
        *(
            f"split {lines} {index} {order} {pieces}"
            for lines, index in (("row", row), ("column", column))
            for order in ("zip", "concat")
            for pieces in ("clean", "retain")
        ),
    ]


def script_of(rows, columns, step):
    """The lines of a script that takes a step on a table, or none."""
    yield from row_lines([TEXTS[i % len(TEXTS)] for i in range(rows)], columns)
    if step:
        yield (step.replace(" ", "\t") + "\n").encode()
