"""What `keep` and `sort` make of a table, after crates/tabled_language/specs/LineNames.antt, and the faults of their words."""

import re
from decimal import Decimal

from carried import carried, of_lines

VERBS = b"keep", b"sort"
LARGEST = 2**64 - 1
SLICE = re.compile(rb"(-?\d+)?:(-?\d+)?|(-?\d+)")
TEST = re.compile(rb"([^=!<>]*)(=|!=|<=|<(?!=)|>=|>(?!=))(.*)", re.S)
NUMBER = re.compile(rb"[+-]?(?:\d+\.?\d*|\.\d+)")
APART = [b"cspan\t1\tall", b"rspan\t1\tall"] * 2
WRITTEN = {b"\\t": b"\t", b"\\n": b"\n", b"\\\\": b"\\"}


def number(text):
    """The decimal number that a text writes; None where it writes none."""
    return Decimal(text.decode()) if NUMBER.fullmatch(text) else None


def unescaped(word):
    return re.sub(rb"\\.", lambda it: WRITTEN[it[0]], word, flags=re.S)


def indexes(word, count):
    """The indexes below a count that an index or a slice tells; None for another word, or one with too large a number."""
    told = SLICE.fullmatch(word)
    if told is None or any(abs(int(it)) > LARGEST for it in told.groups() if it):
        return None
    start, end, index = (None if it is None else int(it) for it in told.groups())
    if index is None:
        return [*range(count)[slice(start, end)]]
    return [it for it in [index + count if index < 0 else index] if 0 <= it < count]


def columns_named(table, name):
    return [j for j, text in enumerate(table.texts[0] if table.texts else []) if text == name]


def passes(text, operator, value):
    if operator in (b"=", b"!="):
        return (text == value) == (operator == b"=")
    left, right = number(text), number(value)
    if left is None:
        return False
    return {b"<": left < right, b"<=": left <= right, b">": left > right, b">=": left >= right}[operator]


def rows_named(table, word):
    """The rows that a word names; None where it names none, whatever the table is."""
    told = indexes(word, table.rows if table else 0)
    if told is not None:
        return told
    test = TEST.fullmatch(word)
    if test is None or test[2][:1] in b"<>" and number(test[3]) is None:
        return None
    columns = columns_named(table, test[1])[:1] if table else []
    return [i for i in range(1, table.rows if table else 0) for j in columns if passes(table.texts[i][j], *test.groups()[1:])]


def columns_told(table, word):
    if word[:1] == b"=":
        return columns_named(table, word[1:])
    told = indexes(word, table.columns)
    return columns_named(table, word) if told is None else told


def sorted_rows(table, start, column, keys, down):
    """The rows of a table, those from one on in the order of a column."""
    rows = [*range(table.rows)]
    if re.fullmatch(rb"\d+", column) and int(column) <= LARGEST:
        columns = [j for j in [int(column)] if j < table.columns]
    else:
        columns = columns_named(table, column.removeprefix(b"="))
    if not columns:
        return rows
    key = lambda i: unescaped(table.texts[i][columns[0]])
    behind = []
    if keys == b"number":
        behind = [i for i in rows[start:] if number(key(i)) is None]
    moved = [i for i in rows[start:] if i not in behind]
    moved.sort(key=lambda i: number(key(i)) if keys == b"number" else key(i), reverse=down)
    return rows[:start] + moved + behind


def places(table, words):
    """The old rows and columns that the new ones are, in their order."""
    rows, columns = [*range(table.rows)], [*range(table.columns)]
    if words[0] == b"sort":
        return sorted_rows(table, int(words[2]), words[3], words[4], len(words) > 5), columns
    if words[1] == b"rows":
        rows = [*dict.fromkeys(i for it in words[2:] for i in rows_named(table, it))]
    else:
        columns = [*dict.fromkeys(j for it in words[2:] for j in columns_told(table, it))]
    return rows, columns


def lines_of_table(before, rows, columns):
    """Lines that make a table of some rows and columns of the one before."""
    if not rows:
        columns = []
    lines = [*APART, b"extract\t0\t%d\t0\t%d" % (len(rows), len(columns))]
    for i, row in enumerate(rows):
        for j, column in enumerate(columns):
            if before.texts[row][column] != before.texts[i][j]:
                lines.append(b"set\tcell\t%d\t%d\t%b" % (i, j, before.texts[row][column]))
    for (i, j), (height, width) in carried(before, *of_lines(rows, columns)).items():
        lines += [b"cspan\t%d\tcell\t%d\t%d" % (width, i, j)] * (width > 1)
        lines += [b"rspan\t%d\tcell\t%d\t%d" % (height, i, j)] * (height > 1)
    return b"\n".join(lines)


def is_number(word):
    return re.fullmatch(rb"\d+", word) and int(word) <= LARGEST


def fault(verb, rest):
    """The number of the fault of the words behind a verb; None where they have none."""
    kind, *words = rest or [b""]
    if rest and kind not in ((b"rows", b"columns") if verb == b"keep" else (b"rows",)):
        return 1
    if not words:
        return 2
    if verb == b"keep":
        return 3 if kind == b"rows" and any(rows_named(None, it) is None for it in words) else None
    if not is_number(words[0]):
        return 3
    if len(words) > 2 and words[2] not in (b"text", b"number") or len(words) > 3 and words[3] != b"down":
        return 1
    return None if len(words) in (3, 4) else 2


def with_same_fault(verb, rest):
    """A line of other verbs that has the fault of a line, also that of an escape."""
    found = fault(verb, rest)
    if found is None:
        return b"header\t" + b" ".join(rest)
    begun = {1: [b"rotate", b"spin"], 2: [b"rotate", b"left"] if rest else [b"rotate"], 3: [b"tabs", b"x"]}
    return b"\t".join([*begun[found], *rest])
