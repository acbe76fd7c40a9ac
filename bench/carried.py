"""Merged cells carried along when the cells of a table move, after crates/tabled_carry/specs/Images.antt.

Where cells move to is said as in tabled_settings: a new shape, and for each new place its old one or none.
"""

from collections import Counter
from itertools import product


def cells_of(anchor, size):
    return list(product(*(range(first, first + count) for first, count in zip(anchor, size))))


def fitting(state):
    """The merged cells that lie inside the table and share no cell with others, judged on the map as it is."""
    held = Counter(cell for it in state.spans.items() for cell in cells_of(*it))
    inside = lambda i, j: i < state.rows and j < state.columns
    return {anchor: size for anchor, size in state.spans.items()
            if all(inside(*it) and held[it] == 1 for it in cells_of(anchor, size))}


def carried(state, rows, columns, old_place):
    """Those of them of which all cells have new places, which form a rectangle: there."""
    new_places = {old_place(i, j): (i, j) for i in range(rows) for j in range(columns)}
    spans = {}
    for anchor, size in fitting(state).items():
        cells = {new_places.get(it) for it in cells_of(anchor, size)}
        if None in cells:
            continue
        first, last = (tuple(end(them) for them in zip(*cells)) for end in (min, max))
        size = tuple(b - a + 1 for a, b in zip(first, last))
        if size[0] * size[1] == len(cells):
            spans[first] = size
    return spans


def of_lines(rows, columns):
    """A table of these old rows and columns."""
    return len(rows), len(columns), lambda i, j: (rows[i], columns[j])


def exchanged(rows, columns, old_place):
    """The new table with rows and columns exchanged."""
    return columns, rows, lambda i, j: old_place(j, i)


def rotated(state, way):
    rows, columns = range(state.rows), range(state.columns)
    if way == b"left":
        return exchanged(*of_lines(rows, columns[::-1]))
    if way == b"right":
        return exchanged(*of_lines(rows[::-1], columns))
    return of_lines(rows[::-1], columns)


def reversed_lines(state, lines, start, limit, number):
    both = {b"rows": [*range(state.rows)], b"columns": [*range(state.columns)]}
    start, number, count = int(start), int(number), len(both[lines])
    end = start + number if limit == b"start" else count - number
    if not start < end <= count:
        return None
    both[lines][start:end] = both[lines][start:end][::-1]
    return of_lines(both[b"rows"], both[b"columns"])


def extracted(state, a, b, c, d):
    return of_lines(range(state.rows)[int(a) : int(b)], range(state.columns)[int(c) : int(d)])


def removed(state, kind, *words):
    both = {b"rows": [*range(state.rows)], b"columns": [*range(state.columns)]}
    if kind == b"named":
        first = state.texts[0] if state.texts else []
        both[b"columns"] = [j for j, text in enumerate(first) if text != words[0]]
    else:
        both[kind][int(words[0]) : int(words[1])] = []
    return of_lines(both[b"rows"], both[b"columns"])


def joined(state, side, default, rows, columns, *texts):
    shape = (state.rows + int(rows), max(state.columns, int(columns)))
    if side == b"horizontal":
        shape = (max(state.rows, int(rows)), state.columns + int(columns))
    return *shape, lambda i, j: (i, j) if i < state.rows and j < state.columns else None


def pieces(state, length, order, display):
    """The rows cut into pieces, which become the new rows."""
    if state.rows == 0 or not 0 < length < state.columns:
        return None
    numbers = range(-(-state.columns // length))
    every = [(line, k) for line in range(state.rows) for k in numbers]
    if order == b"concat":
        every = [(line, k) for k in numbers for line in range(state.rows)]
    has_text = lambda line, k: any(state.texts[line][k * length : (k + 1) * length])
    kept = [it for it in every if display == b"retain" or it[1] == 0 or has_text(*it)]

    def old_place(i, j):
        line, k = kept[i]
        return (line, k * length + j) if k * length + j < state.columns else None

    return len(kept), length, old_place


def split(state, lines, length, order, display):
    if lines == b"column":
        return pieces(state, int(length), order, display)
    places = pieces(state.transposed(), int(length), order, display)
    if places is None:
        return None
    rows, columns, old_place = exchanged(*places)
    return rows, columns, lambda i, j: swapped(old_place(i, j))


def swapped(place):
    return place and place[::-1]


STEPS = {b"rotate": rotated, b"reverse": reversed_lines, b"extract": extracted, b"remove": removed,
         b"concat": joined, b"split": split}


def spans_after(state, words):
    """The merged cells after a step that moves cells; None where it is none, or moves nothing."""
    places = STEPS[words[0]](state, *words[1:]) if words[0] in STEPS else None
    return None if places is None else carried(state, *places)
