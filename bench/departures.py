"""Where the original crate is known to answer otherwise (docs/DIFFERENCES.md), step by step.

Each departure has a name and a predicate on the table before the step, the step's words and both answers. Where another
line, or several, say in the original's program what is meant here, the predicate gives them. The original has to answer
them as ours does, and the comparison goes on after them. Else what differs is said as narrowly as it can be.
"""

import unicodedata

from added import SAID, TOO_DEEP, is_too_deep
from carried import spans_after
from printed import ORDER

PANIC = 101  # the status of the original's program where the crate panics


class State:
    """A table as a program prints it."""

    def __init__(self, output):
        lines = [line.split(b"\t") for line in output.split(b"\n")]
        self.rows, self.columns = int(lines[0][1]), int(lines[0][2])
        self.texts = [line[1:] for line in lines if line[0] == b"row"]
        spans = [tuple(map(int, line[1:])) for line in lines if line[0] == b"span"]
        self.spans = {(i, j): (height, width) for i, j, height, width in spans}

    def copied(self):
        """The same with merged cells of its own."""
        other = object.__new__(State)
        other.rows, other.columns, other.texts, other.spans = self.rows, self.columns, self.texts, dict(self.spans)
        return other

    def transposed(self):
        """The same with rows and columns exchanged, for what is said of rows."""
        other = object.__new__(State)
        other.rows, other.columns = self.columns, self.rows
        other.texts = [list(column) for column in zip(*self.texts)] or [[] for _ in range(self.columns)]
        other.spans = {(j, i): (width, height) for (i, j), (height, width) in self.spans.items()}
        return other

    def hides(self, i, j):
        """Whether the merged cell of another anchor holds a cell."""
        return any((i, j) != (a, b) and a <= i < a + height and b <= j < b + width
                   for (a, b), (height, width) in self.spans.items())


def frame(before, words, ours, theirs):
    """`Frame` lists all cells."""
    if b"frame" in words and before.rows > 2 and before.columns > 2:
        edge = b"not all segment 1 %d 1 %d" % (before.rows - 1, before.columns - 1)
        return b"\t".join(words).replace(b"\tframe", b"\t" + edge.replace(b" ", b"\t"))


def panel_without_cells(before, words, ours, theirs):
    """A panel on a table without columns (or rows) sets cells outside."""
    lacks = {b"hpanel": before.columns, b"header": before.columns, b"footer": before.columns,
             b"vpanel": before.rows, b"vpanelw": before.rows}
    return b"" if lacks.get(words[0]) == 0 and theirs[0] == PANIC else None


def concat_onto_nothing(before, words, ours, theirs):
    """`Concat::horizontal` onto a table without rows sets cells outside."""
    if words[:2] == [b"concat", b"horizontal"] and before.rows == 0 and theirs[0] == PANIC:
        return b"\t".join([b"concat", b"vertical", *words[2:]])


def removal_past_the_end(before, words, ours, theirs):
    """`Remove` reaches the index that is equal to the count."""
    counts = {b"rows": before.rows, b"columns": before.columns}
    if words[0] == b"remove" and words[1] in counts and theirs[0] == PANIC:
        count = counts[words[1]]
        if int(words[2]) <= count < int(words[3]):
            return b"remove\t%b\t%b\t%d" % (words[1], words[2], count)


def reversed_extract(before, words, ours, theirs):
    """`Extract` of a reversed range keeps all from its start on."""
    if words[0] != b"extract":
        return None
    a, b, c, d = map(int, words[1:])
    if b < min(a, before.rows) or d < min(c, before.columns):
        return b"extract\t%d\t%d\t%d\t%d" % (a, max(a, b), c, max(c, d))


def merged_cells_left(before, words, ours, theirs):
    """Rearrangements leave merged cells where they are: they are taken away before, and set after it."""
    spans = spans_after(before, words)
    if spans is None or spans == before.spans:
        return None
    apart = [b"cspan 1 all", b"rspan 1 all"] * 2
    sizes = [(b"cspan", width, *place) for place, (_, width) in spans.items()]
    sizes += [(b"rspan", height, *place) for place, (height, _) in spans.items()]
    merged = [b"%b %d cell %d %d" % it for it in sizes if it[1] > 1]
    tabbed = lambda lines: [it.replace(b" ", b"\t") for it in lines]
    return b"\n".join([*tabbed(apart), b"\t".join(words), *tabbed(merged)])


def negative_span(before, words, one, other):
    """A span of size below 0 clears one column too many, counted from the first, and not what it takes: texts stay."""
    count = before.columns if words[0] == b"cspan" else before.rows
    return words[0] in (b"cspan", b"rspan") and int(words[1]) < 0 and count - 1 > -int(words[1])


def text_by_columns(before, words, one, other):
    """`VerticalPanel::width` cuts by a helper of another layer: newlines and characters without columns differ."""
    differing = [(i, j) for i, row in enumerate(one.texts) for j, text in enumerate(row) if other.texts[i][j] != text]
    narrow = ("Mn", "Me", "Cc", "Cf")
    return (words[0] == b"vpanelw" and differing == [(0, int(words[1]))]
            and (b"\\" in words[3] or any(unicodedata.category(it) in narrow for it in words[3].decode())))


def hidden_one_by_one(before, words, one, other):
    """Hidden anchors go one by one, widths first: one that only a hidden one hides stays, or the next cells meet it."""
    left = [it for it, size in other.spans.items() if one.spans.get(it) != size]
    return words[0] in (b"cspan", b"rspan") and len(left) > 0


def merge_with_spans(before, words, one, other):
    """Where anchors or hidden cells end a run of a merge isn't said: in lines that have one, runs differ."""
    if words not in ([b"vmerge"], [b"hmerge"]):
        return False
    if words == [b"hmerge"]:
        before, one, other = before.transposed(), one.transposed(), other.transposed()
    columns = {j for (i, j), _ in one.spans.items() ^ other.spans.items()}
    ends = lambda i, j: (i, j) in before.spans or before.hides(i, j)
    return all(any(ends(i, j) for i in range(before.rows)) for j in columns)


REWRITTEN = [frame, panel_without_cells, concat_onto_nothing, removal_past_the_end, reversed_extract,
             merged_cells_left]
NAMED = {"texts": [negative_span, text_by_columns], "spans": [hidden_one_by_one, merge_with_spans]}


def named(before, words, one, other):
    """The names of the departures by which two tables differ; None where there is none for what differs."""
    if (one.rows, one.columns) != (other.rows, other.columns):
        return None
    found = []
    for part, departures in NAMED.items():
        if getattr(one, part) != getattr(other, part):
            names = [it.__name__ for it in departures if it(before, words, one, other)]
            if not names:
                return None
            found += names[:1]
    return found


def other_lines(before, words, ours, theirs, run):
    """What may stand for a step in the original's program, each with its departure's name; None for most."""
    for departure in REWRITTEN:
        yield departure.__name__, departure(before, words, ours, theirs)
    for word in SAID:
        yield word.__name__, word(before, words, run)


def is_step(line):
    return line and line.split(b"\t")[0] not in ORDER


def step_departures(before, line, ours, run):
    """The names of a step's departures, or None; the line that stands for it; whether that says all."""
    names, step = [], line.split(b"\t")
    for _ in range(len(REWRITTEN) + len(SAID) + 1):
        theirs = run(line)
        if theirs == ours:
            return names, line, True
        # What stands for a step may be a selector deeper than it, and so too deep.
        if names and theirs[0] == 2 and theirs[1].endswith(TOO_DEEP):
            return [*names, is_too_deep.__name__], line, False
        words = line.split(b"\t")
        for name, other in other_lines(before, words, ours, theirs, run):
            if other is not None and name not in names:
                names.append(name)
                line = other
                break
        else:
            if is_too_deep(before, words, run):
                return [*names, is_too_deep.__name__], line, False
            more = named(before, step, State(ours[1]), State(theirs[1])) if theirs[0] == 0 else None
            return (None if more is None else names + more), line, False
    return None, line, False


def explained(script, our_run, their_run):
    """The names of the departures that explain why two programs differ on a script; None where they don't."""
    lines, found = script.split(b"\n"), []
    theirs, before = list(lines), None
    begun = [it for it in lines if not is_step(it)]
    status, output = our_run(b"\n".join(begun))
    if status != 0 or their_run(b"\n".join(begun)) != (status, output):
        return None
    before = State(output)
    for k, line in enumerate(lines):
        if not is_step(line):
            continue
        ours = our_run(b"\n".join(lines[: k + 1]))
        if ours[0] != 0:
            return None
        run = lambda it: their_run(b"\n".join([*theirs[:k], it]))
        names, theirs[k], same = step_departures(before, line, ours, run)
        if names is None:
            return None
        found += names
        if not same:
            return found
        before = State(ours[1])
    return found
