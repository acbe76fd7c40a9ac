"""What words mean that are of this project, for a program that doesn't know them: `wrap`, `truncate`, `replace`, `merge`,
`keep` and `sort`.

They are said by lines that it knows: the texts of the first three by `set`, the merged cells of `merge` by `cspan` and
`rspan`, the tables of `keep` and `sort` (kept.py) by both. What they are is said here anew, after
crates/tabled_width/specs/Wraps.antt, crates/tabled_settings/specs/Truncates.antt and Replaced.antt, and
crates/tabled_spans/specs/Runs.antt. Which cells a selector names that program is asked itself.
"""

import unicodedata

import kept

WORDS = b"wrap", b"truncate", b"replace", b"merge", *kept.VERBS
SIDES = b"vertical", b"horizontal"
WAYS = b"left", b"right", b"top", b"bottom"  # after `rotate`
LARGEST = b"10000"  # number of a script
NOT_KNOWN = 1, b"the other program doesn't know a word"  # what is answered where a script is no fault
TOO_DEEP = b"fault 5\n"  # how an answer ends where a selector stands in too many others

ESCAPES = {"\t": "\\t", "\n": "\\n", "\\": "\\\\"}
CHARACTERS = {written: it for it, written in ESCAPES.items()}


def is_added(line):
    return line.split(b"\t")[0] in WORDS


def with_same_faults(line):
    """A line that the other program knows, faulty where a line of these words is, and alike."""
    word, *rest = line.split(b"\t")
    if word in kept.VERBS:
        return kept.with_same_fault(word, rest)
    if word in (b"wrap", b"truncate"):
        return b"\t".join([b"tabs", *rest])
    if word == b"replace":
        return b"\t".join([b"dup", b"content", *[b"-".join(rest[:2])] * bool(rest), *rest[2:]])
    if rest[:1] and rest[0] in SIDES:
        return b"\t".join([b"clean", *rest[1:]])
    return b"\t".join([b"rotate", *[b"spin" if it in WAYS else it for it in rest[:1]], *rest[1:]])


def knowing(run):
    """The answers of a program to faulty scripts with these words, and that it doesn't know what others mean."""

    def answer(script):
        lines = script.split(b"\n")
        if not any(map(is_added, lines)):
            return run(script)
        status, output = run(b"\n".join(with_same_faults(it) if is_added(it) else it for it in lines))
        return (status, output) if status == 2 else NOT_KNOWN

    return answer


def named_cells(before, selector, run):
    """The cells that a selector names; None where it stands too deep to be asked for."""
    mark = b"named"
    while any(mark in row for row in before.texts):
        mark += b"-"
    status, output = run(b"\t".join([b"set", *selector, mark]))
    if status != 0:
        if status == 2 and output.endswith(TOO_DEEP):
            return None
        raise ValueError(f"{selector}: {output}")
    rows = [line.split(b"\t")[1:] for line in output.split(b"\n") if line.startswith(b"row")]
    return {(i, j) for i, row in enumerate(rows) for j, text in enumerate(row) if text == mark}


def entities(before, selector, run):
    """The cells of each row, column, cell or `all` that a selector lists, in its order; None as above."""
    found = []
    while True:
        behind = [b"skip", b"%d" % len(found), *selector]
        left = named_cells(before, behind, run)
        if not left:
            return found if left is not None else None
        first = named_cells(before, [b"step", LARGEST, *behind], run)
        if first is None:
            return None
        found.append(first)


def columns_of(character):
    """How many columns a character takes: a control character one."""
    if unicodedata.category(character) in ("Mn", "Me", "Cf"):
        return 0
    return 2 if unicodedata.east_asian_width(character) in ("W", "F") else 1


def columns_in(text):
    return sum(map(columns_of, text))


def pieces_of(line):
    """The pieces of a line: each character that takes no columns stays with the one before it."""
    found = []
    for it in line:
        if found and columns_of(it) == 0:
            found[-1] += it
        else:
            found.append(it)
    return found


def broken(n, word):
    """A word's pieces, each that doesn't fit in a line of its own, and the columns that the last line then has."""
    cut, used = "", None
    for it in word:
        fits = used is None or used + columns_in(it) <= n
        cut += it if fits else "\n" + it
        used = (used or 0 if fits else 0) + columns_in(it)
    return cut, used or 0


def wrapped_line(n, line):
    """A line cut between the words that its blanks part, and words cut that are wider than a line."""
    words = [[]]
    for it in pieces_of(line):
        if it == " ":
            words.append([])
        else:
            words[-1].append(it)
    cut, used = broken(n, words[0])
    for word in words[1:]:
        wide = columns_in("".join(word))
        if used + 1 + wide <= n:
            cut, used = cut + " " + "".join(word), used + 1 + wide
        elif word:
            part, used = broken(n, word)
            cut += "\n" + part
    return cut


def wrapped(n, text):
    """A text whose lines have at most n columns, but for a piece of more."""
    return "\n".join(wrapped_line(n, it) for it in text.split("\n")) if n > 0 else ""


def truncated_line(n, line):
    """A line of more than n columns cut so that an ellipsis, of one column, fits behind what stays."""
    if columns_in(line) <= n:
        return line
    kept, room = "", n - 1
    for it in line:
        room -= columns_of(it)
        if room < 0:
            break
        kept += it
    return kept + "\N{HORIZONTAL ELLIPSIS}" if n > 0 else ""


def truncated(n, text):
    return "\n".join(truncated_line(n, it) for it in text.split("\n"))


def unescaped(word):
    parts, rest = [], word.decode()
    while rest:
        part = rest[:2] if rest[0] == "\\" else rest[0]
        parts.append(CHARACTERS.get(part, part))
        rest = rest[len(part) :]
    return "".join(parts)


def escaped(text):
    return "".join(ESCAPES.get(it, it) for it in text).encode()


def rewriting(words):
    """What a line makes of a text, and its selector; None where it isn't one that writes texts."""
    if words[0] in (b"wrap", b"truncate"):
        cut = wrapped if words[0] == b"wrap" else truncated
        return lambda text: cut(int(words[1]), text), words[2:]
    if words[0] == b"replace":
        part, new = map(unescaped, words[1:3])
        return lambda text: text.replace(part, new) if part else text, words[3:]
    return None


def texts_by_set(before, words, run):
    """What writes texts is said by a `set` for each cell whose text it changes."""
    if not rewriting(words):
        return None
    new, selector = rewriting(words)
    cells, lines = named_cells(before, selector, run), []
    if cells is None:
        return None
    for i, j in sorted(cells):
        text = escaped(new(unescaped(before.texts[i][j])))
        if text != before.texts[i][j]:
            lines.append(b"set\tcell\t%d\t%d\t%b" % (i, j, text))
    return b"\n".join(lines)


def is_free(table, cell):
    """Whether a cell is visible and no anchor."""
    return cell not in table.spans and not table.hides(*cell)


def runs(table, cells, step):
    """The first cell and the length of each run of two or more among cells, where a step leads from one to the next."""
    further = lambda cell: (cell[0] + step[0], cell[1] + step[1])
    earlier = lambda cell: (cell[0] - step[0], cell[1] - step[1])
    text = lambda cell: table.texts[cell[0]][cell[1]]

    def joins(cell):
        both = cell, further(cell)
        return all(it in cells and is_free(table, it) for it in both) and text(both[0]) == text(both[1])

    for first in sorted(cells):
        if joins(first) and not joins(earlier(first)):
            last = first
            while joins(last):
                last = further(last)
            yield first, 1 + max(last[0] - first[0], last[1] - first[1])


def merge_by_spans(before, words, run):
    """`merge` is said by an `rspan` or a `cspan` for each run."""
    if words[0] != b"merge":
        return None
    listed, lines, table = entities(before, words[2:], run), [], before.copied()
    if listed is None:
        return None
    is_vertical = words[1] == b"vertical"
    verb, step = (b"rspan", (1, 0)) if is_vertical else (b"cspan", (0, 1))
    for cells in listed:
        for (i, j), length in list(runs(table, cells, step)):
            table.spans[i, j] = (length, 1) if is_vertical else (1, length)
            lines.append(b"%b\t%d\tcell\t%d\t%d" % (verb, length, i, j))
    return b"\n".join(lines)


def kept_by_set(before, words, run):
    """`keep` and `sort` are said by the table that they make."""
    return kept.lines_of_table(before, *kept.places(before, words)) if words[0] in kept.VERBS else None


SAID = [texts_by_set, merge_by_spans, kept_by_set]


def is_too_deep(before, words, run):
    """Whether the selector of a `merge` stands too deep for another to be put around it twice."""
    return words[0] == b"merge" and entities(before, words[2:], run) is None
