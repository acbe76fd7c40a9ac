"""The scripts of examples/ with what they print and their pictures, for pages.

NAME.script prints NAME.table, and `--draw` draws it as NAME.picture; NAME.before.picture has the table before the steps.
Each NAME.txt of gallery/ has all of that, below lines such as `== prints`.
"""

import re
from itertools import zip_longest
from typing import NamedTuple

IN_FRONT = ("shape", "row", "span")  # words of the lines in front of the steps
LONG = 80  # characters of a line that a page shows whole
GAP = "    gives    "


class Example(NamedTuple):
    """A script, what it prints, its picture and that of its table before its steps; a faulty one has no pictures."""

    script: str
    output: str
    picture: str
    before: str

    def is_faulty(self):
        return self.output.startswith("line ")

    def front(self):
        return [it for it in lines_of(self.script) if it.split("\t")[0] in IN_FRONT]

    def steps(self):
        return [it for it in lines_of(self.script) if it and it.split("\t")[0] not in IN_FRONT]


def lines_of(text):
    return text.removesuffix("\n").split("\n")


def text_of(path):
    if not path.is_file():
        raise SystemExit(f"{path}: there is no such file (`./tabled_script --draw` makes pictures)")
    return path.read_bytes().decode()


def example(script):
    """The example of a script that stands in a file of its own."""
    made = Example(text_of(script), text_of(script.with_suffix(".table")), "", "")
    if made.is_faulty():
        return made
    made = made._replace(picture=text_of(script.with_suffix(".picture")))
    return made._replace(before=text_of(script.with_suffix(".before.picture"))) if made.steps() else made


def whole_example(file):
    """The example that a file of the gallery is."""
    parts = dict(re.findall(r"^== (.*)\n((?:(?!== ).*\n)*)", text_of(file), re.M))
    return Example(parts["script"], parts["prints"], parts.get("drawn", ""), parts.get("drawn before its steps", ""))


def examples(top):
    """Each example, by name."""
    found = {it.stem: example(it) for it in top.glob("examples/*.script")}
    found |= {it.stem: whole_example(it) for it in top.glob("examples/gallery/*.txt")}
    return dict(sorted(found.items()))


def beside(left, right):
    """Two pictures in one. The lines of a picture are equally wide, and the first has a character for each column."""
    blank, middle = " " * len(left[0]), (max(len(left), len(right)) - 1) // 2
    rows = enumerate(zip_longest(left, right))
    return [((a or blank) + (GAP if i == middle else " " * len(GAP)) + (b or "")).rstrip() for i, (a, b) in rows]


def shortened(line):
    """A line of a script; of a long one the ends, and how many words are left out."""
    words = line.split("\t")
    if len(line) > LONG:
        words[3:-3] = [f"({len(words) - 6} more words)"]
    return "    " + "\t".join(words)


def indented(text):
    return "\n".join(f"    {line}" for line in lines_of(text))


def fenced(lines):
    return "\n".join(["```text", *lines, "```"])


def shown(it):
    """The steps of an example between its pictures; without steps all lines and the picture, or the fault."""
    if it.steps() and not it.is_faulty():
        sides = beside(lines_of(it.before), lines_of(it.picture))
        return "\n".join([*map(shortened, it.steps()), "", fenced(sides)])
    given = indented(it.output) if it.is_faulty() else fenced(lines_of(it.picture))
    return "\n".join([*map(shortened, lines_of(it.script)), "", "gives", "", given])


def styles(top, *names):
    """The pictures of examples/styles beside one another, under their names."""
    pictures = [[it, "", *lines_of(text_of(top / f"examples/styles/{it}.picture"))] for it in names]
    widths = [max(map(len, it)) for it in pictures]
    rows = zip_longest(*pictures, fillvalue="")
    return fenced(["    ".join(f"{line:<{width}}" for line, width in zip(row, widths)).rstrip() for row in rows])


def makers(top):
    """What stands for a line of a page that names a script, by the line's first word."""
    made = examples(top)
    return {
        "script": lambda it: indented(made[it].script),
        "printed": lambda it: indented(made[it].output),
        "drawn": lambda it: fenced(lines_of(made[it].picture)),
        "shown": lambda it: shown(made[it]),
        "styles": lambda *names: styles(top, *names),
    }


def unshown(top, prose):
    """The scripts of the gallery that pages neither show nor lead to."""
    named = set(re.findall(r"^<!-- (?:shown|script):(\S+) -->$|examples/gallery/(\S+)\.txt\)", prose, re.M))
    named = {name for both in named for name in both}
    return [it.stem for it in top.glob("examples/gallery/*.txt") if it.stem not in named]
