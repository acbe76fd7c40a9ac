"""Random tables as HTML, and what has to be seen of them."""

import pathlib
import random
import sys

sys.path.insert(0, str(pathlib.Path(__file__).resolve().parent.parent))

from program import Program
from scripts import Scripts
from texts import HOSTILE, escaped, unescaped

LONGEST = 300  # cells of a table
ALIGNED = {"l": "left", "c": "center", "r": "right"}


def printed(output):
    """The rows of texts and the merged cells of a printed table."""
    rows, spans = [], []
    for line in output.decode().split("\n")[1:-1]:
        kind, *words = line.split("\t")
        if kind == "row":
            rows.append([unescaped(it) for it in words])
        else:
            spans.append(tuple(map(int, words)))
    return rows, spans


def places(span):
    row, col, height, width = span
    return {(i, j) for i in range(row, min(row + height, 2000)) for j in range(col, min(col + width, 2000))}


def wanted(rows, columns, spans, texts):
    """The cells that there have to be: the merged ones that fit, and those of one place that these don't hold."""
    kept = []
    for span in spans:
        row, col, height, width = span
        is_inside = row + height <= rows and col + width <= columns
        if is_inside and not any(other != span and meet(span, other) for other in spans):
            kept.append(span)
    held = set().union(*map(places, kept)) if kept else set()
    single = [(i, j, 1, 1) for i in range(rows) for j in range(columns) if (i, j) not in held]
    return sorted((i, j, h, w, texts[i][j].replace("\0", "\ufffd")) for i, j, h, w in kept + single)


def meet(one, other):
    return all(one[k] < other[k] + other[k + 2] and other[k] < one[k] + one[k + 2] for k in (0, 1))


class Tables:
    """Random tables: the bytes of HTML, and what has to be seen of them."""

    def __init__(self, program, seed):
        self.scripts, self.random, self.number = Scripts(seed), random.Random(seed), 0
        self.program, self.command = Program([program]), program

    def script(self):
        """A script that prints a table, and its output."""
        while True:
            self.number += 1
            script = self.scripts.script(self.number)
            if self.number % 3 == 0:
                hostile = b"\t".join(escaped(self.random.choice(HOSTILE)) for _ in range(3))
                script = b"row\t" + hostile + b"\nrow\t" + hostile + b"\ncspan\t2\tcell\t0\t1\n"
            status, output = self.program.answer(script)
            if status == 0:
                return script, output

    def table(self):
        while True:
            script, output = self.script()
            rows, spans = printed(output)
            count = int(output.split(b"\n")[0].split(b"\t")[2])
            if len(rows) * count <= LONGEST:
                break
        rows = [row + [""] * (count - len(row)) for row in rows] if count else [[] for _ in rows]
        header = self.random.choice([0, 0, 1, 2])
        caption = self.random.choice([None, None, "", *HOSTILE]) if self.number % 2 else None
        letters = self.random.choice([None, None, "l", "cr", "lcr"])
        command = [self.command, "--to", self.random.choice(["html", "html-page"]), f"--header={header}"]
        if caption is not None and "\0" not in caption:
            command.append(f"--caption={caption}")
        else:
            caption = None
        if letters is not None:
            command.append(f"--align={letters}")
        self.program.command = command
        status, html = self.program.answer(script)
        self.program.command = [self.command]
        if status != 0:
            sys.exit(f"{command} ends with status {status}: {script}")
        begin, end = html.index(b"<table"), html.rindex(b"</table>") + len(b"</table>\n")
        want = wanted(len(rows), count, spans, rows)
        return script, html[begin:end], (len(rows), count, caption, header, letters, want, spans)


def differences(seen, want):
    """What is seen otherwise than it has to be."""
    rows, columns, caption, header, letters, cells, spans = want
    count, shown_caption, name, shown = seen
    found = []
    if count != rows:
        found.append(f"{count} rows in place of {rows}")
    if shown_caption != caption:
        found.append(f"the caption is {shown_caption!r}")
    if sorted((y, x, h, w, text) for x, y, w, h, _, _, _, _, text in shown) != cells:
        found.append(f"cells {shown} in place of {cells}")
    is_crossed = any(i < header < i + h for i, _, h, _, _ in cells)
    has_head = 0 < header <= rows and not is_crossed
    for x, y, _, _, tag, scope, style, group, _ in shown:
        if (tag, scope) != (("TH", "col") if y < header else ("TD", "")):
            found.append(f"row {y}: {tag} {scope}")
        if group != ("THEAD" if has_head and y < header else "TBODY"):
            found.append(f"row {y} is in {group}")
        if style != (ALIGNED[letters[min(int(x), len(letters) - 1)]] if letters else ""):
            found.append(f"column {x} is aligned to {style}")
    return found
