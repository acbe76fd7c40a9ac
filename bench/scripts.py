"""Random scripts of the whole language, whole and faulty."""

import random
from itertools import product

# Texts of words, as they stand in a script. The short ones come often, so that texts are equal and found.
SHORT = [b"a", b"a", b"b", b"b", b"c", b""]
PLAIN = [b"", b"a", b"x y", b" ", b"row", b"set", b"all", b"cell", b"0", b"\r", b"a\r", b"\0", b"\x1f", b"\x7f",
         b"\xc2\x85", "é".encode(), "漢字".encode(), "\U0001f600".encode(), "e\u0301".encode(),
         "\u200b".encode(), "\ufeff".encode()]
ESCAPED = [b"\\t", b"\\n", b"\\\\", b"a\\tb", b"\\\\n", b"\\\\\\t", b"\\n\\n", b"a\\nb", "é\\té".encode()]
BAD_ESCAPES = [b"\\", b"\\x", b"a\\", b"\\\\\\", b"\\T", b"\\\r", b"\\ ", "\\é".encode()]
# Words of a text, with blanks between: two blanks come often.
WRAPPED = [b"a", b"bc", b"def", b"", b"", "漢字".encode(), "e\u0301".encode(), b"\\n", b"\\t", b"\r"]
# Cut off, unfinished after an escape, too long, a surrogate, beyond the last character.
BAD_TEXTS = [b"\xff", b"\x80", b"a\xc3", b"\xc3\\t\xa9", b"\xc0\xaf", b"\xed\xa0\x80",
             b"\xf4\x90\x80\x80", b"\xe6\xbc", b"\xf0\x9f\x98", b"\xe9"]
UNKNOWN_WORDS = [b"spin", b"", b"Row", b"row ", b" row", b"row\r", b"SET", b"set\r", b"al", b"0", b"a", b"\\t",
                 "é".encode(), b"first", b"first-row-plus", b"last", b"segments", b"step-by", b"panel", b"zip "]
KNOWN_WORDS = [b"row", b"set", b"cell", b"all", b"column", b"rows", b"columns", b"start", b"end", b"left", b"zip",
               b"concat", b"clean", b"retain", b"vertical", b"horizontal", b"named", b"name", b"frame", b"and", b"step",
               b"tabs", b"shape", b"span", b"wrap", b"merge", b"truncate", b"replace", b"keep", b"sort", b"text", b"number",
               b"down"]
GOOD_NUMBERS = [b"00", b"01", b"0003", b"0000000000000000000000000000001", b"10000", b"9999", b"0000010000"]
BAD_NUMBERS = [b"", b"+0", b"-0", b"+1", b"-1", b"+", b"-", b"--1", b"10001", b"010001", b"99999", b"4294967296",
               b"18446744073709551615", b"18446744073709551616", b"18446744073709551617", b"9" * 40, b"1x", b"x", b"1 ",
               b" 1", b"1\r", b"1.0", b"0x1", b"1e1", "١".encode(), b"\\t1", b"all"]
GOOD_SIZES = [b"-0", b"00", b"-01", b"-10000", b"10000", b"-9999", b"0002", b"-0000000000000000000000000000000002"]
SIZES = [-2, -1, 0, 1, 1, 2, 2, 2, 3, 3, 4]
BAD_SIZES = [b"", b"-", b"--1", b"+1", b"-10001", b"10001", b"- 1", b"-x", b"1-", b"-1\r", b"-" + b"9" * 40]
OPERATORS = [b"=", b"=", b"!=", b"<", b"<=", b">", b">="]  # of tests behind `keep rows`
DECIMALS = [b"0", b"1", b"2", b"-1", b"1.0", b".5", b"+2", b"10"]
FAR_NUMBERS = [10_000, 10_001, 2**64 - 2, 2**64 - 1]  # after `shape` and `span`
# What mutations put in: bytes that mean something.
BYTES = [b"\t", b"\n", b"\\", b"\r", b"\0", b" ", b"+", b"-", b"0", b"1", b"9", b"t", b"n", b"x", b"\xff", b"\xc3",
         b"\xa9"]

# What can be wrong in a script.
FLAWS = ["text", "number", "size", "selector", "word", "name", "missing", "extra", "order", "depth"]

# Selectors that hold no other, with how many numbers stand after each.
NUMBERED = {b"all": 0, b"cell": 2, b"row": 1, b"column": 1, b"first-row": 0, b"last-row": 0, b"first-column": 0,
            b"last-column": 0, b"last-row-minus": 1, b"last-row-plus": 1, b"last-column-minus": 1,
            b"last-column-plus": 1, b"rows": 2, b"columns": 2, b"segment": 4, b"frame": 0}
LENGTHS = [0, 1, 2, 3, 3, 3, 4, 4, 4, 5, 5, 6]  # of tables, often enough not empty
DEPTH = 64  # to which selectors stand in others


class Scripts:
    """Random scripts: that of a number is the same for a seed, whichever come before it."""

    def __init__(self, seed):
        self.seed = seed
        self.steps = [self.set, self.dup, self.clean, self.tabs, self.cspan, self.rspan, self.cspan, self.rspan,
                      self.hpanel, self.vpanel, self.vpanelw, self.header, self.footer, self.vmerge, self.hmerge,
                      self.rotate, self.reverse, self.split, self.split, self.extract, self.remove, self.concat,
                      self.wrap, self.truncate, self.replace, self.merge, self.merge, self.keep, self.keep, self.sort]

    def one_of(self, things):
        return things[int(self.random.random() * len(things))]

    def below(self, n):
        return int(self.random.random() * n)

    def faulty(self, flaw):
        return self.random.random() < (0.3 if flaw == self.flaw else 0.001)

    def text(self):
        if self.faulty("text"):
            return self.one_of(BAD_ESCAPES + BAD_TEXTS)
        if self.below(3) > 0:
            return self.one_of(SHORT if self.below(4) > 0 else DECIMALS)
        if self.below(2) == 0:
            return b" ".join(self.one_of(WRAPPED) for _ in range(1 + self.below(5)))
        return b"".join(self.one_of(self.one_of([PLAIN, PLAIN, ESCAPED])) for _ in range(self.one_of([1, 1, 1, 0, 3])))

    def number(self):
        if self.faulty("number"):
            return self.one_of(BAD_NUMBERS)
        return self.one_of(GOOD_NUMBERS) if self.below(16) == 0 else b"%d" % self.below(6)

    def size(self):
        if self.faulty("size"):
            return self.one_of(BAD_SIZES)
        return self.one_of(GOOD_SIZES) if self.below(12) == 0 else b"%d" % self.one_of(SIZES)

    def word(self, *words):
        return self.one_of(UNKNOWN_WORDS + KNOWN_WORDS) if self.faulty("word") else self.one_of(words)

    def selector(self, depth=DEPTH):
        if self.faulty("depth"):
            return self.chain(self.one_of([depth - 2, depth - 1, depth, depth + 1]))
        if depth < DEPTH - 5 or self.below(4) > 0:
            return self.plain_selector()
        kind = self.one_of([b"and", b"not", b"intersect", b"inverse", b"skip", b"step"])
        if kind in (b"skip", b"step"):
            return [kind, self.number(), *self.selector(depth - 1)]
        if kind == b"inverse":
            return [kind, *self.selector(depth - 1)]
        return [kind, *self.selector(depth - 1), *self.selector(depth - 1)]

    def chain(self, length):
        """Selectors one in another, and a plain one in the last."""
        kinds = [[b"inverse"], [b"skip", b"0"], [b"step", b"1"], [b"and", b"row", b"0"], [b"not", b"row", b"0"]]
        words = [word for _ in range(length) for word in self.one_of(kinds)]
        return words + self.plain_selector()

    def plain_selector(self):
        if self.faulty("selector"):
            return [self.one_of(UNKNOWN_WORDS + KNOWN_WORDS)]
        kind = self.below(len(NUMBERED) + 4)
        if kind >= len(NUMBERED):
            return [self.one_of([b"content", b"content", b"name"]), self.text()]
        word = list(NUMBERED)[kind]
        if word == b"segment":  # two large ranges would be a hundred million cells
            return [word, self.number(), self.number(), b"%d" % self.below(6), b"%d" % self.below(6)]
        return [word] + [self.number() for _ in range(NUMBERED[word])]

    def digits(self, number):
        """A number after `shape` or `span`."""
        if self.faulty("number"):
            return self.one_of(BAD_NUMBERS)
        return b"0" * self.one_of([0] * 9 + [1, 30]) + b"%d" % number

    def shape(self, rows, columns):
        """The shape of the records, or one nearby."""
        shape = [rows, columns]
        if self.below(12) == 0:
            shape = [self.one_of([it, it + 1, max(it, 1) - 1, self.one_of(FAR_NUMBERS)]) for it in shape]
        return [b"shape", *map(self.digits, shape)]

    def spans(self, rows, columns):
        """Merged cells, which most often lie inside the table and apart."""
        free = {*product(range(rows), range(columns))}
        for _ in range(self.one_of([1, 1, 2, 3, 5])):
            i, j = self.below(max(rows, 1)), self.below(max(columns, 1))
            height, width = 1 + self.below(min(3, rows - i)), 1 + self.below(min(3, columns - j))
            cells = {*product(range(i, i + height), range(j, j + width))}
            if self.below(16) == 0:
                yield [self.one_of([it, it, it + 1, 0, self.one_of(FAR_NUMBERS)]) for it in (i, j, height, width)]
            elif len(cells) > 1 and (cells <= free or self.below(8) == 0):
                free -= cells
                yield [i, j, height, width]

    def span(self, numbers):
        return [b"span", *map(self.digits, numbers)]

    def row(self):
        return [b"row"] + [self.text() for _ in range(self.one_of([self.columns, self.columns, self.below(6)]))]

    def set(self):
        return [b"set", *self.selector(), self.text()]

    def dup(self):
        return [b"dup", *self.selector(), *self.selector()]

    def clean(self):
        return [b"clean", *self.selector()]

    def tabs(self):
        return [b"tabs", b"%d" % self.below(4), *self.selector()]

    def many_cells(self):
        """A selector, which often names many cells side by side."""
        lines = [b"rows", b"0", self.number()], [b"columns", b"0", self.number()]
        return self.one_of([[b"all"], *lines]) if self.below(2) == 0 else self.selector()

    def wrap(self):
        width = self.number() if self.below(3) == 0 else b"%d" % self.below(4)
        return [b"wrap", width, *self.many_cells()]

    def truncate(self):
        return [b"truncate", *self.wrap()[1:]]

    def replace(self):
        return [b"replace", self.text(), self.text(), *self.many_cells()]

    def merge(self):
        return [b"merge", self.word(b"vertical", b"horizontal"), *self.many_cells()]

    def end(self):
        """An index from either end, which may be missing."""
        if self.faulty("number"):
            return self.one_of(BAD_NUMBERS)
        return self.one_of([b"", b"%d" % self.below(6), b"-%d" % self.below(6), b"%d" % self.one_of(FAR_NUMBERS)])

    def named_line(self, kind):
        """What names lines behind `keep`."""
        way = self.below(4)
        if way == 0:
            return self.one_of([b"", b"-"]) + b"%d" % self.below(6)
        if way == 1:
            return self.end() + b":" + self.end()
        if kind == b"rows":
            return self.text() + self.one_of(OPERATORS) + self.one_of([self.text(), self.one_of(DECIMALS)])
        return self.one_of([b"", b"="]) + self.text()

    def keep(self):
        kind = self.word(b"rows", b"columns")
        return [b"keep", kind, *(self.named_line(kind) for _ in range(1 + self.below(4)))]

    def sort(self):
        column = self.one_of([b"%d" % self.below(6), self.text(), b"=" + self.text()])
        ways = [self.word(b"text", b"number"), *[self.word(b"down")] * self.below(2)]
        return [b"sort", self.word(b"rows"), b"%d" % self.below(3), column, *ways]

    def cspan(self):
        return [b"cspan", self.size(), *self.selector()]

    def rspan(self):
        return [b"rspan", self.size(), *self.selector()]

    def hpanel(self):
        return [b"hpanel", self.number(), self.text()]

    def vpanel(self):
        return [b"vpanel", self.number(), self.text()]

    def vpanelw(self):
        return [b"vpanelw", self.number(), self.number(), self.text() + self.text() + self.text()]

    def header(self):
        return [b"header", self.text()]

    def footer(self):
        return [b"footer", self.text()]

    def vmerge(self):
        return [b"vmerge"]

    def hmerge(self):
        return [b"hmerge"]

    def rotate(self):
        return [b"rotate", self.word(b"left", b"right", b"top", b"bottom")]

    def reverse(self):
        return [b"reverse", self.word(b"rows", b"columns"), self.number(), self.word(b"start", b"end"), self.number()]

    def split(self):
        words = [self.word(b"zip", b"concat"), self.word(b"clean", b"retain")]
        return [b"split", self.word(b"column", b"row"), self.number(), *words]

    def extract(self):
        return [b"extract", self.number(), self.number(), self.number(), self.number()]

    def remove(self):
        kind = self.word(b"rows", b"columns", b"named")
        return [b"remove", kind, self.text()] if kind == b"named" else [b"remove", kind, self.number(), self.number()]

    def concat(self):
        rows, columns = (self.below(4) if self.faulty("number") else 1 + self.below(3) for _ in range(2))
        texts = [self.text() for _ in range(rows * columns)]
        return [b"concat", self.word(b"vertical", b"horizontal"), self.text(), b"%d" % rows, b"%d" % columns, *texts]

    def line(self, kind):
        words = kind()
        if self.faulty("name"):
            words[0] = self.one_of(UNKNOWN_WORDS + KNOWN_WORDS)
        if self.faulty("missing"):
            del words[self.below(len(words))]
        if self.faulty("extra"):
            words.insert(self.below(len(words) + 1), self.text())
        return b"\t".join(words)

    def script(self, number):
        self.random = random.Random(f"{self.seed} {number}")
        self.flaw = self.one_of([None] * 3 * len(FLAWS) + FLAWS)  # what is often wrong in this script
        self.columns = self.one_of(LENGTHS)
        records = [self.line(self.row) for _ in range(self.one_of(LENGTHS))]
        shape = len(records), max((it.count(b"\t") for it in records), default=0)
        steps = [self.line(self.one_of(self.steps)) for _ in range(self.below(8))]
        shapes = [self.line(lambda: self.shape(*shape))] * (self.below(4) == 0)
        merged = [self.line(lambda: self.span(it)) for it in self.spans(*shape)] if self.below(3) == 0 else []
        lines = shapes + records + merged + steps
        if self.faulty("order") or shapes + merged and self.below(12) == 0:
            self.random.shuffle(lines)  # so that records stand after steps
        for _ in range(self.one_of([0, 0, 1, 2])):
            lines.insert(self.below(len(lines) + 1), b"")
        script = b"\n".join(lines) + self.one_of([b"", b"\n"])
        for _ in range(self.one_of([0] * 12 + [1, 3])):
            i = self.below(len(script) + 1)
            script = script[:i] + self.one_of(BYTES + [b""]) + script[i + self.below(2) :]
        return script
