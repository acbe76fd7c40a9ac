"""Odd tables of HTML, and what a reader makes of them."""

import random
import re

import html5lib

PLAIN = ["a", "b c", "é", "👍", "'", '"', ">", "\u2028", "\x80", "\x9f", "\x01", "\x0c", "\t", "\n", "\r", "\r\n", "\0", "]]>", "&amp;", "&lt;", "&gt;", "&amp;lt;"]
PLAIN += ["&#65;", "&#065", "&#x41;", "&#X4a", "&#13;", "&#10;", "&#0;", "&#x80;", "&#129;", "&#159;", "&#xD800;", "&#xdfff;", "&#1114111;", "&#1114112;", "&#xFFFF;"]
PLAIN += ["&", "& ", "&;", "&#", "&#;", "&#x", "&#xg", "&&", "&-"]
OTHER = ["&nbsp;", "&copy", "&amp", "&amp=", "&unknown;", "<b>x</b>", "<!-- c -->", "<br>", "</p>", "<", "<3"]
SPACES = ["", "", "", " ", "\n", "\t", "\r\n", "\f", "  "]
KNOWN = re.compile(r"&(?:amp;|lt;|gt;|#[0-9]+;?|#[xX][0-9a-fA-F]+;?|#[xX](?![0-9a-fA-F])|#(?![0-9xX])|(?![A-Za-z0-9#]))")


class Maker:
    """Makes tables, one after another, and tells of each whether the definitions describe all that is in it."""

    def __init__(self, seed):
        self.random = random.Random(seed)

    def cased(self, name):
        """A name in small letters, capitals, or both."""
        return self.random.choice([name, name, name.upper(), name.capitalize()])

    def text(self):
        pieces = [self.random.choice(PLAIN) for _ in range(self.random.choice([0, 1, 1, 2, 4]))]
        if self.random.random() < 0.02:
            pieces.append(self.random.choice(OTHER))
        text = "".join(pieces)
        self.is_described &= "<" not in KNOWN.sub("", text) and "&" not in KNOWN.sub("", text)
        return text

    def attribute(self, name, value):
        how = self.random.random()
        if how < 0.01:
            self.is_described = False
            return f"{self.cased(name)}={value or 'x'}"
        if how < 0.02:
            self.is_described = False
            return f"{self.cased(name)}='{value}'"
        return f'{self.cased(name)}={self.random.choice(["", "", "", " ", chr(10)])}"{value}"'

    def tag(self, name, attributes=()):
        blanks = [self.random.choice([" ", "\n", " \t", "\r\n", "\f"]) for _ in attributes]
        return f"<{self.cased(name)}" + "".join(map(str.__add__, blanks, attributes)) + self.random.choice(["", "", " ", "\n"]) + ">"

    def end(self, name):
        return f"</{self.cased(name)}{self.random.choice(['', '', ' '])}>"

    def cell(self):
        name = self.random.choice(["td", "td", "th"])
        attributes = []
        if self.random.random() < 0.3:
            attributes.append(self.attribute("colspan", self.random.choice(["0", "1", "2", "3", "02", "1000", "2000"])))
        if self.random.random() < 0.3:
            attributes.append(self.attribute("rowspan", self.random.choice(["0", "0", "1", "2", "3", "002", "65535"])))
        if self.random.random() < 0.2:
            attributes.append(self.attribute("class", self.random.choice(["", "a b", "<'>", "é", "a\r\nb"])))
        if attributes and self.random.random() < 0.1:
            # One that stands twice: the first one counts.
            attributes.append(self.attribute(self.random.choice(["colspan", "rowspan", "class"]), self.random.choice(["1", "2", "3"])))
        self.random.shuffle(attributes)
        return self.tag(name, attributes) + self.text() + self.end(name)

    def row(self):
        cells = "".join(self.cell() + self.random.choice(SPACES) for _ in range(self.random.choice([0, 1, 2, 2, 3])))
        return self.tag("tr") + self.random.choice(SPACES) + cells + self.end("tr") + self.random.choice(SPACES)

    def group(self):
        """A row group, or rows whose group is implied: another one that ends these isn't described."""
        rows = "".join(self.row() for _ in range(self.random.choice([0, 1, 2, 3])))
        name = self.random.choice(["thead", "tbody", "tbody", ""])
        if name:
            self.is_described &= not self.is_implied
            return self.tag(name) + self.random.choice(SPACES) + rows + self.end(name) + self.random.choice(SPACES)
        self.is_implied |= rows != ""
        return rows

    def table(self):
        """The text of a table, and whether the definitions describe it."""
        self.is_described = True
        self.is_implied = False
        attributes = [self.attribute("class", "wide")] if self.random.random() < 0.2 else []
        text = self.tag("table", attributes) + self.random.choice(SPACES)
        if self.random.random() < 0.2:
            text += self.tag("caption") + self.text() + self.end("caption") + self.random.choice(SPACES)
        text += "".join(self.group() for _ in range(self.random.choice([0, 1, 1, 2, 3])))
        if self.random.random() < 0.02:
            self.is_described = False
            return text, False
        text += self.end("table") + self.random.choice(SPACES)
        return text, self.is_described


    def forming(self):
        """The row groups of a table whose cells have spans of all kinds: whether it is a head, and its rows of cells, each with its spans and a name."""
        count, groups = 0, []
        for k in range(self.random.choice([1, 1, 2])):
            rows = []
            for _ in range(self.random.choice([1, 2, 3, 4])):
                cells = []
                for _ in range(self.random.choice([0, 1, 2, 3])):
                    count += 1
                    wide = self.random.choice([None, None, None, "0", "1", "2", "3", "4"])
                    high = self.random.choice([None, None, None, "0", "0", "1", "2", "3", "9"])
                    cells.append((wide, high, str(count)))
                rows.append(cells)
            groups.append((k == 0 and self.random.random() < 0.4, rows))
        return groups


def ends_within(rows):
    """No cell of a row group but one that grows downward passes its end."""
    return all(i + int(high or 1) <= len(rows) for i, row in enumerate(rows) for _, high, _ in row)


def text_in(node):
    return "".join(node.itertext())


def read(text):
    """What html5lib reads: the attributes of the table, its caption, and its row groups, each with its rows of cells."""
    page = html5lib.parse(text, treebuilder="etree", namespaceHTMLElements=False)
    table = page.find("body/table")
    caption, groups = None, []
    for node in table:
        if node.tag == "caption":
            caption = text_in(node)
            continue
        rows = [[(cell.tag == "th", list(cell.attrib.items()), text_in(cell)) for cell in row] for row in node]
        groups.append((node.tag == "thead", rows))
    return list(table.attrib.items()), caption, groups
