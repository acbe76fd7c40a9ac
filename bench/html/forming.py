"""Tables of HTML, read by Python's standard library or html5lib, and formed as the HTML standard says."""

import re
from html.parser import HTMLParser

try:
    import html5lib
except ImportError:
    html5lib = None


class Elements(HTMLParser):
    """What the standard library reads of a table: its caption, its class and its row groups."""

    def __init__(self, text):
        super().__init__()
        self.caption, self.name, self.groups, self.texts = None, "", [], []
        self.feed(re.sub("\r\n?", "\n", text))
        self.close()

    def handle_starttag(self, tag, attributes):
        self.texts = []
        if tag == "table":
            self.name = dict(attributes).get("class", "")
        elif tag in ("thead", "tbody"):
            self.groups.append((tag, []))
        elif tag == "tr":
            self.groups[-1][1].append([])
        elif tag in ("td", "th"):
            self.groups[-1][1][-1].append((tag, dict(attributes), self.texts))

    def handle_endtag(self, tag):
        if tag == "caption":
            self.caption = "".join(self.texts)
        self.texts = []

    def handle_data(self, data):
        self.texts.append(data)


def of_standard_library(html):
    """How many rows a table has, its caption, its class, and its cells at their slots."""
    read = Elements(html.decode())
    count, cells = formed((group, [[(tag, attributes, "".join(texts)) for tag, attributes, texts in row] for row in rows]) for group, rows in read.groups)
    return count, read.caption, read.name, cells


def of_html5lib(html):
    """The same, as html5lib reads it."""
    table = html5lib.parse(html, treebuilder="etree", namespaceHTMLElements=False, transport_encoding="utf-8").find("body/table")
    text = lambda node: "".join(node.itertext())
    caption = table.find("caption")
    groups = [(group.tag, [[(it.tag, it.attrib, text(it)) for it in row] for row in group]) for group in table if group.tag != "caption"]
    count, cells = formed(groups)
    return count, None if caption is None else text(caption), table.get("class", ""), cells


def formed(groups):
    """How many rows there are, and of each cell column, row, width, height, element, scope, alignment, row group and text."""
    taken, cells, y = set(), [], 0
    for group, rows in groups:
        for row in rows:
            x = 0
            for tag, attributes, text in row:
                while (x, y) in taken:
                    x += 1
                width, height = (int(attributes.get(it, 1)) for it in ("colspan", "rowspan"))
                taken |= {(x + i, y + j) for i in range(width) for j in range(height)}
                style = attributes.get("style", "").removeprefix("text-align: ")
                cells.append((x, y, width, height, tag.upper(), attributes.get("scope", ""), style, group.upper(), text))
                x += width
            y += 1
    return y, cells
