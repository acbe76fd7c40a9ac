"""What Python's json makes of bytes, as the program shows it."""

import json
import re

MARK = b"\xef\xbb\xbf"
BLANKS = " \t\n\r"
ESCAPE = re.compile(r"\\(.)")
ESCAPED = {"t": "\t", "n": "\n", "\\": "\\"}
HALF = re.compile("[\ud800-\udfff]")


class Number(str):
    """A number, as it is written."""


class Constant(str):
    """NaN, Infinity or -Infinity."""


class Members(list):
    """The members of an object, in order, each a key and a value."""


DECODER = json.JSONDecoder(parse_int=Number, parse_float=Number, parse_constant=Constant, object_pairs_hook=Members)


class NoTable(Exception):
    """Why bytes have no table: 'no JSON', or in which way Python takes more."""


def parts_of(value):
    """All values in a value, and all keys, without a call of itself."""
    waiting = [value]
    while waiting:
        part = waiting.pop()
        yield part
        if isinstance(part, Members):
            waiting += [it for member in part for it in member]
        elif isinstance(part, list):
            waiting += part


def values_of(text):
    """The values that stand one behind another: of one array, its elements, where nothing else is there."""
    values, end = [], len(text) - len(text.lstrip(BLANKS))
    is_array = text[end : end + 1] == "["
    while end < len(text):
        value, end = DECODER.raw_decode(text, end)
        values.append(value)
        end = len(text) - len(text[end:].lstrip(BLANKS))
        if is_array and end < len(text):
            raise NoTable("no JSON")
    return values[0] if is_array else values


def table_of(given):
    """The table that bytes mean, where a nested value is itself. Raises NoTable."""
    try:
        values = values_of(given.removeprefix(MARK).decode())
    except RecursionError:
        raise NoTable("nested deeply") from None
    except ValueError:
        raise NoTable("no JSON") from None
    for part in parts_of(values):
        if isinstance(part, Constant):
            raise NoTable("NaN or Infinity")
        if isinstance(part, str) and HALF.search(part):
            raise NoTable("half of a surrogate pair")
    if values and isinstance(values[0], list) and not isinstance(values[0], Members):
        if any(isinstance(it, Members) or not isinstance(it, list) for it in values):
            raise NoTable("no records")
        return values
    if not all(isinstance(it, Members) for it in values):
        raise NoTable("no records")
    keys = list(dict.fromkeys(key for members in values for key, _ in members))
    rows = [dict(members) for members in values]
    return [keys, *([row.get(key) for key in keys] for row in rows)] if values else []


def is_text(value, text, given):
    """Whether a value has this text in a cell: nested, it is the JSON as it is written, which means this value."""
    if isinstance(value, list):
        return text in given and DECODER.raw_decode(text) == (value, len(text))
    if isinstance(value, bool):
        return text == ("true" if value else "false")
    return text == ("" if value is None else value)


def is_table(rows, texts, given):
    """Whether rows of values have these texts, short rows padded."""
    width = max(map(len, rows), default=0)
    padded = [[*row, *[None] * (width - len(row))] for row in rows]
    return len(padded) == len(texts) and all(
        len(row) == len(line) and all(is_text(value, text, given) for value, text in zip(row, line)) for row, line in zip(padded, texts)
    )


def texts_of(output):
    """The rows of a script without escapes."""
    lines = output.decode().split("\n")
    assert lines[0].startswith("shape\t") and lines[-1] == "", lines
    return [[ESCAPE.sub(lambda it: ESCAPED[it[1]], word) for word in line.split("\t")[1:]] for line in lines[1:-1]]
