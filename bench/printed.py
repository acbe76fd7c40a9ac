"""What `shape` and `span` lines mean, for a program that doesn't know these two words.

The rules of the two words stand here: which line breaks one, and which steps merge the cells of a `span` line. All
other lines are left to the program.
"""

import re

LARGEST = 2**64 - 1  # number after the two words
ORDER = {b"shape": 0, b"row": 1, b"span": 2}  # of the lines in front of the steps
STEP = 3  # where all other lines stand


def is_printed(line):
    """Whether a line has one of the two words."""
    return line.split(b"\t")[0] in (b"shape", b"span")


def has_bad_bytes(line):
    """Whether a line has a bad escape, or is no UTF-8."""
    try:
        line.decode()
    except UnicodeDecodeError:
        return True
    return b"\\" in re.sub(rb"\\[tn\\]", b"", line)


def number_fault(words):
    """The fault in the numbers of a `shape` or a `span` line, read from the left, or None."""
    count, numbers = 2 if words[0] == b"shape" else 4, []
    for word in words[1 : count + 1]:
        number = int(word) if word.isdigit() else LARGEST + 1
        is_size = len(numbers) >= 2
        if number > LARGEST or is_size and (number == 0 or [*numbers[2:], number] == [1, 1]):
            return 3
        numbers.append(number)
    return None if len(words) == count + 1 else 2


def first_fault(lines):
    """The number and the fault of the first line, other than a step, that is faulty or out of place; or None."""
    reached = -1
    for number, line in enumerate(lines, 1):
        words = line.split(b"\t")
        part = ORDER.get(words[0], STEP)
        if not line or part == STEP:
            reached = STEP if line else reached
        elif has_bad_bytes(line):
            return number, 4
        elif reached > part or part == 0 <= reached:
            return number, 6
        elif is_printed(line) and number_fault(words):
            return number, number_fault(words)
        else:
            reached = part
    return None


def apart(one, other):
    """Whether two rectangles share no cell, each an anchor's row and column, a height and a width."""
    return any(a[k] + a[k + 2] <= b[k] for a, b in ((one, other), (other, one)) for k in (0, 1))


def misfit(lines):
    """The number and the fault of the first `shape` or `span` line that doesn't fit the rows, or None."""
    rows = [line.count(b"\t") for line in lines if line.split(b"\t")[0] == b"row"]
    shape, merged = (len(rows), max(rows, default=0)), []
    for number, line in enumerate(lines, 1):
        if not is_printed(line):
            continue
        word, *numbers = line.split(b"\t")
        numbers = tuple(map(int, numbers))
        if word == b"shape" and numbers != shape:
            return number, 8
        if word == b"span":
            i, j, height, width = numbers
            is_inside = i + height <= shape[0] and j + width <= shape[1]
            if not is_inside or not all(apart(numbers, it) for it in merged):
                return number, 7
            merged.append(numbers)
    return None


def faulty(number, fault):
    """What is answered to a faulty script."""
    return 2, b"line %d: fault %d\n" % (number, fault)


def merging(line):
    """The steps that merge the cells of a `span` line, where these are inside the table and apart from others."""
    word, *numbers = line.split(b"\t")
    if word == b"shape":
        return b""
    i, j, height, width = map(int, numbers)
    sizes = [(verb, size) for verb, size in ((b"cspan", width), (b"rspan", height)) if size > 1]
    return b"\n".join(b"%b\t%d\tcell\t%d\t%d" % (*it, i, j) for it in sizes)


def knowing(run):
    """The answers of a program that knows the two words, by one that doesn't."""

    def without(lines, other):
        return run(b"\n".join(other(it) if is_printed(it) else it for it in lines))

    def answer(script):
        lines = script.split(b"\n")
        if not any(map(is_printed, lines)):
            return run(script)
        fault = first_fault(lines)
        earlier = without(lines[: fault[0] - 1] if fault else lines, lambda it: b"")
        if earlier[0] == 2:  # only a faulty line ends so
            return earlier
        fault = fault or misfit(lines)
        return faulty(*fault) if fault else without(lines, merging)

    return answer
