"""Leaves bodies of functions out of a crate's copy, where only some functions are to be checked.

A proof of a function knows of the functions that it calls nothing but their contracts. So in place of the others' bodies
stands one call of a foreign function, of which it is assumed that it never returns.
"""

import re
import shutil

FUNCTION = re.compile(r"( *)(?:pub(?:\([^)]*\))? )?(?:override )?fn (\w+)")
CYCLE = re.compile(r" *#\[cycle\((\w+)\)\]$")
OF_ONE_FUNCTION = ("Proof.antt", "Answers.antt", "Invariants.antt")
BODY = ("crate::never::returns();", "unreachable!()")
NEVER = 'unsafe extern "C" {\n    pub safe fn returns()\n        ensures { ⊥ };\n}\n'


class Body:
    """Where a function's body of more than a line stands in a file's lines, as `rt fmt` lays them out."""

    def __init__(self, lines, first):
        self.indent, self.name = FUNCTION.match(lines[first]).groups()
        self.first, self.opens, self.closes = first, None, first
        # Of its lines, those of its signature and its braces are as far in as the first one.
        for at in range(first, len(lines)):
            own = lines[at].removeprefix(self.indent)
            if at == first or re.match(r"\)|where$|\{$", own):
                if own.endswith("{"):
                    self.opens, self.closes = at, lines.index(self.indent + "}", at)
                if own.endswith(("{", ";", "}")):
                    break
            elif re.match(r"\S", own):
                break
        cycle = CYCLE.match(lines[first - 1]) if first else None
        self.cycle = cycle and cycle[1]


def bodies(lines):
    """Those of a file."""
    at, found = 0, []
    while at < len(lines):
        if FUNCTION.match(lines[at]):
            found.append(Body(lines, at))
            at = found[-1].closes
        at += 1
    return [it for it in found if it.opens]


def leave_out(crate, names):
    """Leaves all bodies out of a crate's copy but those of functions with some names, and of those in a cycle with one."""
    texts = {it: it.read_text().splitlines() for it in (crate / "src").rglob("*.rt")}
    every = {file: bodies(lines) for file, lines in texts.items()}
    cycles = {it.cycle for found in every.values() for it in found if it.cycle and it.name in names}
    names = {*names, *(it.name for found in every.values() for it in found if it.cycle in cycles)}
    left_out = set()
    for file, lines in texts.items():
        for it in reversed(every[file]):
            if it.name not in names:
                left_out.add(it.name)
                lines[it.opens + 1 : it.closes] = [f"{it.indent}    {line}" for line in BODY]
                if it.cycle:
                    del lines[it.first - 1]
        file.write_text("\n".join([*lines, *(["mod never;"] if file == crate / "src/lib.rt" else [])]) + "\n")
    (crate / "src/never.rt").write_text(NEVER)
    for folder in {it.parent for it in (crate / "proofs").rglob("*.antt") if it.name in OF_ONE_FUNCTION}:
        if folder.name.lstrip("+") in left_out:
            shutil.rmtree(folder)
