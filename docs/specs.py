"""The definitions of crates/*/specs/: what each is in words."""

import re
import sys

DEFINED = re.compile(r"(?:(?:abbrev|unfoldable|opaque) )?pub (?:(?:data|record|abbrev) )?([^\s:({]+)")


class Definition:
    """A definition: its name, the words above it, and its text."""

    def __init__(self, name, words):
        self.name, self.words, self.lines = name, words, []

    def text(self):
        return "\n".join(self.lines).strip()


def definitions_of(file):
    """The public definitions of a file of specs/. Stops at one that no words say."""
    found, words = [], []
    for line in file.read_text().splitlines():
        if line.startswith("--"):
            words.append(line.removeprefix("--").strip())
            continue
        name = DEFINED.match(line)
        if name and name[1] not in ("mod", "use"):
            if not words:
                sys.exit(f"{file}: no line says in words what {name[1]} is")
            found.append(Definition(name[1], " ".join(words)))
        if found:
            found[-1].lines.append(line)
        words = []
    return found


def stop_at_wordless(top, crates):
    """Stops at a definition of these crates that no words say."""
    for crate in crates:
        for file in (top / "crates" / crate / "specs").glob("*.antt"):
            definitions_of(file)


def first_sentence(file):
    """What a file of specs/ is about, by its first line."""
    said = file.read_text().partition("\n")[0].removeprefix("-- ").rstrip(".")
    return said.partition(". ")[0]
