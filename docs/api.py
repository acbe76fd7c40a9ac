"""docs/API.md, the index of all public names, and on demand a page of each public module."""

import os.path
import re

from contracts import (
    first_sentence, imports_of_clauses, imports_of_types, module_words, owner_of, parts_of, public_names, sources_of,
)
from exports import Exports

# Those of two stand for all.
ALIKE = re.compile(r"tuples/(three|four|five|six|seven|eight|nine|ten)\.rt$")
QUOTED = "`docs/make` makes this page from `src/`."
IMPORTED = " [Imports](#imports) say where the words of the clauses stand."


class Module:
    """A public module of a crate: its sources, each with the parts that stand on its page below it, and its types."""

    def __init__(self, crate, name):
        self.crate, self.name, self.sources, self.types = crate, name, [], []

    def path(self):
        return "::".join([self.crate, *self.name])

    def file(self):
        """Its page, below docs/api."""
        return "/".join([self.crate, *self.name]) + ".md"

    def link(self, target):
        """The way from its page to a file, named below docs/api."""
        return os.path.relpath(target, os.path.dirname(self.file()))

    def told(self):
        """Each part that stands on its page, with the path and the text of its file."""
        paths = {source.text: source.path for source, _ in self.sources}
        return ((paths[text], text, part) for _, told in self.sources for text, part in told)


def modules_of(sources, crate):
    """The public modules of a crate that have something of their own."""
    public, found = public_names(sources), {}
    for source in sources:
        if not ALIKE.search(str(source.path)):
            module = found.setdefault(source.module, Module(crate, source.module))
            module.sources.append((source, [(source.text, it) for it in parts_of(source.text, public)]))
            module.types += imports_of_types(crate, source, public)
    for module in found.values():
        module.sources = under_their_types(module.sources)
    return [*found.values()]


def under_their_types(sources):
    """The parts of a module's files, where calls of a type and what it means stand below the type."""
    types = {part.name for _, told in sources for _, part in told if part.kind in ("struct", "enum", "trait")}
    below = {}

    def is_owned(part):
        return part.kind in ("call", "impl") and owner_of(part) in types

    for _, told in sources:
        for text, part in told:
            if is_owned(part):
                below.setdefault(owner_of(part), []).append((text, part))
    found = []
    for source, told in sources:
        kept = []
        for text, part in told:
            if not is_owned(part):
                kept += [(text, part), *(below.get(part.name, []) if part.name in types else [])]
        found.append((source, kept))
    return found


def anchor(name):
    """The anchor of a heading on a page of Markdown."""
    return re.sub(r"[^\w-]", "", name.lower())


def fenced(lines):
    return ["```text", *lines, "```"]


def told(part, imports):
    """The lines of a page on one name, which code imports so."""
    if part.kind == "impl":
        return [*part.words, *fenced(part.lines)]
    level = "###" if part.kind == "call" else "##"
    return [f"{level} `{part.name}`", "", *part.words, "", *fenced([*imports, *[""] * bool(imports), *part.lines])]


def bare_together(parts):
    """Parts, where those after one another that only say what a type is are one."""
    found = []
    for part in parts:
        is_bare = part.kind == "impl" and len(part.lines) == 1 and not part.words
        if is_bare and found and found[-1].name == "":
            found[-1].lines.extend(part.lines)
        else:
            found.append(part._replace(name="", lines=[*part.lines]) if is_bare else part)
    return found


def offered_elsewhere(module, exports, files):
    """What a module offers of others: the path of each of these, and the names, each with the link to its page."""
    found = {}
    for here, target in exports.offered(module.path()):
        at, _, name = target.rpartition("::")
        if target in files and target != f"{module.path()}::{here}":
            found.setdefault(at, []).append((here, name, files[target]))
        elif target not in files and exports.described(target).rpartition("::")[0] != module.path():
            at = exports.described(target).rpartition("::")[0]
            found.setdefault(at, []).append((here, name, f"{files[at]}#{anchor(name)}"))
    return found.items()


def reexports(module, exports, files, link):
    """A line for each module of which this one offers names."""
    for at, names in offered_elsewhere(module, exports, files):
        shown = (f"[`{here}`]({link(to)})" + f", there `{there}`" * (here != there) for here, there, to in names)
        yield f"Re-exports of [`{at}`]({link(files[at])}): " + ", ".join(shown) + "."


def imports_block(module):
    """The end of a page: what a contract imports to speak of the words of its clauses and of its types."""
    words = imports_of_clauses([it for _, told in module.sources for it in told])
    out = ["## Imports", ""] if words or module.types else []
    if words:
        out += ["A contract of your own imports the words of these clauses so:", "", *fenced(words), ""]
    if module.types:
        out += ["And these types, as clauses see them:", "", *fenced(module.types), ""]
    return out


def page(module, modules, exports, files):
    """The page of a module, one of those of its crate."""
    first, _ = module.sources[0]
    imported = imports_block(module)
    out = [f"# `{module.path()}`", "", *module_words(first.text), ""]
    out += [QUOTED + IMPORTED * bool(imported), ""]
    inner = [it for it in modules if it.name and it.name[:-1] == module.name]
    if inner:
        out += ["Modules: " + ", ".join(f"[`{it.name[-1]}`]({module.link(it.file())})" for it in inner) + ".", ""]
    for line in reexports(module, exports, files, module.link):
        out += [line, ""]
    for source, parts in module.sources:
        if source is not first and parts:
            out += ["---", "", f"`src/{source.path}`: " + " ".join(module_words(source.text)), ""]
        for part in bare_together([it for _, it in parts]):
            out += [*told(part, exports.imports(f"{module.path()}::{part.name}")), ""]
    out += imported
    text = "\n".join(out)
    return re.sub(r"\n{3,}", "\n\n", text).rstrip() + "\n"


def line_of(text, name):
    """The line of a file where a name is declared; that of a call of a type stands inside an `impl` of it."""
    owner, _, own = name.rpartition("::")
    declared = re.compile(rf"\b(?:fn|struct|enum|trait|mod|type|const|macro_rules!) {own}\b")
    inside = re.finditer(rf"^impl\b(?!.* for )[^\n{{]*\b{owner}\b(?:.*\n)+?}}", text, re.M) if owner else []
    spans = [it.span() for it in inside] or [(0, len(text))]
    found = next(filter(None, (declared.search(text, *it) for it in spans)), None)
    return text.count("\n", 0, found.start() if found else 0) + 1


def shapeless(words):
    """The first sentence of some words, without the shapes of tables."""
    return re.sub(r" \([^)]* x [^)]*\)", "", first_sentence(words))


def said_shortly(words):
    """What the first sentence says; of a long one what stands before its colon, without a clause that adds to it."""
    said = shapeless(words).rstrip(".")
    if len(said.split()) > LONG:
        front = re.split(r"[:;] ", said, maxsplit=1)[0]
        said = front if len(front.split()) > 2 else said
    if len(said.split()) >= LONG:
        front = re.sub(rf", ({ADDS})\b[^,]*$", "", said)
        said = front if len(front.split()) > 5 else said
    return f"{said}."


def says_itself(name, words):
    """Whether a name says what it is: that of an error, of an iterator over what another type names, and one that has all
    words that say it."""
    said = re.findall(r"[a-z]+", shapeless(words).lower())
    parts = {it.lower().rstrip("s")[:5] for it in re.findall(r"[A-Z]?[a-z]+", name)}
    return name.endswith(("Iter", "Error")) or all(it in SMALL or it.rstrip("s")[:5] in parts for it in said)


def index(crates, exports):
    """docs/API.md: what is alike in all, and each public name with its line of src."""
    out = ["# Index of public names", "", BEGUN, "", *SAID_ONCE]
    for modules in crates:
        laws = [it for it in modules if it.name[-1:] == ("laws",)]
        lines = lines_of([it for it in modules if it not in laws], exports)
        out += ["", f"## `{modules[0].crate}`", *[""] * bool(lines), *lines]
        for module in laws:
            out += ["", f"### `{module.path()}`", "", ", ".join(link(module, *it, it[2].name) for it in module.told())]
    return "\n".join(out) + "\n"


def link(module, path, text, part, shown):
    """The link of what is shown of a name to its line of src."""
    return f"[`{shown}`](../crates/{module.crate}/src/{path}#L{line_of(text, part.name)})"


def path_of(module, part, exports):
    """The path that imports a name from its crate."""
    return exports.imports(f"{module.path()}::{part.name}")[0].removeprefix(f"use {module.crate}::").rstrip(";")


def lines_of(modules, exports):
    """The lines of the names of modules, with the calls of a type behind it. Names that say themselves stand in the last."""
    plain, lines, last = [], [], None
    for module in modules:
        told = [*module.told()]
        for path, text, part in told:
            if part.kind == "call" and "::" in part.name:
                last[-1] += " " + link(module, path, text, part, part.name.rpartition("::")[2])
            elif part.kind != "impl":
                name = path_of(module, part, exports)
                is_plain = name.startswith("laws::") or says_itself(part.name, part.words)
                shown = link(module, path, text, part, name)
                last = plain if is_plain else lines
                last.append(shown if is_plain else f"- {shown}: {said_shortly(part.words)}")
        if all(part.kind == "impl" for _, _, part in told):
            for of, traits in meanings([part.name for _, _, part in told]):
                by = ", ".join(f"`{it}`" for it in traits)
                lines.append(f"- `{'::'.join(module.name)}`: `{of}` is a store, by {by}.")
    return [*lines, *["- " + ", ".join(plain)] * bool(plain)]


def meanings(names):
    """Each type with the traits that it has, from names such as `TYPE as TRAIT`."""
    found = {}
    for name in names:
        of, _, trait = name.partition(" as ")
        found.setdefault(of, []).append(trait)
    return found.items()


LONG = 12  # words of a sentence that the index has whole
ADDS = "as|of which|since|which|so that|0 where|row by row|found|each once|anywhere|from left to right|with its|if they"
SMALL = {"a", "an", "the", "of", "one", "in", "to", "is", "it", "by", "its", "that"}

BEGUN = """\
Each name, with the path that imports it from its crate, leads to its line of src, where its words and its contract stand;
behind a type stand its calls. A law's name says in short what it proves. `docs/make --api FOLDER` writes a page for each
module."""

SAID_ONCE = """\
What is alike in all:

- Each option proves `acts_like`: one that may stand for it (`is_like`; where that isn't said, an equal one) acts like it.
- Where it isn't said when an option can be used (`can_change`), an object listed (`can_list`) or a location asked
  (`can_locate`), it always can.
- What is said of tuples of 2 options holds of those of 3 to 10.
- A clause sees `x: &mut T` as `x.old` before the call and `x.new` after it, and `x: &T` as `x.now`.
- `IfOk result f`: where the result is `Ok v`, f holds of v. `OnOk result p`: where it is `Ok`, p holds. `IfErr`,
  `OnErr`, `IfSome` and the like, alike. [Other words](ARCHITECTURE.md#words-of-contracts) stand in `specs/`.""".splitlines()


def read(top, crates):
    """The modules of each crate, and what they offer."""
    sources = {crate: sources_of(top / "crates" / crate / "src") for crate in crates}
    return [modules_of(sources[crate], crate) for crate in crates], Exports(sources)


def names(top, crates):
    return index(*read(top, crates))


def pages(top, crates):
    """A page of each module, by its path."""
    every, exports = read(top, crates)
    files = {module.path(): module.file() for modules in every for module in modules}
    return {module.file(): page(module, modules, exports, files) for modules in every for module in modules}
