"""Reads the public items of Rattle sources: their words, signatures and clauses."""

import re
from pathlib import Path
from typing import NamedTuple

OPENS = {"{": "}", "(": ")", "[": "]"}
LITERAL = re.compile(r'b?"(?:\\.|[^"\\])*"|b?\'(?:\\.[^\']*|[^\\\'])\'')
HEAD = re.compile(r"(?:pub(?:\([a-z]+\))? )?(?:final )?(?:const )?(?:unsafe )?(ghost use|ghost|use|fn|struct|enum|impl|trait|mod|type|const|macro_rules!)\b")
CLAUSE = re.compile(r"(requires|ensures)\b(\*?)\s*(\w*)\s*(?=\{)")
BETWEEN = re.compile(r"(?:\s|,|//.*)*")


def skip(text, at):
    """The place after what begins here and is no code: a comment, or a literal."""
    if text.startswith("//", at):
        end = text.find("\n", at)
        return len(text) if end < 0 else end
    literal = LITERAL.match(text, at)
    return literal.end() if literal else at


def closing(text, at):
    """The place after the bracket that closes the one here."""
    want = [OPENS[text[at]]]
    at += 1
    while want:
        past = skip(text, at)
        if past > at:
            at = past
            continue
        if text[at] in OPENS:
            want.append(OPENS[text[at]])
        elif text[at] == want[-1]:
            want.pop()
        at += 1
    return at


def find(text, at, stops):
    """The first place outside of brackets where one of these begins."""
    while at < len(text):
        past = skip(text, at)
        if past > at:
            at = past
        elif any(text.startswith(it, at) for it in stops):
            return at
        elif text[at] in OPENS:
            at = closing(text, at)
        else:
            at += 1
    return at


def one_line(text):
    return re.sub(r",\s*([)\]])", r"\1", re.sub(r"\s+", " ", text)).replace("( ", "(").strip()


class Item:
    """An item: its words, its kind, its head without clauses, its clauses, its body and its whole text."""

    def __init__(self, text, words, kind, start, end, head, clauses, body):
        self.words, self.kind, self.head, self.clauses, self.body = words, kind, one_line(head), clauses, body
        self.whole, self.file = text[start:end], text
        # What only other crates of the repository need.
        self.is_hidden = "#[doc(hidden)]" in self.whole.partition(head)[0]
        self.is_public = bool(re.match(r"pub (?!\()", self.head))

    def name(self):
        found = re.search(r"\b(?:fn|struct|enum|trait|mod|type|const(?! fn)|ghost) (\w+)", self.head)
        return found[1] if found else ""


def read_function(text, at):
    """The head, the clauses, the body and the end of a function that begins here."""
    cut = at
    while True:
        cut = find(text, cut, ["requires", "ensures", "{", ";"])
        if cut >= len(text) or text[cut] in "{;" or CLAUSE.match(text, cut):
            break
        cut += 1
    head, clauses, at = text[at:cut], [], cut
    while True:
        clause = CLAUSE.match(text, at)
        if not clause:
            break
        end = closing(text, clause.end())
        name = f" {clause[3]}" if clause[3] else ""
        clauses.append(f"{clause[1]}{clause[2]}{name}: {one_line(text[clause.end() + 1 : end - 1])}")
        at = BETWEEN.match(text, end).end()
    if at < len(text) and text[at] == "{":
        end = closing(text, at)
        return head, clauses, text[at:end], end
    return head, clauses, "", at + 1


def items(text):
    """The items of a file, or of the inside of an impl or a trait."""
    at, words, start = 0, [], None
    while at < len(text):
        line_end = text.find("\n", at) if "\n" in text[at:] else len(text)
        line = text[at:line_end].strip()
        at += len(text[at:line_end]) - len(text[at:line_end].lstrip())
        if line.startswith("///"):
            words.append(line.removeprefix("///").removeprefix(" ").rstrip())
            start = at if start is None else start
            at = line_end + 1
            continue
        if line.startswith("#"):
            start = at if start is None else start
            at = closing(text, text.index("[", at)) + 1
            continue
        head = HEAD.match(text, at)
        if not head:
            at = line_end + 1
            if not line.startswith("//"):
                words, start = [], None
            continue
        start, kind = at if start is None else start, head[1]
        clauses, body = [], ""
        if kind == "fn":
            said, clauses, body, end = read_function(text, at)
        elif kind in ("impl", "trait", "struct", "enum", "mod", "macro_rules!"):
            cut = find(text, at, ["{", ";"])
            said = text[at:cut]
            end = closing(text, cut) if text[cut] == "{" else cut + 1
            body = text[cut + 1 : end - 1]
        else:
            end = find(text, at, [";"]) + 1
            said = text[at : end - 1]
        yield Item(text, words, kind, start, end, said, clauses, body)
        at, words, start = end, [], None


def module_words(text):
    """The words of a file's `//!` lines."""
    return [it.removeprefix(" ").rstrip() for it in re.findall(r"^//!(.*)", text, re.M)]


class Source(NamedTuple):
    """A file: its path, its text, its module, whether its names can be written, and the public module that it belongs to."""

    path: Path
    text: str
    name: tuple
    is_named: bool
    module: tuple


def sources_of(folder):
    """The files below a folder of sources that aren't of tests alone, each after the one that declares it."""
    found = []

    def visit(file, name, is_named, module):
        text = file.read_text()
        found.append(Source(file.relative_to(folder), text, name, is_named, module))
        below = file.parent if file.stem in ("lib", "mod") else file.parent / file.stem
        for attributes, is_pub, inner in re.findall(r"((?:^#\[.*\]\n)*)^(pub )?(?:pub\([a-z]+\) )?mod (\w+);", text, re.M):
            for it in (below / f"{inner}.rt", below / inner / "mod.rt"):
                if "cfg(test)" not in attributes and it.is_file():
                    named = is_named and bool(is_pub)
                    visit(it, (*name, inner), named, (*name, inner) if named else module)

    visit(folder / "lib.rt", (), True, ())
    return found


def reexported(text):
    """The path of each `pub use` of a file, and its names: each as it is there, and as it is here."""
    for path, listed in re.findall(r"^pub use ([\w:]*?)(?:::)?(\{[^}]*\}|\w+(?: as \w+)?);", text, re.M):
        yield path, [(there, here or there) for there, here in re.findall(r"(\w+)(?: as (\w+))?", listed)]


def public_names(sources):
    """The names that another crate can write."""
    names = {it for source in sources for _, listed in reexported(source.text) for there, it in listed}
    for source in sources:
        if source.is_named:
            names |= {it.name() for it in items(source.text) if it.is_public}
    return names


def first_sentence(words):
    paragraph = words[: words.index("")] if "" in words else words
    said = " ".join(it.strip() for it in paragraph)
    return (re.match(r".*?[.](?= |$)", said) or re.match(r".*", said))[0]


class Part(NamedTuple):
    """What a page tells of one name: its kind, its words, and its lines without them.

    The lines of a trait, of a type and of what a type means as a trait have the words of what stands in it.
    """

    name: str
    kind: str
    words: list
    lines: list


def owner_of(part):
    """The type whose call a part is, or that it tells the meaning of."""
    return re.match(r"\W*(?:mut )?(\w*)", part.name)[1]


def signature(item):
    return re.sub(r"([(,] ?)mut (\w)", r"\1\2", item.head.removeprefix("pub ")).rstrip(",")


def clauses(item):
    return [f"  {it}" for it in item.clauses]


def commented(words):
    return [f"// {it}".rstrip() for it in words]


# What each option and each selector says alike: the index of docs/api says it once.
ALIKE = re.compile(r"ghost (acts_like = |can_(change|list|locate) = \{ λ (_|s)\. Unit \{0\} \})")


def members(item):
    """A trait's members, or an impl's of a trait, each as a part."""
    for it in items(item.body):
        is_told = it.kind in ("ghost", "type") or it.kind == "fn" and (item.kind == "trait" or it.clauses)
        if is_told and not (item.kind == "impl" and ALIKE.match(it.head)):
            yield Part(it.name(), it.kind, it.words, [signature(it), *clauses(it)])


def indented(part):
    return [f"  {it}" for it in [*commented(part.words), *part.lines]]


def parts_of(text, public):
    """The parts of a file's public items."""
    for item in items(text):
        is_public = item.is_public and item.name() in public and not item.is_hidden
        if item.kind in ("fn", "const", "type") and is_public:
            yield Part(item.name(), "fn", item.words, [signature(item), *clauses(item)])
        elif item.kind == "trait" and is_public:
            inner = [line for it in members(item) for line in indented(it)]
            yield Part(item.name(), "trait", item.words, [signature(item), *inner])
        elif item.kind in ("struct", "enum") and is_public:
            yield Part(item.name(), item.kind, item.words, lines_of_type(item))
        elif item.kind == "impl":
            yield from parts_of_impl(item, public)


def lines_of_type(item):
    """The lines of a type, with what stands in it where all may see that."""
    derived = re.findall(r"#\[derive\([^)]*\)\]", item.whole.partition(item.head[:8])[0])
    body = [it.strip() for it in item.body.strip().splitlines()]
    if item.kind == "enum" or any(re.match(r"pub (?!\()", it) for it in body):
        shown = [f"  {it.replace('///', '//', 1)}" for it in body if it and not it.startswith("#")]
        return [*derived, re.sub(r"\s*\{.*", "", item.head.removeprefix("pub ")), *shown]
    return [*derived, re.sub(r"\((?!pub ).*\)$", "", item.head.removeprefix("pub "))]


def is_hidden(trait, text, public):
    """A trait of this crate's own that no other crate can name."""
    name = re.match(r"\w*", trait)[0]
    return bool(name) and name not in public and bool(re.search(rf"^use crate::[^;]*\b{name}\b", text, re.M))


def parts_of_impl(item, public):
    """The parts of an impl: a type's own calls, or what it means as a trait."""
    target = re.sub(r"^impl(?:<.*?>(?= ))? ", "", item.head).partition(" where ")[0]
    trait, _, of = target.rpartition(" for ")
    owner = re.match(r"\W*(?:mut )?(\w*)", of)[1]
    is_own = owner[:1].isupper() and re.search(rf"\b(struct|enum) {owner}\b", item.file)
    if is_own and owner not in public or is_hidden(trait, item.file, public):
        return
    if not trait:
        for it in items(item.body):
            if it.kind == "fn" and it.is_public and not it.is_hidden:
                lines = [signature(it).replace("fn ", f"fn {owner}::", 1), *clauses(it)]
                yield Part(f"{owner}::{it.name()}", "call", it.words, lines)
        return
    inner = [it for it in members(item) if trait != "Model" or it.name == "Value"]
    if inner or trait != "Model":
        lines = [line for it in inner for line in indented(it)]
        yield Part(f"{of} as {trait}", "impl", item.words, [item.head.rstrip(","), *lines])


def function_text(text, name):
    """A function's whole text, or a type's."""
    found = [it for it in items(text) if it.name() == name]
    found += [it for outer in items(text) if outer.kind == "impl" for it in items(outer.body) if it.name() == name]
    if not found:
        raise SystemExit(f"docs/make: no {name} where a page names it")
    return found[0].whole


def needed_imports(text, quoted, methods):
    """The imports of a file that a part of it needs: each with its kind, its path, the mark before its names, and these.

    `methods` has those of each trait.
    """
    words = set(re.findall(r"\w+|◌\S*|\S*◌", quoted))
    tokens = set(re.findall(r"[^\s(){}\[\],;.]+", quoted))

    def is_needed(name):
        own = name.split(" as ")[-1].strip()
        if "◌" in own:
            return all(it in tokens or it in words for it in own.split("◌") if it)
        return own in words or own in tokens or bool(words & methods.get(own, set()))

    for item in items(text):
        if item.kind not in ("use", "ghost use"):
            continue
        path, brace, listed = item.head.partition("::{" if item.kind == "use" else ".{")
        names = [it.strip() for it in listed.rstrip("}").split(",")] if brace else [re.split(r"::|\.", path)[-1]]
        needed = [it for it in names if is_needed(it)]
        if needed:
            yield item.kind, path, brace, needed


def ghost_words(text):
    """What is said of items, apart from what they do: their clauses, and the lines of ghost things."""
    for item in items(text):
        if item.kind in ("impl", "trait"):
            yield item.head
            yield from ghost_words(item.body)
        else:
            ghosts = re.findall(r"^\s*ghost\b.*", item.body, re.M)
            yield " ".join([*item.clauses, *ghosts, item.head if item.kind == "ghost" else ""])


def used_by(text, quoted, methods):
    """The `use` lines of a file that a part of it needs; `methods` has those of each trait."""
    said, done = "\n".join(ghost_words(quoted)), re.sub(r"^\s*//.*", "", quoted, flags=re.M)
    needed = [it for it in needed_imports(text, said, {}) if it[0] == "ghost use"]
    needed += [it for it in needed_imports(text, done, methods) if it[0] == "use"]
    return [laid_out(path, brace, names) if brace else f"{path};" for _, path, brace, names in needed]


def ghost_uses(text):
    """The `ghost use` lines of a file, also those inside of its items."""
    return "\n".join(re.findall(r"^ *(ghost use [^;]*;)", text, re.M))


CLAUSE_LINE = re.compile(r"\s*(requires|ensures|ghost)\b")


def imports_of_clauses(told):
    """The `ghost use` lines that the clauses of parts need: each part comes with the text of its file."""
    found = {}
    for text, part in told:
        clauses = "\n".join(it for it in part.lines if CLAUSE_LINE.match(it))
        for _, path, brace, names in needed_imports(ghost_uses(text), clauses, {}):
            found.setdefault((path, brace), set()).update(names)
    return [laid_out(path, brace, sorted(names)) if brace else f"{path};" for (path, brace), names in sorted(found.items())]


def imports_of_types(crate, source, public):
    """The `ghost use` lines of a file's types that a clause sees as they are: their names, and the variants of enums."""
    opaque = re.findall(r"^impl(?:<.*>)? Model for (\w+)", source.text, re.M)
    for item in items(source.text):
        is_seen = item.is_public and item.name() in public and not item.is_hidden and item.name() not in opaque
        path = ".".join(["Rattle", crate, "specs.declared", *source.name, item.name()])
        if item.kind == "enum" and is_seen:
            yield f"ghost use {path}.{{{item.name()}}};"
            variants = re.findall(r"^    (\w+)", item.body, re.M)
            yield f"ghost use {path}.TheVariants.{{{', '.join(variants)}}};"
        elif item.kind == "struct" and is_seen and re.search(r"\bpub (?!\()", item.body + item.head[4:]):
            yield f"ghost use {path}.{{{item.name()}}};"


def laid_out(path, brace, names):
    """An import as `rt fmt` lays it out."""
    ghost = brace.startswith(".")
    if len(names) == 1 and not ghost:
        return f"{path}::{names[0]};"
    line = f"{path}{brace}{', '.join(names)}}};"
    if len(line) <= 100 or ghost:
        return line
    rows, row = [], "   "
    for it in names:
        if len(row) + len(it) + 2 > 100:
            rows.append(row)
            row = "   "
        row += f" {it},"
    return "\n".join([path + brace, *rows, row, "};"])
