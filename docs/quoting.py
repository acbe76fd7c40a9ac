"""What pages quote of the repository: between a line such as `<!-- code:PATH NAME .. -->` and `<!-- end -->` stands what it names.

    script:NAME, printed:NAME   a script of examples/, and what it prints
    drawn:NAME                  its picture
    shown:NAME                  its steps, its table before them, and its picture
    styles:STYLE ..             the pictures of examples/styles, beside one another
    whole:PATH                  a file
    code:PATH NAME ..           functions of a file, with the `use` lines that they need
    tree:CRATE                  a crate's files, and what each is about
    part:PATH TRAIT             what a file says of a type as a trait
    definition:PATH NAME        a definition of a file of specs/
    answer:PATH NAME            an answer of a file of proofs/
    crates:called               a table of the crates that others call, and what each uses
    specs:CRATE FILE ..         a line of files of a crate's specs/, and what each is about
Where a line names a file of crates/ and what does something there, as in - `NAME/src/x.rt`: `f`, `g`, or a page a caller, as
in `f` and `g` of [NAME](../NAME/src/x.rt), these have to be there.
"""

import re
from functools import cache

import gallery
from contracts import function_text, items, module_words, sources_of, used_by
from specs import definitions_of, first_sentence


def crates_of(top):
    """The names of crates.txt, in its order, with what each uses."""
    lines = [line.partition("#")[0].strip() for line in (top / "crates.txt").read_text().splitlines()]
    return {name.split()[0]: below.split() for name, _, below in (it.partition(":") for it in lines if it)}


def libraries(top):
    return [name for name in crates_of(top) if (top / "crates" / name / "src/lib.rt").is_file()]


@cache
def methods_of(top):
    """The methods of each trait of the repository: whoever calls one needs the trait's name."""
    methods = {}
    for crate in libraries(top):
        for source in sources_of(top / "crates" / crate / "src"):
            for item in items(source.text):
                if item.kind == "trait":
                    methods[item.name()] = {it.name() for it in items(item.body) if it.kind == "fn"}
    return methods


def fenced(language, text):
    return f"```{language}\n{text.strip()}\n```"


def rust(text):
    return fenced("rust", text)


def whole(top, path):
    """A file of code, of specs/ or of proofs/."""
    text = (top / path).read_text()
    return rust(text) if str(path).endswith(".rt") else fenced("text", text)


def about(file):
    """What a file of a crate is about: its first words, or of specs/Lib.antt and the like the files that it names."""
    text = file.read_text()
    if file.suffix == ".rt":
        return first_paragraph(text)
    return " ".join(text.split("\n")).strip() if file.name == "Lib.antt" else text.partition("\n")[0].removeprefix("-- ") * text.startswith("-- ")


def tree(top, crate):
    """The files of a crate but its wrong edits, and what each is about."""
    folder, crates = top / "crates" / crate, crates_of(top)
    files = [it for part in ("src", "specs", "proofs") for it in sorted((folder / part).rglob("*")) if it.is_file()]
    named = [("a line of crates.txt", " ".join([f"{crate}:", *crates[crate]]))]
    named += [(str(it.relative_to(folder)), about(it)) for it in files]
    return fenced("text", "\n".join(f"{name:<24} {said}".rstrip() for name, said in named))


def part(top, path, trait):
    """What a file says of a type as a trait."""
    for it in items((top / path).read_text()):
        if it.kind == "impl" and re.search(rf"\b{trait}\b.* for ", it.head):
            return rust(it.whole)
    raise SystemExit(f"docs/make: no {trait} in {path} where a page names it")


def definition(top, path, name):
    """A definition of a file of specs/, under the words that say it."""
    for it in definitions_of(top / path):
        if it.name == name:
            return fenced("text", f"-- {it.words}\n{it.text()}")
    raise SystemExit(f"docs/make: no {name} in {path} where a page names it")


def answer(top, path, name):
    """An answer of a file of proofs/."""
    found = re.search(rf"^(?:[a-z]+ )*pub {name} :.*?(?=\n\n|\Z)", (top / path).read_text(), re.M | re.S)
    if not found:
        raise SystemExit(f"docs/make: no {name} in {path} where a page names it")
    return fenced("text", found[0])


def code(top, path, *names):
    """Functions of a file, with the `use` lines that they need."""
    text = (top / path).read_text()
    quoted = "\n\n".join(function_text(text, name) for name in names)
    used = used_by(text, quoted, methods_of(top))
    ghost = [it for it in used if it.startswith("ghost")]
    blocks = ["\n".join(ghost), "\n".join(it for it in used if it not in ghost), quoted]
    return rust("\n\n".join(it for it in blocks if it))


def root_of(top, crate):
    folder = top / "crates" / crate / "src"
    return next(it for it in (folder / "lib.rt", folder / "main.rt") if it.is_file())


def first_paragraph(text):
    words = module_words(text)
    return " ".join(words[: words.index("")] if "" in words else words)


def nearest(crates, crate):
    """What a crate uses, without what this uses in its turn."""
    far = {it for below in crates[crate] for it in crates.get(below, [])}
    return [it for it in crates[crate] if it not in far]


def crate_table(top, _):
    """A table of the crates that have a page for who calls them, and what each uses."""
    crates = crates_of(top)
    lines = ["| Crate | Does | Uses, with all that these use |", "|---|---|---|"]
    for crate in crates:
        if not (top / "crates" / crate / "CALLING.md").is_file():
            continue
        uses = ", ".join(f"`{it}`" for it in nearest(crates, crate)) or "-"
        lines.append(f"| `{crate}` | {first_paragraph(root_of(top, crate).read_text())} | {uses} |")
    return "\n".join(lines)


def specs_line(top, crate, *names):
    """A line of files of a crate's specs/, and what each is about."""
    told = []
    for name in names:
        file = top / "crates" / crate / "specs" / f"{name}.antt"
        said = first_sentence(file)
        told.append(f"`{name}` ({said[0].lower()}{said[1:]})")
    return f"- {crate}: " + ", ".join(told)


def stop_at_missing(top, prose):
    """Stops where a page names a file of crates/, or what does something there, that isn't there."""
    callers = re.findall(r"((?:`\w+` and )?`\w+`) of \[\w+\]\(\.\./(\w+/src/[\w/]+\.rt)\)", prose)
    listed = re.findall(r"^ *- `(\w+/src/[\w/]+\.rt)`: (.*)$", prose, re.M)
    for path, named in [*listed, *((path, named) for named, path in callers)]:
        file = top / "crates" / path
        text = file.read_text() if file.is_file() else ""
        for name in re.findall(r"`(\w+)`", named):
            if not re.search(rf"\b(fn|struct|enum|trait|type) {name}\b", text):
                raise SystemExit(f"docs/make: no {name} in {path} where a page names it")


MARKED = re.compile(r"^<!-- (\w+):(\S.*?) -->\n.*?^<!-- end -->$", re.M | re.S)


def quoted(top, page):
    """A page with what its marks name between them."""
    makers = {
        "whole": lambda path: whole(top, path),
        "code": lambda *words: code(top, *words),
        "tree": lambda crate: tree(top, crate),
        "part": lambda *words: part(top, *words),
        "definition": lambda *words: definition(top, *words),
        "answer": lambda *words: answer(top, *words),
        "crates": lambda word: crate_table(top, word),
        "specs": lambda *words: specs_line(top, *words),
        **gallery.makers(top),
    }
    stop_at_missing(top, page)
    return MARKED.sub(lambda it: f"<!-- {it[1]}:{it[2]} -->\n{makers[it[1]](*it[2].split())}\n<!-- end -->", page)
