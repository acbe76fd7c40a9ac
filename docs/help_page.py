"""What the program tells of its words and faults, as constants of tabled_help: docs/help.txt, whose lines such as
`said:verbs` become what the language's page, docs/SCRIPT.md, and its sources say.
"""

import re
import textwrap

LEFT, WIDTH = 32, 116  # columns of what is written, and of a line
SPECS, FAULTS = "crates/tabled_language/specs", "crates/tabled_language/src/fault.rt"
STYLES = "crates/tabled_draw/src/style.rt"


def plain(text):
    """Prose without its marks and links."""
    return re.sub(r"\[([^]]*)\]\([^)]*\)", r"\1", text).replace("`", "").replace("**", "")


def first_sentence(text):
    return plain(re.split(r"(?<=\.) (?=[^a-z])|\n", text, maxsplit=1)[0]).rstrip(".:")


def line(written, meaning):
    """A line of what is written and its meaning, broken where it is long."""
    left = f"  {plain(written):<{LEFT - 3}} "
    return textwrap.fill(plain(meaning) or " ", WIDTH, initial_indent=left, subsequent_indent=" " * LEFT, drop_whitespace=bool(meaning), break_on_hyphens=False).rstrip()


def under(prose, heading):
    """What stands under a heading, up to the next one of its kind."""
    return re.split(r"^## ", prose.partition(f"\n## {heading}\n")[2], maxsplit=1, flags=re.M)[0]


def table_of(text):
    """The rows of a table, without its head."""
    rows = [it.split(" | ", 1) for it in text.split("\n") if " | " in it]
    return rows[1:]


def stop_where_other(what, found, wanted):
    if sorted(found) != sorted(wanted):
        raise SystemExit(f"docs/SCRIPT.md: other {what} than those of the sources: {sorted({*found} ^ {*wanted})}")


def words_of_choices(top, file, *names):
    """The words of the choices that a file of definitions names."""
    text = (top / SPECS / file).read_text()
    parts = [re.search(rf"^{it} .*?(?=\n\n|\Z)", text, re.M | re.S)[0] for it in names]
    return re.findall(r'codes "([^"]+)"', "\n".join(parts))


def verbs(top, prose):
    """Each verb with its words and what it does, in the page's groups."""
    lines, found = [], []
    for group in re.split(r"^## ", prose, flags=re.M):
        parts = re.split(r"^### `", group, flags=re.M)
        if len(parts) > 1:
            title, _, about = parts[0].partition("\n")
            about = first_sentence(about.strip())
            lines += ["", textwrap.fill(f"{title}: {about[0].lower()}{about[1:]}." if about else title, WIDTH)]
        for part in parts[1:]:
            heading, _, body = part.partition("\n")
            found.append(heading.partition("`")[0])
            body = body.strip()
            lines.append(line(heading, first_sentence(body)))
            lines += [" " * LEFT + plain(it).rstrip(".") for it in re.findall(r"^- (`.*)", body, re.M)]
    stop_where_other("verbs", found, words_of_choices(top, "Verb.antt", "steps", "says", "says_verb"))
    return "\n".join(lines[1:])


def selectors(top, prose):
    lines = re.findall(r"^- (\*\*.*)", under(prose, "Selectors"), re.M)
    lines = [plain(it).partition(": ") for it in lines]
    wanted = words_of_choices(top, "Selectors.antt", "range_selectors", "edge_selectors", "holding_selectors", "selectors")
    stop_where_other("selectors", [it.split()[0] for it, _, _ in lines], wanted)
    return "\n".join(line(written, meaning.rstrip(".")) for written, _, meaning in lines)


def ways(prose):
    """What words of other tools are here."""
    return "\n".join(line(*it) for it in table_of(re.search(r"^### Fault 1: .*?(?=^###)", prose, re.M | re.S)[0]))


def styles(top):
    """The names of styles."""
    names = re.search(r"NAMES: .*?= \[(.*?)\];", (top / STYLES).read_text(), re.S)[1]
    return textwrap.fill(" ".join(re.findall(r'"(\w+)"', names)), WIDTH, initial_indent=" " * LEFT, subsequent_indent=" " * LEFT)


def words(top):
    """The words that mean something."""
    names = set(re.findall(r'codes "([a-z-]+)"', "".join((top / SPECS / it).read_text() for it in ("Verb.antt", "Selectors.antt"))))
    return textwrap.fill(" ".join(sorted(names)), WIDTH, initial_indent="  ", subsequent_indent="  ", break_on_hyphens=False)


def faults(top, prose):
    meanings = re.findall(r"/// (.*)\.\n    \w+ = (\d)", (top / FAULTS).read_text())
    stop_where_other("faults", re.findall(r"^### Fault (\d): ", prose, re.M), [number for _, number in meanings])
    return "\n".join(line(number, it[0].lower() + it[1:]) for it, number in meanings)


def page(top):
    """What `--help` prints."""
    prose = (top / "docs/SCRIPT.md").read_text()
    makers = {
        "letters": lambda: "\n".join(line(*it) for it in table_of(under(prose, "Lines and words"))),
        "verbs": lambda: verbs(top, prose),
        "selectors": lambda: selectors(top, prose),
        "statuses": lambda: "\n".join(line(*it) for it in table_of(under(prose, "Statuses"))),
        "faults": lambda: faults(top, prose),
        "styles": lambda: styles(top),
        "ways": lambda: ways(prose),
        "words": lambda: words(top),
    }
    return re.sub(r"^said:(\w+)$", lambda it: makers[it[1]](), (top / "docs/help.txt").read_text(), flags=re.M)


def entries(text):
    """The lines of each word, with those that go on: (word, lines)."""
    part = re.search(r"^LINES\n.*?(?=^STATUSES)", text, re.M | re.S)[0]
    return re.findall(rf"^(  ([a-z-]+)\b.*\n(?: {{{LEFT}}}.*\n)*)", part, re.M)


def asked_elsewhere(prose):
    """Each word of another tool, and what is written here."""
    rows = table_of(re.search(r"^### Fault 1: .*?(?=^###)", prose, re.M | re.S)[0])
    return [(word, plain(way)) for names, way in rows for word in re.findall(r"`(\w+)`", names)]


def fault_texts(page):
    """The title of each fault, when it comes, its cure and its example."""
    page = re.sub(r"^<!-- .* -->\n", "", page, flags=re.M)
    for part in re.findall(r"^### Fault \d: (.*?)(?=^##|\Z)", page, re.M | re.S):
        title, when, cure = part.split("\n\n")[:3]
        example = re.search(r"^    .*", part, re.M | re.S)[0]
        yield plain(title), plain(when), plain(cure).removeprefix("Cure: "), example.rstrip() + "\n"


def literal(text):
    """A text as a literal of Rust, its newlines as they are."""
    return '"' + text.replace("\\", "\\\\").replace('"', '\\"').replace("\t", "\\t") + '"'


def record(name, **fields):
    """A value of a type with these fields, as `rt fmt` lays it out."""
    lines = "".join(f"        {it}: {literal(text)},\n" for it, text in fields.items())
    return f"    {name} {{\n{lines}    }},\n"


def array(about, name, kind, rows):
    return f"/// {about}\npub const {name}: [{kind}; {len(rows)}] = [\n{''.join(rows)}];\n"


def source(top, page_of_script):
    """The source of tabled_help that has all texts."""
    prose = (top / "docs/SCRIPT.md").read_text()
    text = page(top)
    words = text.rpartition("ALL WORDS\n")[2].split()
    return "\n".join(
        [
            "//! The texts that are told. Made by docs/make from docs/SCRIPT.md and docs/help.txt.\n",
            "use crate::entry::{Entry, FaultText, Way};\n",
            f"/// What the program can do.\npub const HELP: &str = {literal(text)};\n",
            array("The words of scripts.", "WORDS", "&str", [f"    {literal(it)},\n" for it in words]),
            array("What is said of each verb and each selector.", "ENTRIES", "Entry", [record("Entry", word=word, text=lines) for lines, word in entries(text)]),
            array("Words of other tools, and what is written in their place.", "WAYS", "Way", [record("Way", word=word, way=way) for word, way in asked_elsewhere(prose)]),
            array("What each fault is, by its number from 1 on.", "FAULTS", "FaultText", [record("FaultText", title=a, when=b, cure=c, example=d) for a, b, c, d in fault_texts(page_of_script)]),
        ]
    )
