"""Tests of help_page.py: run by docs/make --check."""

from pathlib import Path

from help_page import LEFT, faults, first_sentence, line, verbs

TOP = Path(__file__).resolve().parent.parent


def takes_first_sentences():
    cases = {"Rows of `shape` and [two](#x): `a`. More.\nAnd more.": "Rows of shape and two: a", "Each row:\n\n- one": "Each row"}
    return all(first_sentence(it) == want for it, want in cases.items())


def breaks_long_lines():
    return line("x", "") == "  x" and {len(it) - len(it.lstrip()) for it in line("x", "word " * 40).split("\n")[1:]} == {LEFT}


def is_refused(what, prose):
    try:
        what(TOP, prose)
    except SystemExit:
        return True
    return False


def refuses_other_words_than_those_of_the_sources():
    page = (TOP / "docs/SCRIPT.md").read_text()
    lacking = is_refused(verbs, page.replace("### `vmerge`", "### vmerge")) and is_refused(faults, page.replace("### Fault 8", "### 8"))
    return lacking and not is_refused(verbs, page) and not is_refused(faults, page)


TESTS = [takes_first_sentences, breaks_long_lines, refuses_other_words_than_those_of_the_sources]
