"""Texts that a page may take for something else."""

HOSTILE = ["<script>document.title = 1</script>", "</td><td>", "&amp;&lt;&#65;&notin", "\"' onload=\"x", "\0", "a\r\nb\rc\nd", " \t ", "\u2028\u2029\u0085",
           "👍🏽\U000e0067", "\ufeff\ufffe\uffff", "<!-- ", "]]>", "<![CDATA[", "\x01\x0b\x0c\x1b\x7f\x80", "é" * 300, "-->", "{{ x }}", "<plaintext>", "&#0;&#13;&#x80;"]


def escaped(text):
    for plain, written in (("\\", "\\\\"), ("\t", "\\t"), ("\n", "\\n")):
        text = text.replace(plain, written)
    return text.encode()


def unescaped(word):
    """A word of a script without its escapes."""
    text, rest = "", word
    while "\\" in rest:
        before, rest = rest.split("\\", 1)
        text += before + {"t": "\t", "n": "\n", "\\": "\\"}[rest[0]]
        rest = rest[1:]
    return text + rest
