"""Changes of a text that the tools suggest."""


def changed(text, edit):
    """A text after a change, whose columns count characters."""
    lines = text.split("\n")
    start, end = (sum(len(line) + 1 for line in lines[:it["line"] - 1]) + it["column"] - 1 for it in (edit["start"], edit["end"]))
    return text[:start] + edit["text"] + text[end:]
