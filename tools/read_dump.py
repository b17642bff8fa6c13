"""Reads a value change dump: its words, and what it writes of them."""

# What a dump has for other readers, up to an `$end`.
PASSED = ("$comment", "$date", "$version", "$timescale", "$scope", "$attrbegin")


def read(text):
    """The words in order, each as its code, name and width; the values that are written, each with its time and the code of a
    word; and the last time."""
    words, told, now = [], [], None
    tokens = iter(text.split())
    for token in tokens:
        if token == "$var":
            _sort, width, code, name = (next(tokens) for _ in range(4))
            words.append((code, name, int(width)))
        if token == "$var" or token in PASSED:
            while next(tokens) != "$end":
                pass
        elif token.startswith("#"):
            now = int(token[1:])
        elif token[0] == "b":
            told.append((now, next(tokens), token[1:]))
        elif token[0] in "01x":
            told.append((now, token[1:], token[0]))
    return words, told, now
