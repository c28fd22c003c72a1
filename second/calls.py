"""Answers the lines of `calls`, one call a line, by the definitions of plates.py."""

import plates

# What each letter calls, and its fields: a number (n), cells (c) or a reader (r).
CALLS = {
    "K": ("check_code", "nn"),
    "k": ("check_rule", "nnn"),
    "F": ("family", "n"),
    "D": ("divide", "ncc"),
    "L": ("low_side", "nc"),
    "H": ("high_side", "nc"),
    "S": ("encode_systematic", "nncc"),
    "P": ("encode_product", "nncc"),
    "R": ("word_remainder", "nnc"),
    "M": ("decode_systematic", "nnncc"),
    "Q": ("decode_product", "nnncc"),
    "N": ("start", "nnn"),
    "C": ("clock", "rn"),
    "A": ("answer", "rc"),
    "W": ("read", "nnncc"),
    "B": ("better", "nnncc"),
    "s": ("encode_systematic_number", "nnn"),
    "p": ("encode_product_number", "nnn"),
    "r": ("word_remainder_number", "nnn"),
    "m": ("decode_systematic_number", "nnnn"),
    "q": ("decode_product_number", "nnnn"),
}


def cells_of(text):
    cells, at = [], 0
    while text != "-" and at < len(text):
        width = 3 if text[at] == "x" else 1
        cells.append(int(text[at:at + width].lstrip("x"), 16))
        at += width
    return tuple(cells)


def written(value):
    """A number, cells or a reader as fields of a line."""
    if isinstance(value, plates.Reader):
        return " ".join(written(field) for field in value)
    if isinstance(value, tuple):
        return "".join(str(cell) if cell in (0, 1) else "x%02x" % cell for cell in value) or "-"
    return str(value)


def line(letter, *values):
    return " ".join([letter] + [written(value) for value in values])


def answered(text):
    letter, *fields = text.split(" ")
    name, kinds = CALLS[letter]
    values = []
    for kind in kinds:
        if kind == "r":
            reader, fields = fields[:7], fields[7:]
            values.append(plates.Reader(*map(int, reader[:5]), *map(cells_of, reader[5:])))
        else:
            values.append((int if kind == "n" else cells_of)(fields.pop(0)))
    return " ".join(written(value) for value in getattr(plates, name)(*values))
