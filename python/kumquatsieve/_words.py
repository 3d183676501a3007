"""The fields of words, lists of words, and tables."""

# Names by which the fields of each dictionary can be read, and the names that some dictionaries
# give these fields.
COMMON = {
    "conjugation_type": "cType",
    "conjugation_form": "cForm",
    "base_form": "orthBase",
    "lemma": "base_form",
    "reading": "lForm",
    "pronunciation": "pron",
}


def names_of(fields, node):
    """Returns the numbers of fields by their names, which no attribute of a node has, and by the
    names of COMMON that no field has. "pos" is field 0, unless a field has this name."""
    numbers = {}
    for number, name in enumerate(fields):
        if name is not None:
            is_name = isinstance(name, str) and name.isidentifier() and name[0] != "_"
            if not is_name or name in numbers or hasattr(node, name):
                kind = ValueError if isinstance(name, str) else TypeError
                raise kind(f"fields: {name!r} can't be the name of field {number}")
            numbers[name] = number
    return {"pos": 0, **{a: numbers[b] for a, b in COMMON.items() if b in numbers}, **numbers}


class Words(list):
    """The list of the words of a text. `total` is the cost of its path. It prints as a table."""

    __slots__ = ("total",)

    def _table(self):
        # UniDic's `kana` is the reading of the word as it is written.
        readings = [name for name in ("kana", "reading", "pron") if self and hasattr(self[0], name)]
        return table_of(self, ["surface", *readings[:1], "feature", "cost", "total"])

    def __repr__(self):
        return shown(self._table(), 2)

    def _repr_html_(self):
        from html import escape

        table = [[f"<td>{escape(cell(value))}</td>" for value in row] for row in self._table()]
        head, *rows = (f"<tr>{''.join(row)}</tr>" for row in table)
        return f"<table>{head.replace('td>', 'th>')}{''.join(rows)}</table>"


def table_of(things, head):
    """Returns a table of attributes, whose first row is the head."""
    return [head, *([getattr(thing, name) for name in head] for thing in things)]


def shown(table, numbers):
    """Returns a table for a terminal. The last columns, `numbers` of them, are aligned right."""
    columns = [[*map(cell, column)] for column in zip(*table)]
    for number, column in enumerate(columns):
        widths = [*map(width_of, column)]
        blanks = [" " * (max(widths) - width) for width in widths]
        pairs = zip(column, blanks) if number < len(columns) - numbers else zip(blanks, column)
        columns[number] = map("".join, pairs)
    return "\n".join("  ".join(row).rstrip() for row in zip(*columns))


def cell(value):
    text = "" if value is None or value is False else "*" if value is True else str(value)
    return text if text.isprintable() else repr(text)[1:-1]


def width_of(text):
    """Returns how many columns of a terminal a text takes."""
    from unicodedata import combining, east_asian_width

    widths = [east_asian_width(character) for character in text if not combining(character)]
    return len(widths) + widths.count("W") + widths.count("F")
