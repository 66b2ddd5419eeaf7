"""Journals with one thing changed: a cell, a row, or two rows that change places."""

# What a cell with a number may be instead, beside its neighbours.
NUMBERS = ("", "0", "1", "2", "3", "4", "5", "6", "7", "00", "01", "-1", "+1", "1 ", "x", "255",
           "256", "4294967295", "4294967296", "18446744073709551615", "18446744073709551616")
KINDS = ("post", "read", "sent", "refused", "noted", "ended", "line", "", "Post", "kind", "post ")


def cells_for(text):
    """What may stand in the place of a cell."""
    near = [str(int(text) + by) for by in (-1, 1, 10)] if text.isdigit() else []
    return [other for other in (*NUMBERS, *near) if other != text]


def of_cells(rows):
    """The rows with each cell changed in turn: what is changed, and the rows."""
    for at, row in enumerate(rows):
        cells = row.split(",")
        for column, text in enumerate(cells):
            others = KINDS if column == 0 else cells_for(text)
            for other in others:
                if other != text:
                    changed = cells[:column] + [other] + cells[column + 1:]
                    yield (f"row {at + 1}, column {column + 1}: {other}",
                           rows[:at] + [",".join(changed)] + rows[at + 1:])


def of_rows(rows):
    """The rows without each, with each twice, with each at each other place, and with each cut."""
    for at, row in enumerate(rows):
        rest = rows[:at] + rows[at + 1:]
        yield f"row {at + 1} is gone", rest
        yield f"row {at + 1} is cut", rows[:at] + [row[:-1]] + rows[at + 1:]
        yield f"row {at + 1} has a column more", rows[:at] + [row + ","] + rows[at + 1:]
        for to in range(len(rows) + 1):
            yield f"row {at + 1} again, as row {to + 1}", rows[:to] + [row] + rows[to:]
        for to in range(len(rows)):
            if to != at:
                yield f"row {at + 1} as row {to + 1}", rest[:to] + [row] + rest[to:]


def of_text(text):
    """The text cut at each of its bytes."""
    for end in range(len(text)):
        yield f"the first {end} bytes", text[:end]


def changes(text):
    """Each change of a journal's text: what is changed, and the text."""
    rows = text.split("\n")[:-1]
    for make in (of_cells, of_rows):
        for name, changed in make(rows):
            yield name, "".join(row + "\n" for row in changed)
    yield from of_text(text)


def change(dice, text):
    """One change of a journal's text: of a cell, mostly; of a row, of two rows, or its end."""
    rows, choice = text.split("\n")[:-1], dice.random()
    at = dice.randrange(len(rows))
    if choice < 0.7:
        cells = rows[at].split(",")
        column = dice.randrange(len(cells))
        cells[column] = dice.choice(KINDS if column == 0 else cells_for(cells[column]))
        rows[at] = ",".join(cells)
    elif choice < 0.8:
        del rows[at]
    elif choice < 0.9:
        rows.insert(dice.randint(0, len(rows)), rows[at])
    elif choice < 0.97:
        rows.insert(dice.randrange(len(rows)), rows.pop(at))
    else:
        return text[:dice.randrange(len(text))]
    return "".join(row + "\n" for row in rows)
