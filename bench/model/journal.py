"""The text of a journal, read: the acts of each session and the lines of each tree."""

HEAD = "kind,session,a,b,c,d"
# Of each kind the bits that the numbers behind its session have; an end's are told by its number.
COLUMNS = {"post": (32, 32, 64), "read": (32, 32, 32, 64), "sent": (32,),
           "refused": (32, 8, 32, 32), "noted": (32, 8, 32, 32), "line": (32, 32, 32, 64),
           "ended": (8,)}
# The numbers of ends, and those that have a place.
ENDS, PLACED = range(7), range(1, 4)


class Fault(Exception):
    """The first row, from 1, with which no journal begins, and its text."""


def is_number(text, bits):
    """Digits without a leading zero, of a number that fits so many bits."""
    is_plain = text.isascii() and text.isdigit() and (text == "0" or text[0] != "0")
    return is_plain and len(text) <= 20 and int(text) < 2 ** bits


def row_of(text):
    """A row: its kind, its session and its further numbers; None where it is none."""
    kind, *cells = text.split(",")
    if kind not in COLUMNS or len(cells) != 5:
        return None
    session, *cells = cells
    bits = COLUMNS[kind]
    if kind == "ended" and cells[0] in map(str, PLACED):
        bits += (64,)
    kept = cells[:len(bits)]
    if any(cells[len(bits):]) or not all(map(is_number, [session] + kept, (32, *bits))):
        return None
    numbers = tuple(map(int, kept))
    if kind == "ended":
        numbers += (None,) * (2 - len(numbers))
        if numbers[0] not in ENDS:
            return None
    return kind, int(session), numbers


class Reader:
    """What was read so far. Lines are (session, index, value), by tree."""

    def __init__(self):
        self.acts, self.lines, self.is_open = [], {}, False

    def takes(self, text):
        """Takes a row behind the header; whether a journal may go on with it."""
        row = row_of(text)
        if not row:
            return False
        kind, session, numbers = row
        return self.takes_line(session, *numbers) if kind == "line" else self.takes_act(*row)

    def takes_act(self, kind, session, numbers):
        """Sessions come one after another, and each ends."""
        if self.lines or session != len(self.acts) - self.is_open:
            return False
        if not self.is_open:
            self.acts.append([])
        self.acts[-1].append((kind, *numbers))
        self.is_open = kind != "ended"
        return True

    def takes_line(self, session, tree, place, index, value):
        """Trees come in rising order behind all acts, and places from 1 on."""
        own = self.lines.get(tree, [])
        if self.is_open or tree < max(self.lines, default=0) or place != len(own) + 1:
            return False
        self.lines.setdefault(tree, own).append((session, index, value))
        return True


def read_journal(text):
    """The acts of each session, as tuples that begin with their kind, and the lines of each tree
    that has some, as (session, index, value)."""
    reader, rows = Reader(), text.split("\n")
    for number, row in enumerate(rows[:-1], 1):
        if not (row == HEAD if number == 1 else reader.takes(row)):
            raise Fault(number, row)
    if rows[-1] or len(rows) == 1 or reader.is_open:
        raise Fault(len(rows), rows[-1])
    return reader.acts, reader.lines
