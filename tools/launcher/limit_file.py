"""What is wrong with a limit file of either version: its first fault, as docs/FORMATS.md has them,
with the row, its line and what was expected there."""
import re

from launcher.say import counted, shown

LONGEST = 1_048_576
COLUMNS = ("kind", "name", "limit", "low", "high", "size")
# What a row of version 2 has besides, and the first row of such a file.
MODE = "mode"
MODES = (b"", b"gross", b"net")
VERSION_2 = [b"version", b"2", b"", b"", b"", b"", b""]

# Of each kind: whether it has a name, the range of its limit, and how many rows there may be.
KINDS = {
    b"firm": (False, (0, 999_999_999_999), 1),
    b"account": (True, (0, 999_999_999_999), 100),
    b"symbol": (True, (0, 999_999_999_999), 400),
    b"trip": (False, (1, 1_000_000), 1),
    b"quota": (False, (1, 200_000), 1),
    b"repeat": (False, (0, 64), 1),
    b"off": (True, (0, 1_000_000_000), 16),
}
SIZES = (1, 1_000_000_000)


class Row:
    """One row: its columns as bytes, its number and its line, both from 1, and its text; and those
    that a row of the file's version has."""

    def __init__(self, columns, number, line, text):
        self.columns = columns
        self.number = number
        self.line = line
        self.text = text
        self.kind = columns[0]
        self.wanted = COLUMNS


class Fault:
    """A fault: its number and row as on standard output, and what was expected."""

    def __init__(self, number, row, expected):
        self.number = number
        self.row = row
        self.expected = expected

    def told(self, path):
        """The lines for standard error."""
        if self.row is None:
            return [f"{path}: fault {self.number}: {self.expected}"]
        row = self.row
        return [
            f"{path}, row {row.number}, line {row.line}: {shown(row.text)}",
            f"fault {self.number}: {self.expected}",
        ]


def first_fault(data):
    """The first fault of a limit file's bytes, or None."""
    if len(data) > LONGEST:
        return Fault(
            7, None, f"it has {counted(len(data))} bytes: at most {counted(LONGEST)} are read"
        )
    before = []
    for row in limit_rows(data):
        for wrong in (shape, kind, wrong_mode, filled, numbers, wrong_name, repeated, too_many, band):
            found = wrong(row, before)
            if found:
                return Fault(found[0], row, found[1])
        before.append(row)
    if not any(row.kind == b"firm" for row in before):
        return Fault(6, None, "no row sets the firm's limit: a row `firm,,LIMIT,,,` is needed")
    return None


def limit_rows(data):
    """The rows but for the one that tells version 2, each with the columns of its version."""
    wanted = COLUMNS
    for row in rows(data):
        if row.number == 1 and row.columns == VERSION_2:
            wanted = (*COLUMNS, MODE)
            continue
        row.wanted = wanted
        yield row


def shape(row, _):
    count = len(row.columns)
    if count == len(row.wanted):
        return None
    columns = f"{count} column" + ("" if count == 1 else "s")
    most = len(row.wanted) - 1
    other = next((one for one in (b";", b"\t", b"|") if row.text.count(one) == most), None)
    more = f". Between columns is a comma, and not {shown(other)}" if other else ""
    if MODE in row.wanted:
        return 1, f"it has {columns}: a row of version 2 has seven, {', '.join(row.wanted)}{more}"
    if count == len(COLUMNS) + 1:
        more = ". A file whose rows have a seventh, the mode, begins with the row `version,2,,,,,`"
    return 1, f"it has {columns}: a row has six, {', '.join(row.wanted)}{more}"


def kind(row, _):
    if row.kind in KINDS:
        return None
    known = ", ".join(word.decode() for word in KINDS)
    return 2, f"the kind is {shown(row.kind)}: it has to be one of {known}{near(row)}"


def near(row):
    """What may have led to a kind that is none."""
    if row.kind == b"kind":
        return ". A limit file has no row of titles"
    if row.kind == b"version":
        return ". A file of version 2 begins with the row `version,2,,,,,`, and has it once"
    if row.kind.strip().lower() in KINDS:
        return ", in small letters and without blanks"
    return ""


def wrong_mode(row, _):
    if row.kind != b"account" or row.columns[6:7] in ([], *([mode] for mode in MODES)):
        return None
    return 2, f"the column {MODE} is {shown(row.columns[6])}: it has to be empty, gross or net"


def filled(row, _):
    named = KINDS[row.kind][0]
    empty = [] if named else [1]
    empty += [] if row.kind == b"symbol" else [3, 4, 5]
    empty += [] if row.kind == b"account" else [6]
    for place, column in enumerate(row.wanted):
        if place in empty and row.columns[place]:
            told, of = f"{column} is {shown(row.columns[place])}", row.kind.decode()
            return 1, f"the column {told}: in a row `{of}` it stays empty"
    return None


def numbers(row, _):
    found = wrong_number(row, 2, KINDS[row.kind][1])
    if row.kind == b"symbol":
        found = found or wrong_price(row, 3) or wrong_price(row, 4) or wrong_number(row, 5, SIZES)
    return found


def wrong_number(row, place, ends):
    text = row.columns[place]
    low, high = ends
    if re.fullmatch(rb"[0-9]{1,12}", text) and low <= int(text) <= high:
        return None
    return 3, (
        f"the column {COLUMNS[place]} is {shown(text)}: it has to be a whole number "
        f"from {counted(low)} to {counted(high)}, in digits alone"
    )


def wrong_price(row, place):
    text = row.columns[place]
    if price(text) is not None:
        return None
    return 3, (
        f"the column {COLUMNS[place]} is {shown(text)}: it has to be a price "
        "from 0.0001 to 999,999.9999, in digits, with a point and four decimals at most"
    )


def price(text):
    """A price in ten-thousandths, or None."""
    found = re.fullmatch(rb"([0-9]*)(?:\.([0-9]*))?", text)
    if not found or len(text) > 32 or not (found.group(1) or found.group(2)):
        return None
    decimals = found.group(2) or b""
    if decimals[4:].strip(b"0"):
        return None
    value = int(found.group(1) or b"0") * 10_000 + int(decimals[:4].ljust(4, b"0"))
    return value if 1 <= value <= 9_999_999_999 else None


def wrong_name(row, _):
    name = row.columns[1]
    if not KINDS[row.kind][0] or (1 <= len(name) <= 64 and all(32 <= byte <= 126 for byte in name)):
        return None
    return 4, f"the name is {shown(name)}: it has to be 1 to 64 printable ASCII characters"


def repeated(row, before):
    named = KINDS[row.kind][0]
    for earlier in before:
        if earlier.kind == row.kind and (not named or earlier.columns[1] == row.columns[1]):
            what = row.kind.decode() + (f" {shown(row.columns[1])}" if KINDS[row.kind][0] else "")
            return 5, f"there was a row {what} before, row {earlier.number}, line {earlier.line}"
    return None


def too_many(row, before):
    most = KINDS[row.kind][2]
    count = sum(1 for earlier in before if earlier.kind == row.kind)
    if count < most:
        return None
    return 7, f"there are {most} rows `{row.kind.decode()}` before: there can't be more"


def band(row, _):
    if row.kind != b"symbol" or price(row.columns[3]) <= price(row.columns[4]):
        return None
    low, high = (text.decode() for text in row.columns[3:5])
    return 8, f"low is {low} and high {high}: low can be at most high"


def rows(data):
    """The rows: as of the crate `csv`, with commas and double quotes, and without empty lines."""
    if data.startswith(b"\xef\xbb\xbf"):
        data = data[3:]
    at, number, line = 0, 0, 1
    while at < len(data):
        if data[at] in b"\r\n":
            line += data[at : at + 2] != b"\r\n"
            at += 1
            continue
        columns, end = columns_at(data, at)
        number += 1
        yield Row(columns, number, line, data[at:end])
        line += len(re.findall(rb"\r\n|\r|\n", data[at:end]))
        at = end


def columns_at(data, at):
    """The columns of the row that begins here, and the place behind it."""
    columns = []
    while True:
        column, at = column_at(data, at)
        columns.append(column)
        if data[at : at + 1] != b",":
            return columns, at
        at += 1


def column_at(data, at):
    """The column that begins here, and the place behind it."""
    column = b""
    if data[at : at + 1] == b'"':
        found = re.compile(rb'((?:[^"]|"")*)"?', re.DOTALL).match(data, at + 1)
        column, at = found.group(1).replace(b'""', b'"'), found.end()
    rest = re.compile(rb"[^,\r\n]*").match(data, at)
    return column + rest.group(), rest.end()
