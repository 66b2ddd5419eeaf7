"""The limit file, of either version: the trees of a run, each with its limit."""

import codecs
import csv
import io
import re
from typing import NamedTuple

from report.faults import Unreadable
from report.text import readable

FIRM, ACCOUNT, SYMBOL, HALT = "firm", "account", "symbol", "halt"
SETTINGS = frozenset({"trip", "quota", "repeat", "off"})
LIMIT = re.compile(r"[0-9]{1,12}")
BYTES_MOST = 1_048_576
# The first row of a file of version 2, whose rows have a seventh column, an account's mode.
VERSION_2 = ["version", "2", "", "", "", "", ""]
MODES = frozenset({"", "gross", "net"})


class Tree(NamedTuple):
    """A tree of the run: its number from 0, what it is of, that one's name, and its limit in whole
    currency units; the halt tree has none. In the tree of a net account what was bought and what
    was sold in a symbol offset each other."""

    number: int
    kind: str
    name: str
    limit: int | None
    is_net: bool = False

    def title(self) -> str:
        """What the tree is called: `firm`, `account ALPHA`, `symbol XYZ`, `halt`."""
        return f"{self.kind} {self.name}" if self.name else self.kind

    def join(self, values: list[int]) -> int:
        """The root over what the sessions posted: the sum, in the halt tree the largest."""
        return max(values, default=0) if self.kind == HALT else sum(values)


class Limits(NamedTuple):
    """The trees in order, the halt tree last, and the number of the tree of each account and
    symbol."""

    trees: list[Tree]
    accounts: dict[bytes, int]
    symbols: dict[bytes, int]


def read_limits(data: bytes) -> Limits:
    """The trees of a limit file: the firm's, the accounts', the symbols', the halt tree."""
    if len(data) > BYTES_MOST:
        raise Unreadable(f"the limit file has more than {BYTES_MOST:,} bytes")
    rows = {FIRM: [], ACCOUNT: [], SYMBOL: []}
    for number, row in rows_of(data):
        kind, name, limit = row[0], row[1], row[2]
        mode = "".join(row[6:])
        if mode not in (MODES if kind == ACCOUNT else {""}):
            raise Unreadable(f"row {number} isn't one of a limit file")
        if kind in SETTINGS:
            continue
        if kind not in rows or not LIMIT.fullmatch(limit) or (kind == FIRM) != (name == ""):
            raise Unreadable(f"row {number} isn't one of a limit file")
        if name in (other for other, _, _ in rows[kind]):
            raise Unreadable(f"row {number} of the limit file repeats a row")
        rows[kind].append((name, int(limit), mode == "net"))
    if not rows[FIRM]:
        raise Unreadable("the limit file has no row of the firm")
    return numbered(rows)


def rows_of(data: bytes) -> list[tuple[int, list[str]]]:
    """The rows that aren't empty, counted from 1, but for the one that tells version 2; each of six
    columns, in version 2 of seven. A byte order mark before them is passed over."""
    data = data.removeprefix(codecs.BOM_UTF8)
    text = io.StringIO(data.decode("latin-1"), newline="")
    try:
        rows = [row for row in csv.reader(text) if row]
    except csv.Error as fault:
        raise Unreadable(f"the limit file isn't comma-separated values: {fault}") from fault
    is_second = rows[:1] == [VERSION_2]
    numbered_rows = list(enumerate(rows, 1))[is_second:]
    for number, row in numbered_rows:
        if len(row) != (7 if is_second else 6):
            raise Unreadable(f"row {number} isn't one of a limit file")
    return numbered_rows


def numbered(rows: dict[str, list[tuple[str, int, bool]]]) -> Limits:
    """The trees of these rows with their numbers."""
    trees, places = [], {FIRM: {}, ACCOUNT: {}, SYMBOL: {}}
    for kind, of_kind in rows.items():
        for name, limit, is_net in of_kind:
            places[kind][name.encode("latin-1")] = len(trees)
            trees.append(Tree(len(trees), kind, readable(name.encode("latin-1")), limit, is_net))
    trees.append(Tree(len(trees), HALT, "", None))
    return Limits(trees, places[ACCOUNT], places[SYMBOL])
