"""A limit file of either version: its rows and the trees that they make; of a text that is none, its
first fault."""
import copy
import csv
import re
from collections import namedtuple

from .messages import Form, Range, read_id, read_price

Symbol = namedtuple("Symbol", "limit low high size")
QUOTA = 50_000
# In a run of more sessions than these a quota above the most counts as that.
SESSIONS_OF_ANY_QUOTA, COUNTED_MOST = 32, 100_000
MOST_BYTES = 1_048_576
SHAPE, KIND, NUMBER, NAME, REPEATED, NO_FIRM, TOO_MANY, BAND = range(1, 9)
# Of each kind: whether it has a name, whether it has a band and a size, its limit's least and most,
# and how many rows there may be.
Kind = namedtuple("Kind", "is_named is_banded least most rows")
KINDS = {
    "firm": Kind(False, False, 0, 999_999_999_999, 1),
    "account": Kind(True, False, 0, 999_999_999_999, 100),
    "symbol": Kind(True, True, 0, 999_999_999_999, 400),
    "trip": Kind(False, False, 1, 1_000_000, 1),
    "quota": Kind(False, False, 1, 200_000, 1),
    "repeat": Kind(False, False, 0, 64, 1),
    "off": Kind(True, False, 0, 1_000_000_000, 16),
}
SIZES = (1, 1_000_000_000)
# The first row of a file of version 2, whose rows have a seventh column, the mode.
VERSION = ["version", "2", "", "", "", "", ""]
MODES = ("", "gross", "net")


def is_number(text, least, most):
    """1 to 12 digits, within bounds."""
    return bool(re.fullmatch(r"[0-9]{1,12}", text)) and least <= int(text) <= most


def is_price(text):
    """A price as in an order."""
    try:
        return read_price(text.encode()) > 0
    except (Form, Range):
        return False


def is_name(text):
    """1 to 64 bytes of 32 to 126."""
    try:
        return bool(read_id(text.encode()))
    except (Form, Range):
        return False


def rows_of(text):
    """Its version, and its rows with their numbers from 1 but for the row that tells the version."""
    rows = list(enumerate(filter(None, csv.reader(text.split("\n"))), 1))
    return (2, rows[1:]) if rows and rows[0][1] == VERSION else (1, rows)


def fault_of_row(version, row, before):
    """The first fault of a row behind rows of these kinds and names; None where it has none."""
    if len(row) != {1: 6, 2: 7}[version]:
        return SHAPE
    (word, name, limit, low, high, size), mode = row[:6], "".join(row[6:])
    kind = KINDS.get(word)
    if not kind or (word == "account" and mode not in MODES):
        return KIND
    if (name and not kind.is_named) or ((low or high or size) and not kind.is_banded):
        return SHAPE
    if mode and word != "account":
        return SHAPE
    are_numbers = is_number(limit, kind.least, kind.most)
    if kind.is_banded:
        are_numbers &= is_price(low) and is_price(high) and is_number(size, *SIZES)
    if not are_numbers:
        return NUMBER
    if kind.is_named and not is_name(name):
        return NAME
    if (word, name) in before:
        return REPEATED
    if sum(own == word for own, _ in before) == kind.rows:
        return TOO_MANY
    is_band = not kind.is_banded or read_price(low.encode()) <= read_price(high.encode())
    return None if is_band else BAND


def first_fault(text):
    """The number of a text's first fault and its row, from 1 and 0 for the whole; None of a limit
    file."""
    if len(text.encode()) > MOST_BYTES:
        return TOO_MANY, 0
    version, rows = rows_of(text)
    before = []
    for number, row in rows:
        fault = fault_of_row(version, row, before)
        if fault:
            return fault, number
        before.append(tuple(row[:2]))
    return None if ("firm", "") in before else (NO_FIRM, 0)


class Limits:
    """Firm, accounts and symbols with their limits, in file order, the names of the accounts that
    are net, and the settings."""

    def __init__(self, text):
        self.firm, self.trip, self.quota, self.repeat = None, None, QUOTA, 0
        self.accounts, self.symbols, self.off, self.nets = {}, {}, [], set()
        for _, (kind, name, limit, low, high, size, *mode) in rows_of(text)[1]:
            self.take(kind, name.encode(), int(limit), low, high, size)
            if mode == ["net"]:
                self.nets.add(name.encode())
        self.account_places = {name: place for place, name in enumerate(self.accounts)}
        self.symbol_places = {name: place for place, name in enumerate(self.symbols)}

    def counted(self, sessions):
        """The limits as a run of so many sessions counts them."""
        limits = copy.copy(self)
        if sessions > SESSIONS_OF_ANY_QUOTA:
            limits.quota = min(self.quota, COUNTED_MOST)
        return limits

    def take(self, kind, name, limit, low, high, size):
        """Takes a row."""
        if kind == "account":
            self.accounts[name] = limit
        elif kind == "symbol":
            low, high = read_price(low.encode()), read_price(high.encode())
            self.symbols[name] = Symbol(limit, low, high, int(size))
        elif kind == "off":
            self.off.append((name, limit))
        elif kind in ("firm", "trip", "quota", "repeat"):
            setattr(self, kind, limit)
        else:
            raise ValueError(kind)

    def account_tree(self, name):
        """The number of an account's tree; the firm's is 0."""
        return 1 + self.account_places[name]

    def symbol_tree(self, name):
        """The number of a symbol's tree."""
        return 1 + len(self.accounts) + self.symbol_places[name]

    def halt_tree(self):
        """The number of the halt tree, which is the last."""
        return 1 + len(self.accounts) + len(self.symbols)

    def trees(self):
        """Of each tree its word, its name and its limit."""
        yield "firm", "-", self.firm
        for name, limit in self.accounts.items():
            yield "account", name.decode(), limit
        for name, row in self.symbols.items():
            yield "symbol", name.decode(), row.limit
        yield "halt", "-", 0
