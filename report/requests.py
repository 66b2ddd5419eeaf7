"""A row for each request and each report of a run: for the spreadsheet and for the page."""

from array import array
from typing import Iterator, NamedTuple, TextIO

from report import verdicts
from report.agreement import Step
from report.journal import Outcome, Read
from report.limits import Tree
from report.messages import (
    ACCOUNT, EXEC_TYPE, ORDER_ID, ORIGINAL_ID, REPORT, SIDE, SIDES, SYMBOL, TIME, message_name,
    quantity_and_price)
from report.text import csv_cell, spreadsheet_cell
from report.words import Words

HEADER = ("session", "frame", "time", "ClOrdID", "OrigClOrdID", "account", "symbol", "side",
          "quantity", "price", "outcome", "tree", "root", "limit", "excess", "message")

SENT, REFUSED, REPORTED, NOTED, UNTOLD = "sent", "refused", "reported", "noted", "untold"


class Fate(NamedTuple):
    """What became of a request or a report: the sort of it, in words, why, and in one word."""

    sort: str
    text: str
    cause: str
    word: str


def fate_of(is_told: bool, outcome: tuple | None) -> Fate:
    """What became of a request or a report: `outcome` is the act's word and its three codes."""
    if not is_told:
        return Fate(UNTOLD, "not told by the journal", "the session had stopped", "NOT TOLD")
    if outcome is None:
        return Fate(REPORTED, "passed on", "", "PASSED ON")
    word, *codes = outcome
    if word == "sent":
        return Fate(SENT, "sent", "", "SENT")
    if word == "noted":
        return Fate(NOTED, verdicts.note_text(*codes), "", "NOTED")
    return Fate(REFUSED, verdicts.refusal_text(*codes), verdicts.refusal_cause(*codes[:2]),
                verdicts.REFUSALS[codes[0]][0])


def refusing_read(outcome: Outcome | None) -> Read | None:
    """The read of the root that refused a request: of the halt tree, the firm's, the account's or
    the symbol's, read in this order."""
    codes = (verdicts.HALT, verdicts.FIRM, verdicts.ACCOUNT, verdicts.SYMBOL)
    if outcome is None or outcome.word != "refused" or outcome.code not in codes:
        return None
    return outcome.reads[codes.index(outcome.code)]


class Row(NamedTuple):
    """A request or a report. `words` are the numbers of time (52), ClOrdID (11), OrigClOrdID (41),
    account (1), symbol (55), side (54), quantity, price and the message's name; `fate` is the
    number of what became of it; `read` is what refused it."""

    session: int
    frame: int
    words: tuple[int, ...]
    fate: int
    read: Read | None


class Rows:
    """Makes rows, with the words and fates that they share."""

    TAGS = (TIME, ORDER_ID, ORIGINAL_ID, ACCOUNT, SYMBOL, SIDE)

    def __init__(self, trees: list[Tree]):
        self.trees = trees
        self.words = Words()
        self.fates = []
        self.known = {}
        self.names = {}
        number = self.words.number
        self.sides = {number(value): number(name) for value, name in SIDES.items()}

    def row_of(self, session: int, step: Step) -> Row:
        """The row of a request or a report."""
        outcome, kind = step.outcome, step.kind
        exec_type = step.fields.get(EXEC_TYPE) if kind == REPORT else None
        tags = self.TAGS + quantity_and_price(kind, exec_type)
        *texts, side, quantity, price = self.words.numbers_of(step.fields.body, tags)
        words = (*texts, self.sides.get(side, side), quantity, price, self.name(kind, exec_type))
        fate = self.fate(step.is_told, outcome)
        read = refusing_read(outcome) if self.fates[fate].sort == REFUSED else None
        return Row(session, step.frame, words, fate, read)

    def name(self, kind: bytes, exec_type: bytes | None) -> int:
        """The number of the message's name."""
        number = self.names.get((kind, exec_type))
        if number is None:
            number = self.words.number(message_name(kind, exec_type).encode())
            self.names[kind, exec_type] = number
        return number

    def fate(self, is_told: bool, outcome: Outcome | None) -> int:
        """The number of what became of a request or a report."""
        key = is_told, outcome and (outcome.word, outcome.code, outcome.first, outcome.second)
        number = self.known.get(key)
        if number is None:
            number = self.known[key] = self.fate_number(fate_of(*key))
        return number

    def fate_number(self, fate: Fate) -> int:
        """The number of a fate, a new one where it wasn't met before."""
        if fate not in self.fates:
            self.fates.append(fate)
        return self.fates.index(fate)

    def against(self, read: Read) -> tuple[str, int, int | str, int | str]:
        """The tree that refused a request, its root, its limit, and how much the root is above."""
        tree = self.trees[read.tree]
        if tree.limit is None:
            return tree.title(), read.value, "", ""
        return tree.title(), read.value, tree.limit, read.value - tree.limit


class RequestsFile:
    """Rows of `requests.csv`, written one by one."""

    def __init__(self, file: TextIO, rows: Rows):
        self.file = file
        self.rows = rows

    def add(self, row: Row) -> None:
        """Writes a row."""
        cells = self.rows.words.cells
        *texts, message = [cells[number] for number in row.words]
        against = ",,,"
        if row.read is not None:
            title, *numbers = self.rows.against(row.read)
            against = ",".join([csv_cell(spreadsheet_cell(title)), *map(str, numbers)])
        fate = csv_cell(self.rows.fates[row.fate].text)
        self.file.write(
            f"{row.session},{row.frame},{','.join(texts)},{fate},{against},{message}\n")


class Columns:
    """The rows as the page has them: a column of numbers each. A text is the number of its word, a
    fate the number of it; the tree is -1 where none refused."""

    NUMBERS = ("session", "frame", "fate", "tree", "place", "root")
    TEXTS = ("time", "order_id", "original_id", "account", "symbol", "side", "quantity", "price",
             "message")

    def __init__(self, rows: Rows):
        self.rows = rows
        self.numbers = array("q")
        self.texts = array("L")
        self.refusals = {}

    def __len__(self) -> int:
        return len(self.numbers) // len(self.NUMBERS)

    def add(self, row: Row) -> None:
        """Appends a row; of a refusal by a tree its place in the columns is kept for that tree."""
        read = row.read
        if read is not None:
            self.refusals.setdefault(read.tree, array("L")).append(len(self))
        self.numbers.extend((row.session, row.frame, row.fate, *(read or (-1, 0, 0))))
        self.texts.extend(row.words)

    def take(self, other: "Columns") -> None:
        """Appends the rows of other columns, which go by their own words and fates."""
        words = list(map(self.rows.words.number, other.rows.words.numbers))
        fates = list(map(self.rows.fate_number, other.rows.fates))
        for tree, rows in other.refusals.items():
            self.refusals.setdefault(tree, array("L")).extend(len(self) + row for row in rows)
        width, at = len(self.NUMBERS), self.NUMBERS.index("fate")
        other.numbers[at::width] = array("q", [fates[fate] for fate in other.numbers[at::width]])
        self.numbers.extend(other.numbers)
        self.texts.extend(map(words.__getitem__, other.texts))

    def columns(self) -> Iterator[tuple[str, array]]:
        """Each column with its name."""
        for names, values in ((self.NUMBERS, self.numbers), (self.TEXTS, self.texts)):
            for at, name in enumerate(names):
                yield name, values[at::len(names)]

    def text(self, name: str, row: int) -> str:
        """A text of a row, as a page shows it."""
        at = row * len(self.TEXTS) + self.TEXTS.index(name)
        return self.rows.words.texts[self.texts[at]]

    def number(self, name: str, row: int) -> int:
        """A number of a row."""
        return self.numbers[row * len(self.NUMBERS) + self.NUMBERS.index(name)]
