"""The rows of a journal, read about a megabyte at a time."""

import re
from itertools import groupby
from operator import itemgetter
from typing import BinaryIO, Iterator, NamedTuple

from report.faults import Unreadable

HEADER = b"kind,session,a,b,c,d\n"
NUMBER = rb"(?:0|[1-9][0-9]{0,17})"
ACTS = re.compile(
    rb"(?:(?:post,N,N,N,N,|read,N,N,N,N,N|sent,N,N,,,|refused,N,N,N,N,N|noted,N,N,N,N,N"
    rb"|ended,N,[1-3],N,,|ended,N,[0456],,,)\n)*".replace(b"N", NUMBER))
LINES = re.compile(rb"(?:line,N,N,N,N,N\n)*".replace(b"N", NUMBER))
FIRST_LINE = re.compile(rb"^line,", re.MULTILINE)
BLOCK = 1 << 20
ROW_MOST = 256
COLUMNS = 6

Cells = tuple[bytes, bytes, bytes, bytes, bytes, bytes]


class Start(NamedTuple):
    """A place in a journal: the byte, from 0, and how many rows stand before it."""

    byte: int
    rows: int


def session_starts(file: BinaryIO, sessions: int) -> list[Start]:
    """Where each of so many sessions begins, and last where the lines begin: behind the header and
    behind each row `ended`. Where there are fewer, the last stands for those that are missing."""
    if file.read(len(HEADER)) != HEADER:
        raise Unreadable("the journal, row 1: it isn't the header of a journal")
    starts, text, byte, rows = [Start(len(HEADER), 1)], b"\n", len(HEADER) - 1, 1
    while len(starts) <= sessions and len(text) <= BLOCK and (more := file.read(BLOCK)):
        text += more
        at = 0
        while (ended := text.find(b"\nended,", at)) >= 0:
            end = text.find(b"\n", ended + 1)
            if end < 0:
                break
            rows += text.count(b"\n", at + 1, end + 1)
            starts.append(Start(byte + end + 1, rows))
            at = end
        last = text.rfind(b"\n")
        rows += text.count(b"\n", at + 1, last + 1)
        text, byte = text[last:], byte + last
    starts += starts[-1:] * (sessions + 1 - len(starts))
    return starts[:sessions + 1]


class JournalRows:
    """The rows of a journal from a start on; rows are counted from 1."""

    def __init__(self, file: BinaryIO, start: Start):
        file.seek(start.byte)
        self.file = file
        self.text = b""
        self.taken = start.rows
        self.pending = iter(())

    def fault(self, text: str) -> Unreadable:
        """The fault at the row behind those that were taken."""
        return Unreadable(f"the journal, row {self.taken + 1}: {text}")

    def fault_here(self, text: str) -> Unreadable:
        """The fault at the act that a caller took last."""
        return Unreadable(f"the journal, row {self.taken - len(list(self.pending))}: {text}")

    def block(self) -> bytes:
        """Whole rows that come next, without taking them; nothing at the end of the file."""
        end = self.text.rfind(b"\n") + 1
        if not end:
            self.text += self.file.read(BLOCK)
            end = self.text.rfind(b"\n") + 1
        if not end and self.text:
            raise self.fault("it isn't a row of a journal")
        return self.text[:end]

    def take(self, rows: bytes, grammar: re.Pattern) -> Iterator[Cells]:
        """Takes these rows, which have to be of the grammar; the cells of each."""
        good = grammar.match(rows).end()
        if good < len(rows):
            self.taken += rows.count(b"\n", 0, good)
            raise self.fault("it isn't a row of a journal, or doesn't stand where it may")
        self.text = self.text[len(rows):]
        self.taken += rows.count(b"\n")
        cells = iter(rows.replace(b"\n", b",").split(b","))
        return zip(*[cells] * COLUMNS)

    def acts(self) -> Iterator[Cells]:
        """The acts that come next."""
        while True:
            rows = self.block()
            first_line = FIRST_LINE.search(rows)
            rows = rows[:first_line.start()] if first_line else rows
            if not rows:
                return
            self.pending = self.take(self.acts_of_one(rows), ACTS)
            yield from self.pending

    @staticmethod
    def acts_of_one(rows: bytes) -> bytes:
        """The rows up to the first that is `ended`, with it."""
        at = 0 if rows.startswith(b"ended,") else rows.find(b"\nended,") + 1
        if not at and not rows.startswith(b"ended,"):
            return rows
        return rows[:rows.index(b"\n", at) + 1]

    def lines(self) -> Iterator[tuple[bytes, list[Cells]]]:
        """The lines that are left, those of a tree together, in one or several pieces."""
        while rows := self.block():
            if ACTS.match(rows).end():
                raise self.fault("an act of a session that isn't given")
            for tree, lines in groupby(self.take(rows, LINES), itemgetter(2)):
                yield tree, list(lines)
