"""What a report says of a tree: how far its limit was used, and what was refused."""

from typing import NamedTuple

from report.chart import Plot
from report.requests import Columns
from report.run import Run
from report.text import grouped, share


class TreeView:
    """A tree of the run with its plot and its figures, values in whole currency units."""

    def __init__(self, run: Run, number: int, columns: int):
        self.history = run.histories[number]
        self.tree = self.history.tree
        self.rows = run.rows
        self.refusals = run.rows.refusals.get(number, ())
        self.highest_sent = run.highest_sent[number]
        self.highest_posted = self.history.peak()
        self.at_end = self.history.roots[-1]
        self.plot = Plot(self.history, map(self.refusal, self.refusals), columns)

    def refusal(self, row: int) -> tuple[int, int, int]:
        """Place, root and row of a refusal."""
        return self.rows.number("place", row), self.rows.number("root", row), row

    def markup(self) -> str:
        """The plot with its labels."""
        return self.plot.markup([self.label(mark.row) for mark in self.plot.marks])

    def label(self, row: int) -> str:
        """What was refused, by whom, and at which root."""
        root = self.rows.number("root", row)
        return (f"{self.rows.text('order_id', row)} of session {self.rows.number('session', row)},"
                f" root {grouped(root)}, {grouped(root - self.tree.limit)} above the limit")

    def used(self) -> str:
        """How much of the limit orders that were sent have used at most."""
        return share(self.highest_sent, self.tree.limit)

    def summary(self) -> str:
        """The picture in a sentence, for who doesn't see it."""
        return (f"{self.tree.title()}: limit {grouped(self.tree.limit)}; orders were sent up to a"
                f" root of {grouped(self.highest_sent)}; the highest root posted is"
                f" {grouped(self.highest_posted)}; refused: {grouped(len(self.refusals))}.")


class FirstRefusal(NamedTuple):
    """The first refusal in a tree's history: what was refused, and what each session had posted
    there."""

    row: int
    place: int
    root: int
    session: int
    order_id: str
    standing: dict[int, int]


def first_refusal(view: TreeView, rows: Columns) -> FirstRefusal | None:
    """The refusal at the lowest place of a tree's history, the first of the rows among equals."""
    if not view.refusals:
        return None
    row = min(view.refusals, key=lambda row: rows.number("place", row))
    place, root, _ = view.refusal(row)
    return FirstRefusal(row, place, root, rows.number("session", row), rows.text("order_id", row),
                        view.history.standing(place))
