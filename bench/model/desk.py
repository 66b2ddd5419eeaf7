"""Limits that change while sessions run: an officer's rows, and a session that reads the limits in
force before it asks the trees.

Trees 0 to n are as in a run, n the halt tree; the limit tree of tree t is n + 1 + t. A limit tree's
root is the smallest of what the officers posted.
"""
import csv
import re

from .session import Session, take_all

OPEN = 2 ** 38 - 1
BYTES_MOST, ROWS_MOST = 1_048_576, 50_000
SHAPE, KIND, NUMBER, NAME, TOO_MANY = 1, 2, 3, 4, 7


class Officer:
    """The rows of an officer's file over limits: (tree, value), or its first fault (kind, row)."""

    def __init__(self, limits, data):
        self.limits, self.rows, self.fault = limits, [], None
        if len(data) > BYTES_MOST:
            self.fault = TOO_MANY, 0
            return
        text = data.decode("latin-1")
        for number, cells in enumerate(filter(None, csv.reader(text.split("\n"))), 1):
            fault = self.take(cells, number)
            if fault:
                self.rows, self.fault = [], (fault, number)
                return

    def take(self, cells, number):
        """Takes a row; its first fault, None where it has none."""
        if len(cells) != 3:
            return SHAPE
        kind, name, text = cells
        if kind not in ("firm", "account", "symbol", "halt"):
            return KIND
        if kind in ("firm", "halt") and name:
            return SHAPE
        value = value_of(kind, text)
        if value is None:
            return NUMBER
        tree = self.tree_of(kind, name.encode("latin-1"))
        if tree is None:
            return NAME
        if number > ROWS_MOST:
            return TOO_MANY
        self.rows.append((tree, value))
        return None

    def tree_of(self, kind, name):
        """The tree in which a row posts; None where the limit file has no such row."""
        limits = self.limits
        if kind == "halt":
            return limits.halt_tree()
        known = {"firm": {b"": 0}, "account": limits.account_places, "symbol": limits.symbol_places}
        if name not in known[kind]:
            return None
        tree = {"firm": lambda _: 0, "account": limits.account_tree,
                "symbol": limits.symbol_tree}[kind](name)
        return limits.halt_tree() + 1 + tree

    def acts(self):
        """A post for each row, in order, and the end."""
        counts, acts = {}, []
        for tree, value in self.rows:
            counts[tree] = counts.get(tree, 0) + 1
            acts.append(("post", tree, counts[tree], value))
        return acts + [("ended", 0, None)]


def value_of(kind, text):
    """What a row posts; None where it isn't a number in its range."""
    if kind == "halt":
        return int(text) if re.fullmatch("[0-9]{1,12}", text) and int(text) <= 1 else None
    if text == "none":
        return OPEN
    return int(text) if re.fullmatch("[0-9]{1,12}", text) and int(text) < OPEN else None


class DeskSession(Session):
    """A session of a desk: new orders alone are sent, and no screen and no trip looks at them."""

    def __init__(self, limits, reads):
        super().__init__(limits, [], reads)

    def take_up(self):
        """Rows that drop screens say nothing here."""

    def cancel(self, values, fields):
        """Refuses a cancel; the book isn't asked."""
        self.refuse(fields, values, "Desk")

    def report(self, message, fields):
        """Notes an OrderCancelReject, and takes a report as ever."""
        if message.kind == "9":
            self.note(2)
        else:
            super().report(message, fields)

    def order(self, message, fields):
        """Refuses a replace; sends or refuses an order."""
        if message.kind == "G":
            self.refuse(fields, message.values, "Desk")
            return
        values, pair = message.values, self.pair_of(message)
        if isinstance(pair, str):
            self.refuse(fields, values, pair)
            return
        terms = values[11], *pair, values[54], values[38], self.price_of(values, pair[1])
        proposal = self.book.propose_new(*terms)
        cause = proposal if isinstance(proposal, str) else self.ask(self.trees_of(*pair), proposal)
        if cause:
            self.refuse(fields, values, cause)
        else:
            self.book.commit_new(*terms)
            self.send(fields, values[52])

    def ask(self, trees, values):
        """Reads the limits in force, posts, and reads the roots; what refuses, None where nothing
        does."""
        limits = [limit for _, _, limit in self.limits.trees()]
        most = [min(limits[tree], self.read(self.limits.halt_tree() + 1 + tree)) for tree in trees]
        if any(self.posts.get(tree, 0) + 2 > self.limits.quota for tree in trees):
            return "Quota"
        old = [self.posted.get(tree, 0) for tree in trees]
        for tree, value in zip(trees, values):
            self.post(tree, value)
        halt = self.read(self.limits.halt_tree())
        roots = [self.read(tree) for tree in trees]
        above = [cause for cause, root, limit in zip(("Firm", "Account", "Symbol"), roots, most)
                 if root > limit]
        cause = "Halt" if halt > 0 else above[0] if above else None
        if cause:
            for tree, value in zip(trees, old):
                self.post(tree, value)
        return cause


def run_desk(limits, data, reads):
    """Takes a whole input. The session, with its acts and streams, and its end as (word, place)."""
    return take_all(DeskSession(limits, reads), data)
