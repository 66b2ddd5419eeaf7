"""The journal of a run: each session's acts in order, then each tree's lines.

What it tells twice has to agree: each post stands once among its tree's lines, and each read is the
root at its place.
"""

from array import array
from typing import NamedTuple

from report.faults import Unreadable
from report.frames import End
from report.histories import History
from report.journal_rows import JournalRows
from report.limits import Tree


class Read(NamedTuple):
    """A read of a root: tree, place in its history, value."""

    tree: int
    place: int
    value: int


class Outcome(NamedTuple):
    """What became of a frame: `sent`, `refused` or `noted`, its codes, and the reads that it
    stands on."""

    word: str
    frame: int
    code: int
    first: int
    second: int
    reads: tuple[Read, ...]


class Calls:
    """The posts and reads of a session, for each tree in order: the values of the posts; the places
    and the values of the reads."""

    def __init__(self, trees: int):
        self.posts = [array("q") for _ in range(trees)]
        self.places = [array("q") for _ in range(trees)]
        self.values = [array("q") for _ in range(trees)]

    def keep(self, reads: list[Read]) -> None:
        """Keeps the reads of a request."""
        for tree, place, value in reads:
            self.places[tree].append(place)
            self.values[tree].append(value)


class Acts(NamedTuple):
    """What a session did: the outcomes in order, its end, and its calls."""

    outcomes: list[Outcome]
    end: End
    calls: Calls


def read_acts(rows: JournalRows, session: int, trees: int) -> Acts:
    """The acts of the session that comes next, which has to be this one."""
    outcomes, reads, calls, number = [], [], Calls(trees), b"%d" % session
    numbers = {b"%d" % tree: tree for tree in range(trees)}
    for kind, of, a, b, c, d in rows.acts():
        if of != number:
            raise rows.fault_here(f"an act of session {session} has to stand here")
        if kind == b"post" or kind == b"read":
            tree = numbers.get(a)
            if tree is None:
                raise rows.fault_here(f"the limit file has no tree {int(a)}")
            if kind == b"read":
                reads.append(Read(tree, int(c), int(d)))
                continue
            posts = calls.posts[tree]
            posts.append(int(c))
            if int(b) != len(posts):
                raise rows.fault_here(f"post {len(posts)} of the session in tree {tree} comes next")
        elif kind == b"ended":
            return Acts(outcomes, End(int(a), int(b) if b else None), calls)
        else:
            codes = (int(b), int(c), int(d)) if b else (0, 0, 0)
            outcomes.append(Outcome(kind.decode(), int(a), *codes, tuple(reads)))
            calls.keep(reads)
            reads.clear()
    raise rows.fault(f"the journal ends before session {session} does")


def read_histories(rows: JournalRows, trees: list[Tree], calls: list[Calls]) -> list[History]:
    """The history of each tree, from all lines to the journal's end, which have to be the posts of
    these sessions."""
    histories = [History(tree) for tree in trees]
    posted = [[of.posts[tree.number] for of in calls] for tree in trees]
    last = 0
    for cell, lines in rows.lines():
        tree = int(cell)
        if not last <= tree < len(trees):
            raise Unreadable(f"the journal: a line of tree {tree} doesn't stand where it may")
        last = tree
        if not histories[tree].extend(lines, posted[tree]):
            raise Unreadable(f"the journal: line {len(histories[tree]) + 1} of tree {tree} isn't"
                             " the next post of its session")
    for history, of_tree in zip(histories, posted):
        if sum(map(len, of_tree)) != len(history):
            raise Unreadable(f"the journal: tree {history.tree.number} has posts without a line")
        for of in calls:
            agree_on_reads(history, of)
    return histories


def agree_on_reads(history: History, calls: Calls) -> None:
    """Each read is the root at its place."""
    tree, roots = history.tree.number, history.roots
    for place, value in zip(calls.places[tree], calls.values[tree]):
        if place >= len(roots) or roots[place] != value:
            raise Unreadable(f"the journal: a read of tree {tree} at place {place} gives {value},"
                             " which isn't the root there")
