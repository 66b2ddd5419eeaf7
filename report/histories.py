"""The history of a tree: what the sessions posted, in order, and the root behind each post."""

from array import array
from typing import Iterable

from report.limits import HALT, Tree


class History:
    """The lines of a tree. `roots` has the root at each place: 0 before the first line, then the
    root behind each line, in whole currency units."""

    def __init__(self, tree: Tree):
        self.tree = tree
        self.sessions = array("L")
        self.values = array("q")
        self.roots = array("q", [0])
        self.counts = {}

    def __len__(self) -> int:
        return len(self.values)

    def extend(self, lines: Iterable[tuple], posted: list[array]) -> bool:
        """Appends lines (kind, session, tree, place, index, value), each of which has to be the
        next post of its session; ends at the first that isn't."""
        counts, root, place = self.counts, self.roots[-1], len(self)
        for _, session, _, at, index, value in lines:
            place, session, value = place + 1, int(session), int(value)
            count = counts.get(session, 0)
            posts = posted[session] if session < len(posted) else ()
            if int(at) != place or int(index) != count + 1:
                return False
            if count >= len(posts) or posts[count] != value:
                return False
            counts[session] = count + 1
            root += value - (posts[count - 1] if count else 0)
            self.sessions.append(session)
            self.values.append(value)
            self.roots.append(root)
        if self.tree.kind == HALT:
            self.roots = array("q", self.largest())
        return True

    def largest(self) -> Iterable[int]:
        """At each place the largest of what the sessions posted last."""
        last = {}
        yield 0
        for session, value in zip(self.sessions, self.values):
            last[session] = value
            yield max(last.values())

    def standing(self, place: int) -> dict[int, int]:
        """What each session that posted by then had posted last, at the place; their join is the
        root there."""
        standing = {}
        for session, value in zip(self.sessions[:place], self.values[:place]):
            standing[session] = value
        return dict(sorted(standing.items()))

    def peak(self) -> int:
        """The highest root of the history."""
        return max(self.roots)
