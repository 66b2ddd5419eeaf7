"""The picture of a tree's history: a step line of the root, its limit, the refusals as marks.

A plot is drawn in percent of the room that it is given, so that it fits a page of any width with
its marks and texts undistorted.
"""

from html import escape
from typing import Iterable

from report.histories import History
from report.text import counted, grouped
from report.thinning import Mark, marks_of, thinned

UNITS = 1000
HEADROOM = 1.24
DENSE = 60
WIDE_MARK = "M0-3L-5.5-12.5H5.5Z"
SMALL_MARK = "M0-1L-2.5-8H2.5Z"


class Plot:
    """A plot of a history: its points and marks, thinned to so many columns, and its scale."""

    def __init__(self, history: History, refusals: Iterable[tuple[int, int, int]], columns: int):
        self.history = history
        self.limit = history.tree.limit or 0
        self.points = thinned(history.roots, columns)
        self.marks = marks_of(refusals, len(history.roots), columns)
        self.places = len(history.roots)
        self.top = max(self.limit, history.peak(), 1) * HEADROOM

    def is_thinned(self) -> bool:
        """Whether there are more places than points."""
        return len(self.points) < len(self.history.roots)

    def x(self, place: int, units: int = UNITS) -> str:
        """A place of the history, from the left. Each place has the same width, the last too."""
        return spelled(units * place / self.places)

    def y(self, value: int, units: int = UNITS) -> str:
        """A value, from the top."""
        return spelled(units * (1 - value / self.top))

    def path(self) -> str:
        """The step line, from the left edge to the right."""
        steps = [f"M0 {self.y(self.points[0][1])}"]
        steps.extend(f"H{self.x(place)}V{self.y(root)}" for place, root in self.points[1:])
        return "".join(steps) + f"H{UNITS}"

    def mark(self, mark: Mark, label: str) -> str:
        """A mark of one refusal, or of several, with its label as a tooltip."""
        shape, name = (SMALL_MARK, "small mark") if self.is_dense() else (WIDE_MARK, "mark")
        if mark.count > 1:
            label = f"{counted(mark.count, 'refusal')} here, the highest: {label}"
        return (f'<svg x="{self.x(mark.place, 100)}%" y="{self.y(mark.root, 100)}%" class="{name}">'
                f'<title>{escape(label)}</title><path d="{shape}"/></svg>')

    def is_dense(self) -> bool:
        """Whether there are so many marks that each is small."""
        return len(self.marks) > DENSE

    def markup(self, labels: list[str]) -> str:
        """The plot, for the inside of an `svg` element; a label for each mark."""
        line, limit = self.path(), self.y(self.limit)
        lines = (
            f'<svg viewBox="0 0 {UNITS} {UNITS}" preserveAspectRatio="none" width="100%"'
            f' height="100%"><rect class="above" width="{UNITS}" height="{limit}"/>'
            f'<path class="area" d="{line}V{UNITS}H0Z"/>'
            f'<path class="limit" d="M0 {limit}H{UNITS}"/>'
            f'<path class="root" d="{line}"/></svg>')
        return lines + self.limit_text() + "".join(map(self.mark, self.marks, labels))

    def limit_text(self) -> str:
        """The limit above its line, at the end where the root is lower."""
        quarter = len(self.points) // 4 + 1
        left, right = (max(root for _, root in part)
                       for part in (self.points[:quarter], self.points[-quarter:]))
        end = ' x="100%" text-anchor="end"' if right < left else ' x="0"'
        rise = -14 if self.is_dense() else -6
        return (f'<text class="limit-text"{end} y="{self.y(self.limit, 100)}%" dy="{rise}">'
                f'limit {grouped(self.limit)}</text>')


def spelled(number: float) -> str:
    """A coordinate with at most one decimal."""
    return f"{number:.1f}".removesuffix(".0")
