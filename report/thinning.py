"""Fewer points of a history for a picture, without losing a peak or a refusal."""

from array import array
from typing import Iterable, NamedTuple


class Mark(NamedTuple):
    """One refusal, or several that fall into one column: the place and the root of the highest, how
    many they are, and which of them is the highest."""

    place: int
    root: int
    count: int
    row: int


def column_bounds(length: int, columns: int) -> Iterable[tuple[int, int]]:
    """Cuts so many points into so many columns, each from one place up to another."""
    for column in range(columns):
        yield length * column // columns, length * (column + 1) // columns


def thinned(roots: array, columns: int) -> list[tuple[int, int]]:
    """Points (place, root) of a step line: all of them, or of each column the first, the last, the
    highest and the lowest."""
    if len(roots) <= 4 * columns:
        return list(enumerate(roots))
    points = []
    for first, end in column_bounds(len(roots), columns):
        of_column = roots[first:end]
        kept = {first, end - 1, first + of_column.index(max(of_column)),
                first + of_column.index(min(of_column))}
        points.extend((place, roots[place]) for place in sorted(kept))
    return points


def marks_of(refusals: Iterable[tuple[int, int, int]], length: int, columns: int) -> list[Mark]:
    """The refusals (place, root, row), those of one column as one mark. Each place has a column of
    its own where there are no more places than columns."""
    marks = {}
    for place, root, row in refusals:
        column = place if length <= columns else place * columns // length
        mark = marks.get(column)
        if mark is None:
            marks[column] = Mark(place, root, 1, row)
        elif root > mark.root:
            marks[column] = Mark(place, root, mark.count + 1, row)
        else:
            marks[column] = mark._replace(count=mark.count + 1)
    return [marks[column] for column in sorted(marks)]
