"""Pictures of long histories lose no peak and no refusal."""

import random
import tempfile
import unittest
from array import array
from pathlib import Path
from unittest import mock

from report import run
from report.__main__ import APART, DONE, main
from report.limits import HALT
from report.tests.load import make
from report.tests.quiet import quiet
from report.thinning import marks_of, thinned
from report.trees import TreeView


class Thinning(unittest.TestCase):
    """Points and marks."""

    def test_short(self):
        """A short history keeps every point."""
        self.assertEqual(thinned(array("q", [0, 5, 3]), 1), [(0, 0), (1, 5), (2, 3)])

    def test_peaks(self):
        """Of each column the first, the last, the highest and the lowest are kept."""
        draw = random.Random(7)
        for length in (400, 401, 1999, 5003):
            roots = array("q", [draw.randrange(1000) for _ in range(length)])
            roots[length // 3] = 5000
            points = thinned(roots, 100)
            self.assertTrue(all(roots[place] == root for place, root in points), length)
            self.assertLessEqual(len(points), 400)
            self.assertEqual(points, sorted(set(points)), length)
            for column in range(100):
                first, end = length * column // 100, length * (column + 1) // 100
                kept = [root for place, root in points if first <= place < end]
                of_column = roots[first:end]
                self.assertEqual((kept[0], kept[-1], max(kept), min(kept)),
                                 (of_column[0], of_column[-1], max(of_column), min(of_column)),
                                 length)

    def test_marks(self):
        """Each refusal is counted in one mark, which stands at the highest of its column."""
        refusals = [(10, 7, 0), (11, 9, 1), (12, 8, 2), (99, 4, 3), (100, 4, 4)]
        self.assertEqual([tuple(mark) for mark in marks_of(refusals, 1000, 10)],
                         [(11, 9, 4, 1), (100, 4, 1, 4)])
        self.assertEqual([tuple(mark) for mark in marks_of(refusals, 200, 200)],
                         [(10, 7, 1, 0), (11, 9, 1, 1), (12, 8, 1, 2), (99, 4, 1, 3),
                          (100, 4, 1, 4)])


class Load(unittest.TestCase):
    """A run of several sessions that are interleaved, longer than its pictures have points."""

    def test_several_processes(self):
        """Sessions that several processes read give the same report, and the same faults."""
        with tempfile.TemporaryDirectory() as folder:
            words = make(11, 5, 40, Path(folder))
            names = ("requests.csv", "report.html")
            reports = []
            for large in (run.LARGE, 0):
                with mock.patch.object(run, "LARGE", large), quiet() as said:
                    self.assertEqual(main(words), DONE, said.getvalue())
                reports.append([(Path(folder) / name).read_bytes() for name in names])
            self.assertEqual(reports[0], reports[1])
            (Path(folder) / "s03.venue").write_bytes(b"")
            with mock.patch.object(run, "LARGE", 0), quiet() as said:
                self.assertEqual(main(words), APART)
            self.assertIn("frame 0: message 0 of s03.venue isn't what the gate wrote of it",
                          said.getvalue())

    def test_interleaved(self):
        """What stood at each refusal adds up to the root that refused it; no refusal is without a
        mark, and no peak without a point."""
        with tempfile.TemporaryDirectory() as folder:
            words = [Path(word) for word in make(7, 4, 900, Path(folder))]
            with open(Path(folder) / "x.csv", "w", encoding="utf-8") as table:
                read = run.read_run(words[0], words[1], words[2:], table)
            with quiet() as said:
                self.assertEqual(main([str(word) for word in words]), DONE, said.getvalue())
            html = (Path(folder) / "report.html").read_text(encoding="utf-8")
        refused = 0
        for history in read.histories:
            if history.tree.kind == HALT:
                continue
            view = TreeView(read, history.tree.number, 100)
            refused += len(view.refusals)
            self.assertEqual(sum(mark.count for mark in view.plot.marks), len(view.refusals))
            self.assertIn(view.highest_posted, [root for _, root in view.plot.points])
            for row in view.refusals[:200]:
                place, root, _ = view.refusal(row)
                self.assertEqual(sum(history.standing(place).values()), root)
                self.assertGreater(root, history.tree.limit)
        self.assertEqual(refused, sum(session.refused for session in read.sessions))
        self.assertGreater(refused, 1000)
        self.assertRegex(html, r"Drawn with [\d,]+ of [\d,]+ points: each column keeps")


if __name__ == "__main__":
    unittest.main()
