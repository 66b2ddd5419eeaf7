#!/usr/bin/env python3
"""Tests of the reader of journals that decides which of seven kinds of fault applies first; and of
what it says of each small change of a small journal, beside the judge of runs.

usage: check_tests.py
"""
import os
import re
import unittest
from collections import Counter

import journals
from changes import changes
from journals import HEAD, WORKED
from model import check
from model.check import first_fault
from model.journal import Fault, read_journal
from model.judge import Wrong, judge_journal
from model.limits import Limits
from model.session import run_session
from rows import buy

EXAMPLE = os.path.join(os.path.dirname(os.path.abspath(__file__)), "..", "examples", "first")
ONE, SENT = journals.SENT, journals.SENT.journal


def is_lawful(limits, text, inputs):
    """What the judge of runs says of it: the trees are legal and within their limits, and each
    session's acts are those of its input and its reads."""
    try:
        acts, _ = judge_journal(text, limits)
    except Wrong:
        return False
    return len(acts) == len(inputs) and all(
        run_session(limits, data, [act[2:] for act in own if act[0] == "read"])[0].acts == own
        for data, own in zip(inputs, acts))


class Faults(unittest.TestCase):
    """Faults of each kind."""

    def test_forged_journals(self):
        for worked, table in WORKED:
            for name, old, new, wanted in table:
                with self.subTest(worked.name, forged=name):
                    self.assertIn(old, worked.journal)
                    data = worked.journal.replace(old, new, 1).encode()
                    self.assertEqual(first_fault(Limits(worked.limits), data, worked.inputs), wanted)

    def test_each_change_has_a_fault_or_is_lawful_too(self):
        """The judge of runs, which walks each tree once, takes exactly what has no fault."""
        for worked, _ in WORKED:
            own, counts = Limits(worked.limits), Counter()
            for name, changed in changes(worked.journal):
                found = first_fault(own, changed.encode(), worked.inputs)
                counts[found and found[0]] += 1
                if (found is None) != is_lawful(own, changed, worked.inputs):
                    self.fail(f"{name}: {found}")
            self.assertEqual(set(counts), {None, *range(1, 8)}, counts)

    def test_a_screen_of_ones_own(self):
        """The acts are those with the set that is given."""
        limits, screens = Limits(ONE.limits), lambda session: []
        self.assertIsNone(first_fault(limits, SENT.encode(), ONE.inputs, screens))
        large = buy("C1", "a1", 100, "9999.0000")
        self.assertEqual(first_fault(limits, SENT.encode(), [large], screens), (5, 2))

    def test_a_text_that_is_too_long(self):
        """It isn't read."""
        data = bytearray(check.BYTES_MOST + 1)
        self.assertEqual(first_fault(Limits(ONE.limits), data, ONE.inputs), (1, 0))


class Example(unittest.TestCase):
    """The audit in examples/first: what its README says of the journal that stands there, and of each
    change of a row."""

    def setUp(self):
        with open(os.path.join(EXAMPLE, "README.md"), encoding="utf-8") as file:
            self.page = file.read()
        self.journal = re.search(r"^```\n(kind,.*?)^```$", self.page, re.M | re.S)[1]
        with open(os.path.join(EXAMPLE, "session.fix"), "rb") as file:
            self.inputs = [file.read()]
        with open(os.path.join(EXAMPLE, "limits.csv"), encoding="ascii") as file:
            self.limits = Limits(file.read())

    def test_the_journal_is_lawful(self):
        self.assertIsNone(first_fault(self.limits, self.journal.encode(), self.inputs))

    def test_each_change_of_a_row_has_its_fault(self):
        told = re.findall(r"^\| (\d+) \| `(.*?)` \| `check fault (\d) row (\d+)` \|", self.page, re.M)
        self.assertEqual(len(told), 7)
        for row, text, *fault in told:
            rows = self.journal.splitlines(keepends=True)
            rows[int(row) - 1] = text + "\n"
            with self.subTest(text):
                self.assertEqual(first_fault(self.limits, "".join(rows).encode(), self.inputs),
                                 tuple(map(int, fault)))


class Grammar(unittest.TestCase):
    """The first row with which no journal begins."""

    def test_rows(self):
        for name, text, row in (
                ("no LF behind the header", HEAD[:-1], 1), ("no LF behind a row", SENT[:-1], 13),
                ("a column less", HEAD + "sent,0,0,,\n", 2),
                ("an end without its place", HEAD + "ended,0,1,,,\n", 2),
                ("an end of no number", HEAD + "ended,0,7,,,\n", 2),
                ("an end with a place that it hasn't", HEAD + "ended,0,0,0,,\n", 2),
                ("a code above a byte", HEAD + "noted,0,0,256,0,0\n", 2),
                ("a session left out", HEAD + "ended,1,0,,,\n", 2),
                ("a session again", HEAD + "ended,0,0,,,\nsent,0,0,,,\n", 3),
                ("an act behind lines", HEAD + "ended,0,0,,,\nline,0,0,1,1,1\nended,1,0,,,\n", 4),
                ("a line before the end", HEAD + "sent,0,0,,,\nline,0,0,1,1,1\n", 3),
                ("a place left out", HEAD + "ended,0,0,,,\nline,0,0,2,1,1\n", 3),
                ("trees that fall", HEAD + "line,0,1,1,1,1\nline,0,0,1,1,1\n", 3)):
            with self.subTest(name):
                with self.assertRaises(Fault) as raised:
                    read_journal(text)
                self.assertEqual(raised.exception.args[0], row)

    def test_journals(self):
        """No session, a tree left out, and numbers at their most."""
        self.assertEqual(read_journal(HEAD), ([], {}))
        most = f"line,{2 ** 32 - 1},{2 ** 32 - 1},1,{2 ** 32 - 1},{2 ** 64 - 1}\n"
        self.assertEqual(read_journal(HEAD + "ended,0,3,18446744073709551615,,\n" + most),
                         ([[("ended", 3, 2 ** 64 - 1)]],
                          {2 ** 32 - 1: [(2 ** 32 - 1, 2 ** 32 - 1, 2 ** 64 - 1)]}))


if __name__ == "__main__":
    unittest.main()
