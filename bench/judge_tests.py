#!/usr/bin/env python3
"""Shows that the judge takes a worked run of two sessions, and refuses it with one thing changed.

usage: judge_tests.py

The run is typed in: session 0's buy of 60 @ 10.00 is sent, session 1's is refused as Firm.
"""
import unittest

from journals import RACED, TERMS
from model.judge import Wrong, judge_run
from rows import text

TOLD = """session 0 whole sent 1 refused 0 noted 0
session 1 whole sent 0 refused 1 noted 0
tree 0 firm - posts 3 root 600 limit 1000
tree 1 account ACC posts 3 root 600 limit 100000
tree 2 symbol XYZ posts 3 root 600 limit 100000
tree 3 halt - posts 0 root 0 limit 0
status 0
"""


LIMITS, INPUTS, JOURNAL = RACED.limits, RACED.inputs, RACED.journal
VENUES = [text(f"35=D|49=GATE|56=VENUE|34=1|52=T|11=a1|{TERMS}"), b""]
CLIENTS = [b"", text("35=8|49=GATE|56=C2|34=1|52=T|37=NONE|11=b1|17=G1|150=8|39=8|103=3|1=ACC|"
                     "55=XYZ|54=1|38=60|151=0|14=0|6=0|58=FIRM|")]

# What is changed in the journal: a name, the old rows and the new ones.
CHANGES = (
    ("no header", "kind,session,a,b,c,d\n", ""),
    ("a session without its end", "ended,0,0,,,\n", ""),
    ("an end with a place that it hasn't", "ended,1,0,,,", "ended,1,0,5,,"),
    ("a session's lines in another order",
     "line,1,0,2,1,600\nline,1,0,3,2,0", "line,1,0,2,2,0\nline,1,0,3,1,600"),
    ("a line of another session", "line,1,1,2,1,600", "line,0,1,2,2,600"),
    ("a line with another value", "line,1,2,2,1,600", "line,1,2,2,1,601"),
    ("a line that nobody posted", "line,1,2,3,2,0\n", "line,1,2,3,2,0\nline,1,2,4,3,0\n"),
    ("a post that no line has", "line,1,2,3,2,0\n", ""),
    ("a read before the own post", "read,1,0,2,2,1200", "read,1,0,2,1,600"),
    ("a read behind what was posted later", "read,1,0,2,2,1200", "read,1,0,2,3,600"),
    ("a read behind the lines", "read,0,3,0,0,0", "read,0,3,0,1,0"),
    ("a read that isn't the sum", "read,1,1,2,2,1200", "read,1,1,2,2,1199"),
    ("two places of one stamp", "read,1,2,2,2,1200", "read,1,2,1,2,1200"),
    ("another verdict", "refused,1,0,1,0,0", "refused,1,0,2,0,0"),
    ("another end", "ended,1,0,,,", "ended,1,1,0,,"),
    ("no retracting post", "post,1,2,2,0,\n", ""),
    ("both were sent", "refused,1,0,1,0,0", "sent,1,0,,,"),
)


def judged(journal=JOURNAL, venues=tuple(VENUES), clients=tuple(CLIENTS), told=TOLD, status=0):
    """Judges the run with what is given in place of its own."""
    judge_run(LIMITS, INPUTS, venues, clients, journal, told, status)


class Judged(unittest.TestCase):
    """The worked run, and what it isn't."""

    def test_the_worked_run_is_taken(self):
        """Nothing is changed."""
        judged()

    def test_another_journal_is_refused(self):
        """One thing is changed."""
        for name, old, new in CHANGES:
            with self.subTest(name):
                self.assertEqual(JOURNAL.count(old), 1, name)
                self.assertRaises(Wrong, judged, JOURNAL.replace(old, new))

    def test_other_streams_totals_and_status_are_refused(self):
        """A byte, a message, a count and a status."""
        self.assertRaises(Wrong, judged, venues=(VENUES[0][:-1], b""))
        self.assertRaises(Wrong, judged, venues=(VENUES[0], VENUES[0]))
        self.assertRaises(Wrong, judged, clients=(b"", CLIENTS[1].replace(b"FIRM", b"HALT")))
        told = TOLD.replace("root 600 limit 1000", "root 601 limit 1000")
        self.assertRaises(Wrong, judged, told=told)
        self.assertRaises(Wrong, judged, status=4)


if __name__ == "__main__":
    unittest.main()
