#!/usr/bin/env python3
"""Tests of the plain desk, on which officers set limits while sessions run, and of its judge: faults
of officers' files, worked sessions, and runs over plain boards with something wrong.

usage: desk_tests.py
"""
import random
import unittest

import loads
from boards import Board, OnBoard, journal_of, take_next, whole
from model.answers import REFUSALS
from model.desk import OPEN, DeskSession, Officer, run_desk
from model.desk_judge import folds, judge_run
from model.frames import framed
from model.judge import UNITS, Wrong
from model.limits import Limits
from rows import base, buy, cancel, refusal, replace, report, trade

LIMITS = base(1_000)
BUY = buy("C1", "a1", 60, "10.00")
BY_FOLD = {"sum": sum, "max": max, "min": min}
# A name, an officer's file, and its fault as (kind, row), None where it has none.
FILES = (
    ("nothing", "", None),
    ("each kind", "firm,,0\naccount,ACC,274877906942\nsymbol,XYZ,none\nhalt,,1\n", None),
    ("no line end, and an empty line", "firm,,000000000005\n\nhalt,,0", None),
    ("two columns", "firm,5\n", (1, 1)),
    ("four columns", "firm,,5\nfirm,,5,\n", (1, 2)),
    ("a limit file's row", "firm,,5,,,\n", (1, 1)),
    ("a kind that is none", "trip,,5\n", (2, 1)),
    ("a name of the firm", "firm,ACC,x\n", (1, 1)),
    ("a name of the halt", "halt,ACC,2\n", (1, 1)),
    ("letters", "firm,,abc\n", (3, 1)),
    ("a limit too large", "firm,,274877906943\n", (3, 1)),
    ("13 digits", "firm,,0000000000005\n", (3, 1)),
    ("a halt of 2", "halt,,2\n", (3, 1)),
    ("a halt of none", "halt,,none\n", (3, 1)),
    ("an unknown account", "account,ACD,5\n", (4, 1)),
    ("a symbol that is an account", "symbol,ACC,5\n", (4, 1)),
    ("a number before a name", "account,ACD,x\n", (3, 1)),
    ("the most rows", "firm,,5\n" * 50_000, None),
    ("a row more", "firm,,5\n" * 50_001, (7, 50_001)),
    ("a row more with a fault", "firm,,5\n" * 50_000 + "firm,5\n", (1, 50_001)),
    ("the most bytes", "\n" * 1_048_576, None),
    ("a byte more", "\n" * 1_048_577, (7, 0)),
)


class Officers(unittest.TestCase):
    """An officer's file."""

    def test_faults(self):
        for name, text, fault in FILES:
            with self.subTest(name):
                self.assertEqual(Officer(Limits(LIMITS), text.encode()).fault, fault)

    def test_acts(self):
        """A post for each row, with what it sets; those of the limits behind the halt tree."""
        text = "firm,,2000\nhalt,,1\nsymbol,XYZ,none\nfirm,,7\n"
        self.assertEqual(Officer(Limits(LIMITS), text.encode()).acts(), [
            ("post", 4, 1, 2_000), ("post", 3, 1, 1), ("post", 6, 1, OPEN), ("post", 4, 2, 7),
            ("ended", 0, None)])


class Turn(OnBoard, DeskSession):
    """A session over a board."""

    def __init__(self, limits, number, board):
        super().__init__(limits, [])
        self.number, self.board = number, board


class Keeping(Turn):
    """A session that reads each limit in force once, and keeps it."""

    def __init__(self, limits, number, board):
        super().__init__(limits, number, board)
        self.kept = {}

    def read(self, tree):
        if tree <= self.limits.halt_tree():
            return super().read(tree)
        if tree not in self.kept:
            self.kept[tree] = super().read(tree)
        return self.kept[tree]


class Larger(Turn):
    """A session for which the larger of the two limits counts."""

    def read(self, tree):
        value, own = super().read(tree), tree - 1 - self.limits.halt_tree()
        limits = [limit for _, _, limit in self.limits.trees()]
        return value if own < 0 else max(value, limits[own])


class Late(Turn):
    """A session that reads the limits in force behind its posts."""

    def ask(self, trees, values):
        before = len(self.acts)
        cause = super().ask(trees, values)
        reads, self.acts[before:before + 3] = self.acts[before:before + 3], []
        self.acts[before + 3:before + 3] = reads
        return cause


def board_for(limits, passes):
    """A board with the trees of these limits."""
    return Board(passes, [(BY_FOLD[fold], UNITS[fold]) for fold in folds(limits)])


class OfficerTurn:
    """An officer over a board, a row at a time."""

    def __init__(self, limits, number, board, data):
        self.acts, self.number, self.board, self.done = Officer(limits, data).acts(), number, board, 0

    def take(self):
        """Posts the next row; whether there was one."""
        kind, *rest = self.acts[self.done]
        if kind == "ended":
            return False
        self.board.post(self.number, rest[0], rest[1], rest[2])
        self.done += 1
        return True


def played(limit_text, officers, inputs, kind=Turn, dice=None):
    """A run over one board: officers first and then sessions, or all as the dice fall. What
    `judge_run` takes."""
    limits, count = Limits(limit_text), len(officers)
    board = board_for(limits, count + len(inputs))
    posting = [OfficerTurn(limits, number, board, data) for number, data in enumerate(officers)]
    sessions = [kind(limits, count + number, board) for number in range(len(inputs))]
    places = [0] * len(inputs)
    while any(place < len(data) for place, data in zip(places, inputs)):
        for officer in posting:
            while (not dice or dice.random() < 0.5) and officer.take():
                pass
        for number, data in enumerate(inputs):
            if places[number] < len(data) and not (dice and dice.random() < 0.5):
                places[number] = take_next(data, places[number],
                                           lambda _, fields, to=sessions[number]: to.take(fields))
                sessions[number].frame += 1
    for officer in posting:
        while officer.take():
            pass
    acts = [officer.acts for officer in posting]
    acts += [session.acts + [("ended", 0, None)] for session in sessions]
    return (limit_text, officers, inputs, [session.venue.data for session in sessions],
            [session.client.data for session in sessions], journal_of(board, acts), "status 0\n", 0)


def of_orders(made):
    """What became of the requests of the last session: 0 where one was sent."""
    acts = judge_run(*made)[-1]
    return [0 if act[0] == "sent" else act[2] for act in acts if act[0] in ("sent", "refused")]


# A name, the officers' files, the messages, and what becomes of the requests.
SESSIONS = (
    ("no officer's row", [""], [BUY], [0]),
    ("a limit above the file's", ["firm,,2000\n"], [BUY, buy("C1", "a2", 60, "10.00")], [0, 1]),
    ("a limit below", ["firm,,500\n"], [BUY], [1]),
    ("an account's limit", ["account,ACC,599\n"], [BUY], [2]),
    ("a symbol's limit, exactly", ["symbol,XYZ,600\n"], [BUY], [0]),
    ("two officers on one limit: the smaller counts", ["firm,,599\n", "firm,,700\n"], [BUY], [1]),
    ("the last row of each counts", ["firm,,599\nfirm,,none\n", "firm,,700\n"], [BUY], [0]),
    ("a halt", ["halt,,1\n"], [BUY], [4]),
    ("a halt that is lifted", ["halt,,1\nhalt,,0\n"], [BUY], [0]),
    ("a halt that another officer hasn't lifted", ["halt,,1\nhalt,,0\n", "halt,,1\n"], [BUY], [4]),
    ("cancels and replaces", [""], [BUY, cancel("c1", "a1"), replace("r1", "a1", 10, "10.00"),
                                    cancel("c2", "zz")], [0, 18, 18, 18]),
    ("a report lowers what counts", [""], [BUY, report("4", "a1"), buy("C1", "a2", 100, "10.00")],
     [0, 0]),
    ("an id again", [""], [BUY, BUY], [0, 7]),
)


class Sessions(unittest.TestCase):
    """What is sent behind officers that came first."""

    def test_what_becomes_of_requests(self):
        for name, officers, frames, wanted in SESSIONS:
            with self.subTest(name):
                files = [text.encode() for text in officers]
                self.assertEqual(of_orders(played(LIMITS, files, [b"".join(frames)])), wanted)

    def test_the_acts_of_an_order(self):
        """The limits in force are read, then the values posted, then the halt root and the roots
        read."""
        session, _ = run_desk(Limits(LIMITS), BUY, [(1, 1, 500), (0, 0, OPEN), (0, 0, OPEN), (0, 0, 0),
                                                    (1, 1, 600), (1, 1, 600), (1, 1, 600)])
        self.assertEqual(session.acts, [
            ("read", 4, 1, 1, 500), ("read", 5, 0, 0, OPEN), ("read", 6, 0, 0, OPEN),
            ("post", 0, 1, 600), ("post", 1, 1, 600), ("post", 2, 1, 600), ("read", 3, 0, 0, 0),
            ("read", 0, 1, 1, 600), ("read", 1, 1, 1, 600), ("read", 2, 1, 1, 600),
            ("post", 0, 2, 0), ("post", 1, 2, 0), ("post", 2, 2, 0),
            ("refused", 0, REFUSALS["Firm"].code, 0, 0), ("ended", 0, None)])

    def test_the_reads_come_before_the_test_of_the_quota(self):
        session, _ = run_desk(Limits(base(1_000, "quota,,1,,,")), BUY, [])
        self.assertEqual([act[0] for act in session.acts],
                         ["read", "read", "read", "refused", "ended"])

    def test_screens_and_trips_say_nothing(self):
        """Repeats, a quantity above the size, a price above the collar, and a trip at the first."""
        limits = base(1_000, "repeat,,5,,,", "trip,,1,,,", "off,size,0,,,")
        frames = [buy("C1", "a1", 200, "10.00"), buy("C1", "a2", 1, "12.01"), buy("C1", "a3", 1, "12.01"),
                  buy("C1", "a4", 100_001, "0.0001")]
        self.assertEqual(of_orders(played(limits, [b""], [b"".join(frames)])), [1, 0, 0, 0])

    def test_a_request_and_a_refusal(self):
        """A cancel is answered, 434=1 and 102=2; a sound OrderCancelReject is noted and goes nowhere."""
        session, _ = run_desk(Limits(LIMITS), cancel("a1", "c1") + refusal("a1", "c1"), [])
        self.assertEqual(session.client.data, framed(
            b"35=9|49=GATE|56=C1|34=1|52=20240102-10:00:00|37=NONE|11=a1|41=c1|39=8|434=1|102=2|"
            b"58=DESK|".replace(b"|", b"\x01")))
        self.assertEqual(session.acts, [("refused", 0, 18, 0, 0), ("noted", 1, 2, 0, 0),
                                        ("ended", 0, None)])


class Runs(unittest.TestCase):
    """Runs of officers and sessions over boards, judged."""

    def test_each_way_in_which_turns_fall_is_taken(self):
        refused = set()
        for seed in range(40):
            dice = random.Random(seed)
            limits = loads.limits(dice)
            officers = ["".join(f"{dice.choice(('firm,', 'account,ACC', 'symbol,XYZ'))},"
                                f"{dice.choice((100, 500, 2_000, 9_000, 'none'))}\n"
                                for _ in range(dice.randint(0, 8))) + dice.choice(("", "halt,,1\n"))
                        for _ in range(dice.randint(1, 3))]
            inputs = [whole(loads.session(dice, number, 30)) for number in range(1 + seed % 4)]
            acts = judge_run(*played(limits, [text.encode() for text in officers], inputs, dice=dice))
            refused |= {act[2] for own in acts for act in own if act[0] == "refused"}
        self.assertGreaterEqual(refused, {1, 2, 3, 4, 5, 7, 8, 16, 18})

    def test_wrong_desks_are_refused(self):
        """One that keeps the limits that it read first, one for which the larger limit counts, and one
        that reads the limits behind its posts."""
        inputs = [BUY + buy("C1", "a2", 1, "10.00")]
        for kind in (Keeping, Larger, Late):
            with self.subTest(kind.__name__):
                judge_run(*played(LIMITS, [b"firm,,500\n"], inputs))
                self.assertRaises(Wrong, judge_run,
                                  *played(LIMITS, [b"firm,,500\n"], inputs, kind))

    def test_a_changed_run_is_refused(self):
        made = played(LIMITS, [b"firm,,700\nfirm,,600\n"], [BUY])
        judge_run(*made)
        text = made[5]
        for name, changed in (
                ("rows out of order", text.replace("post,0,4,1,700,\npost,0,4,2,600,",
                                                   "post,0,4,1,600,\npost,0,4,2,700,")),
                ("a limit that nobody set", text.replace("read,1,4,2,2,600", "read,1,4,2,2,700")),
                ("a limit read too early", text.replace("read,1,4,2,2,600", "read,1,4,1,1,700")),
                ("another value", text.replace("post,1,0,1,600", "post,1,0,1,601"))):
            with self.subTest(name):
                self.assertNotEqual(changed, text)
                if name == "a limit read too early":
                    judge_run(*made[:5], changed, *made[6:])  # Another session's post may be unseen.
                else:
                    self.assertRaises(Wrong, judge_run, *made[:5], changed, *made[6:])

    def test_an_officers_fault(self):
        made = played(LIMITS, [b"firm,,5\n"], [BUY])
        told = (made[0], [b"firm,,5\n", b"halt,,0\nfirm,,abc\n"], *made[2:6])
        self.assertEqual(judge_run(*told, "officer 1 fault 3 row 2\n", 3), [])
        self.assertRaises(Wrong, judge_run, *told, "officer 0 fault 3 row 2\n", 3)


if __name__ == "__main__":
    unittest.main()
