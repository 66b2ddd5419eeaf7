#!/usr/bin/env python3
"""Tests of the plain guard against crossing orders and of its judge: levels and values, worked
sessions, what rests after requests and reports, and runs over plain boards with something wrong.

usage: cross_tests.py
"""
import random
import unittest

import loads
from boards import Board, OnBoard, journal_of, take_next, whole
from model.cross import CrossSession, HALF, TOP, is_clear, join, level, run_cross, value_of
from model.cross_judge import judge_run
from model.frames import framed, next_frame
from model.judge import Wrong
from model.limits import Limits, Symbol
from rows import base, buy, cancel, order, refusal, replace, report, trade

LIMITS = base(100_000)
XYZ = Limits(LIMITS).symbols[b"XYZ"]
SELL = order("s1", "54=2|38=10|40=2|44=10.00|")
# A name, a row's low and high, Side (54), OrdType (40), Price (44), and the level.
LEVELS = (
    ("a sell at the low", 10_000, 120_000, b"2", b"2", 10_000, 1),
    ("a buy at the high", 10_000, 120_000, b"1", b"2", 120_000, 110_001),
    ("a sell below the low", 10_000, 120_000, b"2", b"2", 9_999, 1),
    ("a buy below the low", 10_000, 120_000, b"1", b"2", 1, 1),
    ("a buy above the high", 10_000, 120_000, b"1", b"2", 120_001, TOP),
    ("a sell above the high", 10_000, 120_000, b"5", b"2", 999_999, TOP),
    ("a buy at the market", 10_000, 120_000, b"1", b"1", 0, TOP),
    ("a sell at the market", 10_000, 120_000, b"6", b"1", 0, 1),
    ("a step of 2: a buy between", 1, 1_048_573, b"1", b"2", 2, 2),
    ("a step of 2: a sell between", 1, 1_048_573, b"2", b"2", 2, 1),
    ("a step of 2: the high", 1, 1_048_573, b"1", b"2", 1_048_573, TOP),
    ("collars that are one price", 7, 7, b"1", b"2", 7, 1),
)


class Values(unittest.TestCase):
    """Levels, and what they come to."""

    def test_levels(self):
        for name, low, high, side, kind, price, wanted in LEVELS:
            with self.subTest(name):
                self.assertEqual(level(Symbol(0, low, high, 1), side, kind, price), wanted)

    def test_worked_values(self):
        sell, own = value_of(XYZ, b"2", b"2", 100_000), value_of(XYZ, b"1", b"2", 100_000)
        near = value_of(XYZ, b"1", b"2", 99_900)
        self.assertEqual((sell, own, join(sell, own), join(sell, near)),
                         (434_287, 47_186_444_288, 47_186_878_575, 47_134_449_775))
        self.assertEqual([is_clear(value) for value in (0, sell, own, join(sell, own),
                                                        join(sell, near))],
                         [True, True, True, False, True])

    def test_a_clear_value_keeps_prices_apart(self):
        """Whatever the prices are: neither is a market order, and the buy's is below the sell's."""
        dice = random.Random(1)
        for _ in range(5_000):
            low = dice.randint(1, 1_000_000)
            row = Symbol(0, low, low + dice.choice((0, 1, 3, 524_286, 524_287, 9_000_000)), 1)
            prices = [dice.randint(max(1, row.low - 3), row.high + 3) for _ in range(2)]
            kinds = [dice.choice((b"1", b"2", b"2", b"2")) for _ in range(2)]
            both = join(value_of(row, b"1", kinds[0], prices[0]),
                        value_of(row, b"2", kinds[1], prices[1]))
            if is_clear(both):
                self.assertEqual(kinds, [b"2", b"2"])
                self.assertLess(*prices)


class Turn(OnBoard, CrossSession):
    """A session over a board."""

    def __init__(self, limits, number, board):
        super().__init__(limits, [])
        self.number, self.board = number, board


class Lonely(Turn):
    """A session that compares an order with its own alone."""

    def read(self, tree):
        super().read(tree)
        return self.board.arrays[tree][self.number]


class Late(Turn):
    """A session that reads before it posts."""

    def guard(self, message):
        tree = self.limits.symbol_places[message.values[55]]
        old, asked = self.posted.get(tree, 0), self.value_asked(message.values)
        if not is_clear(join(self.read(tree), asked)):
            return 17
        self.post(tree, join(old, asked))
        return None


def board_for(limits, sessions):
    """A board with the trees of these limits."""
    return Board(sessions, [(lambda array: join(*array), 0)] * max(1, len(limits.symbols)))


def played(limit_text, inputs, kind=Turn, dice=None):
    """A run of sessions over one board, frame by frame in turn or as the dice fall: what
    `judge_run` takes."""
    limits = Limits(limit_text)
    board = board_for(limits, len(inputs))
    sessions = [kind(limits, number, board) for number in range(len(inputs))]
    places = [0] * len(inputs)
    while any(place < len(data) for place, data in zip(places, inputs)):
        for number, data in enumerate(inputs):
            if places[number] < len(data) and not (dice and dice.random() < 0.5):
                places[number] = take_next(data, places[number], sessions[number].take)
                sessions[number].frame += 1
    acts = [session.acts + [("ended", 0, None)] for session in sessions]
    return (limit_text, inputs, [session.passed for session in sessions],
            [session.client.data for session in sessions], journal_of(board, acts), "status 0\n", 0)


def alone(*frames, limits=LIMITS):
    """A session by itself: what it posts, and what is told of its frames: 0 where one is sent."""
    session = Turn(Limits(limits), 0, board_for(Limits(limits), 1))
    for data in frames:
        session.take(data, next_frame(data, 0).fields)
        session.frame += 1
    told = [0 if act[0] == "sent" else act[2] for act in session.acts
            if act[0] in ("sent", "refused")]
    return [act[3] for act in session.acts if act[0] == "post"], told, session


def own(price, quantity=10, name="b1"):
    """A buy."""
    return buy("C1", name, quantity, price)


S, B = 434_287, 90_001 * HALF
# A name, the messages, what is posted, and what becomes of the orders.
SESSIONS = (
    ("a sell, a buy at its price, and one below", [SELL, own("10.00"), own("9.99", name="b2")],
     [S, S + B, S, S + 89_901 * HALF], [0, 17, 0]),
    ("a sell that is canceled", [SELL, report("4", "s1"), own("10.00")], [S, 0, B], [0, 0]),
    ("an expiry", [SELL, report("C", "s1"), own("10.00")], [S, 0, B], [0, 0]),
    ("a rejected order", [SELL, report("8", "s1"), own("10.00")], [S, 0, B], [0, 0]),
    ("a trade of a part", [SELL, trade("s1", 4, "10.00"), own("10.00")], [S, S + B, S], [0, 17]),
    ("trades of all", [SELL, trade("s1", 4, "10"), trade("s1", 6, "10"), own("10.00")], [S, 0, B],
     [0, 0]),
    ("a report of no order", [SELL, report("4", "zz")], [S], [0]),
    ("a market buy against a sell", [SELL, order("m1", "54=1|38=1|40=1|")],
     [S, S + TOP * HALF, S], [0, 17]),
    ("a replace counts beside what it replaces", [SELL, replace("r1", "s1", 10, "11.00", 2),
                                                  own("10.00")], [S, S, S + B, S], [0, 0, 17]),
    ("a replace that came", [SELL, replace("r1", "s1", 10, "11.00", 2), report("5", "r1"),
                             own("10.00")], [S, S, HALF - 100_001, B + HALF - 100_001], [0, 0, 0]),
    ("a replace that was refused", [SELL, replace("r1", "s1", 10, "9.00", 2), refusal("r1", "s1")],
     [S, HALF - 80_001, S], [0, 0]),
    ("a rejected replace", [SELL, replace("r1", "s1", 10, "9.00", 2), report("8", "r1")],
     [S, HALF - 80_001, S], [0, 0]),
    ("a chain of replaces", [SELL, replace("r1", "s1", 10, "9.50", 2), replace("r2", "r1", 10, "11", 2),
                             report("5", "r1"), report("5", "r2")],
     [S, HALF - 85_001, HALF - 85_001, HALF - 100_001], [0, 0, 0]),
    ("a replace of another side is an order of its own", [SELL, replace("r1", "s1", 10, "9.99", 1),
                                                          report("4", "r1")],
     [S, S + 89_901 * HALF, S], [0, 0]),
    ("a cancel's id tells its order", [SELL, cancel("c1", "s1"), report("4", "c1")], [S, 0], [0]),
    ("a refusal of the first term", [SELL, refusal("s1", "s1")], [S], [0]),
    ("one id on two orders", [SELL, own("9.00", name="s1"), report("4", "s1")],
     [S, S + 80_001 * HALF, S], [0, 0]),
)
UNREAD = (order("s1", "54=2|38=10|40=2|"), buy("C1", "s1", 1, "1").replace(b"55=XYZ", b"55=XYY"))


class Sessions(unittest.TestCase):
    """What one session posts and sends."""

    def test_what_is_posted_and_sent(self):
        for name, frames, posts, told in SESSIONS:
            with self.subTest(name):
                self.assertEqual(alone(*frames)[:2], (posts, told))

    def test_the_quota(self):
        """An order for which two posts aren't left is refused; a report's post needs one."""
        limits = base(100_000, "quota,,2,,,")
        posts, told, session = alone(SELL, own("9.00"), report("4", "s1"), report("4", "s1"),
                                     limits=limits)
        self.assertEqual((posts, told), ([S, 0], [0, 5]))
        self.assertTrue(b"58=QUOTA\x01" in session.client.data)

    def test_answers_and_what_is_passed(self):
        """An ExecutionReport (8) for an order, an OrderCancelReject (9) for a replace, to the sender;
        all else is passed as it is, without line ends."""
        asked = replace("r1", "zz", 1, "10.00")
        _, told, session = alone(SELL, own("10.00"), asked)
        self.assertEqual((told, session.passed), ([0, 17, 17], SELL))
        self.assertEqual(session.client.data, framed(
            b"35=8|49=GATE|56=C1|34=1|52=20240102-10:00:00|37=NONE|11=b1|17=G1|150=8|39=8|103=0|"
            b"1=ACC|55=XYZ|54=1|38=10|151=0|14=0|6=0|58=CROSS|".replace(b"|", b"\x01")) + framed(
            b"35=9|49=GATE|56=C1|34=2|52=20240102-10:00:00|37=NONE|11=r1|41=zz|39=8|434=2|102=2|"
            b"58=CROSS|".replace(b"|", b"\x01")))
        data = b"\n" + SELL + b"\r\n" + UNREAD[0] + UNREAD[1]
        session, end = run_cross(Limits(LIMITS), data, [])
        self.assertEqual((session.passed, end), (SELL + UNREAD[0] + UNREAD[1], ("whole", None)))
        self.assertEqual([act[0] for act in session.acts], ["post", "read", "sent", "ended"])


def random_inputs(seed, sessions):
    """Limits and sessions of whole frames, whose orders often cross."""
    dice = random.Random(seed)
    limits = loads.limits(dice)
    return limits, [whole(loads.session(dice, number, 40)) for number in range(sessions)], dice


class Runs(unittest.TestCase):
    """Runs of several sessions over boards, judged."""

    def test_each_way_in_which_turns_fall_is_taken(self):
        refused = 0
        for seed in range(30):
            limits, inputs, dice = random_inputs(seed, 1 + seed % 5)
            acts = judge_run(*played(limits, inputs, dice=dice))
            refused += sum(act[0] == "refused" and act[2] == 17 for own in acts for act in own)
        self.assertGreater(refused, 100)

    def test_wrong_guards_are_refused(self):
        """One that compares with its own session alone, and one that reads before it posts."""
        inputs = [SELL, buy("C2", "b1", 10, "10.00")]
        judge_run(*played(LIMITS, inputs))
        for kind in (Lonely, Late):
            with self.subTest(kind.__name__):
                self.assertRaises(Wrong, judge_run, *played(LIMITS, inputs, kind))

    def test_a_changed_run_is_refused(self):
        made = played(LIMITS, [SELL + own("10.00"), buy("C2", "b1", 10, "9.00")])
        judge_run(*made)
        for place, changed in ((2, [b"", made[2][1]]), (3, [made[3][0][:-1], b""]),
                               (5, "status 4\n"), (6, 4),
                               (4, made[4].replace("refused,0,1,17", "refused,0,1,5"))):
            with self.subTest(place):
                self.assertRaises(Wrong, judge_run, *made[:place], changed, *made[place + 1:])


if __name__ == "__main__":
    unittest.main()
