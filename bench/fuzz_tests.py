#!/usr/bin/env python3
"""Tests of what breaks inputs, of the rows that drop screens, of reports on orders in each state,
of how a wrong run is made smaller, and of the judge of sessions that ended early; and a few runs of
each over the built program, where `GATE_PROGRAM` names it or it is there.

usage: fuzz_tests.py
"""
import os
import random
import shutil
import tempfile
import unittest
from collections import Counter
from types import SimpleNamespace

import broken
import fuzz
import hostile
import inputs
import orders
import refuse
from model.book import LEAF_MOST
from model.frames import framed, next_frame
from model.judge import Wrong, judge_early
from model.limits import Limits, first_fault
from model.screens import own_screens
from model.session import Session, run_session, take_frames
from rows import (FIRST, ROUND, ROWS, base, buy, one, order, repeats, replace, text, trade,
                  version_2)
from sessions import LIMITS
from stress import PROGRAM, call

GATE = os.environ.get("GATE_PROGRAM", PROGRAM)
# Two orders of which the second is refused: its posts, its reads and the verdict's posts.
REFUSED = one(base(1_000), FIRST, buy("C1", "a2", 60, "10.00", 2))
# What the trees answer to it: stamp, place and value of each read.
READS = [(0, 0, 0), (1, 1, 1_000), (1, 1, 1_000), (1, 1, 1_000),
         (0, 0, 0), (2, 2, 1_600), (2, 2, 1_600), (2, 2, 1_600)]
BY_MEMORY = ("ended", 6, None)


class Broken(unittest.TestCase):
    """What is changed in an input."""

    def test_each_change_changes_and_can_be_repeated(self):
        """Some change of each kind leaves other bytes, and the same dice leave the same."""
        data = b"".join(ROWS[4].inputs)
        for change in broken.CHANGES:
            with self.subTest(change.__name__):
                made = [self.changed(change, data, seed) for seed in range(20)]
                self.assertEqual(made, [self.changed(change, data, seed) for seed in range(20)])
                self.assertTrue(any(other != data for other in made))

    def changed(self, change, data, seed):
        """The bytes after a change of one frame."""
        dice, frames = random.Random(seed), broken.split(data)
        change(dice, frames, dice.randrange(len(frames)))
        return b"".join(frames)

    def test_a_change_of_a_field_leaves_a_frame(self):
        """Its length and its checksum are those of what it holds, within the most of a body."""
        for change in (broken.odd_tag, broken.odd_byte, broken.limit_value, broken.moved_field):
            for seed in range(50):
                with self.subTest(change.__name__, seed=seed):
                    frames = [FIRST]
                    change(random.Random(seed), frames, 0)
                    found = next_frame(frames[0], 0)
                    self.assertEqual((found.start, found.end), (0, len(frames[0])))

    def test_a_field_has_the_value_that_it_is_given(self):
        """In each kind of message, for a field that it is read of; and no other field changes."""
        for kind, tag in (("D", 38), ("F", 41), ("G", 44), ("8", 31), ("9", 11)):
            with self.subTest(kind):
                frame = inputs.asked_of(kind, 0)[1]
                given = next_frame(broken.with_value(frame, tag, b"7"), 0).fields
                wanted = [(own, b"7" if own == tag else value)
                          for own, value in next_frame(frame, 0).fields]
                self.assertEqual(given, wanted)

    def test_what_is_split_is_the_input(self):
        """Frames and the rest behind them, with what is passed over."""
        data = b"\r\n" + FIRST + b"\n" + FIRST[:40]
        self.assertEqual(broken.split(data), [b"\r\n" + FIRST, b"\n" + FIRST[:40]])


# An order with a field fault: it has no Symbol (55).
FAULTY = text("35=D|49=C1|56=GATE|34=1|52=T|11=f1|1=ACC|54=1|38=1|40=2|44=9|60=T|")
# Buys of more than the size, 100,000, by their ids, and a dear one.
LARGE = [buy("C1", own, 100_001, "1", 1) for own in ("a0", "a1", "a2")]
DEAR = buy("C1", "d0", 1, "12.01")
# A name, `off` rows, the messages, and what becomes of each: 0 sent, -1 a field fault, -2 unknown,
# or a screen's code.
DROPPED = (
    ("no row", (), LARGE[:2] + [DEAR], (1, 1, 2)),
    ("the first order", ("off,size,0,,,",), LARGE[:2] + [DEAR], (0, 0, 2)),
    ("from the second on", ("off,size,1,,,",), LARGE, (1, 0, 0)),
    ("no screen's name", ("off,none,0,,,", "off,Size,0,,,"), LARGE[:1], (1,)),
    ("no such order", ("off,size,3,,,",), LARGE, (1, 1, 1)),
    ("two at one order", ("off,collar,1,,,", "off,size,1,,,"), [LARGE[0], DEAR, LARGE[1]],
     (1, 0, 0)),
    ("out of order", ("off,size,1,,,", "off,collar,0,,,"), [DEAR] + LARGE[:2], (0, 0, 0)),
    ("a field fault and a replace count", ("off,size,2,,,",),
     [FAULTY, replace("r1", "none", 1, "1"), *LARGE[:2]], (-1, -2, 0, 0)),
)


class Screens(unittest.TestCase):
    """Rows that drop screens."""

    def becomes(self, limits, data):
        """What becomes of the messages of an input to which the trees never say no."""
        session, _ = run_session(Limits(limits), data, [])
        told = {16: -1, 11: -2}
        return [0 if act[0] == "sent" else told.get(act[2], act[3]) for act in session.acts
                if act[0] in ("sent", "refused")]

    def test_from_which_order_on_a_screen_is_not_asked(self):
        for name, rows, messages, wanted in DROPPED:
            with self.subTest(name):
                limits = base(200_000, *rows)
                self.assertEqual(self.becomes(limits, b"".join(messages)), list(wanted))

    def test_the_worked_run_of_repeats(self):
        for rows, wanted in ((("off,repeat,2,,,",), [0, 3, 0, 2]), ((), [0, 3, 3, 2])):
            run = repeats(*rows)
            self.assertEqual(self.becomes(run.limits, run.inputs[0]), wanted)

    def test_the_rows_that_are_made(self):
        """They have no fault; some are of one order, some out of order, and some name a screen."""
        seen = Counter()
        for seed in range(200):
            limits = inputs.with_dropped(random.Random(seed), base(1_000))
            self.assertIsNone(first_fault(limits), limits)
            orders = [place for _, place in Limits(limits).off]
            seen["several"] += len(set(orders)) < len(orders)
            seen["out of order"] += orders != sorted(orders)
            for name, _ in Limits(limits).off:
                seen[name.decode() in inputs.SCREENS] += 1
        self.assertTrue(all(seen[kind] for kind in ("several", "out of order", True, False)), seen)


# A limit file, its first fault, and the row: of version 2, and of what is none.
NET = "version,2,,,,,\nfirm,,5000,,,,\naccount,ACC,100000,,,,net\nsymbol,XYZ,100000,1,12,100000,\n"
VERSIONS = (
    ("a net account", NET, None),
    ("a mode that is none", NET + "account,A2,1,,,,both\n", (2, 5)),
    ("a mode in another row", NET + "quota,,1,,,,net\n", (1, 5)),
    ("six columns", NET + "quota,,1,,,\n", (1, 5)),
    ("the version again", NET + "version,2,,,,,\n", (2, 5)),
    ("a mode of a row of no kind", NET + "acount,A2,1,,,,both\n", (2, 5)),
    ("a mode, and a column that stays empty", NET + "account,A2,1,2,,,both\n", (2, 5)),
    ("a good mode, and such a column", NET + "account,A2,1,2,,,net\n", (1, 5)),
    ("seven columns in version 1", "firm,,1,,,\naccount,A,1,,,,net\n", (1, 2)),
    ("the version behind a row", "firm,,1,,,\nversion,2,,,,,\n", (1, 2)),
    ("another version", "version,3,,,,,\nfirm,,1,,,,\n", (1, 1)),
    ("a version row of six columns", "version,2,,,,\nfirm,,1,,,,\n", (2, 1)),
    ("a version alone", "version,2,,,,,\n", (6, 0)),
    ("the version behind empty lines", "\n\n" + NET + "account,ACC,1,,,,\n", (5, 5)),
)


class Versions(unittest.TestCase):
    """Limit files of version 2, and what a net account's orders cost."""

    def test_faults(self):
        for name, limits, fault in VERSIONS:
            with self.subTest(name):
                self.assertEqual(first_fault(limits), fault)

    def posted(self, mode):
        """What a session posts in the firm's tree: a buy, its trade, a sell, and its trade."""
        limits = Limits(NET.replace("net", mode))
        session, _ = run_session(limits, b"".join(ROUND), [])
        self.assertEqual([act[0] for act in session.acts].count("sent"), 2)
        return [act[3] for act in session.acts if act[:2] == ("post", 0)]

    def test_what_was_bought_and_sold_offset_each_other(self):
        """1,000; the larger of 1,000 and 1,200 - 1,000; 1,000 - 950. In a gross account the sell
        comes to 2,200 and its trade to 1,950."""
        self.assertEqual(self.posted("net"), [1_000, 1_000, 50])
        for mode in ("", "gross"):
            self.assertEqual(self.posted(mode), [1_000, 2_200, 1_950])

    def test_pairs_do_not_offset_each_other(self):
        """A buy in one symbol and a sell in another, a buy in one account and a sell in another."""
        both = version_2(base(100_000, "account,ACD,100000,,,", "symbol,ABC,100000,1,12,100000"),
                         {"ACC": "net", "ACD": "net"})
        bought = (FIRST, trade("a1", 100, "10.00"))
        sell = order("a2", "54=2|38=100|40=2|44=9.00|")
        for name, old, new in (("a symbol", b"55=XYZ", b"55=ABC"), ("an account", b"1=ACC\x01",
                                                                    b"1=ACD\x01")):
            with self.subTest(name):
                fields = next_frame(sell, 0).body.replace(b"\x01" + old, b"\x01" + new)
                session, _ = run_session(Limits(both), b"".join(bought) + framed(fields), [])
                self.assertEqual([act[3] for act in session.acts if act[:2] == ("post", 0)],
                                 [1_000, 2_200])

    def test_the_modes_that_are_made(self):
        seen = Counter()
        for seed in range(100):
            limits = inputs.with_modes(random.Random(seed), base(1_000, "account,ACD,1,,,"))
            limits = inputs.with_dropped(random.Random(seed), limits)
            self.assertIsNone(first_fault(limits), limits)
            seen[len(Limits(limits).nets)] += 1
        self.assertEqual(set(seen), {0, 1, 2})


# A quota, or None where no row gives one; how many sessions a run has; and what the quota counts as.
COUNTED = (
    (200_000, 32, 200_000), (200_000, 33, 100_000), (100_001, 33, 100_000), (100_001, 32, 100_001),
    (100_000, 33, 100_000), (99_999, 33, 99_999), (200_000, 64, 100_000), (1, 64, 1),
    (None, 64, 50_000), (200_000, 1, 200_000),
)


class Counted(unittest.TestCase):
    """What a quota counts as in a run of many sessions."""

    def test_above_32_sessions_a_quota_counts_as_100_000_at_most(self):
        for quota, sessions, wanted in COUNTED:
            with self.subTest(quota, sessions=sessions):
                limits = Limits(base(1_000, *([f"quota,,{quota},,,"] if quota else [])))
                given = limits.quota
                self.assertEqual(limits.counted(sessions).quota, wanted)
                self.assertEqual(limits.quota, given)


class Hostile(unittest.TestCase):
    """Reports of every kind on orders in every state, and orders worth a limit."""

    def test_each_report_meets_an_order_in_each_state(self):
        kinds = {(*state, told) for state in hostile.states()
                 for told in (*hostile.TYPES, "F", "refusal")}
        for side in (1, 2):
            counts = Counter()
            for state in hostile.states():
                session = Session(Limits(NET), own_screens(Limits(NET)), [])
                session.book = fuzz.Watched(counts, session.limits.nets)
                self.assertTrue(list(take_frames(session, hostile.session(state, side))))
            self.assertEqual({kind for kind, _ in fuzz.of_kind(counts, "state")}, kinds)

    def test_an_order_worth_a_limit(self):
        """Exactly, rounded up; and more, where its price is one higher."""
        for limit, most in ((1, 120_000), (999, 120_000), (5_000, 125_000), (100_000, 120_000),
                            (LEAF_MOST, inputs.PRICE_MOST)):
            with self.subTest(limit):
                quantity, price = inputs.worth(limit, most)
                self.assertLessEqual(price, most)
                worth = [-(-quantity * own // 10_000) for own in (price, price + 1)]
                self.assertEqual(worth[0], limit)
                self.assertGreater(worth[1], limit)


class Smaller(unittest.TestCase):
    """A run is made again of its number, and a wrong one is made smaller."""

    def test_a_number_gives_its_run_again(self):
        """Whatever was made before it."""
        one_run = fuzz.made(1, 7, Counter())
        fuzz.made(1, 8, Counter())
        self.assertEqual(fuzz.made(1, 7, Counter()), one_run)
        self.assertNotEqual(fuzz.made(2, 7, Counter()), one_run)

    def test_what_is_not_needed_goes(self):
        """Frames first, and then bytes."""
        inputs = [FIRST + FIRST[:-1] + b"\xff" + FIRST]
        found = fuzz.shortened(inputs, 0, lambda some: b"\xff" in some[0])
        self.assertEqual(found, [b"\xff"])


class Early(unittest.TestCase):
    """Sessions that a fault or want of memory ended."""

    def judge(self, acts, venue, client):
        """Judges the acts and the end behind them."""
        judge_early(0, Limits(REFUSED.limits), REFUSED.inputs[0], acts + [BY_MEMORY], venue, client)

    def test_first_frames_with_their_messages(self):
        """None, one and both; the last message whole, in part, and not at all."""
        session, _ = run_session(Limits(REFUSED.limits), REFUSED.inputs[0], READS)
        acts, venue, client = session.acts[:-1], session.venue.data, session.client.data
        sent = 1 + next(at for at, act in enumerate(acts) if act[0] == "sent")
        for name, case in (("no frame", ([], b"", b"")), ("one", (acts[:sent], venue, b"")),
                           ("one with half", (acts[:sent], venue[:30], b"")),
                           ("both", (acts, venue, client)), ("no answer", (acts, venue, b""))):
            with self.subTest(name):
                self.judge(*case)
        for name, case in (("a post without a verdict", (acts[:sent + 1], venue, b"")),
                           ("no verdict", (acts[:-1], venue, client)),
                           ("a message too early", (acts[:sent], venue, client[:1])),
                           ("half of the message before", (acts, venue[:30], client)),
                           ("another message", (acts[:sent], b"x", b""))):
            with self.subTest(name):
                self.assertRaises(Wrong, self.judge, *case)


@unittest.skipUnless(os.path.exists(GATE), "the program isn't built")
class Program(unittest.TestCase):
    """A few runs of the built program."""

    def test_inputs_with_something_wrong(self):
        """A hundred."""
        _, wrong = fuzz.chunk(SimpleNamespace(seed=2, gate=GATE), range(100))
        self.assertIsNone(wrong)

    def test_hostile_reports(self):
        """Of each kind on an order in each state; and the rows that drop screens."""
        for side in (1, 12):
            states = [hostile.session(state, side) for state in hostile.states()]
            for limits in (base(100_000), version_2(base(100_000), {"ACC": "net"})):
                self.assertIsNone(fuzz.wrong_of(GATE, limits, states, Counter()))
        for name, rows, messages, _ in DROPPED:
            with self.subTest(name):
                limits = base(200_000, *rows)
                self.assertIsNone(fuzz.wrong_of(GATE, limits, [b"".join(messages)], Counter()))

    def test_each_front_of_a_frame(self):
        """Also of frames whose BodyLength is of too many digits, of none, or no number."""
        lengths = (b"", b"0", b"x", b"5", b"0000005", b"00000005", b"8192", b"8193", b"9999999")
        frames = [broken.HEAD + length + b"\x0135=0\x0110=163\x01" for length in lengths]
        fronts = [frame[:end] for frame in frames + [FIRST] for end in range(len(frame) + 1)]
        for at in range(0, len(fronts), 32):
            inputs = fronts[at:at + 32]
            self.assertIsNone(fuzz.wrong_of(GATE, base(1_000), inputs, Counter()), inputs)

    def test_sessions_at_their_most(self):
        """33 that are empty, and 64; one more is malformed."""
        for sessions in (33, 64):
            with tempfile.TemporaryDirectory() as folder:
                done, _ = call(GATE, folder, base(1_000), [b""] * sessions)
            wanted = [f"session {number} whole sent 0 refused 0 noted 0" for number in range(sessions)]
            told = done.stdout.decode().splitlines()
            self.assertEqual((done.returncode, told[:sessions]), (0, wanted))
        with tempfile.TemporaryDirectory() as folder:
            self.assertEqual(call(GATE, folder, base(1_000), [b""] * 65)[0].returncode, 2)

    def test_the_counted_quota(self):
        """A session of 100,001 orders, each with a post in the firm's tree, beside empty ones: an
        order for which two posts aren't left is refused."""
        data = "".join(map(orders.order, range(1, 100_002))).encode()
        for sessions, sent, refused in ((32, 100_001, 0), (33, 99_999, 2)):
            with tempfile.TemporaryDirectory() as folder:
                done, _ = call(GATE, folder, LIMITS, [data] + [b""] * (sessions - 1))
            self.assertTrue(done.stdout.decode().startswith(
                f"session 0 whole sent {sent} refused {refused} noted 0\n"))

    @unittest.skipUnless(shutil.which("cc"), "there is no C compiler")
    def test_refused_allocations(self):
        """The first ten of the race."""
        with tempfile.TemporaryDirectory() as folder:
            asked = SimpleNamespace(most=10, keep=None, gate=GATE, onward=False)
            counts = refuse.refuse_each(asked, refuse.library(folder), "a race")
        self.assertEqual(counts["runs"], 10)


if __name__ == "__main__":
    unittest.main()
