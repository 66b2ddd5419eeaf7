#!/usr/bin/env python3
"""Tests of the scripts that judge runs of a program from outside (`stress.py`, `checks.py`,
`cross_stress.py`): over a program that stands in for the gate, right and with one thing wrong. Then
a few runs and the worked journals over the built program, where `GATE_PROGRAM` names it or it is
there, and where it has the command.

usage: stress_tests.py
"""
import itertools
import os
import tempfile
import unittest
from collections import Counter
from types import SimpleNamespace
from unittest import mock

import checks
import cross_stress
import stress
from checks import Case
from journals import WORKED
from model.cross_judge import judge_run as judge_guard
from model.judge import Wrong
from rows import base, buy, order, report
from stress import LAWFUL, call, has_command

HERE = os.path.dirname(os.path.abspath(__file__))
STAND_IN = os.path.join(HERE, "stand_in.py")
GATE = os.environ.get("GATE_PROGRAM", stress.PROGRAM)
LIMITS = base(100_000)
SELL = order("s1", "54=2|38=10|40=2|44=10.00|")
ABOVE, BELOW = buy("C2", "b1", 10, "10.00"), buy("C2", "b2", 10, "9.99")


def asked(gate=STAND_IN, **more):
    """What a script is asked for."""
    return SimpleNamespace(**{"gate": gate, "runs": 3, "seed": 1, "sessions": None, "check": True,
                              "keep": None, "every": False, "changes": 6, **more})


def wrong(name):
    """The stand-in does this wrongly."""
    return mock.patch.dict(os.environ, {"WRONG": name})


class StandIn(unittest.TestCase):
    """The scripts over a program that stands in for the gate."""

    def judged(self, script, number, **more):
        """Judges a run; the counts."""
        counts = Counter()
        with tempfile.TemporaryDirectory() as folder:
            script.judge(asked(**more), folder, number, counts)
        return counts

    def test_runs_and_their_checks(self):
        counts = sum((self.judged(stress, number, sessions=[3]) for number in range(2)), Counter())
        self.assertEqual((counts["runs"], counts["checked"]), (2, 2))
        self.assertGreater(counts["met"], 0)

    def test_how_many_sessions_a_run_has(self):
        """By turns, where several numbers are asked for."""
        counts = [self.judged(stress, number, sessions=[2, 5], check=False)["sessions"]
                  for number in range(2)]
        self.assertEqual(counts, [2, 5])

    def test_a_check_that_finds_a_fault_is_wrong(self):
        with wrong("faulty"):
            self.assertRaises(Wrong, self.judged, stress, 0, sessions=[2])
            self.judged(stress, 0, sessions=[2], check=False)

    def test_checks_of_changed_journals(self):
        counts = checks.run_all(asked(runs=2, changes=2))
        self.assertEqual(counts["runs"], 2)
        self.assertGreater(counts["LAWFUL"], 0)
        self.assertGreater(sum(counts[f"check fault {kind}"] for kind in range(1, 8)), 0)

    def test_checks_that_are_wrong(self):
        for name in ("lawful", "late row", "faulty"):
            with self.subTest(name), wrong(name), self.assertRaises(Wrong):
                checks.run_all(asked())

    def test_changes_of_a_worked_journal(self):
        """The first few, by calls of the program: the header's, of which each is a fault in row 1."""
        some = list(itertools.islice(checks.every(WORKED[:1]), 4))
        with mock.patch("checks.every", lambda: some):
            counts = checks.run_all(asked(every=True))
            self.assertEqual(counts, {"LAWFUL": 1, "check fault 1": 3})
            with wrong("lawful"), self.assertRaises(Wrong):
                checks.run_all(asked(every=True))

    def test_a_wrong_check_leaves_its_files(self):
        with tempfile.TemporaryDirectory() as folder, wrong("faulty"):
            kept = os.path.join(folder, "kept")
            self.assertRaises(Wrong, checks.run_all, asked(keep=kept))
            self.assertLessEqual({"limits.csv", "journal.csv", "s00.fix"}, set(os.listdir(kept)))

    def test_guards(self):
        counts = sum((self.judged(cross_stress, number) for number in (0, 1, 2)), Counter())
        self.assertEqual((counts["runs"], counts["run on"]), (3, 1))
        self.assertGreater(counts["refused", 17], 0)

    def test_guards_that_are_wrong(self):
        for name in ("lonely", "late", "greedy"):
            with self.subTest(name), wrong(name), self.assertRaises(Wrong):
                for number in range(6):
                    self.judged(cross_stress, number)

    def test_which_commands_a_program_has(self):
        self.assertEqual([has_command(STAND_IN, name) for name in ("check", "desk")], [True, False])
        self.assertFalse(has_command(os.path.join(HERE, "none"), "run"))


class Every(unittest.TestCase):
    """Each change of the first worked journal, compared without a program."""

    @classmethod
    def setUpClass(cls):
        cls.told = [(case, checks.wanted(case)) for case in checks.every(WORKED[:1])]

    def test_what_the_plain_reader_says_is_taken(self):
        counts = Counter()
        for case, told in self.told:
            checks.compare(lambda _, told=told: told, case, counts)
        self.assertEqual(set(counts), {"LAWFUL", *(f"check fault {kind}" for kind in range(1, 8))})
        self.assertGreater(sum(counts.values()), 2_000)

    def test_a_kind_that_is_overlooked_is_found(self):
        """Of each kind some change has it alone: a check that overlooks it is wrong."""
        for kind in range(1, 8):
            case = next(case for case, told in self.told
                        if told[1].startswith(b"check fault %d " % kind))
            with self.subTest(kind), self.assertRaises(Wrong):
                checks.compare(lambda _: LAWFUL, case, Counter())

    def test_a_limit_file_with_a_fault(self):
        worked = WORKED[0][0]
        case = Case("limits", "firm,,x,,,\n", worked.journal.encode(), worked.inputs)
        self.assertEqual(checks.wanted(case), (3, b"limits fault 3 row 1\n"))


def guarded(gate, inputs, limits=LIMITS):
    """Runs the guard, and judges it. What was passed, and the acts."""
    with tempfile.TemporaryDirectory() as folder:
        done, out = call(gate, folder, limits, inputs, command="cross")
        found = cross_stress.outputs(done, out, len(inputs))
        return found[0], judge_guard(limits, inputs, *found)


class Worked(unittest.TestCase):
    """Worked guards, over the stand-in; `Built` has the same over the built program."""

    GATE = STAND_IN

    def test_a_sell_and_two_buys(self):
        """The first buy would cross the sell, the second is below it."""
        passed, (acts,) = guarded(self.GATE, [SELL + b"\r\n" + ABOVE + BELOW])
        self.assertEqual(passed, [SELL + BELOW])
        self.assertEqual([act[3] for act in acts if act[0] == "post"],
                         [434_287, 47_186_878_575, 434_287, 47_134_449_775])
        self.assertEqual([act for act in acts if act[0] == "refused"], [("refused", 1, 17, 0, 0)])

    def test_never_both_of_two_sessions(self):
        for _ in range(20 if self.GATE == GATE else 1):
            passed, _ = guarded(self.GATE, [SELL, ABOVE])
            self.assertIn(passed, ([SELL, b""], [b"", ABOVE], [b"", b""]))

    def test_a_sell_that_is_canceled(self):
        canceled = report("4", "s1")
        passed, (acts,) = guarded(self.GATE, [SELL + canceled + ABOVE])
        self.assertEqual(passed, [SELL + canceled + ABOVE])
        self.assertEqual([act[3] for act in acts if act[0] == "post"],
                         [434_287, 0, 47_186_444_288])


@unittest.skipUnless(has_command(GATE, "cross"), "there is no built program with `cross`")
class Built(Worked):
    """The same over the built program, and a few runs."""

    GATE = GATE

    def test_random_runs(self):
        with tempfile.TemporaryDirectory() as folder:
            for number in range(40):
                own = os.path.join(folder, str(number))
                os.mkdir(own)
                cross_stress.judge(asked(GATE), own, number, Counter())


@unittest.skipUnless(has_command(GATE, "check"), "there is no built program with `check`")
class BuiltChecks(unittest.TestCase):
    """Checks by the built program."""

    def test_forged_journals(self):
        with tempfile.TemporaryDirectory() as folder:
            ask = checks.program(GATE, folder)
            for worked, table in WORKED:
                for name, old, new, fault in table:
                    with self.subTest(worked.name, forged=name):
                        data = worked.journal.replace(old, new, 1).encode()
                        told = ask(Case(name, worked.limits, data, worked.inputs))
                        wanted = LAWFUL if fault is None else (
                            7, b"check fault %d row %d\n" % fault)
                        self.assertEqual(told, wanted)

    def test_random_runs(self):
        checks.run_all(asked(GATE, runs=20))

    def test_journals_of_8_and_of_64_sessions_are_lawful(self):
        for number in range(20):
            with tempfile.TemporaryDirectory() as folder:
                stress.judge(asked(GATE, sessions=[8, 8, 8, 64]), folder, number, Counter())


if __name__ == "__main__":
    unittest.main()
