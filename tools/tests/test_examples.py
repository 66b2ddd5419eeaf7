"""The examples: what their READMEs show is what is in their files, and, where the program is built,
what it writes.

With one session each byte of a run is determined; with several it isn't, and then only the files
that are read are compared here. The program is that of GATE_PROGRAM, or the one in
crates/gate_program/out. Where there is none, and TRY is set, the day is run by `rt try`, which
compiles the program without a proof."""
import csv
import os
import re
import subprocess
import unittest

from launcher.building import is_built, is_program
from tests.places import TOP, InFolder, soh
from tests.test_reasons import ENDS, FAULTS

EXAMPLES = os.path.join(TOP, "examples")
ONE_SESSION = ("first", "desk", "day", "net")
MESSAGE = re.compile(rb"8=FIX\.4\.4\x01.*?\x0110=[0-9]{3}\x01")


def built():
    """The built program, or None."""
    named = os.environ.get("GATE_PROGRAM")
    program = os.path.join(TOP, "crates/gate_program/out/gate_program")
    if named and is_program(named):
        return os.path.abspath(named)
    return program if is_built(TOP, program) else None


def read(*names):
    with open(os.path.join(EXAMPLES, *names), "rb") as file:
        return file.read()


def blocks(name):
    """The fenced blocks of an example's README, as text."""
    return re.findall(r"^```\n(.*?)^```$", read(name, "README.md").decode(), re.M | re.S)


def shown(data):
    """The messages in these bytes, as a README shows them."""
    return [
        one.replace(b"\x01", b"|").decode() for one in MESSAGE.findall(data.replace(b"\n", b""))
    ]


def first_page():
    """The limits, the order, its forward and the journal of the first page."""
    page = read("..", "README.md").decode().split("## One order in, its forward out")[1]
    return re.findall(r"^```\n(.*?)^```$", page, re.M | re.S)[:4]


class Readmes(InFolder):
    def test_the_first_page_has_the_stored_run(self):
        limits, order, _, _ = first_page()
        data = os.path.join(TOP, "crates/gate_program/data")
        stored = [read(data, name) for name in sorted(os.listdir(data))]
        self.assertIn(limits.encode(), stored)
        self.assertIn(soh(order.strip()), stored)

    def test_the_first_page_has_the_totals_of_the_first_example(self):
        totals = next(block for block in blocks("first") if block.startswith("session 0"))
        self.assertTrue(totals in read("..", "README.md").decode())

    def test_each_example_has_an_out_of_its_own(self):
        for name in sorted(os.listdir(EXAMPLES)):
            with self.subTest(name):
                calls = [block for block in blocks(name) if re.match(r"\./gate (run|cross) ", block)]
                limits, outs = zip(*(call.split()[2:4] for call in calls))
                self.assertEqual(set(limits), {f"examples/{name}/limits.csv"})
                self.assertEqual(outs[0], f"out/{name}")
                self.assertEqual(len(set(outs)), len(outs))
                for out in outs[1:]:
                    self.assertTrue(out.startswith(f"out/{name}_"), out)

    def test_the_limits_are_those_of_the_readme(self):
        for name in sorted(os.listdir(EXAMPLES)):
            with self.subTest(name):
                self.assertIn(read(name, "limits.csv").decode(), blocks(name))

    def test_the_messages_of_the_sessions_are_those_of_the_readme(self):
        files = [(name, "session.fix") for name in ("first", "desk", "net", "cross")]
        for name, file in [*files, ("cross", "seller.fix"), ("cross", "buyer.fix")]:
            with self.subTest(name, file=file):
                self.assertIn(
                    "".join(line + "\n" for line in shown(read(name, file))), blocks(name)
                )

    def test_the_days_session_is_that_of_its_logs(self):
        tool = os.path.join(TOP, "tools/merge_logs.py")
        logs = [os.path.join(EXAMPLES, "day", log) for log in ("client.log", "venue.log")]
        self.assertEqual(
            subprocess.run([tool, *logs, self.path("day.fix")], capture_output=True).returncode, 0
        )
        self.assertEqual(self.read("day.fix"), read("day", "session.fix"))

    def test_what_the_day_shows_is_what_is_expected(self):
        streams = {
            line for name in ("s00.venue", "s00.client") for line in shown(
                read("day", "expected", name)
            )
        }
        logs = read("day", "client.log").decode() + read("day", "venue.log").decode()
        journal = read("day", "expected", "journal.csv").decode()
        for block in blocks("day"):
            with self.subTest(block):
                if block.startswith("8=FIX"):
                    self.assertLessEqual(set(block.splitlines()), streams)
                elif block.startswith("2024"):
                    self.assertLessEqual(set(block.splitlines()), set(logs.splitlines()))
                elif re.match("post|sent|line", block):
                    self.assertIn(block, journal)


def history(journal, tree):
    """The root of a tree of sums after each of its lines, and the place and root of each read of
    it."""
    rows = [row.split(",") for row in journal.splitlines()]
    last, roots = {}, [0]
    for _, session, _, _, _, value in (
        row for row in rows if row[0] == "line" and row[2] == str(tree)
    ):
        last[session] = int(value)
        roots.append(sum(last.values()))
    reads = [(int(row[4]), int(row[5])) for row in rows if row[0] == "read" and row[2] == str(tree)]
    return roots, reads


@unittest.skipUnless(os.environ.get("TRY") and not built(), "TRY isn't set, or Runs has it")
class Tried(InFolder):
    """The day, as `rt try` runs it."""

    def test_the_day(self):
        os.makedirs(self.path("out"))
        day = os.path.join(EXAMPLES, "day")
        limits, session = (os.path.join(day, name) for name in ("limits.csv", "session.fix"))
        words = [limits, self.path("out"), session]
        done = subprocess.run(
            ["rt", "try", "--", "run", *words], cwd=os.path.join(TOP, "crates/gate_program"),
            capture_output=True, stdin=subprocess.DEVNULL,
        )
        self.assertEqual(done.returncode, 0, done.stderr.decode(errors="replace")[-2000:])
        self.says(done.stdout.decode(), read("day", "expected", "stdout").decode())
        for name in ("journal.csv", "s00.venue", "s00.client"):
            self.assertEqual(self.read(f"out/{name}"), read("day", "expected", name), name)


@unittest.skipUnless(built(), "the program isn't built")
class Runs(InFolder):
    """Runs of the built program."""

    def run_example(self, name):
        words = [
            os.path.join(EXAMPLES, name, "limits.csv"),
            "out",
            os.path.join(EXAMPLES, name, "session.fix"),
        ]
        status, out, error = self.gate("run", *words, env={"GATE_PROGRAM": built()})
        self.assertEqual((status, error), (0, ""))
        return out

    def test_the_day(self):
        self.assertEqual(self.run_example("day"), read("day", "expected", "stdout").decode())
        for name in ("journal.csv", "s00.venue", "s00.client"):
            self.assertEqual(self.read(f"out/{name}"), read("day", "expected", name), name)

    def test_the_order_of_the_first_page(self):
        limits, order, forward, journal = first_page()
        self.write("limits.csv", limits)
        self.write("a.fix", soh(order.strip()))
        self.assertEqual(
            self.gate("run", "limits.csv", "out", "a.fix", env={"GATE_PROGRAM": built()})[0], 0
        )
        self.assertEqual(self.read("out/s00.venue"), soh(forward.strip()))
        self.assertEqual(self.read("out/journal.csv").decode(), journal)

    def test_the_totals_and_journal_of_the_readmes(self):
        for name in ONE_SESSION:
            with self.subTest(name):
                self.assertIn(self.run_example(name), blocks(name))
                journal = self.read("out/journal.csv").decode()
                for block in blocks(name):
                    if re.match("kind,session|post|sent|line|read", block):
                        self.assertIn(block, journal)

    def test_the_messages_of_the_readmes(self):
        for name in ONE_SESSION:
            with self.subTest(name):
                self.run_example(name)
                there = {
                    line for one in ("s00.venue", "s00.client") for line in shown(
                        self.read(f"out/{one}")
                    )
                }
                there |= set(shown(read(name, "session.fix")))
                for block in blocks(name):
                    if block.startswith("8=FIX"):
                        self.assertLessEqual(set(block.splitlines()), there)

    def test_the_reports_tell_what_the_totals_count(self):
        for name in ONE_SESSION:
            with self.subTest(name):
                sent, refused = re.findall(r"sent (\d+) refused (\d+)", self.run_example(name))[0]
                self.assertEqual(self.report_of(name, "session"), (int(sent), int(refused)))

    def test_the_journals_are_lawful(self):
        for name in ONE_SESSION:
            with self.subTest(name):
                self.run_example(name)
                self.assertEqual(self.check(name, "out/journal.csv"), (0, "LAWFUL\n", ""))

    def check(self, name, journal):
        """What the launcher answers to a check of a journal by an example with one session."""
        files = [os.path.join(EXAMPLES, name, one) for one in ("limits.csv", "session.fix")]
        return self.gate("check", files[0], journal, files[1], env={"GATE_PROGRAM": built()})

    def test_the_audit_of_the_first_example(self):
        self.run_example("first")
        rows = self.read("out/journal.csv").decode().splitlines(keepends=True)
        page = read("first", "README.md").decode()
        told = re.findall(r"^\| (\d+) \| `(.*?)` \| `(check fault .*?)` \|", page, re.M)
        self.assertTrue(told)
        for row, text, fault in told:
            with self.subTest(text):
                place = int(row) - 1
                changed = [*rows[:place], text + "\n", *rows[place + 1 :]]
                self.write("out/first/changed.csv", "".join(changed))
                status, out, error = self.check("first", "out/first/changed.csv")
                self.assertEqual((status, out), (7, fault + "\n"))
                if (row, text) == told[0][:2]:
                    self.assertIn(error, blocks("first"))

    def filter_example(self, out, *sessions):
        """Filters sessions of the example of filters; what is told."""
        files = [os.path.join(EXAMPLES, "cross", one) for one in ("limits.csv", *sessions)]
        status, told, error = self.gate(
            "cross", files[0], out, *files[1:], env={"GATE_PROGRAM": built()}
        )
        self.assertEqual((status, error), (0, ""))
        return told

    def test_the_filtered_session(self):
        self.assertIn(self.filter_example("out", "session.fix"), blocks("cross"))
        self.assertIn(self.read("out/cross.csv").decode(), blocks("cross"))
        passed = [line for line in shown(read("cross", "session.fix")) if "|11=b1|" not in line]
        self.assertEqual(self.read("out/s00.pass"), soh("".join(passed)))
        told = "".join(line + "\n" for line in shown(self.read("out/s00.client")))
        self.assertIn(told, blocks("cross"))
        limits = os.path.join(EXAMPLES, "cross", "limits.csv")
        words = ("run", limits, "gone_on", "out/s00.pass")
        status, told, error = self.gate(*words, env={"GATE_PROGRAM": built()})
        self.assertEqual((status, error), (0, ""))
        self.assertIn(told, blocks("cross"))

    def test_of_two_filtered_sessions_one_is_passed_at_most(self):
        for _ in range(20):
            self.filter_example("out", "seller.fix", "buyer.fix")
            passed = [self.read(f"out/s0{session}.pass") for session in (0, 1)]
            told = [self.read(f"out/s0{session}.client") for session in (0, 1)]
            self.assertTrue(not all(passed))
            self.assertEqual([not one for one in passed], [b"58=CROSS" in one for one in told])

    def report_of(self, name, *sessions):
        """How many requests the report of the run in `out` tells as sent and as refused. The report
        is taken away again."""
        words = [os.path.join(EXAMPLES, name, "limits.csv"), "out"]
        words += [os.path.join(EXAMPLES, name, f"{one}.fix") for one in sessions]
        status, _, error = self.gate("report", *words)
        self.assertEqual((status, error), (0, ""))
        self.says(self.read("out/report.html").decode(), "</html>")
        rows = csv.DictReader(self.read("out/requests.csv").decode().splitlines())
        outcomes = [row["outcome"] for row in rows]
        for one in ("report.html", "requests.csv"):
            os.remove(self.path(f"out/{one}"))
        return outcomes.count("sent"), sum(one.startswith("refused: ") for one in outcomes)

    def test_the_firm_however_its_sessions_fall(self):
        sessions = ("alpha1", "beta1", "alpha2", "beta2")
        inputs = [os.path.join(EXAMPLES, "firm", f"{name}.fix") for name in sessions]
        os.makedirs(self.path("out"))
        done = self.run_words("run", os.path.join(EXAMPLES, "firm", "limits.csv"), "out", *inputs)
        self.assertEqual(done.returncode, 0)
        ended = re.findall(rb"session (\d) whole sent (\d) refused (\d) noted 0", done.stdout)
        self.assertEqual([int(sent) + int(refused) for _, sent, refused in ended], [1, 2, 3, 1])
        self.assertEqual(sum(self.report_of("firm", *sessions)), 7)
        limits = os.path.join(EXAMPLES, "firm", "limits.csv")
        done = self.run_words("check", limits, "out/journal.csv", *inputs)
        self.assertEqual((done.returncode, done.stdout), (0, b"LAWFUL\n"))
        roots, reads = history(self.read("out/journal.csv").decode(), tree=0)
        self.assertTrue(reads)
        self.assertEqual([roots[place] for place, _ in reads], [root for _, root in reads])
        self.assertLessEqual(roots[-1], 5000)

    def test_what_the_launcher_finds_in_limits_is_what_the_program_finds(self):
        for name, text, number, row, _, _ in FAULTS:
            with self.subTest(name):
                self.write("limits.csv", text)
                done = self.run_words("run", "limits.csv", "out", "a.fix")
                self.assertEqual(
                    (done.returncode, done.stdout),
                    (3, f"limits fault {number} row {row}\n".encode()),
                )

    def test_what_the_launcher_finds_in_sessions_is_what_the_program_finds(self):
        os.makedirs(self.path("out"))
        for name, data, kind, place, _ in ENDS:
            with self.subTest(name):
                self.write("a.fix", data)
                done = self.run_words("run", "limits.csv", "out", "a.fix")
                self.assertEqual(done.returncode, 4)
                self.says(done.stdout.decode(), f"session 0 {kind} {place} sent ")

    def run_words(self, *words):
        return subprocess.run([built(), *words], cwd=self.folder, capture_output=True)

    def test_a_malformed_call_is_answered_as_the_program_does(self):
        done = subprocess.run([built(), "run"], capture_output=True)
        self.assertEqual((done.returncode, done.stdout.decode()), self.gate("run")[:2])


if __name__ == "__main__":
    unittest.main()
