"""Files that don't belong together, or aren't what they should be: what is said, and that nothing
is written."""

import shutil
import tempfile
import unittest
from pathlib import Path

from report.__main__ import APART, DONE, NO_FORM, UNREADABLE, main
from report.tests.quiet import quiet
from report.tests.runs import EXAMPLES, FIRM_JOURNAL, example, frame, journal, small_run

LIMITS = "firm,,1000,,,\naccount,ACC,1000,,,\nsymbol,XYZ,1000,1,12,1000\n"
ROWS = FIRM_JOURNAL.splitlines(keepends=True)


def without(*numbers: int) -> str:
    """The firm's journal without these rows, counted from 1."""
    return "".join(row for number, row in enumerate(ROWS, 1) if number not in numbers)


# The firm's journal, changed, and what is said of it.
JOURNALS = [
    ("empty", "", "row 1: it isn't the header of a journal"),
    ("another text", "<!doctype html>\n" * 9, "row 1: it isn't the header of a journal"),
    ("cut within a row", "".join(ROWS[:22]) + ROWS[22][:7], "row 23: it isn't a row of a journal"),
    ("cut behind a row", "".join(ROWS[:29]), "row 30: the journal ends before session 1 does"),
    ("cut before a session", "".join(ROWS[:10]), "row 11: the journal ends before session 1 does"),
    ("cut among the lines", "".join(ROWS[:-1]), "tree 4 has posts without a line"),
    ("a number with a zero", FIRM_JOURNAL.replace("post,0,0,1,", "post,0,0,01,"),
     "row 2: it isn't a row of a journal, or doesn't stand where it may"),
    ("a number beyond all", FIRM_JOURNAL.replace("3000", "9" * 40, 1), "row 2: it isn't a row"),
    ("a line among acts", FIRM_JOURNAL.replace("sent,0,0", "line,0,0,1,1,5\nsent,0,0"),
     "row 9: the journal ends before session 0 does"),
    ("a session left out", without(*range(11, 31)),
     "row 11: an act of session 1 has to stand here"),
    ("a session more", FIRM_JOURNAL.replace("ended,3,0,,,\n", "ended,3,0,,,\nended,4,0,,,\n"),
     "row 78: an act of a session that isn't given"),
    ("a post left out", without(3), "line 1 of tree 1 isn't the next post of its session"),
    ("a post's number", FIRM_JOURNAL.replace("post,1,0,2,", "post,1,0,3,"),
     "row 18: post 2 of the session in tree 0 comes next"),
    ("a line left out", without(79), "line 2 of tree 0 isn't the next post of its session"),
    ("a line's value", FIRM_JOURNAL.replace("line,1,0,2,1,2500", "line,1,0,2,1,2600"),
     "line 2 of tree 0 isn't the next post of its session"),
    ("a read's value", FIRM_JOURNAL.replace("read,1,0,2,2,5500", "read,1,0,2,2,5600"),
     "a read of tree 0 at place 2 gives 5600, which isn't the root there"),
    ("a read's place", FIRM_JOURNAL.replace("read,1,0,2,2,5500", "read,1,0,2,99,5500"),
     "a read of tree 0 at place 99 gives 5500"),
    ("a tree too many", FIRM_JOURNAL.replace("post,0,0,1", "post,0,9,1"),
     "row 2: the limit file has no tree 9"),
]
FIRM_FILES = ["alpha1", "beta1", "alpha2", "beta2"]
ORDERS = [
    ("the first two change places", ["beta1", "alpha1", "alpha2", "beta2"],
     "session 0 (beta1.fix), frame 0: the journal's trees aren't those of the order's account and"),
    ("the first and the third", ["alpha2", "beta1", "alpha1", "beta2"],
     "session 0 (alpha2.fix), frame 0: message 0 of s00.venue isn't what the gate wrote of it"),
    ("the last two", ["alpha1", "beta1", "beta2", "alpha2"],
     "session 2 (beta2.fix), frame 0: the journal's trees aren't those of the order's account and"),
]
LIMIT_FILES = [
    ("a lower limit of the firm", "firm,,5000,", "firm,,4000,", APART,
     "session 1 (beta1.fix), frame 1: by the limit file the order isn't sent as the journal says"),
    ("a higher limit of the firm", "firm,,5000,", "firm,,6000,", APART,
     "session 1 (beta1.fix), frame 0: by the limit file the order isn't refused as the journal"),
    ("the accounts change places", "account,ALPHA,4000,,,\naccount,BETA",
     "account,BETA,4000,,,\naccount,ALPHA",
     APART, "frame 0: the journal's trees aren't those of the order's account and symbol"),
    ("an account more", "trip,,2,,,", "account,GAMMA,1,,,", APART,
     "the reads aren't those of the halt tree"),
    ("no firm", "firm,,5000,,,\n", "", UNREADABLE, "the limit file has no row of the firm"),
    ("another word", "trip", "tripp", UNREADABLE, "row 5 isn't one of a limit file"),
    ("five columns", "trip,,2,,,", "trip,,2,,", UNREADABLE, "row 5 isn't one of a limit file"),
]
# The same in version 2: what is changed, and the row that isn't one then.
SECOND_VERSION = [
    ("no such mode", "account,ALPHA,4000,,,,", "account,ALPHA,4000,,,,Net", 3),
    ("the firm's mode", "firm,,5000,,,,", "firm,,5000,,,,net", 2),
    ("a symbol's mode", "1,20,1000,", "1,20,1000,gross", 5),
    ("a setting's mode", "trip,,2,,,,", "trip,,2,,,,net", 6),
    ("six columns", "trip,,2,,,,", "trip,,2,,,", 6),
    ("another version", "version,2,", "version,3,", 1),
    ("no version", "version,2,,,,,\n", "", 1),
    ("twice", "version,2,,,,,\n", "version,2,,,,,\n" * 2, 2),
]


class Apart(unittest.TestCase):
    """Runs of the firm with one file changed."""

    def setUp(self):
        self.folder = tempfile.TemporaryDirectory()
        self.addCleanup(self.folder.cleanup)
        self.out = Path(self.folder.name) / "out"
        self.out.mkdir()
        self.words = example("firm", self.out)

    def expect(self, name: str, status: int, text: str) -> None:
        """The report ends with the status, says the text and writes nothing."""
        with quiet() as said:
            found = main(self.words)
        shown = said.getvalue().replace(str(EXAMPLES / "firm") + "/", "")
        self.assertEqual(found, status, f"{name}: {shown}")
        self.assertIn(text, shown, name)
        self.assertNotIn("Traceback", shown, name)
        left = {path.name for path in self.out.iterdir()} - {"journal.csv", "limits.csv",
                                                             "session.fix"}
        self.assertEqual({name for name in left if not name.startswith("s0")}, set(), name)

    def test_journals(self):
        """A journal that is none, is cut, or contradicts itself."""
        for name, text, said in JOURNALS:
            (self.out / "journal.csv").write_text(text)
            self.expect(name, UNREADABLE, said)

    def test_order_of_sessions(self):
        """The sessions are given in another order than to the run."""
        for name, order, said in ORDERS:
            self.words[2:] = [str(EXAMPLES / "firm" / f"{file}.fix") for file in order]
            self.expect(name, APART, said)

    def test_number_of_sessions(self):
        """A session too few, or too many."""
        files = self.words[2:]
        self.words[2:] = files[:3]
        self.expect("too few", UNREADABLE, "row 66: an act of a session that isn't given")
        self.words[2:] = files + files[:1]
        self.expect("too many", UNREADABLE, "the journal ends before session 4 does")

    def test_limit_files(self):
        """The limit file isn't that of the run, or is none."""
        text = (EXAMPLES / "firm" / "limits.csv").read_text()
        self.words[0] = str(self.out / "limits.csv")
        for name, old, new, status, said in LIMIT_FILES:
            self.assertIn(old, text, name)
            Path(self.words[0]).write_text(text.replace(old, new))
            self.expect(name, status, said)

    def test_limit_files_of_version_2(self):
        """A mode that is none or in another row, a row of six columns, the version in another place."""
        text = (EXAMPLES / "firm" / "limits.csv").read_text()
        text = "version,2,,,,,\n" + text.replace("\n", ",\n")
        self.words[0] = str(self.out / "limits.csv")
        for name, old, new, row in SECOND_VERSION:
            self.assertIn(old, text, name)
            Path(self.words[0]).write_text(text.replace(old, new, 1))
            self.expect(name, UNREADABLE, f"row {row} isn't one of a limit file")

    def test_streams(self):
        """A stream has another message, one too few or one too many."""
        path = self.out / "s02.client"
        data = path.read_bytes()
        second = data.index(b"8=FIX", 1)
        cases = [
            ("another text", data.replace(b"58=FIRM", b"58=HALT", 1),
             "frame 0: message 0 of s02.client"),
            ("the first two change places",
             data[second:second * 2] + data[:second] + data[second * 2:],
             "frame 0: message 0 of s02.client"),
            ("one too few", data[:data.rindex(b"8=FIX")], "frame 2: message 2 of s02.client"),
            ("one too many", data + frame("35=0|"),
             "s02.client has more than the journal tells of"),
            ("cut", data[:-1], "frame 2: message 2 of s02.client"),
        ]
        for name, changed, said in cases:
            path.write_bytes(changed)
            self.expect(name, APART, said)

    def test_frames_and_acts(self):
        """A frame has another act than one of its kind can have, or none."""
        kinds = {"heartbeat": "35=0|", "quote": "35=Q|", "order": "35=D|11=a|",
                 "cancel": "35=F|11=a|",
                 "report": "35=8|11=a|"}
        cases = [
            ("heartbeat", "sent,0,0,,,",
             "the file has a message of the session (35=0), the journal has 'sent'"),
            ("heartbeat", "noted,0,0,1,0,0", "the journal has 'noted' with code 1"),
            ("quote", "",
             "the file has a message of another type (35=Q), the journal has no act of it"),
            ("order", "", "the file has NewOrderSingle, the journal has no act of it"),
            ("order", "noted,0,0,3,0,0", "the journal has 'noted' with code 3"),
            ("order", "sent,0,0,,,", "the journal has no reads for it"),
            ("order", "refused,0,0,1,0,0", "the journal has no reads for it"),
            ("order", "refused,0,0,11,0,0", "the journal has 'refused' with code 11"),
            ("cancel", "refused,0,0,1,0,0", "the journal has 'refused' with code 1"),
            ("report", "sent,0,0,,,", "the file has ExecutionReport, the journal has 'sent'"),
            ("report", "noted,0,0,2,0,0", "the journal has 'noted' with code 2"),
            ("order", "refused,0,0,7,0,0 sent,0,1,,,", "the journal has an act of frame 1"),
        ]
        for kind, act, said in cases:
            client = {"s00.client": frame("35=8|11=a|58=DUPLICATE|")}
            self.words = small_run(self.out, [frame(kinds[kind])], journal(f"{act} ended,0,0,,,"),
                                   client, LIMITS)
            self.expect(f"{kind} {act}", APART, said)

    def test_ends(self):
        """A session ended otherwise than its file does."""
        data = frame("35=0|")
        for end, said in [("ended,0,0,,,",
                           "a frame is cut, at byte 0; by the journal it ended so: took its"),
                          ("ended,0,1,5,,",
                           "by the journal it ended so: a frame is cut, at byte 5")]:
            self.words = small_run(self.out, [data[:-1]], journal(end), {}, LIMITS)
            self.expect(end, APART, said)

    def test_words(self):
        """Words that are no form, and files that aren't there."""
        many = [f"s{session}" for session in range(65)]
        for words in ([], ["l"], ["l", "o"], ["l", "o", ""], ["l", "--all", "s"], ["l", "o", *many]):
            self.words = words
            self.expect(str(words), NO_FORM, "usage: gate report LIMITS OUT SESSION...")
        for gone in ("journal.csv", "s01.venue"):
            self.words = example("firm", self.out)
            (self.out / gone).unlink()
            self.expect(gone, UNREADABLE, f"{gone}: No such file")

    def test_an_older_report_stays(self):
        """A report that can't be made leaves the one before it as it was."""
        with quiet():
            self.assertEqual(main(self.words), DONE)
        before = (self.out / "report.html").read_bytes()
        shutil.copy(EXAMPLES / "firm" / "limits.csv", self.out / "journal.csv")
        with quiet():
            self.assertEqual(main(self.words), UNREADABLE)
        self.assertEqual((self.out / "report.html").read_bytes(), before)
        self.assertEqual(list(self.out.glob("*.half")), [])


if __name__ == "__main__":
    unittest.main()
