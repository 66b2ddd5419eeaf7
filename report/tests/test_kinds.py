"""A session with a frame of each kind: cancels, replaces, reports, field faults, screens, notes."""

import csv
import tempfile
import unittest
from pathlib import Path

from report.__main__ import DONE, main
from report.tests.quiet import quiet
from report.tests.runs import asks, frame, journal, lines, small_run

LIMITS = "firm,,1000,,,\naccount,ACC,1000,,,\nsymbol,XYZ,1000,1,12,1000\noff,collar,1,,,\n"
TREES = (0, 1, 2)
ORDER = "1=ACC|55=XYZ|54=1|38={}|40=2|44=10.00|"
HEAD = "49={}|56=GATE|34={}|52=T|"


def sent_by_client(number: int, kind: str, rest: str) -> bytes:
    """A message of the client."""
    return frame(f"35={kind}|" + HEAD.format("C1", number) + rest)


def sent_by_venue(number: int, kind: str, rest: str) -> bytes:
    """A message of the venue."""
    return frame(f"35={kind}|" + HEAD.format("VENUE", number) + rest)


MESSAGES = [
    sent_by_client(1, "A", "98=0|"),
    sent_by_client(2, "D", "11=a1|" + ORDER.format(10)),
    sent_by_client(3, "G", "11=b1|41=a1|" + ORDER.format(20)),
    sent_by_venue(1, "8", "11=b1|41=a1|150=5|55=XYZ|54=1|38=20|44=10.00|"),
    sent_by_venue(2, "8", "11=b1|150=F|55=XYZ|54=1|38=20|32=5|31=9.00|"),
    sent_by_venue(3, "9", "11=zz|41=yy|"),
    sent_by_client(4, "F", "11=c1|41=b1|55=XYZ|54=1|38=20|"),
    sent_by_client(5, "D", "11=a1|" + ORDER.format(1)),
    sent_by_client(6, "D", "11=a2|1=ACC|54=1|38=1|40=2|44=10.00|"),
    sent_by_venue(4, "8", "11=b1|"),
    sent_by_client(7, "D", "11=a3|" + ORDER.format(2000)),
    sent_by_client(8, "D", "11=a4|" + ORDER.format(1))[:-4] + b"000\x01",
    sent_by_client(9, "Q", "11=a5|"),
    sent_by_client(10, "F", "11=c2|41=b1|55=XYZ|54=1|38=20|"),
]
POSTS = "0:1:100 0:2:200 0:3:195"
JOURNAL = journal(" ".join([
    asks(0, TREES, (1, 1, 1), (100,) * 3, "3,0,0,0 0,1,1,100 1,1,1,100 2,1,1,100"), "sent,0,1,,,",
    asks(0, TREES, (2, 2, 2), (200,) * 3, "3,0,0,0 0,2,2,200 1,2,2,200 2,2,2,200"), "sent,0,2,,,",
    asks(0, TREES, (3, 3, 3), (195,) * 3, ""),
    "noted,0,5,3,0,0 sent,0,6,,, refused,0,7,7,0,0 refused,0,8,16,55,1 noted,0,9,5,150,1",
    "refused,0,10,10,1,0 noted,0,11,1,0,0 noted,0,12,2,0,0 refused,0,13,13,0,0 ended,0,0,,,",
    *(lines(tree, POSTS) for tree in TREES)]))
TO_VENUE = ["35=D|11=a1|", "35=G|11=b1|41=a1|", "35=F|11=c1|41=b1|",
            "35=3|45=4|371=150|372=8|373=1|"]
TO_CLIENT = ["35=8|11=b1|41=a1|150=5|", "35=8|11=b1|150=F|", "35=9|11=zz|41=yy|",
             "35=8|11=a1|58=DUPLICATE|",
             "35=3|45=6|371=55|372=D|373=1|", "35=8|11=a3|58=SCREEN 1|",
             "35=9|11=c2|41=b1|58=PENDING|"]
STREAMS = {"s00.venue": b"".join(map(frame, TO_VENUE)),
           "s00.client": b"".join(map(frame, TO_CLIENT))}

# frame, ClOrdID, OrigClOrdID, account, symbol, side, quantity, price, outcome, message
ROWS = [
    ("1", "a1", "", "ACC", "XYZ", "buy", "10", "10.00", "sent", "NewOrderSingle"),
    ("2", "b1", "a1", "ACC", "XYZ", "buy", "20", "10.00", "sent", "OrderCancelReplaceRequest"),
    ("3", "b1", "a1", "", "XYZ", "buy", "20", "10.00", "passed on", "ExecutionReport: replaced"),
    ("4", "b1", "", "", "XYZ", "buy", "5", "9.00", "passed on", "ExecutionReport: trade"),
    ("5", "zz", "yy", "", "", "", "", "", "passed on and noted: of no order", "OrderCancelReject"),
    ("6", "c1", "b1", "", "XYZ", "buy", "20", "", "sent", "OrderCancelRequest"),
    ("7", "a1", "", "ACC", "XYZ", "buy", "1", "10.00", "refused: DUPLICATE", "NewOrderSingle"),
    ("8", "a2", "", "ACC", "", "buy", "1", "10.00", "refused: field 55 (required tag missing)",
     "NewOrderSingle"),
    ("9", "b1", "", "", "", "", "", "", "rejected to the venue: field 150 (required tag missing)",
     "ExecutionReport"),
    ("10", "a3", "", "ACC", "XYZ", "buy", "2000", "10.00", "refused: SCREEN 1", "NewOrderSingle"),
    ("13", "c2", "b1", "", "XYZ", "buy", "20", "", "refused: PENDING", "OrderCancelRequest"),
]


class Kinds(unittest.TestCase):
    """The session, whole, and stopped by a fault."""

    def setUp(self):
        self.folder = tempfile.TemporaryDirectory()
        self.addCleanup(self.folder.cleanup)
        self.out = Path(self.folder.name) / "out"

    def rows(self, journal_text: str, streams: dict[str, bytes]) -> list[tuple]:
        """The rows of requests.csv, without session, time and the columns of trees."""
        with quiet() as said:
            status = main(small_run(self.out, MESSAGES, journal_text, streams, LIMITS))
        self.assertEqual(status, DONE, said.getvalue())
        with open(self.out / "requests.csv", encoding="utf-8", newline="") as file:
            rows = list(csv.reader(file))[1:]
        self.assertEqual({(row[0], row[2], *row[11:15]) for row in rows},
                         {("0", "T", "", "", "", "")})
        return [(row[1], *row[3:11], row[15]) for row in rows]

    def test_whole(self):
        """Each request and report with what became of it; other frames are counted."""
        self.assertEqual(self.rows(JOURNAL, STREAMS), ROWS)
        html = (self.out / "report.html").read_text(encoding="utf-8")
        self.assertIn("1 of the session, 1 of another type, 1 not sound", html)

    def test_stopped(self):
        """A write failed at the message of frame 2: of later frames the journal tells nothing."""
        posts = "0:1:100 0:2:200"
        text = JOURNAL[:JOURNAL.index("post,0,0,3")] + "ended,0,5,,,\n" + "\n".join(
            lines(tree, posts).replace(" ", "\n") for tree in TREES) + "\n"
        streams = {"s00.venue": STREAMS["s00.venue"][:60], "s00.client": b""}
        rows = self.rows(text, streams)
        self.assertEqual(rows[:2], ROWS[:2])
        self.assertEqual({row[8] for row in rows[2:]}, {"not told by the journal"})
        html = (self.out / "report.html").read_text(encoding="utf-8")
        self.assertIn('<span class="alert">a write failed</span>', html)


if __name__ == "__main__":
    unittest.main()
