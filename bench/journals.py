"""Worked journals, each with the limit file and the inputs that it is of."""
from collections import namedtuple

from rows import base, buy, one, text

# A name, a limit file, the bytes of each session, and the journal's text.
Worked = namedtuple("Worked", "name limits inputs journal")

# One order that is sent.
SENT = Worked("one order", *one(base(1_000), buy("C1", "a1", 100, "10.0000")), """kind,session,a,b,c,d
post,0,0,1,1000,
post,0,1,1,1000,
post,0,2,1,1000,
read,0,3,0,0,0
read,0,0,1,1,1000
read,0,1,1,1,1000
read,0,2,1,1,1000
sent,0,0,,,
ended,0,0,,,
line,0,0,1,1,1000
line,0,1,1,1,1000
line,0,2,1,1,1000
""")

TERMS = "1=ACC|55=XYZ|54=1|38=60|40=2|44=10.00|60=T|"
# Two sessions that race; session 1 is refused.
RACED = Worked("a race", base(1_000), (
    text(f"35=D|49=C1|56=GATE|34=1|52=T|11=a1|{TERMS}"),
    text(f"35=D|49=C2|56=GATE|34=1|52=T|11=b1|{TERMS}")), """kind,session,a,b,c,d
post,0,0,1,600,
post,0,1,1,600,
post,0,2,1,600,
read,0,3,0,0,0
read,0,0,1,1,600
read,0,1,1,1,600
read,0,2,1,1,600
sent,0,0,,,
ended,0,0,,,
post,1,0,1,600,
post,1,1,1,600,
post,1,2,1,600,
read,1,3,0,0,0
read,1,0,2,2,1200
read,1,1,2,2,1200
read,1,2,2,2,1200
post,1,0,2,0,
post,1,1,2,0,
post,1,2,2,0,
refused,1,0,1,0,0
ended,1,0,,,
line,0,0,1,1,600
line,1,0,2,1,600
line,1,0,3,2,0
line,0,1,1,1,600
line,1,1,2,1,600
line,1,1,3,2,0
line,0,2,1,1,600
line,1,2,2,1,600
line,1,2,3,2,0
""")
HEAD = SENT.journal.splitlines()[0] + "\n"
# What is changed in a journal: a name, the old text and the new one, and the fault's kind and row.
OF_ONE = (
    ("nothing", "", "", None),
    ("a value that isn't the root", "read,0,0,1,1,1000", "read,0,0,1,1,999", (7, 6)),
    ("the last line is gone", "line,0,2,1,1,1000\n", "", (6, 0)),
    ("another value is posted", "post,0,0,1,1000,", "post,0,0,1,999,", (5, 2)),
    ("no header", HEAD, "", (1, 1)),
    ("no row has a LF", SENT.journal, "kind,session,a,b,c,d", (1, 1)),
    ("a number with a zero", "sent,0,0,,,", "sent,0,00,,,", (1, 9)),
    ("the session hasn't ended", SENT.journal[SENT.journal.index("ended"):], "", (1, 10)),
    ("nothing at all", SENT.journal, "", (1, 1)),
    ("no session", SENT.journal, HEAD, (2, 0)),
    ("a session more", "line,0,0,1,1,1000", "ended,1,0,,,\nline,0,0,1,1,1000", (2, 0)),
    ("an end by a failed write", "ended,0,0,,,", "ended,0,5,,,", (3, 10)),
    ("a post in a tree that isn't", "post,0,2,1,1000,", "post,0,4,1,1000,", (4, 4)),
    ("a line of such a tree", "line,0,2,1,1,1000\n", "line,0,4,1,1,1000\n", (4, 13)),
    ("a cut file", "ended,0,0,,,", "ended,0,1,0,,", (5, 10)),
    ("an act more", "sent,0,0,,,", "sent,0,0,,,\nnoted,0,1,1,0,0", (5, 10)),
    ("an act less", "sent,0,0,,,\n", "", (5, 9)),
    ("a line of another value", "line,0,1,1,1,1000", "line,0,1,1,1,999", (6, 12)),
    ("a line of a session that isn't", "line,0,1,1,1,1000", "line,7,1,1,1,1000", (6, 12)),
    ("a line of the second post", "line,0,1,1,1,1000", "line,0,1,1,2,1000", (6, 12)),
    ("a line of no post", "line,0,2,1,1,1000\n", "line,0,2,1,1,1000\nline,0,3,1,1,0\n", (6, 14)),
    ("a place behind the lines", "read,0,0,1,1,1000", "read,0,0,1,2,1000", (7, 6)),
    ("a place before the own post", "read,0,0,1,1,1000", "read,0,0,1,0,0", (7, 6)),
    ("a read of the halt tree", "read,0,3,0,0,0", "read,0,3,0,1,0", (7, 5)),
    ("another stamp", "read,0,0,1,1,1000", "read,0,0,7,1,1000", None),
)
OF_TWO = (
    ("nothing", "", "", None),
    ("one stamp at two places", "read,1,0,2,2,1200", "read,1,0,1,2,1200", (7, 15)),
    ("a smaller stamp at a later place", "read,0,0,1,1,600", "read,0,0,3,1,600", (7, 15)),
    ("a halt root of 1", "read,0,3,0,0,0", "read,0,3,0,0,1", (5, 9)),
    ("the verdict of the account", "refused,1,0,1,0,0", "refused,1,0,2,0,0", (5, 21)),
    ("the acts of the second session and a line", "refused,1,0,1,0,0\nended,1,0,,,\nline,0,0,1,1,600",
     "refused,1,0,2,0,0\nended,1,0,,,\nline,0,0,1,1,601", (5, 21)),
    ("a line that comes too late", "line,0,0,1,1,600\nline,1,0,2,1,600",
     "line,1,0,1,1,600\nline,0,0,2,1,600", (7, 6)),
)
WORKED = ((SENT, OF_ONE), (RACED, OF_TWO))
