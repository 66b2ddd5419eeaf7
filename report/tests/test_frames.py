"""Frames and fields as the gate reads them: each way in which a file ends, and what is sound."""

import unittest

from report.frames import BROKEN, CUT, End, TOO_LONG, WHOLE, read_frames
from report.messages import Fields, ORDER_ID, SYMBOL, kind_of
from report.tests.runs import frame

HEARTBEAT = frame("35=0|")
# A limit order in whole bytes, of 136 bytes with BodyLength (9) 113.
TIE = (b"8=FIX.4.4|9=113|35=D|49=C1|56=GATE|34=1|52=20240102-10:00:00|11=a1|1=ACC|55=XYZ|54=1|38=100"
       b"|40=2|44=10.0000|60=20240102-10:00:00|10=175|").replace(b"|", b"\x01")

ENDS = [
    ("nothing", b"", 0, End(WHOLE, None)),
    ("line ends alone", b"\r\n\n", 0, End(WHOLE, None)),
    ("a frame and line ends", b"\n" + TIE + b"\r\n", 1, End(WHOLE, None)),
    ("short of its last byte", TIE + TIE[:-1], 1, End(CUT, 136)),
    ("cut in BeginString", TIE + b"8=FI", 1, End(CUT, 136)),
    ("cut in BodyLength", b"8=FIX.4.4\x019=5", 0, End(CUT, 0)),
    ("cut in the body", b"8=FIX.4.4\x019=5\x0135=", 0, End(CUT, 0)),
    ("cut in CheckSum", HEARTBEAT[:-3], 0, End(CUT, 0)),
    ("another version", b"8=FIX.4.2\x019=5\x01", 0, End(BROKEN, 0)),
    ("another text", b"\nhello", 0, End(BROKEN, 1)),
    ("eight digits of BodyLength", b"8=FIX.4.4\x019=00000005\x01", 0, End(BROKEN, 0)),
    ("BodyLength 0", b"8=FIX.4.4\x019=0\x0110=000\x01", 0, End(BROKEN, 0)),
    ("a body without SOH", b"8=FIX.4.4\x019=4\x0135=010=000\x01", 0, End(BROKEN, 0)),
    ("no CheckSum behind the body", b"8=FIX.4.4\x019=5\x0135=0\x01x", 0, End(BROKEN, 0)),
    ("a body above 8,192 bytes", b"8=FIX.4.4\x019=8193\x01", 0, End(TOO_LONG, 0)),
]
UNSOUND = [
    ("a wrong checksum", TIE[:-2] + b"6\x01"),
    ("MsgType isn't first", frame("49=C1|35=0|")),
    ("MsgType without a value", frame("35=|")),
    ("a tag that begins with 0", frame("35=0|011=a|")),
    ("a tag of seven digits", frame("35=0|1234567=a|")),
    ("a field without =", frame("35=0|58|")),
]


class Frames(unittest.TestCase):
    """What stands in a session file."""

    def test_ends(self):
        """How many frames a file has, and how it ends."""
        for name, data, count, end in ENDS:
            bodies, found = read_frames(data)
            self.assertEqual((len(bodies), found), (count, end), name)

    def test_longest_body(self):
        """A body of 8,192 bytes is a frame."""
        body = "35=0|58=" + "x" * (8192 - 9) + "|"
        bodies, end = read_frames(frame(body))
        self.assertEqual((len(bodies[0]), end), (8192, End(WHOLE, None)))

    def test_longer_files(self):
        """Only the first bytes of a longer file are read."""
        data = TIE + TIE
        for most, count, end in [(272, 2, End(WHOLE, None)), (271, 1, End(TOO_LONG, 136)),
                                 (136, 1, End(TOO_LONG, 136))]:
            bodies, found = read_frames(data, most)
            self.assertEqual((len(bodies), found), (count, end), most)

    def test_sound(self):
        """A frame that isn't sound is a frame without a body."""
        for name, data in UNSOUND:
            self.assertEqual(read_frames(data + HEARTBEAT)[0], [None, b"35=0\x01"], name)

    def test_fields(self):
        """The first field of a tag is taken, and a tag within another isn't one."""
        fields = Fields(b"35=D\x01411=x\x0158=11=y\x0111=a\x0111=b\x01")
        self.assertEqual(fields.get(ORDER_ID), b"a")
        self.assertIsNone(fields.get(SYMBOL))
        self.assertEqual(kind_of(fields.body), b"D")
