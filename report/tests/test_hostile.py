"""Names that would be markup, script or a formula come out as text, in the page and in the csv."""

import csv
import re
import tempfile
import unittest
from html import unescape
from pathlib import Path

from report.__main__ import DONE, main
from report.tests.quiet import quiet
from report.tests.runs import frame, journal, refusal, small_run
from report.tests.test_examples import page_data
from report.text import grouped, readable, share, spreadsheet_cell

CELLS = [
    ("=1+1", "'=1+1"), ("+1-1", "'+1-1"), ("-1+1", "'-1+1"), ("@SUM(A1)", "'@SUM(A1)"),
    ("  =1+1", "'  =1+1"), ("=cmd|' /C calc'!A0", "'=cmd|' /C calc'!A0"),
    ("\uff1d1+1", "'\uff1d1+1"),
    ("-5", "-5"), ("-0.25", "-0.25"), ("-5x", "'-5x"), ("-", "'-"), ("10.00", "10.00"),
    ("a=b", "a=b"),
    ("<script>", "<script>"), ('"', '"'), ("", ""),
]
TEXTS = [
    ("plain", b"a1", "a1"), ("UTF-8", "Z\u00fcrich".encode(), "Z\u00fcrich"),
    ("no UTF-8", b"a\xff", "a\\xff"),
    ("a control", b"a\x07b", "a\\x07b"), ("a line end", b"a\nb", "a\\nb"),
    ("turned writing", "a\u202eb".encode(), "a\\u202eb"),
    ("no width", "a\u200bb".encode(), "a\\u200bb"),
]
SHARES = [(0, 0, "\u2013"), (0, 5, "0 %"), (1, 3, "33 %"), (9, 200, "4.5 %"),
          (999_999, 1_000_000, "99.9 %"),
          (1, 1, "100 %"), (3, 2, "150 %"), (19, 200, "9.5 %"), (1, 10_000, "0 %")]
SCRIPT = "</script><script>document.title='x'</script>"
IMAGE = "<img src=x onerror=a()>"
LIMITS = f"firm,,1000,,,\naccount,{SCRIPT},100000,,,\nsymbol,{IMAGE},100000,1,12,1000\n"
IDS = [SCRIPT, '"><b onclick="a()">', "=HYPERLINK(\"x\")", "'; a(); '", "&lt;i&gt;", "${a}`"]


class Texts(unittest.TestCase):
    """Text for a page and for a spreadsheet."""

    def test_cells(self):
        """What begins like a formula stands behind a quote; a plain number stays one."""
        for text, want in CELLS:
            self.assertEqual(spreadsheet_cell(text), want, text)

    def test_readable(self):
        """What can't be shown as it is stands as an escape."""
        for name, value, want in TEXTS:
            self.assertEqual(readable(value), want, name)

    def test_numbers(self):
        """Shares are rounded down, so that only what is used up is 100 %."""
        for part, whole, want in SHARES:
            self.assertEqual(share(part, whole), want, (part, whole))
        self.assertEqual(grouped(1234567), "1,234,567")


class Hostile(unittest.TestCase):
    """A run of one session with hostile names: each order is refused but the first."""

    def setUp(self):
        self.folder = tempfile.TemporaryDirectory()
        self.addCleanup(self.folder.cleanup)
        self.out = Path(self.folder.name) / "out"
        self.words = self.hostile_run()

    def hostile_run(self) -> list[str]:
        """Orders of 100 at 12.00 by these ids: 1,200 is above the firm's 1,000."""
        orders, acts, lines, client = [], [], [], b""
        for at, order_id in enumerate(IDS):
            orders.append(frame(f"35=D|49=C1|56=GATE|34={at + 1}|52=T|11={order_id}|1={SCRIPT}"
                                f"|55={IMAGE}|54=1|38=100|40=2|44=12.00|"))
            first, place = 2 * at + 1, 2 * at + 1
            acts += [f"post,0,{tree},{first},1200," for tree in range(3)] + ["read,0,3,0,0,0"]
            acts += [f"read,0,{tree},{place},{place},1200" for tree in range(3)]
            acts += [f"post,0,{tree},{first + 1},0," for tree in range(3)]
            acts += [f"refused,0,{at},1,0,0"]
            client += refusal(at + 1, "C1", order_id, 3, SCRIPT, IMAGE, "100", "FIRM")
        for tree in range(3):
            lines += [f"line,0,{tree},{place},{place},{1200 if place % 2 else 0}"
                      for place in range(1, 2 * len(IDS) + 1)]
        rows = journal(" ".join(acts + ["ended,0,0,,,"] + lines))
        return small_run(self.out, orders, rows, {"s00.client": client}, LIMITS)

    def test_page(self):
        """The page has the names as text: no element or script comes of them."""
        with quiet() as said:
            self.assertEqual(main(self.words), DONE, said.getvalue())
        html = (self.out / "report.html").read_text(encoding="utf-8")
        self.assertEqual(html.count("<script"), 3)
        self.assertNotRegex(html, r"<(?:img|b on)")
        self.assertIn(SCRIPT, unescape(re.search(r'<h3 id="tree-1">(.*?)</h3>', html)[1]))
        self.assertEqual([page_data(html, "requests-data")["words"][word]
                          for word in page_data(html, "requests-data")["order_id"]], IDS)

    def test_csv(self):
        """The csv has the names whole, behind a quote where a spreadsheet would compute them."""
        with quiet():
            main(self.words)
        with open(self.out / "requests.csv", encoding="utf-8", newline="") as file:
            rows = list(csv.DictReader(file))
        want = [SCRIPT, '"><b onclick="a()">', "'=HYPERLINK(\"x\")", "'; a(); '", "&lt;i&gt;",
                "${a}`"]
        self.assertEqual([row["ClOrdID"] for row in rows], want)
        self.assertEqual({row["excess"] for row in rows}, {"200"})


if __name__ == "__main__":
    unittest.main()
