"""The page in a real browser, at two widths, in light and dark, by keyboard, printed. Skipped where
no chromium is there."""

import base64
import tempfile
import unittest
from pathlib import Path

from report.__main__ import DONE, main
from report.tests import test_hostile
from report.tests.browser import CHROMIUM, Browser
from report.tests.quiet import quiet
from report.tests.runs import example

WIDTHS = (375, 1600)
ROWS = """[...document.querySelectorAll('#rows > tr:not(.detail)')]
  .map((row) => row.children[2].firstChild.firstChild.data)"""
CONTRASTS = """(() => {
  const parts = (color) => color.match(/[\\d.]+/g).map(Number);
  const light = (rgb) => rgb.slice(0, 3).map((c) => c / 255)
    .map((c) => c <= 0.03928 ? c / 12.92 : ((c + 0.055) / 1.055) ** 2.4)
    .reduce((sum, c, at) => sum + c * [0.2126, 0.7152, 0.0722][at], 0);
  const ground = (element) => {
    for (let at = element; at; at = at.parentElement) {
      const color = parts(getComputedStyle(at).backgroundColor);
      if (color.length === 3 || color[3] === 1) return color;
    }
    return [255, 255, 255];
  };
  const low = [];
  for (const element of document.querySelectorAll("body *:not(script):not(svg *)")) {
    const own = [...element.childNodes].some((node) => node.nodeType === 3 && node.data.trim());
    if (!own || element.disabled || !element.checkVisibility()) continue;
    const [a, b] = [light(parts(getComputedStyle(element).color)), light(ground(element))]
      .sort((one, other) => one - other);
    const ratio = (b + 0.05) / (a + 0.05);
    if (ratio < 4.5) low.push(`${element.className} ${element.textContent.slice(0, 30)} ${ratio}`);
  }
  return low;
})()"""


@unittest.skipUnless(CHROMIUM, "no chromium is there")
class Page(unittest.TestCase):
    """The page of the firm's example."""

    @classmethod
    def setUpClass(cls):
        cls.folder = tempfile.TemporaryDirectory()
        cls.addClassCleanup(cls.folder.cleanup)
        out = Path(cls.folder.name)
        with quiet() as said:
            assert main(example("firm", out)) == DONE, said.getvalue()
        cls.html = out / "report.html"
        cls.browser = Browser().__enter__()
        cls.addClassCleanup(cls.browser.__exit__)

    def test_fits(self):
        """Nothing stands beyond the edge, no text is too faint, nothing is said to the console, and
        nothing is fetched but the page."""
        for width in WIDTHS:
            for dark in (False, True):
                self.browser.open(self.html, width, dark)
                self.browser.run("document.querySelector('#rows button').click()")
                name = f"{width}, {'dark' if dark else 'light'}"
                self.assertEqual(self.browser.run("document.documentElement.scrollWidth"), width,
                                 name)
                self.assertEqual(self.browser.run(CONTRASTS), [], name)
                fetched = {event["params"]["request"]["url"] for event in self.browser.events
                           if event.get("method") == "Network.requestWillBeSent"}
                self.assertEqual(fetched - {"about:blank"}, {self.html.resolve().as_uri()}, name)
                said = [event for event in self.browser.events
                        if event.get("method") in ("Log.entryAdded", "Runtime.exceptionThrown")]
                self.assertEqual(said, [], name)

    def test_faint_text_is_seen(self):
        """The test of faint texts sees one."""
        self.browser.open(self.html, 1600)
        self.browser.run("byId('count').style.color = '#bbbbbb'")
        self.assertEqual(len(self.browser.run(CONTRASTS)), 1)

    def test_filters(self):
        """The refused ones stand first; other filters and the search let through what they say."""
        self.browser.open(self.html, 1600)
        cases = [
            ("", ["b1", "c1", "c2", "c3", "d1"]),
            ("choose('all'); filter()", ["a1", "b1", "b2", "c1", "c2", "c3", "d1"]),
            ("choose('sent'); filter()", ["a1", "b2"]),
            ("choose('reports'); filter()", []),
            ("clear(); byId('tree').value = '4'; filter()", ["c3", "d1"]),
            ("clear(); byId('session').value = '1'; filter()", ["b1", "b2"]),
            ("clear(); byId('search').value = 'BETA'; filter()", ["b1", "b2", "d1"]),
            ("clear(); byId('search').value = 'C'; filter()", ["c1", "c2", "c3"]),
            ("document.querySelector('button[data-tree]').click()", ["b1", "c1", "c2"]),
        ]
        for script, want in cases:
            self.browser.run(script)
            self.assertEqual(self.browser.run(ROWS), want, script)
        self.assertEqual(self.browser.run("byId('count').textContent"),
                         "Rows 1 to 3 of 3 that fit, of 7 in all.")

    def standing(self) -> str:
        """Waits for what stood at a refusal; its text."""
        return self.browser.run("""new Promise((done) => { const look = () => {
            const detail = document.querySelector('.detail');
            if (detail) done(detail.innerText.replace(/\\s+/g, ' ')); else setTimeout(look, 20);
            }; look(); })""")

    def test_what_stood_there(self):
        """Each refusal opens what the sessions had posted at its place."""
        self.browser.open(self.html, 1600)
        want = {
            "b1": "After 2 posts in the tree of firm the root was 5,500, with this request: 500 above"
                  " the limit of 5,000. There stood: session 0: alpha1.fix 3,000 session 1:"
                  " beta1.fix, with this request (before it 0) 2,500",
            "c2": "After 7 posts in the tree of firm the root was 5,200, with this request: 200 above"
                  " the limit of 5,000. There stood: session 0: alpha1.fix 3,000 session 1:"
                  " beta1.fix 1,500 session 2: alpha2.fix, with this request (before it 0) 700",
            "d1": "After 1 post in the tree of halt the firm was halted. session 2: alpha2.fix 1",
        }
        for order_id, text in want.items():
            button = f"document.querySelector('#rows button[aria-label*=\"when {order_id} \"]')"
            self.browser.run(f"{button}.click()")
            self.assertEqual(self.standing(), text, order_id)
            self.browser.run(f"{button}.click()")
            self.assertFalse(self.browser.run("!!document.querySelector('.detail')"), order_id)

    def test_keyboard(self):
        """With keys alone: the skip link, the choice of what is shown, the search, a refusal."""
        self.browser.open(self.html, 1600)
        self.browser.key("Tab", code="Tab", windowsVirtualKeyCode=9)
        self.assertEqual(self.browser.run("document.activeElement.className"), "skip")
        self.browser.run("document.querySelector('input[name=sort]:checked').focus()")
        self.browser.key("ArrowRight", code="ArrowRight", windowsVirtualKeyCode=39)
        self.assertEqual(self.browser.run(ROWS), ["a1", "b2"])
        self.browser.key("ArrowLeft", code="ArrowLeft", windowsVirtualKeyCode=37)
        self.browser.key("Tab", code="Tab", windowsVirtualKeyCode=9)
        self.assertEqual(self.browser.run("document.activeElement.id"), "search")
        self.browser.run("document.querySelector('#rows button').focus()")
        self.browser.key("Enter", code="Enter", windowsVirtualKeyCode=13, text="\r")
        self.assertIn("There stood: session 0: alpha1.fix 3,000", self.standing())
        self.assertEqual(self.browser.run("document.activeElement.getAttribute('aria-expanded')"),
                         "true")

    def test_screen_reader(self):
        """Also as cards the tables are tables; pictures, buttons and fields have names."""
        self.browser.open(self.html, 375)
        nodes = self.browser.call("Accessibility.getFullAXTree")["nodes"]
        named = [(node["role"]["value"], node.get("name", {}).get("value", ""))
                 for node in nodes if not node["ignored"]]
        roles = [role for role, _ in named]
        for role, least in {"table": 3, "row": 13, "cell": 45, "columnheader": 28, "main": 1,
                            "navigation": 1, "status": 1}.items():
            self.assertGreaterEqual(roles.count(role), least, role)
        pictures = [name for role, name in named if role in ("image", "img", "graphics-document")]
        self.assertIn("firm: limit 5,000; orders were sent up to a root of 4,500; the highest root"
                      " posted is 5,500; refused: 3.", pictures)
        for role, name in named:
            if role in ("button", "combobox", "searchbox", "radio", "link", "table"):
                self.assertTrue(name, role)

    def test_print(self):
        """Printed, the controls are gone and all folded parts are open."""
        self.browser.open(self.html, 1600, media="print")
        for name, is_there in [(".filters", False), (".pages", False), (".plot", True)]:
            style = self.browser.run(f"getComputedStyle(document.querySelector('{name}')).display")
            self.assertEqual(style != "none", is_there, name)
        pdf = base64.b64decode(self.browser.call("Page.printToPDF", printBackground=True)["data"])
        self.assertTrue(pdf.startswith(b"%PDF"))

    def test_hostile(self):
        """Hostile names are shown as they are, and do nothing."""
        run = test_hostile.Hostile("test_page")
        run.setUp()
        self.addCleanup(run.doCleanups)
        with quiet():
            self.assertEqual(main(run.words), DONE)
        self.browser.open(run.out / "report.html", 375)
        self.assertEqual(self.browser.run(ROWS), test_hostile.IDS)
        self.assertEqual(self.browser.run("document.title"), "Report of a run of the gate")
        made = "document.querySelectorAll('img, b[onclick], td script').length"
        self.assertEqual(self.browser.run(made), 0)
        self.assertEqual(self.browser.run("document.documentElement.scrollWidth"), 375)


if __name__ == "__main__":
    unittest.main()
