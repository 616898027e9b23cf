"""`sancus view --beside`: two runs on one page, with the first item in which they differ."""

import time
import unittest

from support import EXAMPLES, Room, needs_program, sancus
from test_viewer import BROWSER, PATIENCE, Browser

LIGHTING = EXAMPLES / "lighting.txt"
DAY = "deploy all\nsample eye 120\ncarry eye logic\n"
CARRIED, DROPPED = DAY + "carry logic lamp\n", DAY
ROW = 'it.contentDocument.querySelector(".row.differs")?.textContent'
MARKED = f'[...document.querySelectorAll("iframe")].map(it => {ROW})'


@needs_program
class Beside(Room):
    def page(self, one, other):
        files = self.file("one.txt", one), self.file("other.txt", other)
        return sancus("view", "--beside", LIGHTING, *files), self.room / "lighting.one.other.html"

    def test_the_first_difference(self):
        made, page = self.page(CARRIED, DROPPED)
        self.assertEqual((made.status, made.lines), (0, [str(page)]))
        self.says(made, "first difference, item 40: `packet 11 24` in one.txt, the end in other.txt")
        self.assertEqual(page.read_text().count("<iframe "), 2)
        again, _ = self.page(CARRIED, CARRIED)
        self.assertEqual(again.status, 0)
        self.says(again, "both runs have the same items")

    def test_files(self):
        made = sancus("view", "--beside", LIGHTING, self.file("one.txt", CARRIED))
        self.assertEqual(made.status, 2)
        self.says(made, "`view --beside` takes a deployment and two files, one of each run")

    @unittest.skipUnless(BROWSER, "there is no Chromium here")
    def test_both_are_drawn(self):
        _, page = self.page(CARRIED, DROPPED)
        browser = Browser()
        self.addCleanup(browser.close)
        browser.call("Page.navigate", url=f"file://{page}")
        end = time.monotonic() + PATIENCE
        while len(found := [it for it in browser.value(MARKED) or [] if it]) < 2 and time.monotonic() < end:
            time.sleep(0.1)
        self.assertIn("packet 11 24", found[0])
        # (the other run ends before it: its last item is marked)
        self.assertIn("done logic 1 1", found[1])


if __name__ == "__main__":
    unittest.main()
