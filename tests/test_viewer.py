"""The page of `sancus view`, by what it shows in a headless Chromium; it is passed over if there is none.

With SHOTS=FOLDER it also writes pictures to look at, and says how long a large run takes.
"""

import base64
import json
import os
import shutil
import subprocess
import sys
import tempfile
import time
import unittest
from pathlib import Path
from xml.etree import ElementTree

from support import EXAMPLES, LIGHTING as LIGHTING_BYTES, PROGRAM, TOP, Room, needs_program, program, sancus

from sancus.builds import Builds
from sancus.cli.program import Program
from sancus.cli.say import Voice
from sancus.model.texts import Input, is_act
from sancus.viewer.join import joined
from sancus.viewer.pages import of_readings, of_run, page_of

BROWSER = next(
    (found for name in ("chromium", "chromium-browser", "google-chrome") if (found := shutil.which(name))), ""
)
LIGHTING = LIGHTING_BYTES.decode()
DEPLOYMENT = LIGHTING.partition("%%\n")[0] + "%%\n"
# What the page reads of what `describe` prints of it (tests/rows/descriptions.rows has all).
DESCRIBED = """node a
node b
device light node a kind sensor at 0x1000 driver eye
device bulb node b kind actuator at 0x1000 driver lamp
module eye node a
module logic node a
module lamp node b
connection up from eye.level to logic.level
connection down from logic.bright to lamp.show
end
"""
# The lines of the example that come before its reading, which make ten packets.
SET_UP = LIGHTING.partition("sense light")[0]
PACKETS = 10
PATIENCE = 60
# What each of these may take in a run of 2,000 readings, in milliseconds, also on a machine with other work.
PATIENT = 8000
ACTS = {"open": "page.show()", "end": "page.select(page.run.shown.length - 1)", "unfold": "page.foldAll()"} | {
    "last": "page.select(page.run.shown.length - 1)",
    "out": "page.at = 0; page.keys().o()",
    "find": 'page.find("packet 3")',
    "scroll": 'byId("scroll").scrollTop = 100000; page.paint()',
}


def started():
    return Program(Builds(TOP, PROGRAM), Voice(True))


class Browser:
    """A headless Chromium, driven by a pair of pipes."""

    def __init__(self):
        to_read, self.write = os.pipe()
        self.read, to_write = os.pipe()
        self.room = tempfile.mkdtemp()
        flags = "--headless --no-sandbox --disable-gpu --remote-debugging-pipe --window-size=1400,900 --force-color-profile=srgb"
        command = f'exec "$0" {flags} --user-data-dir="$1" 3<&{to_read} 4>&{to_write}'
        self.process = subprocess.Popen(
            ["bash", "-c", command, BROWSER, self.room],
            pass_fds=(to_read, to_write),
            stdout=subprocess.DEVNULL,
            stderr=subprocess.DEVNULL,
        )
        os.close(to_read)
        os.close(to_write)
        self.number, self.kept, self.session = 0, b"", None
        target = self.call("Target.createTarget", url="about:blank")["targetId"]
        self.session = self.call("Target.attachToTarget", targetId=target, flatten=True)["sessionId"]

    def message(self):
        while b"\0" not in self.kept:
            self.kept += os.read(self.read, 1 << 20)
        first, _, self.kept = self.kept.partition(b"\0")
        return json.loads(first)

    def call(self, method, **given):
        self.number += 1
        words = {"id": self.number, "method": method, "params": given} | (
            {"sessionId": self.session} if self.session else {}
        )
        os.write(self.write, json.dumps(words).encode() + b"\0")
        while True:
            answer = self.message()
            if answer.get("id") == self.number:
                if "error" in answer:
                    raise RuntimeError(answer["error"])
                return answer["result"]

    def value(self, code):
        answer = self.call("Runtime.evaluate", expression=code, returnByValue=True, awaitPromise=True)
        if "exceptionDetails" in answer:
            raise RuntimeError(answer["exceptionDetails"]["exception"].get("description"))
        return answer["result"].get("value")

    def milliseconds(self, code):
        """What this takes, with the layout after it."""
        timed = f"{code}; document.body.offsetHeight"
        return self.value(
            f"(() => {{ const begun = performance.now(); {timed}; return performance.now() - begun; }})()"
        )

    def open(self, file, part=""):
        self.call("Page.navigate", url="about:blank")
        self.call("Page.navigate", url=f"file://{file}{part}")
        end = time.monotonic() + PATIENCE
        while self.value("document.readyState + typeof page") != "completeobject":
            if time.monotonic() > end:
                raise RuntimeError("the page doesn't open")
            time.sleep(0.05)

    def press(self, key):
        self.value(
            f'byId("scroll").dispatchEvent(new KeyboardEvent("keydown", {{key: {json.dumps(key)}, bubbles: true}}))'
        )

    def shoot(self, name):
        if not os.environ.get("SHOTS"):
            return
        picture = self.call("Page.captureScreenshot", format="png")["data"]
        Path(os.environ["SHOTS"], f"{name}.png").write_bytes(base64.b64decode(picture))

    def close(self):
        self.process.kill()
        self.process.wait()
        os.close(self.read)
        os.close(self.write)
        shutil.rmtree(self.room, ignore_errors=True)


# What the lines after the keys give, for one reading: lines and their items.
READING = """sense light {value}
 sense light {value}
call eye 3 0x300 0x400
 read eye {value}
 done eye 1 1
take a 0x400 24
 packet {first} 24
give {first} a 0x300
call logic 2 0x300 0x400
 take logic up {number} {value}
 done logic 1 1
take a 0x400 24
 packet {second} 24
give {second} b 0x300
call lamp 2 0x300 0x400
 take lamp down {number} {lit}
 out lamp {lit}
 done lamp 1 0
"""


def readings(count, packets=0):
    """The lines of this many readings, each with its items after it, on modules that have their keys, when so many
    packets were made."""
    rows = []
    for number in range(count):
        value = 37 * number % 200
        text = READING.format(
            value=value,
            first=packets + 2 * number,
            second=packets + 2 * number + 1,
            number=number,
            lit=int(value > 100),
        )
        rows += text.splitlines()
    return rows


def lines_of(rows):
    return [it for it in rows if not it.startswith(" ")]


def items_of(rows):
    return [it[1:] for it in rows if it.startswith(" ")]


def run_of(rows, last="end"):
    """A run of lines, each with its items after it, which begin with a blank."""
    output = "".join(f"{it[1:]}\n" if it.startswith(" ") else f"> {it}\n" for it in rows)
    return {
        "input": (DEPLOYMENT + "\n".join(lines_of(rows)) + "\n").encode(),
        "output": f"{output}{last}\n".encode(),
        "described": DESCRIBED.encode(),
    }


@unittest.skipUnless(BROWSER, "there is no Chromium here")
class Viewer(unittest.TestCase):
    @classmethod
    def setUpClass(cls):
        cls.browser = Browser()
        cls.room = Path(tempfile.mkdtemp())

    @classmethod
    def tearDownClass(cls):
        cls.browser.close()
        shutil.rmtree(cls.room)

    def show(self, texts, part=""):
        (self.room / "run.html").write_text(page_of(texts))
        self.browser.open(self.room / "run.html", part)

    def texts(self, selector):
        return self.browser.value(f"[...document.querySelectorAll({json.dumps(selector)})].map(it => it.textContent)")

    def test_one_reading(self):
        self.show(run_of(readings(1)) | {"name": b"reading.txt"})
        self.assertEqual(self.texts("#title"), ["reading.txt"])
        self.assertEqual(self.texts("#notes div"), [])
        rows = self.texts(".row .cell")
        self.assertEqual(rows[0].replace("▾", ""), "1sense light 0" + "1sense light 0")
        self.assertEqual(rows[1], "2call eye 3 0x300 0x400")
        self.assertEqual(rows[-2:], ["9out lamp 0", "10done lamp 1 0"])
        heads = self.texts("#heads text")
        for name in ("deployer", "network", "node a", "node b", "▣ eye", "◉ light", "▣ logic", "▣ lamp", "■ bulb"):
            self.assertIn(name, heads)
        drawn = self.texts("svg.drawing text")
        for text in ("sample", "#0 · 24 B", "#0", "up 0 = 0", "down 0 = 0", "1 piece"):
            self.assertIn(text, drawn)

    def test_trouble_and_forged_stand_out(self):
        rows = [
            "call eye 3 0x300 0x400",
            " done eye 8 0",
            "reset a",
            " reset a asked",
            "put a 0x4000 00",
            "give 7 b 0x300",
            " skip b",
            "call lamp 2 0x300 0x400",
            " forged lamp",
            " take lamp down 0 1",
            " out lamp 1",
            " done lamp 1 0",
            "run a 9",
            " reset a read",
        ]
        self.show(run_of(rows))
        self.browser.shoot("forged")
        drawn = self.texts("svg.drawing text")
        for text in (
            "✗ 8: no new sample",
            "RESET: asked · now boot 1",
            "✗ refused: skip",
            "FORGED for lamp",
            "RESET: read · now boot 2",
        ):
            self.assertIn(text, drawn)
        self.assertEqual(self.texts(".row.forged .text"), ["forged lamp"])
        self.assertEqual(len(self.texts(".row.after")), 5)
        self.assertEqual(len(self.texts("rect.beyond")), 1)
        self.assertEqual(self.texts("#about"), ["8 items · 1 out · 2 reset · 1 FORGED"])
        self.browser.press("x")
        self.assertIn("the sensor has no new sample", self.texts("#more")[0])
        for _ in range(3):
            self.browser.press("x")
        self.assertIn("Item 8: reset a read", self.texts("#more")[0])
        self.assertIn("nothing is promised", self.texts("#more")[0])

    def test_causes(self):
        causes = b"because 2 1\nbecause 5 2\nbecause 8 5\nbecause 9 8\nlegal\n"
        self.show(run_of(readings(1)) | {"causes": causes}, "#item=9")
        self.browser.shoot("causes")
        self.assertIn(
            "Because: 9 out lamp 0 ← 8 take lamp down 0 0 ← 5 take logic up 0 0 ← 2 read eye 0 ← 1 sense light 0",
            self.texts("#more")[0],
        )
        self.assertEqual(len(self.texts("path.cause")), 4)
        self.browser.press("c")
        self.assertIn("Item 8: take lamp", self.texts("#more")[0])

    def test_two_thousand_readings(self):
        self.show(run_of(readings(2000)))
        self.browser.shoot("many-folded")
        self.assertEqual(self.texts("#about"), ["20000 items · 2000 out · 0 reset"])
        self.assertEqual(self.texts("#notes div.bad"), [])
        first = self.texts(".row.group .cell")[1]
        self.assertIn("sense light 37", first)
        self.assertIn("⇒ lamp 0", first)
        for _ in range(3):
            self.browser.press("o")
        self.assertIn("Item 29: out lamp 0", self.texts("#more")[0])
        self.browser.press("z")
        self.browser.value("page.select(20000)")
        self.browser.shoot("many-open")
        self.assertLess(self.browser.value("document.getElementsByTagName('*').length"), 3000)
        self.assertIn("out lamp", self.texts("#more")[0] + "".join(self.texts(".row")))
        self.is_quick("20,000 items")

    def is_quick(self, what):
        """Opens the run once more, and moves about in it."""
        took = {name: round(self.browser.milliseconds(code)) for name, code in ACTS.items()}
        if os.environ.get("SHOTS"):
            print(f"{what}: milliseconds {took}", file=sys.stderr)
        self.assertEqual({name: it for name, it in took.items() if it > PATIENT}, {})

    @needs_program
    def test_two_thousand_readings_of_the_program(self):
        rows = readings(2000, PACKETS)
        texts = of_run(Input((SET_UP + "\n".join(lines_of(rows)) + "\n").encode()), started()).texts
        self.assertTrue(texts["output"].endswith(run_of(rows)["output"]))
        self.show(texts)
        self.assertEqual(self.texts("#about"), ["20033 items · 2000 out · 0 reset"])
        self.assertEqual(self.texts("#notes div"), [])
        self.browser.shoot("program-folded")
        self.is_quick("20,033 items of the program")
        self.browser.shoot("program-open")
        self.browser.value("page.go(page.run.output.items.findLast(it => it.kind === 'out').row)")
        self.browser.shoot("program-out")
        self.assertIn("out lamp 1", self.texts("#more")[0])

    def test_find_and_fold(self):
        self.show(run_of(readings(3)))
        self.browser.value('page.find("packet 3")')
        self.assertEqual(self.texts("#count"), ["1 found"])
        self.browser.press("n")
        self.assertIn("Packet #3: taken from memory at line 14", self.texts("#more")[0])
        self.browser.press("ArrowLeft")
        self.assertEqual(len(self.texts(".row.group")), 1)
        self.browser.press("ArrowRight")
        self.assertEqual(len(self.texts(".row.group")), 0)

    def test_texts_that_do_not_fit(self):
        rows = readings(1)
        items = "".join(f"{it}\n" for it in ("trace", *items_of(rows), "end"))
        self.show(run_of(rows) | {"output": items.encode()})
        self.assertIn("doesn't say which line gave an item", self.texts("#notes div")[0])
        self.assertEqual(self.texts(".row .cell")[-1], "10done lamp 1 0")
        texts = run_of(rows[:7], "fault schedule S4 4")
        self.show(texts | {"input": texts["input"] + b"load ear\n"})
        self.assertEqual(self.texts("#notes div.bad"), ["fault schedule S4 4"])
        self.assertEqual(self.texts(".row.fault .text"), ["load ear", "  fault schedule S4 4"])
        self.show(run_of([], "fault schedule S4 1") | {"input": DEPLOYMENT.encode() + b"load ear\n"})
        self.assertEqual(self.texts("#notes div"), ["fault schedule S4 1"])
        self.assertEqual(self.texts(".row.fault .text"), ["load ear", "  fault schedule S4 1"])
        self.show({"output": b"trace\nsense light 3\nread eye 3\n"})
        taken, cut = self.texts("#notes div")
        self.assertIn("Names are taken from the trace", taken)
        self.assertEqual(cut, "The output has no last line: it is cut.")

    def test_files_that_are_opened(self):
        """A deployment, what `describe` prints of it, a schedule and an output, in any order."""
        rows = readings(1)
        schedule, output = "\n".join(lines_of(rows)) + "\n", run_of(rows)["output"].decode()
        self.show({})
        self.browser.value(f"page.open({json.dumps([DEPLOYMENT.partition('%%')[0]])})")
        self.assertIn("This is a part of a run", self.texts("#notes div")[0])
        self.browser.value(f"page.open({json.dumps([output, DESCRIBED])})")
        self.assertEqual(self.texts("#notes div"), [])
        self.assertIn("▣ logic", self.texts("#heads text"))
        self.assertIn("node b", self.texts("#heads text"))
        self.browser.value(f"page.open({json.dumps([schedule])})")
        self.assertEqual(self.texts("#notes div"), [])
        self.assertEqual(self.texts(".row .cell")[-1], "10done lamp 1 0")

    def test_what_is_opened_goes_to_who_asks_for_it(self):
        self.show({})
        self.browser.value("void (page.onopen = texts => { globalThis.got = texts; })")
        self.browser.value("dispatchEvent(Object.assign(new Event('paste'), {clipboardData: {getData: () => 'a run'}}))")
        self.assertEqual(self.browser.value("[globalThis.got, page.texts]"), [["a run"], {}])

    def test_an_item_that_breaks_a_property(self):
        rows = readings(3)
        at = items_of(rows).index("out lamp 0") + 1
        self.show(run_of(rows) | {"broken": f"{at} item {at} breaks it".encode()})
        (row,) = self.texts(".row.broken")
        self.assertIn("out lamp 0", row)
        self.assertIn(f"Item {at} breaks it", self.texts("#notes div"))
        self.assertIn(f"item {at} breaks it", self.texts("#more div"))
        self.show(run_of(rows) | {"broken": b"0 no item breaks it"})
        self.assertEqual((self.texts(".row.broken"), self.texts("#notes div")[-1]), ([], "No item breaks it"))

    def test_hostile_texts_stay_texts(self):
        text = '# </script><img src=x onerror="window.bad=1">'
        self.show(run_of([text, *readings(1)]))
        self.assertIn(text[2:], self.texts(".row.note .text"))
        self.assertEqual(self.browser.value("document.images.length + (window.bad ?? 0)"), 0)

    def test_no_outside_resources(self):
        page = joined()
        self.assertIn("default-src 'none'", page)
        for word in ("src=", "@import", "fetch(", "XMLHttpRequest", "url(http"):
            self.assertNotIn(word, page)

    @needs_program
    def test_examples(self):
        """The page draws each line that the program performed, with its items."""
        split = "page.run.rows.filter(row => row.kind === 'act').map(row => [row.line.number, ...row.line.items.map(it => it.text)])"
        for file in sorted(EXAMPLES.glob("*.txt")):
            text = file.read_bytes()
            if b"`./sancus drive`" in text.partition(b"\n")[0]:
                continue
            with self.subTest(file.name):
                self.show(of_run(Input(text), started()).texts)
                self.browser.shoot(file.stem)
                acts = [at for at, it in enumerate(Input(text).schedule, 1) if is_act(it)]
                items = program("run", text=text).lines
                items = items[items.index("trace") + 1 : -1]
                rows = self.browser.value(split)
                self.assertEqual([row[0] for row in rows], acts[: len(rows)])
                self.assertEqual([it for row in rows for it in row[1:]], items)

    @needs_program
    def test_readings(self):
        texts = of_readings(Input((EXAMPLES / "readings.txt").read_bytes()), started()).texts
        self.show(texts)
        self.assertEqual(self.texts("#notes div"), [])
        rows = self.browser.value("page.run.rows.filter(row => row.kind === 'act').map(row => row.line.text)")
        self.assertEqual((len(rows), rows[0], rows[-1]), (58, "load eye", "call lamp 2 0x40 0x80"))

    @needs_program
    def test_causes_of_the_program(self):
        texts = of_run(Input(LIGHTING_BYTES), started()).texts
        self.show(texts, "#item=42")
        self.browser.shoot("explained")
        chain = "42 out lamp 1 ← 41 take lamp down 0 1 ← 38 take logic up 0 120 ← 35 read eye 120 ← 34 sense light 120"
        self.assertIn(f"Because: {chain}", self.texts("#more")[0])

    @needs_program
    def test_the_set_up_is_folded(self):
        self.show(of_run(Input(LIGHTING_BYTES), started()).texts)
        self.browser.shoot("opened")
        here = "(() => { const row = page.run.shown[page.at]; return row.kind + ' ' + (row.text ?? row.line.text); })()"
        self.assertTrue(self.browser.value(here).startswith("note 3. It gets bright"), self.browser.value(here))
        folded = "page.run.groups.filter(it => it.rows.length > 1).map(it => it.isFolded)"
        self.assertEqual(self.browser.value(folded), [True] * 5 + [False] * 2)
        self.assertLess(self.browser.value("page.run.shown.length"), 25)
        # (a short set-up isn't)
        self.show(run_of(readings(1)))
        self.assertEqual(self.browser.value("page.at"), 0)

    @needs_program
    def test_the_parking_application(self):
        folder = EXAMPLES / "parking"
        if not folder.is_dir():
            self.skipTest("there is no such example")
        text = (
            (folder / "parking.toml").read_bytes()
            + b"%%\n"
            + (folder / "day.readings").read_bytes().partition(b"%%\n")[2]
        )
        self.show(of_readings(Input(text), started()).texts)
        self.browser.shoot("parking")
        self.assertEqual(self.texts("#notes div"), [])
        shown = self.browser.value("page.run.shown[page.at].line.text")
        self.assertTrue(shown.startswith("sense "), shown)
        self.assertEqual(self.browser.value("byId('scroll').scrollWidth - byId('scroll').clientWidth"), 0)
        self.browser.press("f")
        self.browser.shoot("parking-full")
        self.assertEqual(self.browser.value("page.look.scale"), 1)

    def test_columns_are_hidden_and_moved(self):
        self.show(run_of(readings(2)))
        self.browser.press("f")
        wide, rows = (self.browser.value(it) for it in ("page.picture.columns.width", "page.run.shown.length"))
        self.browser.value(
            "document.querySelector('[data-id=\"module eye\"]').dispatchEvent(new MouseEvent('dblclick', {bubbles: true}))"
        )
        self.assertLess(self.browser.value("page.picture.columns.width"), wide - 80)
        self.assertEqual(self.texts("#columns"), ["Show 1 hidden"])
        self.browser.shoot("hidden")
        self.browser.press("h")
        self.assertEqual(self.browser.value("page.picture.columns.width"), wide)
        order = "page.picture.columns.list.map(it => it.name)"
        before = self.browser.value(order)
        self.browser.value("page.move('module logic', page.picture.columns.by.get('memory a').x)")
        after = self.browser.value(order)
        self.assertEqual(sorted(before), sorted(after))
        self.assertEqual(after.index("logic"), before.index("memory"))
        self.browser.value("page.move('module lamp', page.picture.columns.by.get('module eye').x)")
        self.assertEqual(self.browser.value("page.picture.columns.boxes.map(it => it.node)"), ["b", "a"])
        self.assertEqual(self.browser.value("page.run.shown.length"), rows)

    def test_comments_of_a_schedule_for_people(self):
        first = readings(2)
        second = first.index("sense light 37")
        rows = [
            "# --- 1. a reading",
            "#= x:4 sample eye 0",
            *first[:5],
            "#= x:5 carry eye logic",
            *first[5:11],
            "# p is packet 0",
            *first[11:second],
            "#= x:6 sample eye 37",
            *first[second:],
        ]
        self.show(run_of(rows))
        made = ["sample eye 0", "carry eye logic", "sample eye 37"]
        titles = self.browser.value("page.run.groups.map(it => it.title)")
        self.assertEqual(titles, ["--- 1. a reading", *made])
        self.show(run_of(rows[1:]))
        self.assertEqual(self.browser.value("page.run.groups.map(it => it.title)"), made)

    @needs_program
    def test_the_set_up_after_a_comment_is_folded(self):
        """As `sancus schedule` writes it for `# my day`, `deploy all` and a reading."""
        set_up, reading = (it.splitlines() for it in LIGHTING.partition("%%\n")[2].split("sense light", 1))
        acts = [it for it in set_up if not it.startswith("#")]
        lines = ["# my day", "#= x:2 deploy all", *acts, "#= x:3 sample eye 120", f"sense light{reading[0]}"]
        self.show(of_run(Input((DEPLOYMENT + "\n".join([*lines, *reading[1:]]) + "\n").encode()), started()).texts)
        groups = self.browser.value("page.run.groups.slice(0, 3).map(it => [it.title, it.isFolded])")
        self.assertEqual(groups, [["my day", False], ["deploy all", True], ["sample eye 120", False]])
        self.assertEqual(self.browser.value("page.run.shown[page.at].text"), "sample eye 120  (x:3)")

    def test_acts_of_an_attacker(self):
        # the event for logic is given twice, and that for lamp never
        rows = [*readings(1)[:11], "give 0 a 0x300", "call logic 2 0x300 0x400", " done logic 6 0"]
        rows += ["asm b 0x800 mov #9, &0x1000", "run b 1", " raw bulb 9", "take a 0x400 24", " packet 1 24"]
        self.show(run_of(rows))
        self.browser.shoot("attacker")
        drawn = self.texts("svg.drawing text")
        for text in ("#0", "#0 again", "#1 · never given", "RAW bulb 9"):
            self.assertIn(text, drawn)
        acts = ["give 0 a 0x300", "asm b 0x800 mov #9, &0x1000", "run b 1"]
        self.assertEqual(self.texts(".is-attack:not(.legend *)"), acts)
        self.assertEqual(self.texts(".row.raw .text"), ["raw bulb 9"])
        self.assertEqual(self.texts("#about"), ["9 items · 0 out · 0 reset · 1 raw"])
        self.browser.press("End")
        self.assertIn("It is never given.", self.texts("#more")[0])

    @needs_program
    def test_the_variables_of_a_row(self):
        """What the strip says of a module's variables is what `sancus vars` reads from its memory."""
        parking = EXAMPLES / "parking"
        names = ("parking.toml", "set-up.schedule", "renewal.schedule")
        text = b"".join((parking / it).read_bytes() for it in names)
        (self.room / "renewal.txt").write_bytes(text)
        self.show(of_run(Input(text), started()).texts)
        count = len(Input(text).schedule)
        for module in ("p1", "vio", "agg"):
            for line in range(85, count, 25):
                read = sancus("vars", self.room / "renewal.txt", module, str(line)).lines
                cells = [it.split(" ", 1)[1].split(" = ") for it in read if it.startswith(("var ", "array "))]
                index = f"page.run.rows.findLast(it => it.line?.number <= {line} && it.kind !== 'note').index"
                shown = self.browser.value(f"[...page.run.values.after({json.dumps(module)}, {index}) ?? []]")
                self.assertEqual([[name, value.strip("[]")] for name, value in shown], cells, (module, line))
        self.browser.value("page.go(page.run.rows.find(it => it.item?.text.startsWith('take vio p1_vio')))")
        self.browser.shoot("variables")
        self.assertRegex(self.texts("#more")[0], r"Variables of vio: limit = 120, .*occupied = \[1 0\] \(was \[0 0\]\)")

    def test_no_other_script_runs(self):
        self.show(run_of(readings(1)))
        self.browser.value(
            "document.body.append(Object.assign(document.createElement('script'), {textContent: 'window.bad = 1'}))"
        )
        self.browser.value("document.body.setAttribute('onclick', 'window.bad = 2'); document.body.click()")
        self.assertIsNone(self.browser.value("window.bad"))

    def test_picture_as_a_file(self):
        self.show(run_of(readings(2)) | {"causes": b"because 9 8\nlegal\n"}, "#item=9")
        text = self.browser.value("wholePicture(page)")
        names = {it.tag.rpartition("}")[2] for it in ElementTree.fromstring(text).iter()}
        self.assertEqual(names & {"script", "image", "foreignObject", "a"}, set())
        self.assertNotIn("var(", text)
        for part in ("out lamp 0", "call eye 3 0x300 0x400", "up 0 = 0", 'class="cause"', "node b"):
            self.assertIn(part, text)

    def test_dark_and_folded(self):
        self.show(run_of(readings(3)), "#dark&fold")
        self.browser.shoot("dark-folded")
        self.assertEqual(self.browser.value("document.documentElement.dataset.theme"), "dark")
        self.assertEqual(len(self.texts(".row.group")), 3)


VALUED = ("texts", "language", "plan", "values", "rows", "words")
NODE = shutil.which("node") or shutil.which("nodejs")
FORGED = """
const run = new Run(JSON.parse(require("fs").readFileSync(0)));
const row = run.rows.find(it => it.item && it.item.kind === "forged");
console.log(sayItem(row.item, run.plan, run.output.items[row.item.number], run.presented(row.line)));
"""


@unittest.skipUnless(NODE, "there is no node")
class Words(unittest.TestCase):
    """What the page says of an item, by its scripts alone."""

    def said(self, texts):
        folder = TOP / "src" / "sancus" / "viewer"
        scripts = [(folder / f"{it}.js").read_text() for it in VALUED]
        words = "const WORDS = " + (TOP / "src" / "sancus" / "faults.json").read_text() + ";"
        ran = subprocess.run(
            [NODE, "-e", "\n".join([words, *scripts, FORGED])], input=json.dumps(texts), capture_output=True, text=True
        )
        self.assertEqual(ran.returncode, 0, ran.stderr)
        return ran.stdout

    @needs_program
    def test_forged(self):
        for name, begin, end in (
            (
                "forged",
                "as left's answer for boot 0, the deployer accepts a tag under left's key that left",
                ", in packet 1;",
            ),
            (
                "public_key",
                "as event 0 of eye.level → lamp.show, lamp accepts a tag under the key of up in its epoch 0 that eye",
                "; packet 3 was given to this window last;",
            ),
        ):
            text = (EXAMPLES / f"{name}.txt").read_bytes()
            drawn = of_run(Input(text), started()).texts
            said = self.said({it: drawn[it].decode() for it in drawn})
            self.assertIn(f"{begin} hadn't made{end} up to here the trace is a legal run", said)

    def test_the_other_kind(self):
        items = "trace\nforged lamp\nopen lamp down to 3\nend\n"
        said = self.said({"output": items, "described": DESCRIBED})
        self.assertIn("as a set-key packet for its end of logic.bright → lamp.show in epoch 3, lamp accepts", said)


@unittest.skipUnless(NODE, "there is no node")
class Drawing(unittest.TestCase):
    """The picture in the README, by the viewer's scripts alone."""

    @needs_program
    def test_it_is_up_to_date(self):
        tool = [sys.executable, TOP / "tools" / "picture.py", EXAMPLES / "forged_packet.txt"]
        ran = subprocess.run(tool, capture_output=True, text=True, env=os.environ | {"SANCUS_PROGRAM": PROGRAM})
        self.assertEqual((ran.returncode, ran.stderr), (0, ""))
        self.assertTrue(ran.stdout == (TOP / "docs" / "run.svg").read_text(), "`tools/picture.py --write` makes docs/run.svg again")
        ElementTree.fromstring(ran.stdout)


class Page(Room):
    """What `sancus view` writes, without a browser."""

    def test_the_page_holds_its_words(self):
        self.assertIn('"D1": "the deployment has more than', joined())
        self.assertNotIn("</script", joined().partition("const WORDS")[2].partition(";\n")[0])

    def test_scripts_are_whole(self):
        node = shutil.which("node")
        if not node:
            self.skipTest("there is no node")
        script = self.file("page.js", joined().rpartition("<script>\n")[2].partition("</script>")[0])
        ran = subprocess.run([node, "--check", script], capture_output=True, text=True)
        self.assertEqual((ran.returncode, ran.stderr), (0, ""))

    def test_empty(self):
        ran = sancus("view", "--empty", "--page", self.room / "v.html", program="/bin/false")
        self.assertEqual((ran.status, (self.room / "v.html").read_text()), (0, joined()))

    @needs_program
    def test_a_run(self):
        page = self.room / "p.html"
        ran = sancus("view", EXAMPLES / "lighting.txt", "--page", page)
        self.assertEqual((ran.status, ran.out, ran.said), (0, f"{page}\n".encode(), ""))
        self.assertIn("because 42 41", self.held(page, "causes"))
        self.assertIn("> load eye\nprotect a eye\n", self.held(page, "output"))

    def held(self, page, name):
        row = next(it for it in page.read_text().splitlines() if it.rpartition(">")[2].startswith(f"{name} "))
        return base64.b64decode(row.split(" ")[-1].partition("<")[0]).decode()

    @needs_program
    def test_readings_are_seen(self):
        page = self.room / "p.html"
        ran = sancus("view", EXAMPLES / "readings.txt", "--page", page)
        self.assertEqual(ran.status, 0)
        self.says(ran, "has readings")
        self.assertIn("> sense light 120\n", self.held(page, "output"))

    @needs_program
    def test_a_property(self):
        """The item that breaks it, of a run, of its output and of readings."""
        page, lamp = self.room / "p.html", EXAMPLES / "lighting.txt"
        dark = self.file("dark.property", "// Never.\non out lamp(v) { if v { fail; } }\n")
        said = f"item 42, `out lamp 1`, breaks {dark}, by line 2: `on out lamp(v) {{ if v {{ fail; }} }}`"
        ran = sancus("run", lamp)
        for given in ([lamp], [lamp, self.file("o", ran.out)]):
            ran = sancus("view", *given, "--property", dark, "--page", page)
            self.assertEqual((ran.status, ran.said), (0, f"sancus: {said}\n"))
            self.assertEqual(self.held(page, "broken"), f"42 {said}")
        ran = sancus("view", EXAMPLES / "readings.txt", "--property", self.file("none.property", ""), "--page", page)
        self.assertTrue(self.held(page, "broken").startswith("0 no item up to the end"))
        ran = sancus("view", lamp, "--property", self.file("bad.property", "on out lmp(v) { }\n"), "--page", page)
        self.assertEqual(ran.status, 122)
        self.says(ran, "fault property P3 1 8", "bad.property:1: on out lmp(v)", "did you mean `lamp`?")

    @needs_program
    def test_files(self):
        """A deployment with a schedule, readings or lines for people in a file of their own, or with an output."""
        page = self.room / "p.html"
        head = self.file("d.toml", Input(LIGHTING_BYTES).head)
        plain = self.file("s", LIGHTING_BYTES.partition(b"%%\n")[2])
        people = self.file("p", b"deploy all\nsample eye 120\ncarry eye logic\ncarry logic lamp\n")
        readings_ = self.file("r", b"light 120\n")
        for file in (plain, people, readings_):
            ran = sancus("view", head, file, "--page", page)
            self.assertEqual((ran.status, ran.out), (0, f"{page}\n".encode()), ran.said)
            self.assertIn("out lamp 1", self.held(page, "output"))
        ran = sancus("view", head, people, "--page", page)
        self.assertIn(f"> #= {people}:3 carry eye logic\n> take a 0x400 24\n", self.held(page, "output"))
        made = sancus("run", head, plain).out
        self.assertEqual(sancus("view", head, self.file("o", made), "--page", page).status, 0)
        self.assertEqual(self.held(page, "output"), made.decode())
        self.assertEqual(sancus("view", head, "-", "--page", page, text=made).status, 0)
        self.assertEqual(self.held(page, "output"), made.decode())
        # pipes by a name, which can't be read twice
        for name in (self.file("o", made), plain):
            call = f"'{TOP}/sancus' --program '{PROGRAM}' view '{head}' <(cat '{name}') --page '{page}'"
            self.assertEqual(subprocess.run(["bash", "-c", call], capture_output=True).returncode, 0)
            self.assertIn("out lamp 1", self.held(page, "output"))
        self.assertEqual(sancus("view", head, "-", "--page", page, text=plain.read_bytes()).status, 0)
        self.assertIn("> load eye\nprotect a eye\n", self.held(page, "output"))

    @needs_program
    def test_names_of_pages(self):
        """Two schedules of one deployment have two pages, each with its title."""
        head, folder = self.file("d.toml", Input(LIGHTING_BYTES).head), self.room / "days"
        folder.mkdir()
        one, other = self.file("one.txt", b"load eye\n"), self.file("days/other.txt", b"load lamp\n")
        whole = self.file("whole.txt", LIGHTING_BYTES)
        for files, name, title in (
            ((head, one), "d.one.html", "one.txt, d.toml"),
            ((head, one, other), "days/d.other.html", "other.txt, d.toml"),
            ((whole,), "whole.html", "whole.txt"),
        ):
            ran = sancus("view", *files)
            self.assertEqual((ran.status, ran.out), (0, f"{self.room / name}\n".encode()), ran.said)
            held = base64.b64encode(title.encode()).decode()
            self.assertIn(f"\nname {held}</script>", (self.room / name).read_text())

    @needs_program
    def test_nothing_is_overwritten(self):
        head, plain = self.file("d.toml", Input(LIGHTING_BYTES).head), self.file("s.txt", b"load eye\n")
        link = self.room / "link"
        link.symlink_to(head)
        for files, page in (((head, plain), head), ((head, plain), plain), ((head, plain), link)):
            for force in ((), ("--force",)):
                ran = sancus("view", *files, "--page", page, *force)
                self.assertEqual((ran.status, ran.out), (121, b""))
                self.says(ran, "is an input, and isn't written over")
        page = self.file("s.html", LIGHTING_BYTES)
        self.says(sancus("view", page), "is an input")
        self.assertEqual(page.read_bytes(), LIGHTING_BYTES)
        for text in (b"important\n", b"<!doctype html>\n<p>mine"):
            mine = self.file("d.s.html", text)
            for words in ((head, plain), ("--empty", "--page", mine)):
                ran = sancus("view", *words)
                self.assertEqual((ran.status, ran.out, mine.read_bytes()), (121, b"", text))
                self.says(ran, "d.s.html is there, and is no page of `view`: --force writes over it")
        self.assertEqual(sancus("view", head, plain, "--force").status, 0)
        # an earlier page is written over, and an empty file has nothing to lose
        self.assertEqual(sancus("view", head, plain).status, 0)
        mine.write_bytes(b"")
        self.assertEqual(sancus("view", head, plain).status, 0)
        self.assertIn("load eye", self.held(mine, "output"))

    @needs_program
    def test_misuse(self):
        page = self.room / "p.html"
        for text, words in (
            (b"garbage\n", "D2"),
            (b"garbage\n%%\n", "isn't TOML"),
            (b"\0" * 1000, "there is nothing to draw"),
        ):
            ran = sancus("view", self.file("x", text), "--page", page)
            self.assertEqual((ran.status, ran.out), (122, b""))
            self.says(ran, words)
            self.assertFalse(page.exists())
        ran = sancus("view", self.file("x", LIGHTING_BYTES + b"load ear\n"), "--page", page)
        self.assertEqual((ran.status, ran.out), (3, f"{page}\n".encode()))
        self.says(ran, "S4", "what came before is drawn")
        out = self.file("out", b"trace\nend\n")
        ran = sancus("view", EXAMPLES / "lighting.txt", out, out, out, "--page", page)
        self.assertEqual(ran.status, 2)
        self.says(ran, "takes only what `explain` wrote of it")
        ran = sancus("view", EXAMPLES / "lighting.txt", self.file("p", b"deploy eye\ndeploy ear\n"), "--page", page)
        self.assertEqual((ran.status, ran.out), (122, f"{page}\n".encode()))
        self.says(ran, "there is no module ear", "what came before is drawn")
        self.assertIn("attested eye 0\n", self.held(page, "output"))
        ran = sancus("view", EXAMPLES / "lighting.txt", "--page", self.room / "no" / "p.html")
        self.assertEqual(ran.status, 121)


if __name__ == "__main__":
    unittest.main()
