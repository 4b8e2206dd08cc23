"""Makes pages with tools/view, reads them as HTML, and looks at them in a browser.

The number of arrows has to be the number of deliveries that tools/hublog.py counts. Where a
Chromium is installed, pages are opened in it: nothing is written to its console, entries are
stepped through by button and by key, and ends, bodies and the fault are found.
"""

import fcntl
import html.parser
import json
import os
import re
import struct
import subprocess
import termios
import time

import browser
import support
import test_draw
import test_report
from support import ROOT, TESTS, outcome_of

import hublog

VIEW = ROOT / "tools" / "view"
RUNS = sorted((TESTS / "runs").glob("*.out"))
FAULTY = ROOT / "examples" / "fault.log"
ATTACK = "</script><!--<script>'\"><img src=x onerror=alert(1)>&amp;\u202e{{$data}}"
# How the data of a page tells an entry.
PUT, GOT, ADOPTED = range(3)
# A message is lost as its port moves on, and another one comes behind it.
LOST_ON_ITS_WAY = test_report.MOVED.replace("~", "").replace("got 17 0 0:1 - 1\n", "")
# Elements that have no end in HTML.
VOID = frozenset(["meta", "link", "input", "br"])
# The colours of a message and of a fault, and how often a picture has each.
COLOURS = [[0x00, 0x60, 0x9a], [0xb8, 0x00, 0x00]]
COUNTED = """(async () => {
  const [it, canvas] = [new Image(), document.createElement("canvas")];
  it.src = "data:image/png;base64,%s";
  await it.decode();
  [canvas.width, canvas.height] = [it.width, it.height];
  const context = canvas.getContext("2d");
  context.drawImage(it, 0, 0);
  const { data } = context.getImageData(0, 0, it.width, it.height);
  const counts = %s.map(() => 0);
  for (let at = 0; at < data.length; at += 4) {
    %s.forEach((colour, which) => {
      counts[which] += colour.every((part, place) => data[at + place] === part);
    });
  }
  return counts;
})()"""


def made(text, *words):
    return outcome_of([VIEW, *words], text if isinstance(text, bytes) else text.encode())


def made_in_parts(text):
    """The same, where the rest of the input comes when its beginning has been read."""
    reader, writer = os.pipe()
    with subprocess.Popen([VIEW], stdin=reader, stdout=subprocess.PIPE) as process:
        os.write(writer, text[:100])
        while struct.unpack("i", fcntl.ioctl(reader, termios.FIONREAD, bytes(4)))[0]:
            time.sleep(0.01)
        os.close(reader)
        with open(writer, "wb") as file:
            file.write(text[100:])
        output = process.stdout.read()
    return support.Outcome(output, b"", process.returncode)


class Reader(html.parser.HTMLParser):
    """What stands in a page: the attributes of all elements, and the texts by element."""

    def __init__(self, page):
        super().__init__()
        self.elements, self.texts, self.open = [], [], []
        self.feed(page.decode())
        self.close()

    def handle_starttag(self, tag, attributes):
        self.elements.append((tag, dict(attributes)))
        if tag not in VOID:
            self.open.append(tag)

    def handle_startendtag(self, tag, attributes):
        self.elements.append((tag, dict(attributes)))

    def handle_endtag(self, tag):
        if self.open.pop() != tag:
            raise AssertionError(f"</{tag}> ends something else")

    def handle_data(self, text):
        self.texts.append((self.open[-1] if self.open else "", text))

    def of_class(self, name):
        return [it for _, it in self.elements if name in (it.get("class") or "").split()]

    def data(self):
        texts = [text for tag, text in self.texts if tag == "script"]
        return json.loads(texts[0])


def delivery_count(text):
    """How many names `run` prints behind `deliveries`, as tools/hublog.py counts them."""
    lines = hublog.deliveries(hublog.read_logs(text))
    return sum(len(line.split(" ")) - 4 for line in lines)


def attack():
    body = json.dumps({ATTACK: [ATTACK]}, ensure_ascii=False)
    puts = [body, json.dumps(ATTACK), '"https://a.example/?<b>"']
    puts = "".join(f"put 1 0 0:{at} - {it}\n" for at, it in enumerate(puts))
    return f"hublog 3\nagent 0\n{puts}agent 1\ngot 1 0 0:0 - {body}\n"


def attack_script(case):
    agent = {"agent": "window", "origin": "https://a.example"}
    lines = [agent, {"channel": [ATTACK, "p"], "at": 0}]
    return case.write("a script", "".join(f"{json.dumps(line)}\n" for line in lines))


class Pages(support.TestCase):
    def test_deliveries(self):
        """One element for each delivery, also where puts are missing or doubled."""
        texts = [path.read_bytes() for path in [*RUNS, FAULTY]]
        texts += [test_draw.random_logs(seed)[0].encode() for seed in range(12)]
        texts += [test_draw.CIRCLE.encode(), test_draw.TO_ITSELF.encode(), b"", b"hublog 3\n"]
        texts += [
            f"hublog 3\nagent 0\n{test_draw.ACCEPTED}agent 1\n{entries}".encode()
            for _, entries, _, _ in test_draw.FAULTS
        ]
        total = 0
        for at, text in enumerate(texts):
            with self.subTest(logs=at):
                done = made(text)
                self.assertEqual((done.errors, done.status), (b"", 0))
                count = delivery_count(text)
                self.assertEqual(len(Reader(done.output).of_class("delivery")), count)
                total += count
        self.says(total, "deliveries", 250)

    def test_order(self):
        """All entries stand there, each log in its order, and each put above what is got of it."""
        texts = [path.read_bytes() for path in RUNS]
        texts += [test_draw.random_logs(seed)[0].encode() for seed in range(12)]
        total = 0
        for at, text in enumerate(texts):
            with self.subTest(logs=at):
                entries = Reader(made(text).output).data()["entries"]
                logs = text.partition(b"deliveries\n")[0].splitlines()
                lines = [at for at, line in enumerate(logs[1:], 2) if not line.startswith(b"agent")]
                self.assertEqual(sorted(entry[3] for entry in entries), lines)
                for lane in {entry[1] for entry in entries}:
                    own = [entry[3] for entry in entries if entry[1] == lane]
                    self.assertEqual(own, sorted(own))
                for row, (word, *_, partners) in enumerate(entries):
                    if word == PUT:
                        self.assertTrue(all(row < got for got in partners))
                total += len(entries)
        self.says(total, "entries", 500)

    def test_whole_document(self):
        """It begins as a document, is well nested, and names no other place."""
        for path in [*RUNS, FAULTY]:
            with self.subTest(path=path.name):
                page = made(path.read_bytes()).output
                self.assertTrue(page.startswith(b"<!doctype html>\n<html "))
                self.assertTrue(page.endswith(b"</html>\n"))
                reader = Reader(page)
                self.assertEqual(reader.open, [])
                self.assertEqual(re.findall(rb"https?://[^\s\"']*", page), [])
                places = [it.get(name) for _, it in reader.elements for name in ("src", "href")]
                self.assertEqual([it for it in places if it], ["data:,"])
        self.says(len(RUNS) + 1, "pages", 3)

    def test_names(self):
        logs, script = RUNS[-1], ROOT / "examples" / f"{RUNS[-1].stem}.script"
        reader = Reader(made(logs.read_bytes(), "--script", script).output)
        data = reader.data()
        self.assertEqual(data["agents"], ["agent 0, window", "agent 1, window"])
        self.assertEqual(data["ends"], {
            "0": "queue of agent 0 (end 0)", "1": "queue of agent 1 (end 1)", "2": "cart (end 2)",
            "3": "checkout (end 3)",
        })
        self.assertIn(("div", "checkout"), reader.texts)
        self.says(6, "names")

    def test_escaping(self):
        """Whatever stands in a body or in a name is text, and no URL stands in the page."""
        page = made(attack(), "--script", attack_script(self)).output
        reader = Reader(page)
        self.assertEqual([it for it, _ in reader.elements if it in ("img", "b")], ["b"] * 4)
        self.assertEqual([it for it, _ in reader.elements if it == "script"], ["script"] * 2)
        self.assertNotIn(b"<img", page)
        self.assertNotIn(b"://", page.replace(b"http://www.w3.org/2000/svg", b""))
        self.assertEqual(json.loads(reader.data()["bodies"][1]), ATTACK)
        texts = "".join(text for tag, text in reader.texts if tag == "div")
        # Twice in the body of the put and of its got, once in that of the other put, and as the
        # name of the end of all four.
        self.assertEqual(texts.count("onerror=alert(1)"), 9)
        self.assertNotIn("\u202e", texts)
        self.says(5, "texts")

    def test_input(self):
        """A file and standard input give the same page, also where the input comes in parts."""
        text = RUNS[0].read_bytes()
        wanted = made(text)
        named = Reader(made(b"", self.write("the logs", text.decode())).output)
        self.assertIn("the logs: 3 agents, 7 deliveries", [text for _, text in named.texts])
        self.assertEqual(named.data()["entries"], Reader(wanted.output).data()["entries"])
        self.assert_outcome(made_in_parts(text), wanted)
        self.says(2, "inputs")


def recorded(folder, bug):
    outcome_of([ROOT / "examples" / "relay.py", "--bug", bug, folder / bug])
    return folder / bug


class Bugs(support.TestCase):
    # By bug: the entry of the finding, the wrong ones, and what is said of the order.
    WANTED = {
        "lost": ('put3"one"', ["put", "put", "put"], "one that could be"),
        "owner": ('got3"one"', ["got"], "a guess"),
        "order": ('got3"two"', ["got"], "a guess"),
    }

    def read(self, bug):
        return Reader(self.ran([VIEW, recorded(self.folder, bug)]))

    def test_bugs(self):
        for bug, (entry, wrong, order) in self.WANTED.items():
            with self.subTest(bug=bug):
                reader = self.read(bug)
                data = reader.data()
                self.assertEqual(data["agents"], ["agent 0, ada", "agent 1, ben"])
                finding, = data["findings"]
                word, _, end, *_, body, _ = data["entries"][finding["row"]]
                shown = f'{["put", "got"][word]}{end}{data["bodies"][body]}'
                self.assertEqual(shown, entry)
                styles = [it["class"].split()[1] for it in reader.of_class("wrong")
                          if "entry" in it["class"]]
                self.assertEqual(styles, wrong)
                texts = " ".join(text for _, text in reader.texts)
                self.assertIn(f"{bug}: 2 agents, ", texts)
                self.assertIn(f"Order between agents: {order}; logs have no times.", texts)
        self.says(len(self.WANTED), "bugs", 3)

    def test_lost_before_its_move(self):
        """What was lost stands above the adoption behind which it is missing, not below."""
        data = self.read("lost").data()
        words = [entry[0] for entry in data["entries"]]
        self.assertEqual(words[:3], [PUT] * 3)
        self.assertGreater(words.index(ADOPTED), 3)
        # Here the order is a guess.
        data = Reader(made(LOST_ON_ITS_WAY).output).data()
        order = [(entry[0], entry[2], *entry[5:6]) for entry in data["entries"]]
        self.assertLess(order.index((PUT, 17, "0:1")), order.index((ADOPTED, 17, 2)))
        self.says(2, "orders")

    def test_older_queues(self):
        """Also where the order is a guess, what is put in the older queues of an end stands above
        the adoption that ends them."""
        put = "".join(f"put 2 0 {epoch}:0 - {epoch}\n" for epoch in range(4))
        moves = "".join(f"adopted 2 {epoch}\n" for epoch in range(1, 4))
        for twice in ("", "got 2 0 0:0 - 0\ngot 2 0 0:0 - 0\n"):
            data = Reader(made(f"hublog 3\nagent 0\n{moves}{twice}agent 1\n{put}").output).data()
            order = [(entry[0], entry[5]) for entry in data["entries"] if entry[0] != GOT]
            wanted = [(PUT, "0:0"), (ADOPTED, 1), (PUT, "1:0"), (ADOPTED, 2), (PUT, "2:0")]
            self.assertEqual(order[:5], wanted)
        self.says(2, "orders")

    def test_channels(self):
        """The two ports of a channel have one colour, and other ends have others."""
        reader = self.read("order")
        ends = [entry[2] for entry in reader.data()["entries"]]
        colours = [re.search(r"\bc\d", it["class"])[0] for it in reader.of_class("entry")]
        by_end = {end: {c for e, c in zip(ends, colours) if e == end} for end in set(ends)}
        self.assertEqual(by_end[2], by_end[3])
        self.assertNotEqual(by_end[1], by_end[3])
        self.says(len(colours), "entries", 13)


@support.needs("chromium")
class Browsed(support.TestCase):
    def setUp(self):
        self.path = self.folder / "run.html"
        self.browser = self.enterContext(browser.Browser())

    def open(self, text, *words, place="", **settings):
        self.path.write_bytes(made(text, *words).output)
        return self.browser.open(f"{self.path}{place}", **settings)

    def chosen(self, page):
        return page.value("document.querySelector('.entry[aria-selected]')?.id ?? null")

    def assert_quiet(self, page):
        self.assertEqual(page.console(), [])

    def test_arrows(self):
        total = 0
        for path in [*RUNS, FAULTY]:
            text = path.read_bytes()
            page = self.open(text)
            count = page.value("document.getElementsByClassName('delivery').length")
            self.assertEqual(count, delivery_count(text), path)
            self.assert_quiet(page)
            total += count
        self.says(total, "arrows", 15)

    def test_places(self):
        """Each arrow runs from the row of its put to the row of its got, and ends at its lane."""
        text = RUNS[-1].read_bytes()
        page = self.open(text)
        ends = page.value("""[...document.querySelectorAll("line.delivery")].map((it) => {
          const entry = document.getElementById(it.id.slice(1));
          const lane = Number(/lane-(\\d+)/.exec(entry.className)[1]);
          const head = document.querySelectorAll(".head")[lane].getBoundingClientRect();
          const [row, box] = [entry, it].map((it) => it.getBoundingClientRect());
          const tip = it.x2.baseVal.value > it.x1.baseVal.value ? box.right : box.left;
          return [Math.abs(box.bottom - (row.top + row.height / 2)),
                  Math.abs(tip - (head.left + head.width / 2))];
        })""")
        self.assertEqual([it for it in ends if max(it) > 1], [])
        self.says(len(ends), "arrows", 8)

    def test_steps(self):
        page = self.open(RUNS[-1].read_bytes())
        self.assertEqual(self.chosen(page), None)
        clicks = [("forward", "1"), ("forward", "2"), ("back", "1")]
        for button, wanted in clicks:
            page.value(f"document.getElementById('{button}').click()")
            self.assertEqual(self.chosen(page), wanted)
        # A tab leads to the list, in which keys step.
        page.value("document.querySelector('summary').focus()")
        page.press("Tab")
        self.assertEqual(page.value("document.activeElement.id"), "entries")
        keys = [("ArrowDown", "2"), ("ArrowRight", "3"), ("ArrowLeft", "2"), ("Enter", "3"),
                ("Enter", "2"), ("End", "21"), ("ArrowDown", "21"), ("Home", "1"), ("ArrowUp", "1")]
        for key, wanted in keys:
            page.press(key)
            self.assertEqual(self.chosen(page), wanted, key)
        shown = page.value("document.getElementById('panel').textContent")
        for word in ("Entry 1: put", "end 3", "0:0", "teapot", "agent 1: entry 5"):
            self.assertIn(word, shown)
        outline = page.value("getComputedStyle(document.getElementById('1')).outlineStyle")
        self.assertEqual(outline, "solid")
        self.assert_quiet(page)
        self.says(len(clicks + keys), "steps")

    def test_pointing(self):
        """An entry is shown where the pointer is at its row or its arrow, and chosen by a click."""
        page = self.open(RUNS[-1].read_bytes())
        middle = """(() => {
          const box = document.getElementById("%s").getBoundingClientRect();
          return [box.x + box.width / 2, box.y + box.height / 2];
        })()"""
        shown = "document.querySelector('#panel h2').textContent"
        for place, click, title, chosen in [
            ("4", False, "Entry 4: adopted", None), ("4", True, "Entry 4: adopted", "4"),
            ("6", False, "Entry 6: put", "4"), ("d5", False, "Entry 5: got", "4"),
            ("panel", False, "Entry 4: adopted", "4"), ("d5", True, "Entry 5: got", "5"),
        ]:
            page.point(*page.value(middle % place), click)
            self.assertEqual((page.value(shown), self.chosen(page)), (title, chosen), place)
        self.assert_quiet(page)
        self.says(6, "places")

    def test_tap(self):
        page = self.open(RUNS[-1].read_bytes())
        for number in ("4", "6"):
            x, y = page.value(f"""(() => {{
              const box = document.getElementById("{number}").getBoundingClientRect();
              return [box.x + box.width / 2, box.y + box.height / 2];
            }})()""")
            page.tap(x, y)
            page.wait_until(f"document.querySelector('[aria-selected]')?.id === '{number}'")
        self.assert_quiet(page)
        self.says(2, "taps")

    def test_picture(self):
        """Arrows are seen, and red where there is a fault, there alone."""
        found = []
        for path in (RUNS[-1], FAULTY):
            page = self.open(path.read_bytes())
            counts = COUNTED % (page.picture(), COLOURS, COLOURS)
            found.append([count > 20 for count in page.value(counts)])
        self.assertEqual(found, [[True, False], [True, True]])
        self.says(len(found), "pictures")

    def test_body(self):
        """A body is shown with a line for each part, and its numbers as they are."""
        body = r'{"a":[],"b":{},"n":[18446744073709551615,-1],"s":"x\"{,}: [","t":[{"u":null}]}'
        page = self.open(f"hublog 3\nagent 0\nput 1 0 0:0 - {body}\n", place="#1")
        wanted = [
            "{", '  "a": [],', '  "b": {},', '  "n": [', "    18446744073709551615,", "    -1",
            "  ],", r'  "s": "x\"{,}: [",', '  "t": [', "    {", '      "u": null', "    }", "  ]",
            "}",
        ]
        found = page.value("document.querySelector('#panel pre').textContent").split("\n")
        self.assertEqual(found, wanted)
        self.assert_quiet(page)
        self.says(len(wanted), "lines")

    def test_search(self):
        """Entries are found by end and by body, and by no more of an end than its number."""
        page = self.open(re.sub("(put|got) 1 ", r"\1 10 ", test_draw.many(25)))
        searches = [
            ("end 10", "end", "1 of 50"), ("end 1", "end", "0 found"), ("24", "body", "1 of 2"),
            ("24", "end", "0 found"), ("END 10", "both", "49 of 50"), ("", "both", ""),
        ]
        for text, where, wanted in searches:
            with self.subTest(text=text, where=where):
                page.value(f"document.getElementById('where').value = '{where}'")
                page.value("wanted.focus(); wanted.value = ''")
                page.type(text) if text else page.value("wanted.dispatchEvent(new Event('input'))")
                self.assertEqual(page.value("found.textContent"), wanted)
        page.type("2")
        found = [self.chosen(page)]
        for shift in (False, False, True):
            page.press("Enter", shift=shift)
            found.append(self.chosen(page))
        # Message 24 is the last: its put is entry 49 and its got entry 50. Message 2 is the first.
        self.assertEqual(found, ["49", "50", "5", "50"])
        self.assert_quiet(page)
        self.says(len(searches + found), "searches")

    def test_fault(self):
        """The page begins at the fault, and the button leads back to it."""
        page = self.open(FAULTY.read_bytes())
        at_first = self.chosen(page)
        row = page.value(f"document.getElementById('{at_first}').textContent")
        self.assertEqual(row, 'gotend 10:2"three"')
        self.assertEqual(page.value(
            "[...document.querySelectorAll('.delivery[data-fault]')].map((it) => it.id)"
        ), [f"d{at_first}"])
        self.assertIn("Gap", page.value("document.querySelector('.verdict').textContent"))
        page.value("document.getElementById('back').click()")
        self.assertNotEqual(self.chosen(page), at_first)
        page.value("document.getElementById('to-finding').click()")
        self.assertEqual(self.chosen(page), at_first)
        self.assert_quiet(page)
        self.says(2, "ways to the fault")

    def test_summary(self):
        """Where no entry is chosen the panel has what was found, and what each end got and left."""
        self.path.write_bytes(self.ran([VIEW, recorded(self.folder, "lost")]))
        page = self.browser.open(self.path)
        self.assertEqual(self.chosen(page), "1")
        self.assertIn("Lost at end 3", page.value("document.getElementById('panel').textContent"))
        page.value("document.getElementById('entries').focus()")
        page.press("Escape")
        self.assertEqual(self.chosen(page), None)
        rows = page.value("[...document.querySelectorAll('#panel tr')].map((row) => "
                          "[...row.cells].map((cell) => cell.textContent).join(' '))")
        self.assertEqual(rows, [
            "End accepted got left closed by", "end 1 1 1 0 ", "end 2 1 1 0 agent 0, ada",
            "end 3 3 0 3 agent 1, ben",
        ])
        page.value("document.querySelector('#panel button').click()")
        self.assertEqual(self.chosen(page), "1")
        self.assert_quiet(page)
        self.says(len(rows), "rows")

    def test_narrow_and_dark(self):
        """At 400 pixels nothing is wider than the page; dark text stands on dark ground nowhere."""
        for scheme, is_dark in (("light", False), ("dark", True)):
            page = self.open(RUNS[0].read_bytes(), place="#5", width=400, height=700,
                             settings=[("prefers-color-scheme", scheme)])
            self.assertLessEqual(page.value("document.documentElement.scrollWidth"), 400)
            self.assertLessEqual(page.value("document.getElementById('panel').scrollWidth"), 400)
            colours = page.value("['backgroundColor', 'color'].map((it) => "
                                 "getComputedStyle(document.body)[it])")
            ground, ink = (sum(map(int, re.findall(r"\d+", it)[:3])) for it in colours)
            self.assertEqual(ground < ink, is_dark)
            self.assertEqual(self.chosen(page), "5")
            self.assert_quiet(page)
        self.says(2, "schemes")

    def test_attack(self):
        """Nothing that stands in logs or a script is run, nor shown as anything but text."""
        page = self.open(attack(), "--script", attack_script(self), place="#2")
        self.assertEqual(page.value("document.images.length"), 0)
        self.assertIn("onerror=alert(1)", page.value("panel.querySelector('pre').textContent"))
        self.assert_quiet(page)
        # What was added to the page would not be run either.
        page.value("panel.innerHTML = '<img src=\"data:,\" onerror=\"document.title = 1\">'")
        console = page.console()
        self.assertEqual(len(console), 1)
        self.assertIn("Content Security Policy", json.dumps(console))
        self.assertNotEqual(page.value("document.title"), "1")
        self.says(2, "attacks")
