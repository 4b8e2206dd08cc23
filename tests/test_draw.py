"""Draws logs with tools/draw, and looks at the pictures.

It counts the arrows of a picture, compares what is told beside it and the exit status, and reads
where things stand: no two texts overlap, no line strikes a text through, no text leaves the
picture, and each arrow goes down. The pictures in docs/ have to be those that tools/draw makes of
the runs in tests/runs, with the names of the scripts in examples/.
"""

import random
import re
import xml.etree.ElementTree

import support
from support import ROOT, TESTS, outcome_of

import naming

DRAW = ROOT / "tools" / "draw"
SVG = "{http://www.w3.org/2000/svg}"
# A letter of the font is 0.602 of its size wide.
LETTER, ABOVE, BELOW = 6.63, 9, 3

PORT_SENT = """hublog 3
agent 0
put 3 0 0:0 - 1
put 3 0 0:1 notice
closed 2
put 1 0 0:0 3 "port"
closed 0
agent 1
got 1 0 0:0 3 "port"
adopted 3 1
got 3 0 0:0 - 1
closed 1
closed 3
deliveries
end 1 line 0 0:0
end 3 line 0 0:0
clean
"""
CIRCLE = """hublog 3
agent 0
got 0 0 0:0 - 1
put 1 0 0:0 - 2
agent 1
got 1 0 0:0 - 2
put 0 0 0:0 - 1
"""
NOBODY = 'hublog 3\nagent 0\ngot 0 0 0:0 - "<&>\ufffe\x7f"\n'
# PORT_SENT is a run of such a script: ends 0 and 1 are queues, 2 and 3 the ports.
SCRIPT = """{"agent":"window","origin":"https://a.example"}
{"agent":"worker","origin":"https://a.example"}
{"channel":["p\\u202e","q"],"at":0}
{"member":"news","at":0,"on":"topic"}
{"at":0,"post":"p\\u202e","body":1}
"""
ACCEPTED = 'put 1 0 0:0 - "one"\nput 1 0 0:1 notice\nput 1 0 0:2 - "three"\n'
ONE, NOTICE, THREE = (f"got{line[3:]}\n" for line in ACCEPTED.splitlines())
# The kind, what agent 1 logged, the title of the arrow that is at fault, and what is said there.
FAULTS = [
    ("AfterClose", f"{ONE}closed 1\n{NOTICE}", "end 1 0:1 notice",
     "AfterClose: 0:1 was got after the end was closed"),
    ("AfterNotice", ONE + NOTICE + THREE, 'end 1 0:2 "three"',
     "AfterNotice: 0:2 was got after the notice of its line, which is the last"),
    ("Changed", 'got 1 0 0:0 - "two"\n', 'end 1 0:0 "two"', 'Changed, got "two"'),
    ("Twice", ONE + ONE, 'end 1 0:0 "one"', "Twice: 0:0 was got twice"),
    ("Gap", ONE + THREE, 'end 1 0:2 "three"', "Gap: passed over, 0:1 is got nowhere"),
    ("Foreign", f'{ONE}got 1 0 0:7 - "x"\n', 'end 1 0:7 "x"',
     "Foreign: 0:7 was got, and nobody put it there"),
]
TO_ITSELF = "hublog 3\nagent 0\nput 0 0 0:0 - 1\ngot 0 0 0:0 - 1\n"


def run(text, *words):
    return outcome_of([DRAW, *words], text.encode())


def parsed(outcome):
    return xml.etree.ElementTree.fromstring(outcome.output)


def legend(entries):
    root = parsed(run(f"hublog 3\nagent 0\n{entries}"))
    foot = max(float(it.get("y2")) for it in root.iter(f"{SVG}line") if it.get("class") == "lane")
    return [words_of(it) for it in root.iter(f"{SVG}text") if float(it.get("y")) > foot]


def many(count):
    puts = "".join(f"put 1 0 0:{at} - {at}\n" for at in range(count))
    return f"hublog 3\nagent 0\n{puts}agent 1\n{puts.replace('put', 'got')}"


def groups(root, style):
    return [it for it in root.iter(f"{SVG}g") if it.get("class") == style]


def arrows(root):
    """How many messages were got, never got, and got without a put."""
    got, left = groups(root, "delivery"), groups(root, "left")
    return [len(got), len(left), sum(it.find(f"{SVG}circle") is not None for it in got)]


def words_of(text):
    return "".join(text.itertext())


def texts(root):
    return [words_of(it) for it in root.iter(f"{SVG}text")]


def boxes(root):
    for text in root.iter(f"{SVG}text"):
        words = words_of(text)
        x, y, width = float(text.get("x")), float(text.get("y")), len(words) * LETTER
        left = x - {"start": 0, "middle": width / 2, "end": width}[text.get("text-anchor")]
        yield left, y - ABOVE, left + width, y + BELOW, words


PATH_STEP = re.compile(r"([MHVhvl])([-0-9.]+)(?: ([-0-9.]+))?")


def corners(path):
    """The points through which a path goes."""
    x = y = 0
    for letter, *numbers in PATH_STEP.findall(path):
        first, second = (float(number or 0) for number in numbers)
        x, y = {
            "M": (first, second), "H": (first, y), "V": (x, first),
            "h": (x + first, y), "v": (x, y + first), "l": (x + first, y + second),
        }[letter]
        yield x, y


def strokes(root):
    """The boxes of all lines of the picture, and of the marks."""
    for it in root.iter(f"{SVG}line"):
        x, y, to_x, to_y = (float(it.get(name)) for name in ("x1", "y1", "x2", "y2"))
        yield min(x, to_x), min(y, to_y), max(x, to_x), max(y, to_y), it.get("class")
    for it in root.iter(f"{SVG}path"):
        points = list(corners(it.get("d")))
        for (x, y), (to_x, to_y) in zip(points, points[1:]):
            yield min(x, to_x), min(y, to_y), max(x, to_x), max(y, to_y), it.get("class")


def overlap(one, other):
    return one[0] < other[2] and other[0] < one[2] and one[1] < other[3] and other[1] < one[3]


def complaints(root):
    _, _, width, height = map(float, root.get("viewBox").split())
    found, lines = [], sorted(strokes(root), key=lambda it: it[1])
    before = []
    for box in sorted(boxes(root), key=lambda it: it[1]):
        left, top, right, bottom, words = box
        if left < 0 or top < 0 or right > width or bottom > height:
            found.append(f"{words} leaves the picture")
        before = [it for it in before if it[3] > top]
        found += [f"{words} lies on {it[4]}" for it in before if overlap(box, it)]
        found += [f"{words} is struck through by {it[4]}" for it in lines if overlap(box, it)]
        before.append(box)
    return found + shared_lines(root)


def shared_lines(root):
    """Messages that wait on the same line at the same time."""
    found, waiting = [], []
    for group in groups(root, "delivery"):
        for path in group.findall(f"{SVG}path"):
            (x, y), (_, to_y) = list(corners(path.get("d")))[-2:]
            span = x, min(y, to_y), max(y, to_y)
            found += [f"two messages wait at {x}" for other in waiting
                      if other[0] == x and other[1] < span[2] and span[1] < other[2]]
            waiting.append(span)
    return found


def rises(root):
    """How many arrows don't go down, and aren't level."""
    found = 0
    for group in groups(root, "delivery"):
        for path in group.findall(f"{SVG}path"):
            points = list(corners(path.get("d")))
            found += points[-1][1] <= points[0][1]
    return found


def random_logs(seed):
    """Logs of any entries, faulty ones among them; their arrows, and the names of all messages."""
    draw = random.Random(seed)
    agents = [f"agent {it}\n" for it in range(draw.choice([1, 2, 3, 5, 16]))]
    logs, got, left, nobody, addresses = [[] for _ in agents], 0, 0, 0, []
    for number in range(30):
        ports = draw.choice(["-", "-", "7", ",".join(map(str, range(65_520, 65_536)))])
        body = draw.choice([f"{ports} {number}", f'{ports} "<&>"', "notice"])
        end, line, epoch = (draw.choice([0, it]) for it in (65_535, 31, 65_535))
        is_put, is_got = draw.random() < 0.9, draw.random() < 0.8
        for word, is_there in (("put", is_put), ("got", is_got)):
            if is_there:
                draw.choice(logs).append(f"{word} {end} {line} {epoch}:{number} {body}\n")
        got, left = got + is_got, left + (is_put and not is_got)
        nobody += is_got and not is_put
        if is_put or is_got:
            at_line = f" line {line}," if line else ""
            addresses.append(f"end {end}{at_line} {epoch}:{number}")
        draw.choice(logs).append(draw.choice([f"closed {number}\n", "adopted 65535 65535\n"]))
    text = "hublog 3\n" + "".join(head + "".join(log) for head, log in zip(agents, logs))
    return text, [got, left, nobody], addresses


class Pictures(support.TestCase):
    def look(self, label, text, wanted_arrows, notes=(), upwards=0, words=()):
        """Draws logs, and compares the picture with what is wanted of it."""
        with self.subTest(logs=label):
            done = run(text, *words)
            told = [f"tools/draw: {it}" for it in notes]
            self.assertEqual((done.status, done.errors.decode().splitlines()), (0, told))
            root = parsed(done)
            shown = [it.text for it in root.iter(f"{SVG}text") if it.get("class") == "note"]
            self.assertEqual(" ".join(shown), " ".join(notes))
            self.assertEqual(arrows(root), wanted_arrows)
            self.assertEqual(rises(root), upwards)
            self.assertEqual(complaints(root), [])
            return root

    def test_texts(self):
        shown = texts(self.look("a port is sent", PORT_SENT, [2, 1, 0]))
        wanted = [
            "agent 0", 'end 1 0:0 with end 3 "port"', "end 3 0:0 1", "end 3 0:0",
            "end 3 0:1 notice, never got", "adopted end 3, queue 1", "closed end 2",
        ]
        self.each(wanted, "texts", lambda words: self.assertIn(words, shown))
        # Beside the outer lane there is no room for it.
        logs = "hublog 3\nagent 0\nadopted 65535 65535\nagent 1\n"
        long = "adopted end 65535, queue 65535"
        self.assertIn(long, texts(self.look("a long text", logs, [0, 0, 0])))

    def test_names(self):
        """A script names agents and ends: queues first, then ports, then members."""
        words = ["--script", self.write("a script", SCRIPT)]
        shown = texts(self.look("names", PORT_SENT, [2, 1, 0], words=words))
        wanted = [
            "agent 0, window", "agent 1, worker", 'queue of agent 1 0:0 with q "port"', "q 0:0 1",
            "q 0:1 notice, never got", "adopted q, queue 1", "closed p\\u202e", "closed q",
        ]
        self.each(wanted, "names", lambda words: self.assertIn(words, shown))

    def test_legend(self):
        """What stands in the picture is explained, and nothing else."""
        arrow = "agent 1\ngot 0 0 0:0"
        wanted = [
            (f"put 0 0 0:0 - 1\n{arrow} - 1\n", ["message: "]),
            (f"put 0 0 0:0 7 1\n{arrow} 7 1\n", ["message with ports"]),
            (f"put 0 0 0:0 notice\n{arrow} notice\n", ["notice that"]),
            ("put 0 0 0:0 - 1\ngot 0 0 0:0 - 1\n", ["message: ", "message that waits"]),
            ("put 0 0 0:0 - 1\n", ["message: ", "put, and never got", "what is found wrong"]),
            ("got 0 0 0:0 - 1\n", ["message: ", "got, and put by nobody", "what is found wrong"]),
            ("adopted 0 1\n", ["adopts "]),
            ("closed 0\n", ["closes "]),
        ]
        for entries, starts in wanted:
            with self.subTest(logs=entries):
                words = [it for it in legend(entries) if not it.startswith("1 message got")]
                self.assertEqual(len(words), len(starts), words)
                for word, start in zip(words, starts):
                    self.assertTrue(word.startswith(start), words)
        self.says(len(wanted), "legends")

    def test_faults(self):
        """The arrow of the fault alone is red, and says what is wrong."""
        for kind, entries, title, said in FAULTS:
            with self.subTest(kind=kind):
                logs = f"hublog 3\nagent 0\n{ACCEPTED}agent 1\n{entries}"
                root = parsed(run(logs))
                red = [group for group in groups(root, "delivery")
                       if any("fault" in it.get("class", "") for it in group)]
                self.assertEqual([it.find(f"{SVG}title").text for it in red], [title])
                self.assertIn(said, texts(root))
                self.assertEqual(arrows(root)[2], kind == "Foreign")
                self.assertEqual(complaints(root), [])
        self.says(len(FAULTS), "kinds", 6)

    def test_arrows(self):
        left_out = ["20 messages left out, after the first 100"]
        one_of_three = ["2 messages left out, after the first 1"]
        hidden = [
            "not drawn: AfterNotice at end 1, line 0: 0:2 was got after the notice of its line,"
            " which is the last",
            "2 messages left out, after the first 1",
        ]
        late = f"hublog 3\nagent 0\n{ACCEPTED}agent 1\n{ONE}{NOTICE}{THREE}"
        self.look("a fault left out", late, [1, 0, 0], hidden, words=["--most", "1"])
        circle = ["no order fits the logs: 1 message got above the put, the first at line 3"]
        nobody = ["1 message got without a put, the first at line 3"]
        self.look("a message to oneself", TO_ITSELF, [1, 0, 0])
        self.look("120 messages", many(120), [100, 0, 0], left_out)
        self.look("100 messages", many(100), [100, 0, 0])
        self.look("one of three", many(3), [1, 0, 0], one_of_three, words=["--most", "1"])
        self.look("a circle", CIRCLE, [2, 0, 0], circle, upwards=1)
        self.look("no put", NOBODY, [1, 0, 1], nobody)
        self.look("no logs", "", [0, 0, 0])
        self.look("no agents", "hublog 3\ndeliveries\nclean\n", [0, 0, 0])
        self.says(9, "pictures")

    def test_random_logs(self):
        seeds, total = range(40), 0
        for seed in seeds:
            with self.subTest(seed=seed):
                text, wanted, addresses = random_logs(seed)
                done = run(text)
                self.assertEqual(done.status, 0)
                root = parsed(done)
                self.assertEqual(arrows(root), wanted)
                self.assertEqual(complaints(root), [])
                shown = texts(root)
                for address in addresses:
                    self.assertTrue(any(it.startswith(address) for it in shown), address)
                total += sum(wanted[:2])
        self.says(len(seeds), "pictures")
        self.says(total, "arrows", 1_000)


class Texts(support.TestCase):
    def test_short(self):
        rows = [
            ("abc", 3, "abc"), ("abcd", 3, "ab…"), ("abcd", 1, "…"), ("日本", 4, "日本"),
            ("日本語", 4, "日…"), ("a\n", 3, "a\\n"), ("\u202e", 6, "\\u202e"),
            ("\u202e", 5, "\\u20…"), ("\x7f", 6, "\\u007f"), ("é", 1, "é"),
        ]
        self.each(rows, "texts", lambda it: self.assertEqual(naming.short(*it[:2]), it[2]))


class Docs(support.TestCase):
    def test_pictures(self):
        pictures = sorted((ROOT / "docs").glob("*.svg"))
        for picture in pictures:
            with self.subTest(picture=picture.name):
                script = ROOT / "examples" / f"{picture.stem}.script"
                path = TESTS / "runs" / f"{picture.stem}.out"
                done, logs = outcome_of([DRAW, "--script", script, path]), path.read_bytes()
                self.assertEqual((done.errors, done.status), (b"", 0))
                self.assertIsNone(support.first_difference(picture.read_bytes(), done.output))
                root = parsed(done)
                self.assertEqual(complaints(root), [])
                self.assertEqual(arrows(root)[0], logs.count(b"\ngot "))
        self.says(len(pictures), "pictures", 2)


class Files(support.TestCase):
    def test_bad_script(self):
        script = self.write("a script", SCRIPT.replace("worker", "boss"))
        words = [DRAW, "--script", script]
        self.assert_refused(words, "a script: line 2: Syntax\n", text=PORT_SENT.encode())
        self.says(1, "script")

    def test_named_file(self):
        path, piped = self.write("some logs", PORT_SENT), run(PORT_SENT)
        piped = piped._replace(output=piped.output.replace(b"&lt;stdin&gt;", b"some logs"))
        self.assert_outcome(run("", path), piped)
        self.says(1, "file")
