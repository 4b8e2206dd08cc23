"""Reads the scripts of tests/rows and of the examples with tools/hubscript.py, and changed ones."""

import support
from support import PROGRAM, ROOT, TESTS, outcome_of

import hubscript
import weburl

CHANGED = 500


def refusal_of(script, is_strict=True):
    try:
        hubscript.read(script, is_strict)
    except hubscript.BadScript as bad:
        return f"{bad}\n"
    return ""


class Scripts(support.TestCase):
    def test_rows(self):
        rows = support.rows("run")
        for row in rows:
            with self.subTest(row=row.name):
                wanted = row.output.decode() if row.status == 2 else ""
                self.assertEqual(refusal_of(row.text), wanted)
        self.says(len(rows), "rows", 44)
        self.says(sum(row.status == 2 for row in rows), "refusals", 30)

    def test_refusals(self):
        """By the rules of docs/FORMATS.md. Line 1 declares agent 0."""
        rows = [
            ('{"agent":"boss","origin":"https://a.test"}', "Syntax"),
            ('{"agent":"window"}', "Syntax"),
            ('{"agent":"window","origin":1}', "Syntax"),
            ('{"channel":["a"],"at":0}', "Syntax"),
            ('{"channel":"ab","at":0}', "Syntax"),
            ('{"channel":["a",1],"at":0}', "Syntax"),
            ('{"channel":["a","b"],"at":true}', "Syntax"),
            ('{"channel":["a","b"],"at":4294967296}', "Syntax"),
            ('{"channel":["a","b"],"at":1}', "UnknownName"),
            ('{"channel":["a","b"],"at":0,"on":"x"}', "Syntax"),
            ('{"member":7,"at":0,"on":"x"}', "Syntax"),
            ('{"member":"queue","at":0,"on":"x"}', "Syntax"),
            ('{"member":"m","at":0,"on":"\\ud800"}', "Syntax"),
            ('{"member":"m","at":7,"on":"x"}', "UnknownName"),
            ("[" * 5_000, "Syntax"), ("7", "Syntax"), ("", "Syntax"), ("\ufeff{}", "Syntax"),
        ]
        for line, kind in rows:
            with self.subTest(line=line[:50]):
                script = f'{{"agent":"window","origin":"https://a.test"}}\n{line}\n'
                self.assertEqual(refusal_of(script.encode()), f"line 2: {kind}\n")
        self.says(len(rows), "lines", 18)

    def test_changed(self):
        found = outcome_of([TESTS / "changed_scripts", f"--count={CHANGED}", PROGRAM])
        last = found.output.decode().splitlines()[-1]
        self.assertEqual((last, found.status), (f"{CHANGED} passed, 0 failed", 0), found.output)
        self.says(CHANGED, "changed scripts")

    def test_declarations(self):
        paths = sorted((ROOT / "examples").glob("*.script"))
        shown = {}
        for path in paths:
            found = hubscript.read(path.read_bytes())
            shown[path.stem] = ([it.kind for it in found.agents], found.end_names())
        self.assertEqual(shown["two_windows"], (["window", "window"], ["cart", "checkout"]))
        self.assertEqual(shown["service_worker"][0].count("worker"), 1)
        # The runs of the scripts have no end behind the last one that is declared.
        for path in paths:
            found = hubscript.read(path.read_bytes())
            logs = (TESTS / "runs" / f"{path.stem}.out").read_text("utf-8")
            closed = [int(line.split(" ")[1]) for line in logs.split("\n") if "closed" in line]
            self.assertLess(max(closed), found.end_count())
        self.says(len(paths), "scripts", 2)


class Origins(support.TestCase):
    def test_origins(self):
        rows = [
            ("https://a.test:443/x y", "https://a.test"),
            (" https://a.te\tst/b c\n", "https://a.test"),
            ("https:\\\\a.test\\x", "https://a.test"),
            ("http://u:p@[::1]:80?q#f", "http://[::1]"),
            ("HTTP://A.test:8080/x", "http://a.test:8080"),
            ("blob:https://a.test/1", "https://a.test"),
            (" wss://u:p@a.test:8/ ", "wss://a.test:8"), ("https:a.test", "https://a.test"),
            ("http:\\\\a%2Etest\\", "http://a.test"), ("https://a.test:", "https://a.test"),
            ("http://0x7F.1", "http://127.0.0.1"), ("http://1.2.3.4.", "http://1.2.3.4"),
            ("http://[0:0::1]:80", "http://[::1]"),
            ("https://B\u00dccher.test:8080/x", "https://xn--bcher-kva.test:8080"),
            ("https://fa\u00df\u3002test", "https://xn--fa-hia.test"),
            *((it, weburl.BadUrl) for it in (
                "nonsense", "", "https://", "https://@", "https://a b", "https://a.test:65536",
                "https://a:b:c", "http://256.1", "http://1.2.3.4.5", "http://08.1", "http://[::1",
                "http://[1::%25eth]", "http://a%00b", "//a.test",
            )),
            *((it, weburl.OpaqueOrigin) for it in (
                "data:text/plain,x", "file:///x", "blob:data:,x", "about:blank", "blob:wss://a/",
            )),
        ]
        for url, wanted in rows:
            with self.subTest(url=url):
                try:
                    found = weburl.origin_of(url)
                except weburl.NoOrigin as why:
                    found = type(why)
                self.assertEqual(found, wanted)
        self.says(len(rows), "URLs", 34)

    def test_program(self):
        """The step `agent` says the same of a URL, and of its origin that it is the same."""
        urls = ["https://B\u00fccher.test", "http://0x7F.1:80", "wss://[0::1]", "blob:http://a/b",
                "nonsense", "https://", "http://256.1", "data:,x", "file:///x"]
        outcomes = {weburl.BadUrl: "bad-url", weburl.OpaqueOrigin: "opaque-origin"}
        for url in urls:
            try:
                origin, first = weburl.origin_of(url), "agent 0"
            except weburl.NoOrigin as why:
                origin, first = "-", outcomes[type(why)]
            members = ['member 0 "n"', 'member 1 "n"', "cast 0 - 1"]
            lines = [f"agent {url}", f"agent {origin}", *members]
            found = outcome_of([PROGRAM, "steps"], "\n".join(lines).encode())
            first_line, *_, last = found.output.decode().splitlines()
            self.assertEqual(first_line, first, url)
            if first == "agent 0":
                self.assertEqual(last, "cast 1 accepted 0:0", url)
        self.says(len(urls), "URLs", 9)
