"""Tests of record/hublog.mjs in real browsers, headless, where they are installed."""

import contextlib
import http.server
import queue
import re
import shutil
import subprocess
import tempfile
import threading
import urllib.parse

import planted
import support
import test_record
from support import ROOT, TESTS

TYPES = {".mjs": "text/javascript", ".html": "text/html; charset=utf-8"}
FILES = {"/record/": ROOT / "record", "/tests/record/": TESTS / "record"}
AGENTS = 5
SEEDS = 12
# How each browser is begun, where the last word is the address.
BROWSERS = {
    "chromium": ["chromium", "--headless=new", "--no-sandbox", "--disable-gpu",
                 "--disable-dev-shm-usage", "--no-first-run", "--user-data-dir={folder}"],
    "firefox-esr": ["firefox-esr", "--headless", "--no-remote", "--profile", "{folder}"],
}


class Handler(http.server.BaseHTTPRequestHandler):
    def do_GET(self):
        url = urllib.parse.urlsplit(self.path)
        if url.path == "/ended":
            seed = urllib.parse.parse_qs(url.query)["seed"][0]
            logs = self.server.logs.get(seed, {})
            ended = sum(text.endswith(b"\ndeliveries\n") for text in logs.values())
            return self.answer(200, "text/plain", str(ended).encode())
        for prefix, folder in FILES.items():
            path = folder / url.path.removeprefix(prefix)
            if url.path.startswith(prefix) and path.suffix in TYPES and path.is_file():
                return self.answer(200, TYPES[path.suffix], path.read_bytes())
        return self.answer(404, "text/plain", b"")

    def do_POST(self):
        url = urllib.parse.urlsplit(self.path)
        body = self.rfile.read(int(self.headers["Content-Length"]))
        if url.path == "/log":
            query = urllib.parse.parse_qs(url.query)
            logs = self.server.logs.setdefault(query["seed"][0], {})
            agent = query["agent"][0]
            logs[agent] = logs.get(agent, b"") + body
        else:
            self.server.said.put((url.path, body.decode()))
        self.answer(200, "text/plain", b"")

    def answer(self, status, kind, body):
        self.send_response(status)
        self.send_header("Content-Type", kind)
        self.send_header("Content-Length", str(len(body)))
        self.send_header("Cache-Control", "no-store")
        self.end_headers()
        self.wfile.write(body)

    def log_message(self, *_):
        pass


@contextlib.contextmanager
def server():
    """A server on 127.0.0.1, which keeps logs by seed and agent, and what pages say."""
    with http.server.ThreadingHTTPServer(("127.0.0.1", 0), Handler) as found:
        found.logs, found.said = {}, queue.Queue()
        thread = threading.Thread(target=found.serve_forever)
        thread.start()
        try:
            yield found
        finally:
            found.shutdown()
            thread.join()


@contextlib.contextmanager
def browser(name, url):
    """The browser, headless, with a profile of its own."""
    with tempfile.TemporaryDirectory(ignore_cleanup_errors=True) as folder:
        words = [word.format(folder=folder) for word in BROWSERS[name]]
        process = subprocess.Popen(
            [*words, url], stdout=subprocess.DEVNULL, stderr=subprocess.DEVNULL
        )
        try:
            yield
        finally:
            process.terminate()
            try:
                process.wait(10)
            except subprocess.TimeoutExpired:
                process.kill()
                process.wait()


class Browsers(test_record.Case):
    time_limit = 240

    def visit(self, name, page, seconds):
        """What the page says at its end, and the logs by seed."""
        if shutil.which(name) is None:
            self.skipTest(f"{name}, which is not on the PATH")
        with server() as found:
            url = f"http://127.0.0.1:{found.server_port}/tests/record/browser/{page}"
            with browser(name, url):
                path, said = found.said.get(timeout=seconds)
            self.assertEqual(path, "/done", said)
            return said, found.logs

    def merge_logs(self, seed, logs):
        folder = self.folder / seed
        folder.mkdir()
        for agent, text in logs.items():
            (folder / f"agent-{agent}.log").write_bytes(text)
        return self.ran([test_record.MERGE, folder])

    def check_random(self, name):
        said, runs = self.visit(name, f"page.html?seed=1&last={SEEDS}", 200)
        version = re.search(r"(?:Firefox|Chrome)/[0-9.]+", said)
        self.assertTrue(version, said)
        whole, faults = [], planted.Planted()
        for seed, logs in runs.items():
            with self.subTest(seed=seed):
                self.assertEqual(len(logs), AGENTS)
                merged = self.merge_logs(seed, logs)
                self.assertEqual(self.verdict(merged), "clean")
                self.check_report(self.folder / seed, False)
                faults.check(self, merged, int(seed))
                whole.append(merged)
        self.says(len(runs), f"programs in {version[0]}", SEEDS)
        self.says_words(whole, 5 * SEEDS)
        faults.says(self, SEEDS // 2)

    def check_changes(self, name):
        """What goes wrong between sender and receiver is named by its kind, on three routes."""
        _, runs = self.visit(name, "three.html?seed=0", 120)
        wanted = []
        for end in [17, 1, 16]:
            wanted.append("clean")
            for place, kind in test_record.Wrong.CHANGES.values():
                wanted.append(f"fault {end} 0 {place} {kind}")
        found = [self.verdict(self.merge_logs(seed, runs[seed])) for seed in sorted(runs, key=int)]
        self.assertEqual(found, wanted)
        self.says(len(found), "programs", 18)

    def check_way(self, way):
        """What each browser does, and what the checker and the report say of it. One that isn't
        there is named."""
        count = 0
        for name, (heard, verdict, kinds) in zip(BROWSERS, WAYS[way], strict=True):
            with self.subTest(browser=name):
                said, runs = self.visit(name, f"departures.html?seed=0&way={way}", 60)
                merged = self.merge_logs("0", runs["0"])
                shutil.rmtree(self.folder / "0")
                self.assertEqual((said, self.verdict(merged)), (heard, verdict))
                self.assertEqual(planted.kinds_of(merged), set(kinds.split()))
                count += 1
        if count:
            self.says(count, "browsers")


# What each way comes to in Chromium, and in Firefox.
WAYS = {
    # Messages wait at a closed port. Firefox delivers them, which is a fault of the logs. Chromium
    # drops them.
    "closed": [("", "clean", "Lost"),
               ("port one, port two", "fault 17 0 0 AfterClose", "AfterClose")],
    # The peer is closed before the port is sent. Firefox loses the messages.
    "peerClosed": [("sent port one, sent port two", "clean", ""), ("", "clean", "Lost")],
    # A port is sent with messages under way. Firefox delivers the first at the old port: in order,
    # but its owner has sent it away.
    "underWay": [("sent port one, sent port two", "clean", ""),
                 ("old port one, sent port two", "clean", "NotOwner")],
    # A closed port is sent. Chromium accepts it, and nothing comes there, so the logs are clean.
    "closedSent": [("accepted", "clean", ""), ("DataCloneError", "clean", "")],
}
support.add_tests(Browsers, Browsers.check_way, {way: way for way in WAYS})
NAMES = {"chromium": "chromium", "firefox": "firefox-esr"}
support.add_tests(Browsers, Browsers.check_random, NAMES)
support.add_tests(Browsers, Browsers.check_changes, {f"changes_in_{it}": NAMES[it] for it in NAMES})
