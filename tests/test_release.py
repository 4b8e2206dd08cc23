"""Makes a release by tools/release, and tries what becomes of one that is wrong."""

import re
import shutil
import subprocess
import tarfile

import support
from support import PROGRAM, ROOT, outcome_of
from test_tools import tool

BUILT = ROOT / "embed" / "out" / "BUILT"


class Release(support.TestCase):
    time_limit = 300

    def test_release(self):
        if not BUILT.is_file():
            self.skipTest("embed/out, which embed/build makes")
        words = [ROOT / "tools" / "release", "--draft", f"--to={self.folder}"]
        found = outcome_of(words, seconds=self.time_limit)
        self.assertEqual((found.output, found.status), (b"", 0), found.errors)
        tried = re.search(rb"tried: (\d+) commands in an empty folder", found.errors)
        (tar,) = self.folder.glob("*.tar.gz")
        check = ["sha256sum", "--check", "--quiet", f"{tar.name}.sha256"]
        self.assertEqual(outcome_of(check, cwd=self.folder), (b"", b"", 0))
        again = outcome_of([*words[:-1], f"--to={self.folder / 'again'}"], seconds=self.time_limit)
        self.assertEqual(again.status, 0, again.errors)
        self.assertEqual((self.folder / "again" / tar.name).read_bytes(), tar.read_bytes())
        with tarfile.open(tar) as members:
            names = {name.partition("/")[2] for name in members.getnames()}
        wanted = {
            "messagehub", "libexec/messagehub", "include/varukoni.h", "lib/libvarukoni.a",
            "lib/libvarukoni.so", "python/varukoni.py", "rust/src/lib.rs", "node/web.mjs",
            "tools/play", "tools/report", "record/hublog.mjs", "share/man/man1/messagehub.1",
            "LICENSE-MIT", "LICENSE-APACHE", "NOTICE", "BUILT", "SHA256SUMS",
        }
        self.assertEqual(wanted - names, set())
        self.says(int(tried[1]), "commands tried", 6)
        self.says(len(names), "files", 60)


class Launched(support.TestCase):
    def test_launcher(self):
        self.write("BUILT", "version 1.0.0\ncommit abc\n")
        (self.folder / "libexec").mkdir()
        for source, to in [(ROOT / "messagehub", "."), (ROOT / "CHANGELOG.md", "."),
                           (PROGRAM, "libexec/messagehub")]:
            shutil.copy(source, self.folder / to)
        run = [self.folder / "messagehub"]
        self.assertEqual(self.ran([*run, "check"]), b"clean\n")
        told = self.ran([*run, "--version"], env={"PATH": "/usr/bin:/bin"}).decode().splitlines()
        self.assertEqual(told[0], "messagehub 1.0.0 (abc)")
        said = b"messagehub: this needs the sources, which a release has not\n"
        self.assertEqual(outcome_of([*run, "--unproved", "check"]), (b"", said, 70))
        self.says(3, "calls")


class Parts(support.TestCase):
    def test_man_page(self):
        page = tool("release").man_page("1.0.0")
        text = subprocess.run(
            ["man", "-l", "-"], input=page.encode(), stdout=subprocess.PIPE, check=True,
            env={"MANWIDTH": "120", "PATH": "/usr/bin:/bin", "LANG": "C.UTF-8"},
        ).stdout.decode() if shutil.which("man") else ""
        if not text:
            self.skipTest("man")
        help_lines = outcome_of([ROOT / "messagehub", "--help"]).output.decode().splitlines()
        shown = {line.strip() for line in text.splitlines()}
        missing = [line for line in help_lines if line.strip() and line.strip() not in shown]
        self.assertEqual(missing, [])
        self.says(len(help_lines), "lines", 30)

    def test_changed_library(self):
        """A file that isn't the one that was built is no part of a release."""
        release = tool("release")
        release.LIBRARY = self.folder
        self.write("NOTICE", "a")
        self.write("BUILT", f"commit abc\n{release.sum_of(b'a')}  NOTICE\n")
        self.assertEqual(list(release.library_files(False, "abc")), ["NOTICE"])
        with self.assertRaisesRegex(release.Refused, "of commit abc"):
            release.library_files(False, "def")
        self.write("NOTICE", "b")
        with self.assertRaisesRegex(release.Refused, "NOTICE isn't what"):
            release.library_files(True, "abc")
        self.says(3, "folders")
