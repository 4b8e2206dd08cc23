"""What commands share: their arguments, what they read and write, and how they end.

A file or a stream that fails is told in one line on standard error, with status 2. Who closes the
pipe, or presses Ctrl-C, ends a command by that signal, with no traceback.
"""

import argparse
import os
import pathlib
import re
import signal
import sys

FAILED = 2
CHANGES = pathlib.Path(__file__).resolve().parent.parent / "CHANGELOG.md"


def version():
    """The version of all that is here: the newest one of CHANGELOG.md. May raise OSError."""
    return re.search(r"^## ([0-9.]+)", CHANGES.read_text(encoding="utf-8"), re.MULTILINE)[1]


class Version(argparse.Action):
    def __init__(self, option_strings, dest):
        super().__init__(option_strings, dest, nargs=0, help="print the version, and end")

    def __call__(self, parser, *_rest):
        write_lines([f"{parser.prog} {version()}"])
        parser.exit()


def count_of(word):
    if not word.isascii() or not word.isdigit():
        raise argparse.ArgumentTypeError(f"{word} is no number")
    return int(word)


def positive(word):
    if not word.isascii() or not word.isdigit() or int(word) == 0:
        raise argparse.ArgumentTypeError(f"{word} is no number above 0")
    return int(word)


def seconds(word):
    """A time from an argument."""
    try:
        count = float(word)
    except ValueError:
        count = 0
    if not 0 < count < 1e6:
        raise argparse.ArgumentTypeError(f"{word} is no time")
    return count


def is_program(path):
    return os.path.isfile(path) and os.access(path, os.X_OK)


def program(word):
    """The whole path of a program from an argument."""
    path = os.path.abspath(word)
    if not is_program(path):
        raise argparse.ArgumentTypeError(f"there is no program {path}")
    return path


def bytes_of(path):
    """The bytes of a file, or of standard input where the path is None."""
    if path is not None:
        return pathlib.Path(path).read_bytes()
    if sys.stdin is None:
        raise OSError("standard input is closed")
    return sys.stdin.buffer.read()


class Parser(argparse.ArgumentParser):
    """The arguments of a command, and its streams. `prog` is its path in the repository."""

    def __init__(self, prog, about):
        super().__init__(
            prog=prog,
            description=about,
            formatter_class=argparse.RawDescriptionHelpFormatter,
            allow_abbrev=False,
        )
        self.add_argument("--version", action=Version)

    def add_logs(self):
        self.add_argument(
            "file", nargs="?", metavar="LOGS", help="the logs; standard input where none is named"
        )

    def bytes_of(self, path):
        """The same, which ends the command where it can't be read."""
        try:
            return bytes_of(path)
        except OSError as error:
            self.error(str(error))

    def refuse(self, why):
        """Ends the command for what an input says."""
        self.exit(FAILED, f"{self.prog}: {why}\n")


def write(text):
    if sys.stdout is None:
        raise OSError("standard output is closed")
    sys.stdout.buffer.write(text.encode())
    sys.stdout.flush()


def write_lines(lines):
    write("".join(f"{line}\n" for line in lines))


def run(prog, main, failed=FAILED):
    """Ends the process with the status that `main` gives, or with `failed` where a stream fails.

    By then `main` has ended what it began, such as folders and processes.
    """
    try:
        try:
            status = main()
        except SystemExit as ended:
            status = ended.code
        if sys.stdout is not None:
            sys.stdout.flush()
    except BrokenPipeError:
        die_by(signal.SIGPIPE)
    except KeyboardInterrupt:
        die_by(signal.SIGINT)
    except OSError as error:
        # What Python would flush at its end fails again.
        sys.stdout = None
        print(f"{prog}: {error}", file=sys.stderr)
        status = failed
    sys.exit(status)


def die_by(number):
    signal.signal(number, signal.SIG_DFL)
    signal.raise_signal(number)
