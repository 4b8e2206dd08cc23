"""Runs the step lines of standard input one by one, and prints their outcome lines at the end."""

import sys

sys.path.append(f"{sys.argv[1]}/python")

import varukoni  # noqa: E402

with varukoni.Hub() as hub:
    lines = sys.stdin.buffer.read().split(b"\n")[:-1]
    said = [hub(line) for line in lines]
sys.stdout.write("".join(f"{text}\n" for text in said))
