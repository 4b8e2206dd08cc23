#!/usr/bin/env python3
"""Answers each step line of standard input before it reads the next one, for a host that holds
the two pipes.

A line that is no step line is answered `bad KIND`, and the hub goes on. It ends with its input,
and with status 3 where memory ran out.
"""

import sys

import varukoni


def answer(hub, line):
    try:
        return hub(line)
    except varukoni.BadLine as why:
        return f"bad {why.kind}"


def main():
    with varukoni.Hub() as hub:
        for line in sys.stdin.buffer:
            sys.stdout.write(answer(hub, line.removesuffix(b"\n")) + "\n")
            sys.stdout.flush()


if __name__ == "__main__":
    try:
        main()
    except MemoryError:
        sys.exit(3)
