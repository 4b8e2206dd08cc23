"""The tests of varukoni.py. The last line says how many checks were made."""

import copy
import pathlib
import pickle
import subprocess
import sys
import threading

import varukoni
from varukoni import BadLine, Hub

checks = 0


def same(found, wanted):
    global checks
    assert found == wanted, f"{found!r} in place of {wanted!r}"
    checks += 1


def refuses(call, error, kind=None):
    global checks
    try:
        found = call()
    except error as why:
        assert kind is None or why.kind == kind, f"{why!r} in place of {kind}"
        checks += 1
        return
    raise AssertionError(f"{found!r} in place of {error.__name__}")


def opened():
    hub = Hub()
    for line in ("agent -", "channel 0", "start 1"):
        hub(line)
    return hub


def test_lines():
    with Hub() as hub:
        same(hub("agent -"), "agent 0")
        same(hub(b"channel 0"), "ends 0 1")
        same(hub.said(), "ends 0 1")
        refuses(lambda: hub("fly"), BadLine, "UnknownStep")
        refuses(lambda: hub(b"post 0 - \xff"), BadLine, "BadUtf8")
        same(hub.said(), "BadUtf8")
        same(hub("post 0 - {\"é\":1}"), "accepted 0:0")
        same(hub("start 1"), "started")
        same(hub("take 1"), "got 0:0 from 0 {\"é\":1}")
        refuses(lambda: hub(7), TypeError)
    refuses(lambda: hub("take 1"), ValueError)
    refuses(hub.said, ValueError)
    hub.close()
    refuses(lambda: copy.copy(Hub()), TypeError)
    refuses(lambda: copy.deepcopy(Hub()), TypeError)
    refuses(lambda: pickle.dumps(Hub()), TypeError)


def test_a_long_line():
    hub = opened()
    body = f'"{"a" * 262_142}"'
    same(hub(f"post 0 - {body}"), "accepted 0:0")
    same(hub("take 1"), f"got 0:0 from 0 {body}")
    same(hub("take 1"), "empty")
    refuses(lambda: hub(f'post 0 - "{"a" * 262_143}"'), BadLine, "TooLong")


def test_whole_texts():
    same(varukoni.steps("agent -\nchannel 0\n"), (0, "agent 0\nends 0 1\n"))
    same(varukoni.steps(b"agent -\nfly\n"), (2, "line 2: UnknownStep\n"))
    same(varukoni.check(""), (0, "clean\n"))
    same(varukoni.check("hublog 9\n"), (2, "line 1: BadHeader\n"))
    same(varukoni.read_script(""), None)
    refuses(lambda: varukoni.read_script("fly\n"), BadLine, "line 1: Syntax")


def test_why():
    """The reason that docs/FORMATS.md has for each `not-now`."""
    lines = ["agent -", "agent -", "channel 0", "adopt 1 1", 'post 0 - {"b":1, "a":2}', "take 1"]
    reason = "agent 0 has end 1, so that it has arrived nowhere"
    same(varukoni.why("\n".join(lines)), [(4, reason)])
    same(varukoni.why(""), [])
    refuses(lambda: varukoni.why("agent -\nfly"), BadLine, "line 2: UnknownStep")
    with Hub(explains=True) as hub:
        for line in lines:
            wanted = reason if line == lines[3] else None
            same(hub.why() if hub(line) == "not-now" else None, wanted)
        refuses(lambda: hub("fly"), BadLine, "UnknownStep")
        same((hub("take 7"), hub.why()), ("not-now", "there is no end 7"))
        same((hub("start 1"), hub.why()), ("started", None))
    refuses(Hub().why, ValueError)


def test_threads():
    """Four threads post through one hub, and each number is given once."""
    hub, given = opened(), []

    def post():
        for number in range(500):
            given.append(hub(f"post 0 - {number}"))

    threads = [threading.Thread(target=post) for _ in range(4)]
    for thread in threads:
        thread.start()
    for thread in threads:
        thread.join()
    same(sorted(given), sorted(f"accepted 0:{number}" for number in range(2000)))


def test_pipe():
    program = pathlib.Path(__file__).resolve().with_name("pipe.py")
    pipe = subprocess.PIPE
    with subprocess.Popen([sys.executable, "-B", program], stdin=pipe, stdout=pipe) as child:
        for line, answer in [(b"agent -", b"agent 0"), (b"fly", b"bad UnknownStep"),
                             (b"post 0 - \xff", b"bad BadUtf8"), (b"channel 0", b"ends 0 1")]:
            child.stdin.write(line + b"\n")
            child.stdin.flush()
            same(child.stdout.readline(), answer + b"\n")
        child.stdin.close()
        same(child.wait(timeout=10), 0)


TESTS = (test_lines, test_a_long_line, test_whole_texts, test_why, test_threads, test_pipe)
for test in TESTS:
    test()
print(f"embed/python: {checks} checks")
