"""Varukoni's hub in a Python program: step lines in, outcome lines out.

    with Hub() as hub:
        hub("agent -")          # 'agent 0'
        hub("channel 0")        # 'ends 0 1'

docs/EMBEDDING.md tells how to build the library, and docs/FORMATS.md has the step lines. A hub
is used by one thread at a time, different hubs by several at once: ctypes lets go of the
interpreter's lock during a call, so each hub has a lock of its own here. The library is the one
that VARUKONI_SO names, or `libvarukoni.so` in `lib` or `out/lib` of the folder above.

`why` says which test failed where an outcome is `not-now`, by a state machine in Python
(`machine`), which isn't proved. A hub that is opened with `explains=True` takes its lines through
that machine too.
"""

import ctypes
import os
import pathlib
import sys
import threading

VERSION = 1
DONE, FAULT, BAD, NO_MEMORY, NO_ROOM, WRONG_STATE, LOST = range(7)
_NAME = "libvarukoni.so"


class BadLine(ValueError):
    """The text line is no step line, or the text no script. `kind` names the first test that the
    line fails, or is the first bad line of the script. Nothing was run, and the hub goes on."""

    def __init__(self, kind, line):
        super().__init__(kind if line is None else f"{kind}: {line!r}")
        self.kind = kind
        self.line = line


class NoRoom(MemoryError):
    """The step line was run, and its outcome line found no memory: `said` gives it."""


class Lost(MemoryError):
    """Memory ran out within the steps of a line. The hub runs no line any more."""


class _Raw(ctypes.Structure):
    _fields_ = [("at", ctypes.c_void_p), ("is_open", ctypes.c_bool)]


def _path():
    if "VARUKONI_SO" in os.environ:
        return os.environ["VARUKONI_SO"]
    above = pathlib.Path(__file__).resolve().parent.parent
    places = [above / "lib" / _NAME, above / "out" / "lib" / _NAME]
    found = next((place for place in places if place.is_file()), None)
    if found is None:
        raise ImportError(f"{_NAME} is in none of {[str(place.parent) for place in places]}: "
                          "run embed/build first, or name it in VARUKONI_SO")
    return str(found)


def _loaded():
    library = ctypes.CDLL(_path())
    size, status = ctypes.c_size_t, ctypes.c_uint8
    hub, length = ctypes.POINTER(_Raw), ctypes.POINTER(ctypes.c_size_t)
    room = [ctypes.c_void_p, size, length]
    text = [ctypes.c_char_p, size]
    for name, takes, gives in [
        ("version", [], ctypes.c_uint32),
        ("open", [hub], status),
        ("close", [hub], None),
        ("line", [hub, *text, *room], status),
        ("said", [hub, *room], status),
        ("steps", [*text, *room], status),
        ("check", [*text, *room], status),
        ("script", [*text, *room], status),
    ]:
        call = getattr(library, f"varukoni_{name}")
        call.argtypes, call.restype = takes, gives
    if library.varukoni_version() != VERSION:
        raise ImportError(f"the library has interface {library.varukoni_version()}, not {VERSION}")
    return library


_library = _loaded()


def machine():
    """A state machine in Python, whose module lies beside this one, or in the repository."""
    here = pathlib.Path(__file__).resolve().parent
    if not (here / "machine.py").is_file():
        here = here.parent.parent / "tools"
    if str(here) not in sys.path:
        sys.path.append(str(here))
    import machine

    return machine.Machine()


class Hub:
    """The hub after the step lines so far. A call runs one more, which comes without its LF."""

    def __init__(self, explains=False):
        self._machine = machine() if explains else None
        self._raw = _Raw(None, False)
        self._hub = ctypes.byref(self._raw)
        self._lock = threading.Lock()
        self._length = ctypes.c_size_t(0)
        self._lend(4096)
        if _library.varukoni_open(self._hub) != DONE:
            raise MemoryError("no memory for a hub")

    def _lend(self, size):
        self._room = ctypes.create_string_buffer(size)
        self._size = size
        self._lent = (self._room, size, ctypes.byref(self._length))

    def __call__(self, line):
        """Its outcome line without its LF, as a str; `line` is a str or bytes."""
        data = _bytes(line)
        with self._lock:
            status = _library.varukoni_line(self._hub, data, len(data), *self._lent)
            if self._machine is not None and status in (DONE, NO_ROOM):
                self._machine.do(data.decode())
            if status == DONE:
                return self._text().decode()[:-1]
            self._refuse(status, line)

    def why(self):
        """The test that failed where the last line that was run was `not-now`, else None."""
        if self._machine is None:
            raise ValueError("the hub was opened without explains=True")
        return self._machine.why

    def said(self):
        """What the last line was answered with that was run or bad, once more."""
        with self._lock:
            self._put_said()
            return self._text().decode().removesuffix("\n")

    def _text(self):
        if self._length.value > self._size:
            self._put_said()
        return ctypes.string_at(self._room, self._length.value)

    def _put_said(self):
        while True:
            status = _library.varukoni_said(self._hub, *self._lent)
            if status != DONE:
                self._refuse(status, None)
            if self._length.value <= self._size:
                return
            self._lend(self._length.value)

    def _refuse(self, status, line):
        if status == BAD:
            raise BadLine(self._text().decode(), line)
        if status == NO_ROOM:
            raise NoRoom("no memory for the outcome line")
        if status == LOST:
            raise Lost("no memory within the steps of a line")
        if status == WRONG_STATE:
            raise ValueError("the hub is closed")
        raise MemoryError("no memory, and nothing was changed")

    def close(self):
        with self._lock:
            _library.varukoni_close(self._hub)

    def __enter__(self):
        return self

    def __exit__(self, *_):
        self.close()

    def __del__(self):
        # The interpreter may be at its end, or `__init__` may have failed.
        if _library is not None and hasattr(self, "_hub"):
            _library.varukoni_close(self._hub)

    def __copy__(self):
        raise TypeError("a hub isn't copied")

    def __deepcopy__(self, memo):
        raise TypeError("a hub isn't copied")

    def __reduce__(self):
        raise TypeError("a hub isn't pickled")


def _bytes(text):
    return text.encode() if isinstance(text, str) else bytes(memoryview(text))


def steps(data):
    """(exit status, text) of `messagehub steps` for a str or bytes."""
    return _whole(_library.varukoni_steps, data)


def why(data):
    """The step lines that are `not-now`, as pairs of a number from 1 and the test that failed."""
    status, text = steps(data)
    if status == BAD:
        raise BadLine(text.removesuffix("\n"), None)
    model, found = machine(), []
    lines = _bytes(data).decode().removesuffix("\n").split("\n") if data else []
    for number, line in enumerate(lines, 1):
        model.do(line)
        if model.why is not None:
            found.append((number, model.why))
    return found


def check(logs):
    """(exit status, text) of `messagehub check` for a str or bytes."""
    return _whole(_library.varukoni_check, logs)


def read_script(script):
    """Reads a script, and runs nothing. BadLine has its first bad line, as `line N: KIND`."""
    status, text = _whole(_library.varukoni_script, script)
    if status == BAD:
        raise BadLine(text.removesuffix("\n"), None)
    if status != DONE:
        raise MemoryError("no memory for the script")


def _whole(call, data):
    data = _bytes(data)
    size = 2 * len(data) + 4096
    while True:
        room, length = ctypes.create_string_buffer(size), ctypes.c_size_t(0)
        status = call(data, len(data), room, size, ctypes.byref(length))
        if status == NO_ROOM:
            raise MemoryError("no memory for what is printed")
        if length.value <= size:
            return status, ctypes.string_at(room, length.value).decode()
        size = length.value
