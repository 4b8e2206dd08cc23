"""The crates of the repository, as crates.txt lists them."""

import pathlib
import shutil

ROOT = pathlib.Path(__file__).resolve().parent.parent


def kit():
    """The folder of the toolchain, or None where it isn't on the path."""
    found = shutil.which("rt")
    return pathlib.Path(found).resolve().parent.parent if found else None


def lines(root=ROOT):
    """The text line of each crate, by its name, in the order of the file."""
    text = (root / "crates.txt").read_text(encoding="utf-8")
    told = [line for line in text.splitlines() if ":" in line and not line.startswith("#")]
    return {line.partition(":")[0].split()[0]: line for line in told}


def libraries(root=ROOT):
    """What each crate stands on: crates of the repository and of the toolchain."""
    return {name: line.partition(":")[2].split() for name, line in lines(root).items()}


def reached(names, below):
    """These names with all that is below them: each with what `below` gives for it."""
    found, left = {}, list(names)
    while left:
        name = left.pop()
        if name not in found:
            found[name] = below(name)
            left += found[name]
    return found


def with_below(names, root=ROOT):
    """These crates with those of the repository below them, each with the ones that it names."""
    named = libraries(root)
    own = (it for it in names if it in named)
    return reached(own, lambda name: [it for it in named[name] if it in named])
