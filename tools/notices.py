"""The licences of the toolchain's crates that something built has parts of."""

import cratelist

HEAD = "The {} has parts of these crates of the Rattle toolchain, under these licences.\n"


def crates_of_kit(names, kit):
    """The toolchain's crates that crates of the repository are made of, with those below them."""
    named = cratelist.libraries()

    def below(name):
        folder = kit / "rlibs" / f"{name}.rlib" / "below"
        listed = folder.iterdir() if folder.is_dir() else ()
        return [*named.get(name, []), *(path.name for path in listed)]

    return sorted(cratelist.reached([*names, "std"], below).keys() - named)


def of(names, what):
    """The licences of these crates: each text once, behind the crates that have it."""
    kit, texts = cratelist.kit(), {}
    for name in crates_of_kit(names, kit):
        folder = kit / "rattle" / name
        for path in sorted(folder.glob("LICENSE*")) if folder.is_dir() else []:
            text = path.read_text(encoding="utf-8").strip()
            texts.setdefault(text, []).append(f"{name} ({path.name})")
    parts = [f"{', '.join(names)}\n\n{text}\n" for text, names in texts.items()]
    return "\n\n".join([HEAD.format(what), *parts])
