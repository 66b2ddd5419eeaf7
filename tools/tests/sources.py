"""The files of the repository as tests look at them, by their paths from the top."""
import os
import re

from tests.places import TOP


def text(path):
    with open(os.path.join(TOP, path), encoding="utf-8") as file:
        return file.read()


def uses():
    """Each crate with those of this repository that it uses."""
    lines = re.findall(r"^(\w+):(.*)$", text("crates.txt"), re.M)
    crates = {crate for crate, _ in lines}
    return {crate: [one for one in below.split() if one in crates] for crate, below in lines}


def edits_of(crate):
    """The names of a crate's edits."""
    folder = os.path.join(TOP, "crates", crate, "must-fail")
    names = os.listdir(folder) if os.path.isdir(folder) else []
    return [name.removesuffix(".edit") for name in names]


def sources(crate):
    """All of a crate's code and definitions."""
    found = ""
    for part in ("src", "specs"):
        for folder, _, names in os.walk(os.path.join(TOP, "crates", crate, part)):
            found += "".join(text(os.path.join(folder, name)) for name in names)
    return found
