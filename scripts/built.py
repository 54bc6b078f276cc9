"""Which programs are built, and of which sources: what scripts/program and scripts/prove share.

A program lies in its crate's folder out/, beside a file with the checksum of all that it was made from: the sources, specifications and proofs of its
crate and of the crates below it, and the toolchain's version. Where that checksum is another now, the program is not run.
"""

import hashlib
import os
import subprocess

TOP = os.path.dirname(os.path.dirname(os.path.realpath(__file__)))
PROVED, QUICK = "proved", "quick"


def programs():
    """The names of the programs."""
    return sorted(name for name in os.listdir(f"{TOP}/crates") if os.path.isfile(f"{TOP}/crates/{name}/src/main.rt"))


def crates_below(name):
    """The crate of this name and the repository's crates that it stands on, each after those that it stands on itself."""
    with open(f"{TOP}/crates.txt") as file:
        lines = [line.partition("#")[0].partition(":") for line in file]
    uses = {words.split()[0]: below.split() for words, colon, below in lines if colon}
    found = []

    def add(crate):
        if crate in uses and crate not in found:
            for below in uses[crate]:
                add(below)
            found.append(crate)

    add(name)
    return found


def files_of(crate):
    """All that a crate is made from, in order."""
    for folder in ("src", "specs", "proofs"):
        for at, folders, names in os.walk(f"{TOP}/crates/{crate}/{folder}"):
            folders.sort()
            yield from (f"{at}/{name}" for name in sorted(names))


def sum_of(name):
    """The checksum of what the program of this name is made from."""
    whole = hashlib.sha256(subprocess.run(["rt", "version"], capture_output=True, check=True).stdout)
    with open(f"{TOP}/crates.txt", "rb") as file:
        whole.update(file.read())
    for crate in crates_below(name):
        for path in files_of(crate):
            with open(path, "rb") as file:
                text = file.read()
            whole.update(f"{os.path.relpath(path, TOP)} {len(text)}\n".encode() + text)
    return whole.hexdigest()


def place_of(name, kind):
    """Where the program lies: as it was proved, or as it was made the quick way."""
    folder = ("out",) if kind == PROVED else ("out", "quick")
    return os.path.join(TOP, "crates", name, *folder, name)


def is_built(name, kind, checksum):
    """Whether the program lies there, made from what has this checksum."""
    place = place_of(name, kind)
    try:
        with open(f"{place}.made") as file:
            return file.read() == checksum and os.access(place, os.X_OK)
    except OSError:
        return False


def note_built(name, kind, checksum):
    """Notes that the program that lies there was made from what has this checksum."""
    place = place_of(name, kind)
    new = f"{place}.{os.getpid()}.new"
    with open(new, "w") as file:
        file.write(checksum)
    os.replace(new, f"{place}.made")
