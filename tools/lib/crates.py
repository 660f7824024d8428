"""The crates of this repository, as crates.txt has them, and the files of a crate."""
import dataclasses
import functools
import glob
import os

TOP = os.path.dirname(os.path.dirname(os.path.dirname(os.path.abspath(__file__))))


@dataclasses.dataclass
class Crate:
    """A line of crates.txt."""

    name: str
    uses: list
    sentence: str


@dataclasses.dataclass
class Layer:
    """A heading of crates.txt with the crates under it."""

    name: str
    crates: list


@functools.lru_cache(maxsize=None)
def layers():
    """The layers in the order of crates.txt, the lowest first."""
    found = []
    with open(f"{TOP}/crates.txt") as file:
        lines = file.read().split("\n")
    for line in lines[1:]:
        code, _, comment = line.partition("#")
        head, colon, uses = code.partition(":")
        if colon:
            found[-1].crates.append(Crate(head.split()[0], uses.split(), comment.strip()))
        elif comment:
            found.append(Layer(comment.strip(), []))
    return found


@functools.lru_cache(maxsize=None)
def names():
    """The names of all crates, the lowest first."""
    return [crate.name for layer in layers() for crate in layer.crates]


def files(crate, part, ending):
    """The paths of a crate's files under src or specs, sorted."""
    return sorted(glob.glob(f"{TOP}/crates/{crate}/{part}/**/*.{ending}", recursive=True))
