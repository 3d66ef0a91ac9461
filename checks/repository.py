"""The repository's crates, for the scripts in this folder: which depend on which, and copies of some of them."""
import os
import shutil

TOP = os.path.dirname(os.path.dirname(os.path.abspath(__file__)))


def libraries():
    """The libraries that each crate names in crates.txt, those of the toolchain among them."""
    named = {}
    with open(os.path.join(TOP, "crates.txt"), encoding="utf-8") as lines:
        for line in lines:
            crate, colon, words = line.partition("#")[0].partition(":")
            if colon:
                named[crate.strip()] = words.split()
    return named


def stood_on(names):
    """The crates of these names and all that they depend on, in the order of crates.txt."""
    named, found, left = libraries(), set(), list(names)
    while left:
        name = left.pop()
        if name in named and name not in found:
            found.add(name)
            left += named[name]
    return [name for name in named if name in found]


def copy_crates(names, to, tried=()):
    """Copies these crates to a folder, as the top of a repository: without what was made of them and without wrong bodies.
    For the crates that are to be tried, those in edits/ take the place of the ones that the gate tries."""
    left_out = shutil.ignore_patterns("out", "must-fail", "edits")
    for name in names:
        old, new = os.path.join(TOP, "crates", name), os.path.join(to, "crates", name)
        shutil.copytree(old, new, ignore=left_out)
        if name in tried:
            shutil.copytree(os.path.join(old, "edits"), os.path.join(new, "must-fail"))
    shutil.copy(os.path.join(TOP, "HANDLES"), to)
    named = libraries()
    with open(os.path.join(to, "crates.txt"), "w", encoding="utf-8") as lines:
        for name in names:
            lines.write(f"{name}: {' '.join(named[name])}\n")
