"""The crates of this repository, as crates.txt lists them under its headings."""
import os
import re

TOP = os.path.dirname(os.path.dirname(os.path.dirname(os.path.realpath(__file__))))

HEADING = re.compile(r"# (\w+): (.+)")
LINE = re.compile(r"(\w+):((?: \w+)*)")


def headings():
    """The headings in order, each as (its word, what it says, its crates in order, each as (name, libraries))."""
    found = []
    with open(f"{TOP}/crates.txt", encoding="utf-8") as file:
        for line in file.read().split("\n"):
            if heading := HEADING.fullmatch(line):
                found.append((heading[1], heading[2], []))
            elif crate := LINE.fullmatch(line):
                found[-1][2].append((crate[1], crate[2].split()))
    return found


def names():
    """The names of all crates, in order."""
    return [name for _, _, crates in headings() for name, _ in crates]


def files(crate, part, ending):
    """The files of a part of a crate, those of its folders too, as (name, text), in order of name."""
    top = f"{TOP}/crates/{crate}/{part}"
    found = []
    for folder, _, inside in os.walk(top):
        for name in inside:
            if name.endswith(ending):
                with open(f"{folder}/{name}", encoding="utf-8") as file:
                    found.append((os.path.relpath(f"{folder}/{name}", top), file.read()))
    return sorted(found)
