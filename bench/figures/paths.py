#!/usr/bin/env python3
"""How many paths of crates.txt lead from each crate down to the lowest ones, and which of its lines cost most of them.

The toolchain sums the sources of a library along each path, twice in a run of the gate, some 2 to 4 milliseconds a path. A line that is left
out takes away the paths through it in every crate above. So a library that a crate names in few files is worth a look: a nearer library may
give the same names by `pub use`. A program and a `staticlib` are not summed, and not counted.

Use: bench/figures/paths.py [FILES]   Prints the paths of each crate, and then each library that a crate names in at most FILES files (3 if left
out), with the paths that the whole would lose, the most first.
"""

import os
import re
import sys

sys.path.insert(0, os.path.join(os.path.dirname(os.path.realpath(__file__)), "..", "..", "ci"))
from program import TOP, answer_help, refuse
from rattle_source import libraries_in


def layers():
    """The libraries of this repository that each crate lists, lowest crate first, and the crates that are libraries themselves."""
    with open(os.path.join(TOP, "crates.txt"), encoding="utf-8") as file:
        parted = [line.partition("#")[0].partition(":") for line in file]
    lists = {head.split()[0]: rest.split() for head, colon, rest in parted if colon}
    ends = {head.split()[0] for head, colon, _ in parted if colon and "staticlib" in head.split()}
    ends |= {crate for crate in lists if os.path.isfile(os.path.join(TOP, "crates", crate, "src", "main.rt"))}
    return {crate: [name for name in names if name in lists] for crate, names in lists.items()}, set(lists) - ends


def paths(below, libraries):
    """How many paths begin at each library, the empty one counted."""
    found = {}

    def count(crate):
        if crate not in found:
            found[crate] = 1 + sum(count(name) for name in below[crate])
        return found[crate]
    return {crate: count(crate) for crate in below if crate in libraries}


def named(crate):
    """In how many files a crate names each library."""
    found = {}
    for part in ("src", "specs", "proofs"):
        for at, _, names in os.walk(os.path.join(TOP, "crates", crate, part)):
            for name in names:
                if name.endswith((".rt", ".antt")):
                    with open(os.path.join(at, name), encoding="utf-8") as file:
                        for library in set(libraries_in(file.read(), name.endswith(".antt"))):
                            found[library] = found.get(library, 0) + 1
    return found


def rare(below, libraries, most):
    """Each library that a crate names in at most this many files: the paths that go without it, the crate, the library, the files."""
    whole = sum(paths(below, libraries).values())
    for crate, names in below.items():
        files = named(crate)
        for name in names:
            if files.get(name, 0) <= most:
                less = {**below, crate: [other for other in names if other != name]}
                yield whole - sum(paths(less, libraries).values()), crate, name, files.get(name, 0)


def main(words):
    answer_help(__doc__, words)
    if len(words) > 1 or words and not re.fullmatch(r"\d+", words[0]):
        return refuse(words)
    below, libraries = layers()
    counts = paths(below, libraries)
    for crate, count in counts.items():
        print(f"{count:8,}  {crate}")
    print(f"{sum(counts.values()):8,}  all")
    for less, crate, name, files in sorted(rare(below, libraries, int(words[0]) if words else 3), reverse=True):
        if less:
            print(f"{less:8,}  {crate} names {name} in {files} files")
    return 0


if __name__ == "__main__":
    sys.exit(main(sys.argv[1:]))
