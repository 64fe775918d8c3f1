"""The two lists of mutants. Those of the gate are files, crates/NAME/must-fail/EDIT.edit. The further ones of a crate are one file,
crates/NAME/mutants/all.edit, in which each begins with a line `edit: EDIT`; after it come the lines of a file of the gate."""

import os
import re

from program import TOP

NAME = re.compile(r"[A-Za-z0-9_-][A-Za-z0-9_.-]*")
ENDING = ".edit"
FURTHER, ALL = "mutants", "all.edit"


class Unreadable(Exception):
    """Why a list of edits cannot be read."""


def read(path):
    with open(path, encoding="utf-8") as file:
        return file.read()


def names_in(folder):
    return sorted(os.listdir(folder)) if os.path.isdir(folder) else []


def of_gate(crate, top=TOP):
    """The edits of a crate that the gate tries, by name."""
    folder = os.path.join(top, "crates", crate, "must-fail")
    strange = [name for name in names_in(folder) if not name.endswith(ENDING)]
    if strange:
        raise Unreadable(f"crates/{crate}/must-fail/{strange[0]}: an edit is a file that ends in {ENDING}")
    return {name[: -len(ENDING)]: read(os.path.join(folder, name)) for name in names_in(folder)}


def further(crate, top=TOP):
    """The further edits of a crate, by name."""
    folder = os.path.join(top, "crates", crate, FURTHER)
    strange = [name for name in names_in(folder) if name != ALL]
    if strange:
        raise Unreadable(f"crates/{crate}/{FURTHER}/{strange[0]}: the further edits of a crate are one file, {ALL}")
    path = os.path.join(folder, ALL)
    return parts(read(path), f"crates/{crate}/{FURTHER}/{ALL}") if os.path.exists(path) else {}


def parts(text, path):
    """The edits of a list, by name."""
    head, *others = re.split(r"^edit: ", text, flags=re.MULTILINE)
    if head.strip():
        raise Unreadable(f"{path}: it begins with a line `edit: NAME`")
    found = {}
    for part in others:
        name, _, rest = part.partition("\n")
        if name in found:
            raise Unreadable(f"{path}: {name} is there twice")
        found[name] = rest
    return found


def crates_with_further(top=TOP):
    return [name for name in names_in(os.path.join(top, "crates")) if os.path.isdir(os.path.join(top, "crates", name, FURTHER))]


def edit(name, top=TOP):
    """The text of an edit, CRATE/EDIT, of either list, or None if no list has it."""
    crate, _, own = name.partition("/")
    return {**of_gate(crate, top), **further(crate, top)}.get(own)
