"""What is proved, as modules of the crate's documentation: the lists that ci/proved and ci/laws make of the sources.

They are there where these scripts are: in a clone, and so for who names a path or a git URL, but not in what cargo packs. The scripts take
Python 3.11.
"""

import importlib.machinery
import importlib.util
import os
import re
import sys

HEAD = """\
//! What the prover has shown of each public function: a module for each proved crate, the laws too, with its clauses and the
//! definitions that clauses cite.
//!
//! A clause holds for every input that the function's `requires` lets in; without a `requires` it accepts every input. In a clause
//! `result` is what the function returns, `x.old` and `x.new` are a value before and after the call. The clause in the source decides.
//! The translation into Rust is not proved.
#![allow(rustdoc::broken_intra_doc_links, rustdoc::invalid_html_tags, rustdoc::bare_urls)]
"""
NONE = "//!\n//! There are no such lists here: they are made in a clone of the repository, by Python 3.11 or later.\n"
DEPENDS = "what_laws_depend_on"


def script(folder, name):
    """The functions of a script of this folder."""
    loader = importlib.machinery.SourceFileLoader(name.replace("-", "_"), os.path.join(folder, name))
    module = importlib.util.module_from_spec(importlib.util.spec_from_loader(loader.name, loader))
    loader.exec_module(module)
    return module


def by_crate(page):
    """The parts of a page under heads of the third level, by their heads."""
    parts = re.split(r"(?m)^### (\w+)\n", page)
    return {name: re.sub(r"(?m)^## .*\n", "", text).strip() + "\n" for name, text in zip(parts[1::2], parts[2::2])}


def with_plain_blocks(text):
    """The text with blocks of code that are no Rust."""
    blocks = text.split("```")
    return "".join(block + ("" if at == len(blocks) - 1 else "```" if at % 2 else "```text") for at, block in enumerate(blocks))


def files(top):
    """The files of these modules, by their paths."""
    folder = os.path.join(top, "ci")
    if sys.version_info < (3, 11) or not os.path.isfile(os.path.join(folder, "proved")):
        return {"mod.rs": HEAD.replace("#![", f"{NONE}#![", 1)}
    sys.path.insert(0, folder)
    proved, laws = script(folder, "proved"), script(folder, "laws")
    crates = list(proved.libraries(top))
    clauses, definitions = by_crate(proved.clauses_page(crates)), by_crate(proved.definitions_page(crates))
    made = {name: text + (f"\n# Definitions\n\n{definitions[name]}" if name in definitions else "") for name, text in clauses.items()}
    made[DEPENDS] = "\n".join(laws.page_of(laws.text_of(laws.DATA))) + "\n"
    lines = [HEAD] + [f'\n#[doc = include_str!("{name}.md")]\npub mod {name} {{}}\n' for name in made]
    return {"mod.rs": "".join(lines), **{f"{name}.md": with_plain_blocks(text) for name, text in made.items()}}
