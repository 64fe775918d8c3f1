#!/usr/bin/env python3
"""Words that pages, comments and help texts do not use, because there is a plainer one, and where they are all the same.

Looked at are the pages, the headers of include/, the comments of crates/, and the comments and
printed texts of host/, boards/, examples/, tools/planning/ and pnscript. What is in backticks is a name and does not count. ci/documents calls this; by itself it lists what it finds.
Use: ci/words.py [--count]
"""

import collections
import io
import os
import re
import subprocess
import sys
import tokenize

from program import TOP, answer_help, refuse

# Each word with what is written in its place.
PLAINER = {
    r"told": "reported, told apart: distinguished",
    r"taken": "accepted",
    r"behind": "after, following",
    r"is none": "is not a .., does not exist, has no ..",
    r"a front of": "a prefix of",
    r"so many": "that many, n",
    r"stands": "is, exists, is stored, is active",
    r"hangs on": "depends on",
    r"reckoned": "computed",
    r"anew": "again",
    r"what is left": "the rest, the remaining",
    r"whatever comes": "for any input",
    r"of an earlier day": "on an older build",
    r"(?:is|are) to(?! (?:an?|the|all|each|this|that|it|its|one|another|other)\b)": "must",
}
ODD = re.compile(rf"\b(?:{'|'.join(PLAINER)})\b|(?<![\w-])None\.(?=\s|$)", re.IGNORECASE)
# A value in Python, and the end of a sentence that says of what there are none.
NOT_MEANT = re.compile(r"none\.$|is None$")
# The folders whose comments and texts are looked at.
TOPS = ("boards/", "crates/", "examples/", "host/", "include/", "tools/planning/", "pnscript")
# A line that contains one of these may have its word: it is a name of code in a string.
NAMES = ("told = io.StringIO()", "told.getvalue()", "behind(element)", "behind = (element)", "behind(icon)")
QUOTED = re.compile(r"`[^`]*`|\]\([^)]*\)")
# What is between words in the texts of programs, and a value of Python.
HOLE = re.compile(r"\{[^{}]*\}|%\S+|\bNone\b")


def odd_in(text):
    """The words of a text that have a plainer one."""
    for found in ODD.finditer(QUOTED.sub("", text)):
        if not NOT_MEANT.match(found[0]):
            yield found[0]


def comments_of_rattle(path, text):
    """The comments of a source or a definition, with their lines."""
    for number, line in enumerate(text.splitlines(), 1):
        if path.endswith(".antt"):
            found = re.search(r"(?:^|\s)--(?:\s+|$)(.*)", line)
        else:
            found = re.search(r"//[/!]?(.*)", re.sub(r'b?"(?:[^"\\]|\\.)*"' + r"|b?'(?:[^'\\]|\\.)'", "''", line))
        if found:
            yield number, found[1]


def texts_of_c(_, text):
    """The comments of a file in C, or of one like it, and its strings of several words."""
    for found in re.finditer(r'/\*.*?\*/|//[^\n]*|"(?:[^"\\\n]|\\.)*"', text, re.DOTALL):
        begin = text[: found.start()].count("\n") + 1
        if found[0][0] == "/" or " " in found[0].strip('" '):
            for number, line in enumerate(found[0].splitlines(), begin):
                yield number, HOLE.sub("", line) if found[0][0] == '"' else line


def texts_of_python(_, text):
    """The comments of a program in Python, and its strings of several words."""
    for token in tokenize.generate_tokens(io.StringIO(text).readline):
        if token.type == tokenize.COMMENT or token.type == tokenize.STRING and " " in token.string.strip("\"' "):
            for number, line in enumerate(token.string.splitlines(), token.start[0]):
                yield number, HOLE.sub("", line) if token.type == tokenize.STRING else line


def comments_of_shell(_, text):
    """The comments of a script, and of a file of settings."""
    for number, line in enumerate(text.splitlines(), 1):
        found = re.search(r"(?:^|\s)#(.*)", line)
        if found:
            yield number, found[1]


def all_lines(_, text):
    yield from enumerate(text.splitlines(), 1)


def reader_of(path, text):
    """How the texts of a file are found, or None if it is not looked at."""
    top, suffix = path.split("/")[0], os.path.splitext(path)[1]
    if top == "crates":
        return comments_of_rattle if suffix in (".rt", ".antt") else None
    if suffix in (".c", ".h", ".js", ".css", ".ld"):
        return texts_of_c
    if suffix == ".py" or text.startswith("#!") and "python" in text.splitlines()[0]:
        return texts_of_python
    if text.startswith("#!") or suffix in (".mk", ".service", ".conf") or path.endswith("Makefile"):
        return comments_of_shell
    return all_lines if suffix in (".1", ".8", ".html") else None


def odd_comments(files):
    """Each file and line of a comment or a printed text with a word that has a plainer one, and that word."""
    for path in files:
        if not path.startswith(TOPS) or not os.path.isfile(os.path.join(TOP, path)):
            continue
        with open(os.path.join(TOP, path), encoding="utf-8", errors="replace") as file:
            text = file.read()
        reader = reader_of(path, text)
        lines = text.splitlines()
        for number, found in reader(path, text) if reader else ():
            if not any(name in lines[number - 1] for name in NAMES):
                yield from ((path, number, word) for word in odd_in(found))


def main(words):
    answer_help(__doc__, words)
    if words not in ([], ["--count"]):
        return refuse(words)
    listed = subprocess.run(["git", "ls-files", "-co", "--exclude-standard"], cwd=TOP, stdout=subprocess.PIPE, text=True).stdout.splitlines()
    found = list(odd_comments(listed))
    if words:
        counted = collections.Counter((path.split("/")[0], word.lower()) for path, _, word in found)
        for (top, word), number in sorted(counted.items()):
            print(f"{number:6} {top:8} {word}")
    else:
        for path, number, word in found:
            print(f"{path}:{number}: the word '{word}'")
    print(f"{len(found) or 'no'} words")
    return 1 if found else 0


if __name__ == "__main__":
    sys.exit(main(sys.argv[1:]))
