#!/usr/bin/env python3
"""Whether the pages can be read: their limits, their links, and the clauses that they name.

A line of a table has at most 200 characters, a line of a paragraph or of a list 400, a sentence 45 words; a page has at most 350 lines and
begins with its title and a paragraph that says what it is for. README.md has at most 130 lines and 9,000 octets, and all pages together have
at most 400,000. Each page is reached by links from README.md, and each link leads to a page, and to a heading of it, that exists.

In README.md, docs/PROVED.md and docs/LAWS.md a claim is `crate::function` followed by clauses of it: each exists in the sources. Each claim of
README.md's section "What is proved" links a heading of docs/PROVED.md that names a clause; each law of docs/PROVED.md says what it holds
under (**If**), and its last section has a row for each crate. ci/documents calls this. By itself it looks at these pages, or at all.
Use: ci/limits.py [FOLDER] [PAGE..]
FOLDER is a repository with README.md, docs/ and crates/; this one if none is given.
"""

import os
import re
import subprocess
import sys

from program import TOP, answer_help, refuse

MOST_IN_TABLE, MOST_IN_LINE, MOST_WORDS, MOST_LINES = 200, 400, 45, 350
README, README_LINES, README_OCTETS = "README.md", 130, 9000
ALL_OCTETS = 400000
PROVED = "docs/PROVED.md"
# The pages that name clauses, and the sections that do so for a reader who wants to know what is proved.
CLAIMS = (README, PROVED, "docs/LAWS.md")
SECTION, CRATES = "What is proved", "What each crate says"
CODE = re.compile(r"`([^`]+)`")
LINK = re.compile(r"\[((?:[^\[\]]|\[[^\]]*\])*)\]\(([^)\s]+)\)")
# What is between two names of a claim.
BETWEEN = re.compile(r"[\s,]*(?:\b(and|both|each|clauses?|of it)\b[\s,]*)*")


def pages_of(top):
    """All pages of a repository."""
    listed = subprocess.run(["git", "ls-files", "-co", "--exclude-standard", "*.md"], cwd=top, capture_output=True, text=True)
    found = listed.stdout.splitlines()
    if listed.returncode:
        found = [os.path.relpath(os.path.join(at, name), top) for at, _, names in os.walk(top) for name in names if name.endswith(".md")]
    return sorted(page for page in set(found) if os.path.isfile(os.path.join(top, page)))


def text_of(top, path):
    with open(os.path.join(top, path), encoding="utf-8") as file:
        return file.read()


def lines_of(text):
    """Each line outside of blocks of code and of comments, with its number."""
    is_block = is_comment = False
    for number, line in enumerate(text.splitlines(), 1):
        if line.lstrip().startswith("```"):
            is_block = not is_block
            yield number, ""
        elif is_block:
            continue
        else:
            is_comment = is_comment or line.startswith("<!--")
            if not is_comment:
                yield number, line
            is_comment = is_comment and "-->" not in line


def pieces_of(text):
    """Each paragraph, item and cell, with the number of its first line."""
    number, held = 0, []
    for at, line in [*lines_of(text), (0, "")]:
        bare = line.strip()
        is_new = not bare or bare[0] in "|#" or re.match(r"([-*]|\d+\.) ", bare)
        if held and is_new:
            yield number, " ".join(held)
            held = []
        if bare.startswith("|"):
            yield from ((at, cell.strip()) for cell in bare.strip("|").split(" | "))
        elif bare:
            number = number if held else at
            held.append(re.sub(r"^([-*]|\d+\.|#+|>) ", "", bare))


def sentences_of(piece):
    """The sentences of a piece: code and links are a word each."""
    plain = LINK.sub(lambda found: found[1], CODE.sub("X", piece))
    return re.split(r"(?<=[.!?])[)\"'*_]*\s+(?=[^a-z])", plain)


def words_in(sentence):
    return sum(bool(re.search(r"\w", word)) for word in sentence.split())


def long_ones(text):
    """Lines and sentences that are too long, and a page that is."""
    for number, line in lines_of(text):
        most, what = (MOST_IN_TABLE, "a table") if line.lstrip().startswith("|") else (MOST_IN_LINE, "a paragraph")
        if len(line) > most:
            yield number, f"a line of {what} with {len(line)} characters, and at most {most} are allowed"
    for number, piece in pieces_of(text):
        for sentence in sentences_of(piece):
            if words_in(sentence) > MOST_WORDS:
                yield number, f"a sentence of {words_in(sentence)} words, and at most {MOST_WORDS} are allowed: {sentence[:60]} .."
    lines = text.count("\n")
    if lines > MOST_LINES:
        yield lines, f"{lines} lines, and at most {MOST_LINES} are allowed"


def lacking_beginning(text):
    """A page without a title, or without a paragraph after it."""
    begun = [line for _, line in lines_of(text) if line.strip()][:2]
    if not begun or not begun[0].startswith("# "):
        yield 1, "the page does not begin with its title"
    elif len(begun) < 2 or begun[1][0] in "#|-":
        yield 1, "the page does not say first what it is for"


def anchors_of(text):
    """The names of a page's headings, as GitHub makes them."""
    found = {}
    for _, line in lines_of(text):
        head = re.match(r"#+ (.*)", line)
        if head:
            plain = LINK.sub(lambda link: link[1], head[1]).lower()
            slug = re.sub(r"[^\w\- ]", "", plain).strip().replace(" ", "-")
            found[slug] = found.get(slug, -1) + 1
    return {f"{slug}-{count}" if count else slug for slug, last in found.items() for count in range(last + 1)}


def links_of(page, text):
    """The number of the line, the page and the heading of each link that stays in the repository, and its text."""
    for number, line in lines_of(text):
        for _, target in LINK.findall(CODE.sub(lambda code: "x" * len(code[0]), line)):
            if not re.match(r"\w+:", target):
                path, _, anchor = target.partition("#")
                yield number, os.path.normpath(os.path.join(os.path.dirname(page), path)) if path else page, anchor, target


def lost_links(top, page, text, texts):
    for number, path, anchor, target in links_of(page, text):
        if not os.path.exists(os.path.join(top, path)):
            yield number, f"the link {target} leads nowhere"
        elif anchor and path in texts and anchor not in anchors_of(texts[path]):
            yield number, f"{path} has no heading #{anchor}"


def unreached(texts):
    """Pages that no chain of links from README leads to."""
    found, left = {README}, [README]
    while left:
        page = left.pop()
        new = {path for _, path, _, _ in links_of(page, texts.get(page, "")) if path in texts} - found
        found |= new
        left += new
    return sorted(set(texts) - found)


def clauses_in(top):
    """The clauses of each function of the crates, by crate, type and name."""
    found = {}
    for crate in sorted(os.listdir(os.path.join(top, "crates"))):
        for at, _, names in os.walk(os.path.join(top, "crates", crate, "src")):
            for name in names:
                if name.endswith(".rt"):
                    add_clauses(found, crate, text_of(at, name))
    return found


def add_clauses(found, crate, text):
    holder = name = ""
    for line in text.splitlines():
        head = re.match(r"(?:impl|pub trait)(?:<.*?>)? (?:[\w<>:]+ for )?(\w+)", line)
        if head:
            holder = head[1]
        elif line.startswith("}"):
            holder = ""
        head = re.match(r"( *)(?:pub(?:\(crate\))? )?fn (\w+)", line)
        if head:
            name = "::".join([crate, *([holder] if head[1] and holder else []), head[2]])
            found.setdefault(name, set())
        head = re.match(r" +(?:ensures|requires) (\w+) \{", line)
        if head and name:
            found[name].add(head[1])


def functions_named(code, crate, known):
    """The function that a name in backticks means, after one of this crate, or None."""
    if code in known:
        return code
    return f"{crate}::{code}" if crate and f"{crate}::{code}" in known else None


def claims_in(text, known, crates):
    """The number of the line, the functions and the clauses of each claim, and what is wrong with it."""
    for number, line in lines_of(text):
        place = 0
        while True:
            found = CODE.search(line, place)
            if not found:
                break
            place = found.end()
            crate = found[1].partition("::")[0]
            if not re.fullmatch(r"\w+(?:::\w+)+", found[1]) or crate not in crates:
                continue
            if found[1] not in known:
                yield number, [], [], f"no function {found[1]}"
                continue
            functions, clauses, fault, place = claim_at(line, place, found[1], known)
            yield number, functions, clauses, fault


def claim_at(line, place, function, known):
    """The functions and clauses of a claim that begins with this function."""
    functions, clauses, crate, are_all = [function], [], function.partition("::")[0], False
    while True:
        between = BETWEEN.match(line, place)
        are_all |= bool(re.search(r"\b(both|each)\b", between[0]))
        found = CODE.match(line, between.end())
        if not found or not re.fullmatch(r"\w+", found[1]):
            return functions, clauses, None, place
        own = [other for other in functions if found[1] in known[other]]
        other = functions_named(found[1], crate, known)
        if own and (len(own) == len(functions) or not are_all):
            clauses.append(found[1])
        elif other and not clauses:
            functions.append(other)
        elif other:
            return functions, clauses, None, place
        else:
            return functions, clauses, f"{' and '.join(functions)}: no clause {found[1]}", found.end()
        place = found.end()


def sections_of(text):
    """The number, the heading and the lines of each section, with those of its own sections."""
    lines = list(lines_of(text))
    heads = [(at, len(found[1]), found[2]) for at, (_, line) in enumerate(lines) for found in [re.match(r"(#+) (.*)", line)] if found]
    for index, (at, depth, head) in enumerate(heads):
        end = next((other for other, deep, _ in heads[index + 1:] if deep <= depth), len(lines))
        yield lines[at][0], head, lines[at + 1:end]


def items_of(lines):
    """Each item of a list at the margin, with its own lines."""
    held = []
    for number, line in lines:
        if re.match(r"[-*] ", line):
            if held:
                yield held
            held = [(number, line)]
        elif held and (line.startswith("  ") or not line):
            held.append((number, line))
        elif held:
            yield held
            held = []
    if held:
        yield held


def unclaimed(texts, known, crates):
    """Claims of README that lead to no clause of PROVED."""
    proved = texts.get(PROVED, "")
    with_clause = set()
    for number, head, lines in sections_of(proved):
        if any(clauses for _, _, clauses, _ in claims_in("\n".join(line for _, line in lines), known, crates)):
            with_clause |= anchors_of(f"# {head}\n")
    section = [lines for _, head, lines in sections_of(texts[README]) if head == SECTION]
    if not section:
        yield 1, f"there is no section '{SECTION}'"
    for item in items_of(section[0]) if section else ():
        text = "\n".join(line for _, line in item)
        led = {anchor for _, path, anchor, _ in links_of(README, text) if path == PROVED}
        if not led & with_clause:
            yield item[0][0], f"a claim that links no heading of {PROVED} with a clause: {item[0][1][:60]}"


def without_if(text, known, crates):
    """Laws of PROVED that do not say what they hold under."""
    for item in items_of(lines_of(text)):
        whole = "\n".join(line for _, line in item)
        if any(clauses for _, _, clauses, _ in claims_in(whole, known, crates)) and "**If**" not in whole:
            yield item[0][0], f"a law without its premises (**If**): {item[0][1][:60]}"


def crates_of(top):
    """The libraries and programs of crates.txt."""
    for line in text_of(top, "crates.txt").splitlines():
        head, colon, _ = line.partition("#")[0].partition(":")
        if colon:
            yield head.split()[0]


def without_row(top, text):
    """Crates that PROVED has no row for, and rows of what is no crate."""
    section = [(number, lines) for number, head, lines in sections_of(text) if head == CRATES]
    if not section:
        yield 1, f"there is no section '{CRATES}'"
        return
    number, lines = section[0]
    rows = [found[1] for _, line in lines for found in [re.match(r"\| `(\w+)` \|", line)] if found]
    there = list(crates_of(top))
    yield from ((number, f"no row for {crate}") for crate in there if crate not in rows)
    yield from ((number, f"a row for {crate}, which is not in crates.txt") for crate in rows if crate not in there)


def faults(top, chosen=()):
    """Each page, line and fault."""
    texts = {page: text_of(top, page) for page in pages_of(top)}
    known = clauses_in(top)
    crates = set(os.listdir(os.path.join(top, "crates")))
    for page, text in texts.items():
        if chosen and page not in chosen:
            continue
        found = [*long_ones(text), *lacking_beginning(text), *lost_links(top, page, text, texts)]
        if page in CLAIMS:
            found += [(number, fault) for number, _, _, fault in claims_in(text, known, crates) if fault]
        if page == README:
            lines, octets = text.count("\n"), len(text.encode())
            found += [(lines, f"{lines} lines, and at most {README_LINES} are allowed")] * (lines > README_LINES)
            found += [(lines, f"{octets} octets, and at most {README_OCTETS} are allowed")] * (octets > README_OCTETS)
            found += unclaimed(texts, known, crates)
        if page == PROVED:
            found += [*without_if(text, known, crates), *without_row(top, text)]
        yield from ((page, number, what) for number, what in sorted(found))
    if not chosen:
        yield from ((page, 1, "no chain of links from README.md leads to this page") for page in unreached(texts))
        whole = sum(len(text.encode()) for text in texts.values())
        if whole > ALL_OCTETS:
            yield README, 1, f"all pages together have {whole:,} octets, and at most {ALL_OCTETS:,} are allowed"


def main(words):
    answer_help(__doc__, words)
    top = words.pop(0) if words and os.path.isdir(words[0]) else TOP
    there = pages_of(top)
    if any(word not in there for word in words):
        return refuse(words)
    found = list(faults(top, words))
    for page, number, what in found:
        print(f"{page}:{number}: {what}")
    octets = sum(len(text_of(top, page).encode()) for page in there)
    print(f"{len(there)} pages with {octets:,} octets, {len(found) or 'no'} faults")
    return 1 if found else 0


if __name__ == "__main__":
    sys.exit(main(sys.argv[1:]))
