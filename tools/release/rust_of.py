"""Rust from the proved sources: contracts, ghost items and models go, code stays with its documents and comments.

The proved sources are Rust with clauses (`requires`, `ensures`), items for proofs alone (`ghost ..`, `impl Model`), and a few
words of their own (`Drop` as a bound, `final fn`, a handle `rt` in assertions). This takes these out, by tokens, and changes
nothing else. What it does not know it leaves for the Rust compiler to refuse.
"""

import re

TOKEN = re.compile(
    r"""
    (?P<space>\s+)
  | (?P<doc>//[/!](?!/)[^\n]*)
  | (?P<comment>//[^\n]*|/\*.*?\*/)
  | (?P<text>b?r\#*".*?"\#*|[bc]?"(?:\\.|[^"\\])*")
  | (?P<char>b?'(?:\\(?:x[0-9a-fA-F]{2}|u\{[^}]*\}|.)|[^'\\\n])')
  | (?P<lifetime>'[A-Za-z_]\w*)
  | (?P<word>[A-Za-z_]\w*)
  | (?P<number>\d\w*)
  | (?P<mark>.)
    """,
    re.VERBOSE | re.DOTALL,
)

OPENING = {"(": ")", "[": "]", "{": "}"}


class Token:
    """A token of a source: what it is, and its text."""

    __slots__ = ("kind", "text")

    def __init__(self, kind, text):
        self.kind, self.text = kind, text

    def is_code(self):
        return self.kind not in ("space", "doc", "comment")


class NotTranslated(Exception):
    """A form of the proved sources that has no translation here."""


def tokens_of(text):
    """The tokens of a source, in which antt may be in braces after the words of a clause."""
    found, place = [], 0
    while place < len(text):
        match = TOKEN.match(text, place)
        found.append(Token(match.lastgroup, match.group()))
        place = match.end()
        if found[-1].text in ("requires", "ensures", "ghost"):
            place = behind_clause(text, place, found[-1])
    return found


def behind_clause(text, place, word):
    """Where what begins with this word ends: a clause with its braces, or a ghost item with its `;` or `,`. The token takes it all.
    What a function binds for its clauses alone precedes them, and has neither."""
    start = place
    if word.text == "ghost" and text[place:].lstrip().startswith("use "):
        place = text.index(";", place) + 1
    else:
        place = behind_braces(text, place)
        is_binder = re.match(r"\s*(?:requires|ensures|\{)", text[place:])
        if word.text == "ghost" and not is_binder:
            while text[place] not in ";,}":
                place = behind_braces(text, place) if text[place] == "{" else place + 1
            place += text[place] != "}"
    word.kind, word.text = word.text, word.text + text[start:place]
    return place


def behind_braces(text, place):
    """Where the braces that open next are closed. Texts in quotes are passed over."""
    place = text.index("{", place)
    depth = 0
    for match in re.compile(r'"(?:\\.|[^"\\])*"|[{}]').finditer(text, place):
        depth += {"{": 1, "}": -1}.get(match.group(), 0)
        if depth == 0:
            return match.end()
    raise NotTranslated("braces are not closed: " + text[place : place + 60])


def without_clauses(tokens):
    """Takes out clauses, and ghost items with their documents. A comment on a clause goes with it."""
    left = []
    for token in tokens:
        if token.kind in ("requires", "ensures"):
            drop_notes(left, ("doc", "comment"))
            drop_space(left)
        elif token.kind == "ghost":
            is_import = token.text.split()[1] == "use"
            drop_notes(left, () if is_import else ("doc", "comment"))
            if left and left[-1].text == "pub":
                left.pop()
        else:
            left.append(token)
    return left


def drop_space(tokens):
    while tokens and tokens[-1].kind == "space":
        tokens.pop()


def drop_notes(tokens, kinds):
    """Takes away the notes of these kinds at the end, down to an empty line, and the space in front of them."""
    while tokens:
        if tokens[-1].kind in kinds:
            tokens.pop()
        elif tokens[-1].kind == "space" and tokens[-1].text.count("\n") < 2 and len(tokens) > 1 and tokens[-2].kind in kinds:
            tokens.pop()
        else:
            return


def closing(tokens, place):
    """Where the bracket at this place is closed."""
    depth = 0
    for at in range(place, len(tokens)):
        if tokens[at].kind == "mark":
            depth += (tokens[at].text in "([{") - (tokens[at].text in ")]}")
            if depth == 0:
                return at
    raise NotTranslated("a bracket is not closed")


def body_of(tokens, place):
    """Where the body of the item that begins here opens, or where the item ends if it has none."""
    while place < len(tokens) and tokens[place].text not in ("{", ";"):
        place = closing(tokens, place) if tokens[place].text in ("(", "[") else place
        place += 1
    return place


def code_behind(tokens, place):
    """Where the next code is after this place."""
    place += 1
    while place < len(tokens) and not tokens[place].is_code():
        place += 1
    return place


def text_of(tokens):
    return "".join(token.text for token in tokens)


def without_attributes(tokens):
    """Takes out `#[tactic(..)]` and `#![tactic(..)]`, and `Drop` and `Error` as derives where they are not Rust's."""
    left, place = [], 0
    while place < len(tokens):
        if tokens[place].text == "#" and tokens[place].kind == "mark":
            opens = code_behind(tokens, place)
            if tokens[opens].text == "!":
                opens = code_behind(tokens, opens)
            if tokens[opens].text == "[":
                ends = closing(tokens, opens)
                name = tokens[code_behind(tokens, opens)].text
                if name in ("tactic", "cycle"):
                    place = ends + 1
                    if place < len(tokens) and tokens[place].kind == "space":
                        place += 1
                    continue
                if name == "derive":
                    names = re.findall(r"\w+(?:::\w+)*", text_of(tokens[opens + 2 : ends]))
                    names = [word for word in names if word != "Drop"]
                    if names:
                        left.append(Token("attribute", "#[derive(" + ", ".join(names) + ")]"))
                    elif tokens[ends + 1].kind == "space":
                        ends += 1
                    place = ends + 1
                    continue
        left.append(tokens[place])
        place += 1
    return left


def without_drop_bounds(tokens):
    """Takes out the bound `Drop`, which says there that a value may be dropped: in Rust each may."""
    left, place = [], 0
    while place < len(tokens):
        token = tokens[place]
        if token.kind == "word" and token.text == "Drop":
            before = [at for at in range(len(left)) if left[at].is_code()][-1]
            behind = code_behind(tokens, place)
            if left[before].text == "impl":
                raise NotTranslated("a destructor (`impl Drop`)")
            if left[before].text == ":" and tokens[behind].text == "{" and gives_itself(tokens, behind):
                left.append(Token("word", "Sized"))
                place += 1
                continue
            if left[before].text in ("+", ":") and tokens[behind].text != "+":
                del left[before:]
                place += 1
                continue
            if tokens[behind].text == "+":
                place = code_behind(tokens, behind)
                continue
        left.append(token)
        place += 1
    return left


def gives_itself(tokens, place):
    """Whether the trait whose body opens here has its own type in a slice or a result."""
    return bool(re.search(r"\[Self\]|<Self\b", text_of(tokens[place : closing(tokens, place)])))


def without_models(tokens):
    """Takes out each `impl .. Model for ..`, what a clause sees of a type, with the notes on it."""
    left, place = [], 0
    while place < len(tokens):
        if tokens[place].text == "impl" and tokens[place].kind == "word":
            opens = body_of(tokens, place)
            head = text_of(tokens[place:opens])
            if re.search(r"\bModel\s+for\b", head) and opens < len(tokens):
                drop_notes(left, ("doc", "comment"))
                place = closing(tokens, opens) + 1
                continue
        left.append(tokens[place])
        place += 1
    return left


def without_final(tokens):
    return [
        token
        for at, token in enumerate(tokens)
        if not (token.kind == "word" and token.text == "final" and tokens[code_behind(tokens, at)].text == "fn")
    ]


ASSERTING = ("assert", "assert_eq", "assert_ne", "panic")


def without_handles(tokens):
    """Takes the handle out of assertions: `assert_eq!(rt; a, b)`."""
    left, place = [], 0
    while place < len(tokens):
        left.append(tokens[place])
        if tokens[place].kind == "word" and tokens[place].text in ASSERTING and tokens[place + 1].text == "!":
            opens = place + 2
            depth, at = 0, opens
            while True:
                if tokens[at].kind == "mark":
                    depth += (tokens[at].text in "([{") - (tokens[at].text in ")]}")
                    if depth == 0 or (depth == 1 and tokens[at].text in ",;"):
                        break
                at += 1
            if tokens[at].text == ";" and depth == 1:
                left += [tokens[place + 1], tokens[opens]]
                place = code_behind(tokens, at)
                continue
        place += 1
    return left


def without_handle_of_expect(text):
    """`x.expect(rt, "..")` as `x.expect("..")`."""
    return re.sub(r"\.expect\(\s*&?(?:self\.)?rt,\s*", ".expect(", text)


def with_plain_tests(tokens):
    """A test that takes the handle and answers a `Result` as one of Rust's, which takes and answers nothing."""
    place = 0
    while place < len(tokens):
        if text_of(tokens[place : place + 4]) == "#[test]":
            place = plain_test(tokens, code_behind(tokens, place + 3))
        place += 1
    return tokens


def plain_test(tokens, place):
    """Changes the test whose `fn` is here. Gives where it ends."""
    opens = place
    while tokens[opens].text != "(":
        opens += 1
    closes = closing(tokens, opens)
    body = body_of(tokens, closes + 1)
    ends = closing(tokens, body)
    takes = closes > opens + 1
    answers = any(token.text == "Result" for token in tokens[closes:body])
    uses = "rt" if any(token.text == "rt" for token in tokens[body:ends]) else "_"
    if answers:
        front = Token("made", "() {\n    rattle_std::test::passes(|" + uses + "| {")
        tokens[ends] = Token("made", "})\n}")
    else:
        front = Token("made", "() {" + ("\n    let rt = HostRuntime;" if takes and uses == "rt" else ""))
    tokens[opens : body + 1] = [front]
    return ends - (body - opens)


def with_plain_main(text):
    """`fn main(rt: HostRuntime)` as Rust's, which makes the handle itself."""
    return re.sub(r"^fn main\(rt: HostRuntime\)([^{]*)\{\n", r"fn main()\1{\n    let rt = HostRuntime;\n", text, flags=re.MULTILINE)


def without_unused_turns(tokens):
    """Names what a loop counts `_` where nothing but its invariant used it."""
    for place, token in enumerate(tokens):
        if token.kind == "word" and token.text == "for":
            name = code_behind(tokens, place)
            behind = code_behind(tokens, name)
            if behind < len(tokens) and tokens[name].kind == "word" and tokens[behind].text == "in":
                body = body_of(tokens, place)
                inside = tokens[body : closing(tokens, body)]
                if not any(one.kind in ("word", "text") and re.search(rf"\b{tokens[name].text}\b", one.text) for one in inside):
                    tokens[name] = Token("word", "_")
    return tokens


def without_unused_imports(text):
    """Takes out what was imported for clauses alone."""
    for found in re.finditer(r"^use ((?:\w+::)+)(?:(\w+)|\{([^{}]*)\});\n", text, re.MULTILINE):
        rest = text.replace(found.group(), "", 1)
        names = [found.group(2)] if found.group(2) else [name.strip() for name in found.group(3).split(",") if name.strip()]
        kept = [name for name in names if is_used(name, found.group(1), rest)]
        if kept != names:
            line = "" if not kept else f"use {found.group(1)}{kept[0] if len(kept) == 1 and kept[0] != 'self' else '{' + ', '.join(kept) + '}'};\n"
            text = text.replace(found.group(), line, 1)
    return text


def is_used(name, path, rest):
    word = name.split(" as ")[-1] if name != "self" else path.rstrip(":").split("::")[-1]
    code = re.sub(r"//[^\n]*", "", rest)
    is_needed = any(word in names and re.search(rf"\b{macro}\b", code) for macro, names in NEEDED.items())
    return bool(re.search(rf"\b{word}\b", code)) or word == "*" or word in TRAITS or is_needed


# What a macro of another file needs where it is used, though its name is not there.
NEEDED = {"read_headed": ("read_fields", "version_at")}

# What is imported for its methods alone.
TRAITS = ("ByteOrder", "Flags", "Flash", "Write", "Sink", "Entry", "BufRead")


def without_unused_handles(tokens):
    """Names a handle `_rt` where nothing but assertions used it."""
    for place, token in enumerate(tokens):
        if token.kind == "word" and token.text == "fn" and tokens[code_behind(tokens, place)].kind == "word":
            body = body_of(tokens, place)
            if body == len(tokens) or tokens[body].text == ";":
                continue
            opens = place
            while tokens[opens].text != "(":
                opens += 1
            closes = closing(tokens, opens)
            if not any(one.kind == "word" and one.text == "rt" or "{rt" in one.text for one in tokens[body : closing(tokens, body)]):
                for at in range(opens, closes):
                    if tokens[at].text == "rt" and tokens[at + 1].text == ":":
                        tokens[at] = Token("word", "_rt")
    return tokens


def without_model_import(text):
    text = re.sub(r"^[ \t]*use std::marker::Model;\n", "", text, flags=re.MULTILINE)
    return re.sub(r"^([ \t]*use std::marker::)\{([^}]*)\};", lambda found: listed(found, "Model"), text, flags=re.MULTILINE)


def listed(found, gone):
    names = [name.strip() for name in found.group(2).split(",") if name.strip() and name.strip() != gone]
    return found.group(1) + (names[0] if len(names) == 1 else "{" + ", ".join(names) + "}") + ";"


def with_parts_of_slices(text):
    """An export that takes a slice, which C passes as a pointer and a length, as one that takes these two; and the allocator, of
    which C passes nothing, as a name in it."""
    for found in re.finditer(r'(unsafe )?extern "C" fn \w+\(([^)]*)\)[^{]*\{\n', text):
        head, made = found.group(), []
        for name, write, inside in re.findall(r"(\w+): &(mut )?\[(\w+)\]", found.group(2)):
            head = head.replace(f"{name}: &{write}[{inside}]", f"{name}: *{write or 'const '}{inside}, {name}_length: usize")
            parts = "from_raw_parts_mut" if write else "from_raw_parts"
            made.append(f"    // SAFETY: the caller guarantees that this many elements are there.\n    let {name} = unsafe {{ core::slice::{parts}({name}, {name}_length) }};\n")
        # It relies on what its caller says of the two.
        head = "unsafe " * (bool(made) and not found.group(1)) + head
        if re.search(r"\balloc: Global\b", head):
            head = re.sub(r",\s*alloc: Global\b", "", head)
            made.append("    let alloc = Global;\n")
        text = text.replace(found.group(), head + "".join(made))
    return text


# What the document of an export says of its pointers.
SAFETY = """\
///
/// # Safety
///
/// Each pointer leads to as much memory as the C header says of it, or a length beside it. Nobody else uses this memory during the call.
"""


def with_safety(text):
    """The documents of exports that are `unsafe`, with what their caller has to keep."""
    return re.sub(r'((?:^///[^\n]*\n)+)((?:^#\[[^\n]*\]\n)*^pub unsafe extern "C" fn)', rf"\1{SAFETY}\2", text, flags=re.MULTILINE)


def with_defaults(text):
    """A `Default` for each type that is made from nothing: Rust expects it beside such a `new`."""
    for found in re.finditer(r"^impl(<[^\n{]*?>)? (\w+)(<[^\n{]*>)? \{\n.*?^\}\n", text, re.MULTILINE | re.DOTALL):
        kinds, name, given = found[1] or "", found[2], found[3] or ""
        is_made = re.search(rf"^    pub fn new\(\) -> (?:Self|{name}\b[^\n{{]*?)\s*\{{", found.group(), re.MULTILINE)
        is_there = re.search(rf"\bDefault for {name}\b|#\[derive\([^)]*\bDefault\b[^)]*\)\]\n(?:pub(?:\([^)]*\))? )?struct {name}\b", text)
        if is_made and not is_there:
            made = f"\nimpl{kinds} Default for {name}{given} {{\n    fn default() -> Self {{\n        Self::new()\n    }}\n}}\n"
            text = text.replace(found.group(), found.group() + made)
    return text


def with_plain_proofs(text):
    """What a constant has the check prove, `prove!`, Rust's compiler computes: `assert!`."""
    return text.replace("const _: () = prove!(", "const _: () = assert!(")


def plain(text):
    """The Rust of a proved source."""
    tokens = tokens_of(without_handle_of_expect(text))
    tokens = without_clauses(tokens)
    tokens = without_attributes(tokens)
    tokens = without_models(tokens)
    tokens = without_drop_bounds(tokens)
    tokens = without_final(tokens)
    tokens = without_handles(tokens)
    tokens = with_plain_tests(tokens)
    tokens = without_unused_handles(tokens)
    tokens = without_unused_turns(tokens)
    text = with_plain_proofs(with_parts_of_slices(with_plain_main(text_of(tokens))))
    text = with_defaults(with_safety(text))
    return tidy(without_unused_imports(without_model_import(text)))


def tidy(text):
    """Lines as they would be written by hand: no empty one after an opening brace or before a closing one, none twice."""
    text = re.sub(r"[ \t]+\n", "\n", text)
    text = re.sub(r"\n{3,}", "\n\n", text)
    text = re.sub(r"\{\n\n+", "{\n", text)
    text = re.sub(r"\n\n+([ \t]*\})", r"\n\1", text)
    # A note on the whole file is by itself.
    text = re.sub(r"\A((?://(?![/!])[^\n]*\n)+)(?=use |pub use |mod |const |pub |struct |fn )", r"\1\n", text)
    return text.strip("\n") + "\n"
