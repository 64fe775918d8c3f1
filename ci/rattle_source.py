"""What the sources say: the modules of a crate, its public functions with their clauses, and the definitions of its specs. For ci/proved.

It reads crates.txt, crates/NAME/src/**.rt and crates/NAME/specs/**.antt as text. Public is what lib.rt gives out by `pub mod` and `pub use`.
"""

import os
import re

OPENING, CLOSING = "([{", ")]}"
# Comments, texts and characters, which may hold braces that open nothing. A `'` alone is a lifetime or part of a name.
QUIET = re.compile(r"//[^\n]*|/\*.*?\*/|(?<!\S)--[^\n]*|\"(?:\\.|[^\"\\])*\"|'(?:\\(?:u\{[^}]*\}|x..|.)|[^\\'\n])'", re.DOTALL)
VISIBLE = re.compile(r"(pub)\b\s*(\([^)]*\))?\s*")
FUNCTION = re.compile(r"(?:const\s+|async\s+|unsafe\s+|extern\s*(?:\"[^\"]*\"|\s)\s*)*fn\s+(\w+)")
KEYWORD = re.compile(r"(struct|enum|union|trait|mod|use|const|static|type|macro_rules!|impl|ghost)\b")
# What a clause calls something: declared by a trait, and given by an `impl`.
WORD = re.compile(r"ghost\s+(\w+)\s*[:=]\s*\{")
CLAUSE = re.compile(r"\b(requires|ensures)(\*?)(?:\s+(\w+))?\s*$")


def libraries_in(text, is_antt):
    """The crates that a file names: `Rattle.NAME.` in definitions, proofs and ghost imports, `NAME::` in code. Comments do not count."""
    bare = re.sub(r"--.*" if is_antt else r"//[^\n]*", "", text)
    return re.findall(r"(?<![\w.])Rattle\.(\w+)", bare) + ([] if is_antt else re.findall(r"(?<![\w:.])(\w+)\s*::", bare))


class Broken(Exception):
    """A source that cannot be read, with its file and line."""


def masked(text):
    """The text with spaces for each comment, text and character: as long, and with the same lines."""
    return QUIET.sub(lambda found: re.sub(r"[^\n]", " ", found[0]), text)


class Clause:
    """One `requires` or `ensures`, with the comment above it and the clauses that share that comment."""

    def __init__(self, kind, name, text, lines):
        self.kind, self.name, self.text, self.lines = kind, name, text, lines
        self.comment, self.is_first = "", True


class Function:
    """A function with its clauses, and the definitions that are imported there."""

    def __init__(self, module, name, doc, clauses, imports):
        self.module, self.name, self.doc, self.clauses, self.imports = module, name, doc, clauses, imports


class Item:
    """A type, a trait, a function or a constant of a module. A trait has words of its own for its clauses."""

    def __init__(self, kind, name, is_public, doc, function=None, methods=(), words=None):
        self.kind, self.name, self.is_public, self.doc, self.function = kind, name, is_public, doc, function
        self.methods, self.words = list(methods), words or {}


class Holding:
    """An `impl`: the type and the trait as they are written, its functions with whether each is public, what its words for clauses
    mean, and what is imported there."""

    def __init__(self, module, holder, trait, methods, words, imports):
        self.module, self.holder, self.trait, self.methods, self.words, self.imports = module, holder, trait, methods, words, imports

    def trait_name(self):
        """The name of the trait, without what it is a trait of."""
        return re.match(r"[\w:]*", self.trait)[0].split("::")[-1]


class Module:
    """A module: a file of a crate, or a block of one."""

    def __init__(self, crate, path, file, top):
        self.crate, self.path, self.file, self.top = crate, path, file, top
        self.items, self.uses, self.children, self.holdings = {}, [], {}, []

    def read(self):
        with open(os.path.join(self.top, self.file), encoding="utf-8") as file:
            text = file.read()
        Reader(self, text).items(0, len(text))
        return self


def sentence_of(doc):
    """The first sentence of a comment."""
    first = re.split(r"\n\s*\n", doc.strip())[0]
    first = " ".join(first.split())
    end = re.search(r"(?<![ (][A-Za-z])[.!?](?=\s+[A-Z0-9`(]|$)", first)
    return first[: end.end()] if end else first


def used(text):
    """The paths of a `use`, each with its parts and the name that it gets here. The parts of all names of a module end with `*`."""
    text = text.strip()
    brace = text.find("{")
    if brace >= 0:
        front = [part for part in re.split(r"::|\.", text[:brace].strip()) if part]
        inner, depth, begin = text[brace + 1: text.rindex("}")], 0, 0
        pieces = []
        for at, letter in enumerate(inner + ","):
            depth += (letter == "{") - (letter == "}")
            if letter == "," and depth == 0:
                pieces.append((inner + ",")[begin:at])
                begin = at + 1
        for piece in pieces:
            for parts, name in used(piece) if piece.strip() else ():
                yield (front, front[-1]) if parts == ["self"] else (front + parts, name)
        return
    path, _, alias = (part.strip() for part in text.partition(" as "))
    parts = [part.strip() for part in re.split(r"::|\.", path) if part.strip()]
    if parts:
        yield parts, alias or parts[-1]


class Reader:
    """Reads the items of a module from its text."""

    def __init__(self, module, text, imports=()):
        self.module, self.text, self.quiet, self.imports, self.words = module, text, masked(text), list(imports), {}
        self.closing, opened = {}, []
        for found in re.finditer(r"[()\[\]{}]", self.quiet):
            if found[0] in OPENING:
                opened.append(found.start())
            elif not opened or OPENING.index(self.quiet[opened[-1]]) != CLOSING.index(found[0]):
                self.fail(found.start(), "this bracket closes none")
            else:
                self.closing[opened.pop()] = found.start()
        if opened:
            self.fail(opened[-1], "this bracket is not closed")

    def inside(self, module):
        """A reader of a block of the same text."""
        made = Reader.__new__(Reader)
        made.module, made.text, made.quiet, made.closing, made.imports = module, self.text, self.quiet, self.closing, list(self.imports)
        made.words = {}
        return made

    def fail(self, at, what):
        raise Broken(f"{self.module.file}:{self.text.count(chr(10), 0, at) + 1}: {what}")

    def after(self, at):
        """The place after the bracket that closes the one at a place."""
        return self.closing[at] + 1

    def next_of(self, at, end, letters):
        """The next place outside of brackets with one of these letters."""
        wanted = re.compile("[" + re.escape(letters + OPENING) + "]")
        while at < end:
            found = wanted.search(self.quiet, at, end)
            if not found or found[0] in letters:
                return found.start() if found else end
            at = self.after(found.start())
        return end

    def doc_above(self, begin, floor):
        """The `///` comment above a place."""
        lines = self.text[floor:begin].splitlines()
        found = [line.strip()[3:].removeprefix(" ") for line in lines if line.strip().startswith("///")]
        return "\n".join(found)

    def skip(self, at, end):
        """The place of the next item, after attributes and blanks."""
        while at < end:
            if self.quiet[at].isspace() or self.quiet[at] == ";":
                at += 1
            elif self.quiet[at] == "#":
                at = self.after(self.quiet.index("[", at))
            else:
                return at
        return end

    def heads(self, begin, end):
        """Each item with its place, the place after its visibility, whether it is public, and its doc comment."""
        at = floor = begin
        while True:
            at = self.skip(at, end)
            if at >= end:
                return
            seen = VISIBLE.match(self.quiet, at)
            head = seen.end() if seen else at
            place = yield at, head, bool(seen and not seen[2]), self.doc_above(at, floor)
            at = floor = place

    def walk(self, begin, end, take):
        """Hands each item to `take`, which says where it ends."""
        heads = self.heads(begin, end)
        try:
            head = next(heads)
            while True:
                head = heads.send(take(*head))
        except StopIteration:
            return

    def items(self, begin, end):
        self.collect_imports(begin, end)
        self.walk(begin, end, lambda at, head, is_public, doc: self.item(at, head, end, is_public, doc))

    def collect_imports(self, begin, end):
        """The definitions that `ghost use` names directly inside of these places."""
        for found in re.finditer(r"(?<!\S)ghost\s+use\s+", self.quiet[begin:end]):
            at = begin + found.start()
            if self.depth(begin, at) == 0:
                close = self.next_of(begin + found.end(), end, ";")
                self.imports.extend(used(self.text[begin + found.end():close]))

    def depth(self, begin, at):
        part = self.quiet[begin:at]
        return sum(part.count(letter) for letter in OPENING) - sum(part.count(letter) for letter in CLOSING)

    def item(self, at, head, end, is_public, doc):
        """Keeps one item of a module. Returns the place after it."""
        function = FUNCTION.match(self.text, head)
        if function:
            made, place = self.function(function, doc, end)
            self.module.items[made.name] = Item("fn", made.name, is_public, doc, made)
            return place
        kind = KEYWORD.match(self.quiet, head)
        if not kind:
            # A call of a macro, or what else has no name that others see.
            place = self.next_of(head, end, ";{")
            return self.after(place) if place < end and self.quiet[place] == "{" else place + 1
        return self.known(kind[1], kind.end(), end, is_public, doc)

    def known(self, kind, head, end, is_public, doc):
        name = re.compile(r"\s*(\w+)").match(self.quiet, head)
        if kind in ("use", "const", "static", "type", "ghost"):
            place = self.next_of(head, end, ";")
            if kind == "use":
                self.module.uses.extend((is_public, parts, alias) for parts, alias in used(self.quiet[head:place]))
            elif kind != "ghost" and name:
                self.module.items[name[1]] = Item(kind, name[1], is_public, doc)
            return place + 1
        place = self.next_of(head, end, ";{")
        if kind == "mod" and place < end and self.quiet[place] == ";":
            self.child(name[1], is_public)
            return place + 1
        if place >= end or self.quiet[place] == ";":
            if kind in ("struct", "enum", "union"):
                self.module.items[name[1]] = Item(kind, name[1], is_public, doc)
            return place + 1
        close = self.after(place)
        self.block(kind, name[1] if name else "", head, place, close, is_public, doc)
        return close

    def block(self, kind, name, head, place, close, is_public, doc):
        """Keeps an item that has a block of braces."""
        if kind == "mod":
            inner = Module(self.module.crate, (*self.module.path, name), self.module.file, self.module.top)
            self.module.children[name] = (is_public, inner)
            self.inside(inner).items(place + 1, close - 1)
        elif kind == "trait":
            inner = self.inside(self.module)
            methods = [made for _, made in inner.methods(place + 1, close - 1)]
            self.module.items[name] = Item(kind, name, is_public, doc, None, methods, inner.words)
        elif kind == "impl":
            holder, trait = self.holder(head, place)
            inner = self.inside(self.module)
            methods = inner.methods(place + 1, close - 1)
            self.module.holdings.append(Holding(self.module, holder, trait, methods, inner.words, inner.imports))
        elif kind in ("struct", "enum", "union"):
            self.module.items[name] = Item(kind, name, is_public, doc)

    def child(self, name, is_public):
        """A module in a file of its own."""
        own = () if self.module.file.endswith("/mod.rt") else self.module.path[-1:]
        stem = os.path.join(os.path.dirname(self.module.file), *own, name)
        for file in (stem + ".rt", os.path.join(stem, "mod.rt")):
            if os.path.isfile(os.path.join(self.module.top, file)):
                inner = Module(self.module.crate, (*self.module.path, name), file, self.module.top)
                self.module.children[name] = (is_public, inner.read())
                return
        raise Broken(f"{self.module.file}: the module {name} has no file {stem}.rt")

    def holder(self, head, place):
        """The type that an `impl` is for, and its trait."""
        text, depth, begin = self.quiet[head:place].strip(), 0, 0
        if text.startswith("<"):
            for begin, letter in enumerate(text):
                depth += (letter == "<") - (letter == ">" and text[begin - 1] not in "-=")
                if depth == 0:
                    break
            text = text[begin + 1:]
        text = re.split(r"\bwhere\b", text)[0]
        parts = re.split(r"\bfor\b(?!\s*<)", text)
        name = re.search(r"[A-Za-z_]\w*(?:::[A-Za-z_]\w*)*", re.sub(r"'\w+|\b(?:dyn|mut)\b", "", parts[-1]))
        return name[0] if name else "", " ".join(parts[0].split()) if len(parts) > 1 else ""

    def methods(self, begin, end):
        """The functions of a block, each with whether it is public. What is imported there is kept, and its words for clauses: the doc
        comment of each, and what it means."""
        found = []
        self.collect_imports(begin, end)

        def take(_, head, is_public, doc):
            function = FUNCTION.match(self.text, head)
            if not function:
                word = WORD.match(self.quiet, head)
                if word:
                    self.words[word[1]] = (doc, " ".join(self.text[word.end():self.after(word.end() - 1) - 1].split()))
                return self.next_of(head, end, ";") + 1
            made, place = self.function(function, doc, end)
            found.append((is_public, made))
            return place

        self.walk(begin, end, take)
        return found

    def function(self, head, doc, end):
        """A function and the place after it."""
        at, begin, clauses = head.end(), head.end(), []
        while True:
            place = self.next_of(at, end, ";{")
            if place >= end or self.quiet[place] == ";":
                break
            close = self.after(place)
            clause = CLAUSE.search(self.quiet, at, place)
            if clause:
                clauses.append(self.clause(clause, place, close, begin))
                begin = close
            elif not re.search(r"\bghost\s+\w+\s*:\s*$", self.quiet[at:place]):
                place = close - 1
                break
            at = close
        return Function(self.module, head[1], doc, grouped(clauses), list(self.imports)), place + 1

    def clause(self, found, place, close, begin):
        made = Clause(found[1], found[3] or "", " ".join(self.text[place + 1:close - 1].split()), dedented(self.text, place + 1, close - 1))
        lines = self.text[begin:found.start()].split("\n")[1:-1]
        # What is above it, the nearest first: its comment, up to a blank line or other text.
        comment = []
        for line in reversed(lines):
            if not line.strip().startswith("//"):
                break
            comment.insert(0, line.strip().lstrip("/").strip())
        made.comment = " ".join(comment)
        made.is_apart = any(not line.strip() for line in lines)
        return made


def dedented(text, begin, end):
    """The lines of a clause, as they are written, without what all but the first are indented by."""
    lines = text[begin:end].strip().split("\n")
    rest = [line for line in lines[1:] if line.strip()]
    indent = min((len(line) - len(line.lstrip()) for line in rest), default=0)
    return [lines[0], *("    " + line[indent:].rstrip() for line in lines[1:])]


def grouped(clauses):
    """The clauses in groups, each under one comment: a clause without a comment belongs to the one above it, unless a blank line separates them."""
    groups = []
    for clause in clauses:
        if groups and not clause.comment and not clause.is_apart and groups[-1][0].comment and groups[-1][0].kind == clause.kind:
            groups[-1].append(clause)
        else:
            groups.append([clause])
    return groups


def root_of(top, crate):
    """The root module of a library, or None of what is no library."""
    file = os.path.join("crates", crate, "src", "lib.rt")
    if not os.path.isfile(os.path.join(top, file)):
        return None
    module = Module(crate, (), file, top)
    return module.read()


def doc_of(top, crate):
    """What a library says of itself: the `//!` comment of its root."""
    with open(os.path.join(top, "crates", crate, "src", "lib.rt"), encoding="utf-8") as file:
        return "\n".join(line.strip()[3:].removeprefix(" ") for line in file if line.startswith("//!"))


def all_modules(root):
    yield root
    for _, child in root.children.values():
        yield from all_modules(child)


class Names:
    """What the names of a crate mean."""

    def __init__(self, root):
        self.root, self.modules = root, {module.path: module for module in all_modules(root)}

    def path(self, module, parts, seen=()):
        """The module, or the item with its module, that a path names; None if another crate has it."""
        if parts[0] == "crate":
            module, parts = self.root, parts[1:]
        while parts and parts[0] in ("self", "super"):
            module, parts = module if parts[0] == "self" else self.modules[module.path[:-1]], parts[1:]
        found = (module, None)
        for part in parts:
            if found is None or found[1] is not None:
                return None
            found = self.name(found[0], part, seen)
        return found

    def name(self, module, name, seen=()):
        if (module.path, name) in seen:
            return None
        seen = (*seen, (module.path, name))
        if name in module.items:
            return module, module.items[name]
        if name in module.children:
            return module.children[name][1], None
        for _, parts, alias in module.uses:
            if parts[-1] == "*":
                inner = self.path(module, parts[:-1], seen) if parts[:-1] else None
                found = self.name(inner[0], name, seen) if inner and inner[1] is None else None
                if found:
                    return found
            elif alias == name:
                return self.path(module, parts, seen)
        return None

    def public(self, module=None, prefix=(), seen=frozenset()):
        """Each public item with its module and its shortest path."""
        module = module or self.root
        if module.path in seen:
            return
        seen = seen | {module.path}
        for item in module.items.values():
            if item.is_public:
                yield (*prefix, item.name), module, item
        for name, (is_public, child) in module.children.items():
            if is_public:
                yield from self.public(child, (*prefix, name), seen)
        for is_public, parts, alias in module.uses:
            if not is_public:
                continue
            found = self.path(module, parts[:-1] if parts[-1] == "*" else parts)
            if found is None:
                continue
            if found[1] is not None:
                yield (*prefix, alias), *found
            elif parts[-1] == "*":
                yield from self.public(found[0], prefix, seen)
            else:
                yield from self.public(found[0], (*prefix, alias), seen)


class Public:
    """The public functions of a crate: each with its name, the shortest path from the crate on."""

    def __init__(self, root):
        self.names = Names(root)
        self.paths = {}
        for path, module, item in self.names.public():
            known = self.paths.get(id(item))
            if known is None or len(path) < len(known[0]):
                self.paths[id(item)] = (path, module, item)

    def of_type(self, holding):
        found = self.names.path(holding.module, holding.holder.split("::")) if holding.holder else None
        return found[1] if found else None

    def functions(self):
        """Each function with its name, in the order of the sources; those of a type are where the type is."""
        entries = {}
        for module in all_modules(self.names.root):
            for item in module.items.values():
                if id(item) in self.paths:
                    path = "::".join(self.paths[id(item)][0])
                    own = [(path, item.function)] if item.function else [(f"{path}::{made.name}", made) for made in item.methods]
                    entries.setdefault(id(item), []).extend(own)
        for module in all_modules(self.names.root):
            for holding in module.holdings:
                item = self.of_type(holding)
                if item is None or id(item) not in self.paths:
                    continue
                path = "::".join(self.paths[id(item)][0])
                for is_public, made in holding.methods:
                    if is_public and not holding.trait or holding.trait and made.clauses:
                        entries.setdefault(id(item), []).append((f"{path}::{made.name}", made))
        for own in entries.values():
            yield from own

    def trait_of(self, holding):
        """The crate and the name of the trait of an `impl`."""
        name, module = holding.trait_name(), holding.module
        found = self.names.path(module, re.match(r"[\w:]*", holding.trait)[0].split("::"))
        if found:
            return module.crate, found[1].name if found[1] else ""
        front = next((parts[0] for _, parts, alias in module.uses if alias == name), "")
        return front, name

    def holdings(self):
        """Each `impl` of a trait for a public type, with the path of the type. A trait that is private to the crate says nothing."""
        for module in all_modules(self.names.root):
            for holding in module.holdings:
                item = self.of_type(holding)
                trait = self.names.path(module, re.match(r"[\w:]*", holding.trait)[0].split("::")) if holding.trait else None
                if trait and id(trait[1]) not in self.paths:
                    continue
                if holding.trait and item is not None and id(item) in self.paths:
                    yield "::".join(self.paths[id(item)][0]), holding

    def traits(self):
        """Each public trait, with its path."""
        for path, _, item in self.paths.values():
            if item.kind == "trait":
                yield "::".join(path), item


class Specs:
    """The definitions of a crate's specs: by the path of their file and their name, the comment above each and how it begins."""

    HEAD = re.compile(r"^\s*(?:[a-z]+\s+)?pub\s+(?:(?:record|data)\s+)?(([^\s({:]+)\s*(?:[({:].*|where\b))")
    PART = re.compile(r"^\s+(?:pub\s+)?([^\s({:]+)\s*:")
    IMPORT = re.compile(r"^\s*pub use (Rattle\.[^\n]*)", re.MULTILINE)

    def __init__(self, top, crate):
        self.files, self.owners, self.passed_on = {}, {}, {}
        folder = os.path.join(top, "crates", crate, "specs")
        for at, folders, names in os.walk(folder):
            folders.sort()
            for name in sorted(names):
                if name.endswith(".antt"):
                    file = os.path.join(at, name)
                    path = os.path.relpath(file, folder)[: -len(".antt")].replace(os.sep, ".")
                    with open(file, encoding="utf-8") as opened:
                        self.read(path, opened.read())

    def read(self, path, text):
        found, owners, comment, data, owner = {}, {}, [], None, ""
        for line in text.splitlines():
            bare, indent = line.strip(), len(line) - len(line.lstrip())
            if bare.startswith("--"):
                comment.append(bare.lstrip("-").strip())
                continue
            # How an operator binds is written between its comment and its definition.
            if re.match(r"infix[lr]?\b", bare):
                continue
            head = self.HEAD.match(line)
            # The fields of a record and the cases of a kind are part of it.
            if data is not None and bare and indent <= data:
                data = None
            if head and data is None and not bare.startswith(("pub use ", "pub mod ")):
                found.setdefault(head[2], (" ".join(comment), head[1].removesuffix(" where")))
                if re.search(r"\bpub (record|data) ", line):
                    data, owner = indent, head[2]
            part = self.PART.match(line)
            if part and data is not None and indent > data:
                owners.setdefault(part[1], owner)
            comment = []
        self.files[path], self.owners[path] = found, owners
        self.passed_on[path] = [it for use in self.IMPORT.findall(text) for it in used(use)]
