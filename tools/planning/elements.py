"""XML as elements that know their line. A DTD is refused, and with it every entity of the file's own; nothing is ever fetched."""

import xml.parsers.expat as expat

NAMESPACE = "http://www.profibus.com/GSDML/2003/11/DeviceProfile"
# More than any GSDML file has; they keep a hostile one from taking all memory.
LONGEST = 64 << 20
MOST_ELEMENTS = 1_000_000
DEEPEST = 64


class Refused(Exception):
    """What is wrong, and the line of the element that it is about."""

    def __init__(self, line, what):
        super().__init__(what)
        self.line, self.what = line, what


class Element:
    """An element: its name without the namespace of GSDML, its line, its attributes and its children."""

    __slots__ = ("name", "line", "attributes", "children")

    def __init__(self, name, line, attributes):
        self.name, self.line, self.attributes, self.children = name, line, attributes, []

    def all(self, path):
        """The elements at a path of names, in the order of the file."""
        found = [self]
        for name in path.split("/"):
            found = [child for element in found for child in element.children if child.name == name]
        return found

    def first(self, path):
        """The first element at a path, or None."""
        return next(iter(self.all(path)), None)

    def need(self, path):
        """The first element at a path, which must be there."""
        found = self.first(path)
        if found is None:
            raise Refused(self.line, f"{self.name} has no {path}")
        return found

    def get(self, name, default=None):
        return self.attributes.get(name, default)

    def text(self, name):
        """An attribute that must be there."""
        if name not in self.attributes:
            raise Refused(self.line, f"{self.name} has no {name}")
        return self.attributes[name]


class Builder:
    """Makes elements of what the parser reports."""

    def __init__(self):
        self.parser = expat.ParserCreate(namespace_separator="}")
        self.parser.StartElementHandler = self.begin
        self.parser.EndElementHandler = self.end
        self.parser.StartDoctypeDeclHandler = self.refuse_doctype
        self.parser.EntityDeclHandler = self.refuse_doctype
        self.parser.ExternalEntityRefHandler = self.refuse_doctype
        self.parser.SetParamEntityParsing(expat.XML_PARAM_ENTITY_PARSING_NEVER)
        self.root, self.open, self.count = None, [], 0

    def line(self):
        return self.parser.CurrentLineNumber

    def refuse_doctype(self, *_):
        raise Refused(self.line(), "it has a document type declaration (DTD), and no GSDML file has one: entities are not read")

    def begin(self, name, attributes):
        self.count += 1
        if self.count > MOST_ELEMENTS:
            raise Refused(self.line(), f"it has more than {MOST_ELEMENTS:,} elements")
        if len(self.open) >= DEEPEST:
            raise Refused(self.line(), f"its elements are nested more than {DEEPEST} deep")
        if name.startswith(NAMESPACE + "}"):
            name = name[len(NAMESPACE) + 1:]
        element = Element(name, self.line(), attributes)
        if self.open:
            self.open[-1].children.append(element)
        else:
            self.root = element
        self.open.append(element)

    def end(self, _):
        self.open.pop()


def read(octets):
    """The root of an XML text."""
    if len(octets) > LONGEST:
        raise Refused(1, f"it has {len(octets):,} octets, and {LONGEST:,} is the most")
    builder = Builder()
    try:
        builder.parser.Parse(octets, True)
    except expat.ExpatError as fault:
        raise Refused(fault.lineno, f"it is not well-formed XML: {expat.ErrorString(fault.code)}") from None
    except (LookupError, ValueError):
        raise Refused(1, "its encoding is not one that is read") from None
    return builder.root
