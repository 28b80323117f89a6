"""WIT texts: what the grammar of docs/FORMATS.md reads, or the first fault at its token ("Refusals")."""
from dataclasses import replace

from . import component
from .tokens import KEYWORDS, MARKS, Token, refused, tokens_of
from .wit import (
    PRIMITIVES, Built, Function, Interface, Name, Package, PackageName, Path, Primitive, TypeDef, Use, World, WorldItem
)

MOST_DEPTH = 64
# what may be expected, the first of which is told
KINDS = {kind: place for place, kind in enumerate(["id", *KEYWORDS, *MARKS])}
DEFINITIONS = ("type", "record", "variant", "enum", "flags")
# tokens that begin what is left out, by where they stand
TYPES = {
    "f32": "float", "f64": "float", "own": "resource", "borrow": "resource", "stream": "stream", "future": "future",
    "map": "map", "error-context": "error-context", "async": "async",
}
TEXT = {"@": "gate"}
FILE_ITEMS = {"@": "gate", "use": "top-level-use", "package": "nested-package"}
ITEMS = {"@": "gate", "resource": "resource"}
WORLD_ITEMS = {"@": "gate", "include": "include", "use": "world-use"}
WORLD_ITEMS |= {word: "world-type" for word in (*DEFINITIONS, "resource")}
CASES = {"@": "gate"}
FUNCTIONS = {"async": "async"}


class Reader:
    """Reads one text: its tokens from left to right, and what was looked for at the next one."""

    def __init__(self, data):
        tokens, length = tokens_of(data)
        self.tokens, self.at, self.tried = [*tokens, Token("", "", length, length)], 0, []

    @property
    def token(self):
        """The next token; at the end it is of no kind."""
        return self.tokens[self.at]

    def next(self):
        """Passes the next token."""
        self.at, self.tried = self.at + 1, []
        return self.tokens[self.at - 1].text

    def sees(self, *kinds):
        """Whether the next token is of one of these kinds."""
        self.tried += kinds
        return self.token.kind in kinds

    def takes(self, kind):
        """Whether the next token is of this kind; it is passed then."""
        return self.sees(kind) and bool(self.next())

    def expected(self):
        """Refuses the next token, which is of no kind that was looked for."""
        kind = min(self.tried, key=KINDS.get)
        raise refused(f"32 expected {kind}", self.token.start, self.token.end)

    def want(self, *kinds):
        """Passes tokens of these kinds."""
        for kind in kinds:
            if not self.takes(kind):
                self.expected()

    def without(self, features):
        """Refuses the next token if it begins one of these features."""
        if self.token.kind in features:
            raise refused(f"33 unsupported {features[self.token.kind]}", self.token.start, self.token.end)

    # ---- names

    def id(self):
        """An identifier, without its `%`."""
        if not self.sees("id"):
            self.expected()
        return self.next()

    def lower(self):
        """An identifier of lower-case words."""
        if self.sees("id") and not component.LOWER.fullmatch(self.token.text):
            self.expected()
        return self.id()

    def version(self):
        """A version, or None."""
        if self.token.kind != "version":
            return None
        if not component.is_version(self.token.text[1:]):
            raise refused("32 expected version", self.token.start, self.token.end)
        return self.next()[1:]

    def several(self, end, item):
        """One item or more up to the end, with commas between and perhaps behind."""
        items = [item()]
        while self.takes(","):
            if self.takes(end):
                return tuple(items)
            items.append(item())
        self.want(end)
        return tuple(items)

    def path(self, first):
        """The path of an interface, whose first identifier and what stands behind that were read."""
        second = self.id()
        self.want("/")
        name = self.id()
        return Path(PackageName(first, second, self.version()), name)

    # ---- files

    def package(self):
        """The whole text."""
        self.without(TEXT)
        self.want("package")
        namespace = self.lower()
        self.want(":")
        name = self.lower()
        name = PackageName(namespace, name, self.version())
        self.without({"{": "nested-package"})
        self.want(";")
        items = []
        while self.token.kind:
            items.append(self.item())
        return Package(name, tuple(items))

    def item(self):
        """An interface or a world."""
        self.without(FILE_ITEMS)
        if self.takes("interface"):
            return self.interface()
        if self.takes("world"):
            return self.world()
        return self.expected()

    # ---- interfaces

    def interface(self):
        """An interface, behind its keyword."""
        name = self.id()
        uses, types, functions = [], [], []
        self.want("{")
        while not self.takes("}"):
            self.without(ITEMS)
            place = self.at
            if self.takes("use"):
                uses += self.uses(place)
            elif self.sees(*DEFINITIONS):
                types.append(replace(self.typedef(self.next()), place=place))
            else:
                functions.append(replace(self.named_function(), place=place))
        return Interface(name, tuple(uses), tuple(types), tuple(functions))

    def uses(self, place):
        """The names of a use, which begins there."""
        first = self.id()
        path = self.path(first) if self.takes(":") else Path(None, first)
        self.want(".", "{")
        names = self.several("}", self.used)
        self.want(";")
        return [Use(path, *pair, place) for pair in names]

    def used(self):
        """A used name, and the local one."""
        name = self.id()
        return name, self.id() if self.takes("as") else name

    def typedef(self, kind):
        """A named type, behind its keyword."""
        name = self.id()
        if kind == "type":
            self.want("=")
            target = self.type()
            self.want(";")
            return TypeDef(name, "alias", target=target)
        self.want("{")
        member = {"record": self.field, "variant": self.case, "enum": self.enum_case, "flags": self.label}[kind]
        return TypeDef(name, kind, members=self.several("}", member))

    def field(self):
        """A label with a type."""
        label = self.id()
        self.want(":")
        return label, self.type()

    def case(self):
        """A case of a variant: a label, with the type of its payload or None."""
        label, _ = self.enum_case()
        if not self.takes("("):
            return label, None
        payload = self.type()
        self.want(")")
        return label, payload

    def enum_case(self):
        """A case of an enum."""
        self.without(CASES)
        return self.label()

    def label(self):
        """A label alone."""
        return self.id(), None

    def named_function(self):
        """A function with its name."""
        name = self.id()
        self.want(":")
        return self.function(name)

    def function(self, name):
        """A function, behind its name and the colon."""
        self.without(FUNCTIONS)
        self.want("func", "(")
        parameters = []
        if not self.takes(")"):
            parameters.append(self.field())
            while self.takes(","):
                parameters.append(self.field())
            self.want(")")
        result = self.result_type() if self.takes("->") else None
        self.want(";")
        return Function(name, tuple(parameters), result)

    def result_type(self):
        """The type of a function's result."""
        self.without({"(": "named-results"})
        return self.type()

    # ---- types

    def type(self, depth=1):
        """A type within so many, itself among them."""
        self.without(TYPES)
        if not self.sees("id", *PRIMITIVES, "list", "option", "tuple", "result"):
            self.expected()
        if depth > MOST_DEPTH:
            raise refused("34 depth", self.token.start, self.token.end)
        kind, text = self.token.kind, self.next()
        if kind in PRIMITIVES:
            return Primitive(text)
        if kind == "id":
            return Name(text)
        return Built(kind, self.results(depth + 1) if kind == "result" else self.parts(kind, depth + 1))

    def parts(self, kind, depth):
        """The types in a `list`, `option` or `tuple`."""
        self.want("<")
        if kind == "tuple":
            return self.several(">", lambda: self.type(depth))
        part = self.type(depth)
        if kind == "list":
            self.without({",": "fixed-length-list"})
        self.want(">")
        return (part,)

    def results(self, depth):
        """The types in a `result`, either of which may be None."""
        if not self.takes("<"):
            return None, None
        if self.takes("_"):
            self.want(",")
            parts = None, self.type(depth)
        else:
            parts = self.type(depth), self.type(depth) if self.takes(",") else None
        self.want(">")
        return parts

    # ---- worlds

    def world(self):
        """A world, behind its keyword."""
        name, items = self.id(), []
        self.want("{")
        while not self.takes("}"):
            self.without(WORLD_ITEMS)
            if not self.sees("import", "export"):
                self.expected()
            items.append(self.world_item(self.next()))
        return World(name, tuple(items))

    def world_item(self, direction):
        """An item of a world, behind its direction."""
        name = self.id()
        if not self.takes(":"):
            path = Path(None, name)
        else:
            self.without({"interface": "inline-interface", **FUNCTIONS})
            if self.sees("func"):
                return WorldItem(direction, None, self.function(name))
            path = self.path(name)
        self.want(";")
        return WorldItem(direction, path, None)


def read(data):
    """The package of a text, whose bytes are given."""
    return Reader(data).package()
