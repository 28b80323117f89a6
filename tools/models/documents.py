"""A set of packages as one document (docs/package.schema.json): packages, interfaces, worlds and the rows of the
table."""
from . import abi
from .opening import opened
from .wit import Built, Primitive

EXTENT_OF_NONE = {"size": 0, "align": 0}
KINDS_OF_CASES = {"option": ("none", "some"), "result": ("ok", "error")}


def extent(t):
    """The size and the alignment of a closed type, or of none."""
    return {"size": t.size, "align": t.align} if t else EXTENT_OF_NONE


def member(name, reference, t, offset):
    """A member of a row."""
    return {"name": name, "type": reference, **extent(t), "offset": offset}


def signature(core):
    """A core signature."""
    parameters, results = core
    return {"parameters": list(parameters), "results": list(results)}


class Document:
    """The rows of a set as they are made, and the numbers of its interfaces, of its worlds and of named types."""

    def __init__(self, packages):
        self.packages = packages
        self.interfaces, self.worlds, self.rows = [], [], []
        self.interface_numbers, self.numbers = {}, {}
        for number, package in enumerate(packages.packages):
            for interface in package.interfaces:
                self.interface(number, interface)
            for world in package.worlds:
                self.world(number, world)

    def told(self):
        """The whole document."""
        names = [package.name.full() for package in self.packages.packages]
        return {"packages": names, "interfaces": self.interfaces, "worlds": self.worlds, "rows": self.rows}

    def add(self, row):
        """Puts a row behind the others, and returns its number."""
        self.rows.append(row)
        return len(self.rows) - 1

    # ---- owners

    def interface(self, number, interface):
        """An interface, and its rows."""
        place = len(self.interfaces)
        self.interface_numbers[number, interface.name] = place
        name = self.packages.packages[number].name.full(interface.name)
        told = {"name": name, "package": number, "uses": [], "types": [], "functions": []}
        self.interfaces.append(told)
        scope = Scope(self, number, interface, {"interface": place})
        told["uses"] += [scope.use(use) for use in interface.uses]
        told["types"] += [scope.typedef(typedef) for typedef in interface.types]
        told["functions"] += [scope.function(function) for function in interface.functions]

    def world(self, number, world):
        """A world, and the rows of its own functions."""
        place = len(self.worlds)
        name = self.packages.packages[number].name.full(world.name)
        told = {"name": name, "package": number, "imports": [], "exports": []}
        self.worlds.append(told)
        scope = Scope(self, number, world, {"world": place})
        for item in world.items:
            told[f"{item.direction}s"].append(self.item(scope, number, item))

    def item(self, scope, number, item):
        """What a world imports or exports."""
        if item.function:
            return {"function": scope.function(item.function)}
        package, interface = self.packages.find(number, item.path)
        return {"interface": self.interface_numbers[package, interface.name]}


class Scope:
    """An interface or a world, whose rows are made in the order of the table."""

    def __init__(self, document, package, owner, reference):
        self.document, self.package, self.owner, self.reference = document, package, owner, reference

    def reference_to(self, ty):
        """A type as it is referred to; the row of one without a name is made here."""
        if ty is None:
            return None
        if isinstance(ty, Primitive):
            return ty.word
        if not isinstance(ty, Built):
            return self.document.numbers[self.package, self.owner.name, ty.name]
        inner = [self.reference_to(part) for part in ty.parts]
        return self.row(ty.word, None, self.closed(ty), self.built(ty, inner))

    def references_to(self, types):
        """Types as they are referred to."""
        return [self.reference_to(ty) for ty in types]

    def closed(self, ty):
        """A type, closed."""
        return ty and self.document.packages.closed(self.package, self.owner, ty)

    def row(self, kind, name, t, more):
        """Makes the row of a type."""
        flat = None if len(t.kinds) > abi.MAX_FLAT else list(t.kinds)
        head = {"kind": kind, "name": name, "owner": self.reference if name else None}
        return self.document.add({**head, **extent(t), "flat": flat, **more})

    def built(self, ty, inner):
        """What a list, a tuple, an option or a result has."""
        parts = [self.closed(part) for part in ty.parts]
        if ty.word == "list":
            return {"type": inner[0]}
        if ty.word == "tuple":
            return {"fields": self.fields([None] * len(inner), inner, self.closed(ty))}
        if ty.word == "option":
            inner, parts = [None, *inner], [None, *parts]
        return {"cases": self.cases(KINDS_OF_CASES[ty.word], inner, self.closed(ty))}

    @staticmethod
    def fields(names, references, t):
        """The fields of a record or a tuple, or the parameters of a function."""
        return [member(*it) for it in zip(names, references, t.fields, t.offsets)]

    @staticmethod
    def cases(names, references, t):
        """The cases of a variant."""
        return [member(*it, t.payload_offset) for it in zip(names, references, t.payloads)]

    # ---- what an interface or a world has

    def named(self, name, kind, more):
        """Makes the row of a named type."""
        closed = self.document.packages.closed_name(self.package, self.owner, name)
        number = self.row(kind, name, closed, more)
        self.document.numbers[self.package, self.owner.name, name] = number
        return number

    def use(self, use):
        """The row of a used name."""
        package, interface = self.document.packages.find(self.package, use.path)
        target = self.document.numbers[package, interface.name, use.name]
        return self.named(use.local, "use", {"type": target})

    def typedef(self, typedef):
        """The row of a type, behind those of the types in it."""
        if typedef.kind == "alias":
            target = typedef.target
            if isinstance(target, Built):
                return self.named(typedef.name, target.word, self.built(target, self.references_to(target.parts)))
            return self.named(typedef.name, "alias", {"type": self.reference_to(target)})
        labels = [label for label, _ in typedef.members]
        if typedef.kind == "flags":
            return self.named(typedef.name, "flags", {"labels": labels})
        references = self.references_to(ty for _, ty in typedef.members)
        closed = self.document.packages.closed_name(self.package, self.owner, typedef.name)
        word, members = ("fields", self.fields) if typedef.kind == "record" else ("cases", self.cases)
        return self.named(typedef.name, typedef.kind, {word: members(labels, references, closed)})

    def function(self, function):
        """The row of a function, behind those of the types in it."""
        closed = self.document.packages.closed_function(self.package, self.owner, function)
        labels = [label for label, _ in function.parameters]
        references = self.references_to(ty for _, ty in function.parameters)
        result = self.reference_to(function.result)
        return self.document.add({
            "kind": "function",
            "name": function.name,
            "owner": self.reference,
            "parameters": self.fields(labels, references, closed.params),
            "result": None if result is None else {"type": result, **extent(closed.result)},
            "record": extent(closed.params) if closed.is_spilled else None,
            "area": extent(closed.result) if closed.has_area else None,
            "export": signature(closed.lifted),
            "import": signature(closed.lowered),
        })


def document(inputs):
    """The document of the set of these texts and binaries."""
    return Document(opened(inputs)).told()
