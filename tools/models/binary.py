"""Component type binaries of packages in the layout of docs/FORMATS.md: written, and read if they have that layout."""
from dataclasses import replace

from . import wit
from .component import Reader, index_number, number
from .wit import Built, Name, PackageName, Path, Primitive

OPCODES = {"bool": 0x7F, "s8": 0x7E, "u8": 0x7D, "s16": 0x7C, "u16": 0x7B, "s32": 0x7A, "u32": 0x79, "s64": 0x78,
           "u64": 0x77}
OPCODES.update({"char": 0x74, "string": 0x73})
WORDS = {code: word for word, code in OPCODES.items()}
RECORD, VARIANT, LIST, TUPLE, FLAGS, ENUM, OPTION, RESULT = 0x72, 0x71, 0x70, 0x6F, 0x6E, 0x6D, 0x6B, 0x6A
FUNCTION, COMPONENT, INSTANCE = 0x40, 0x41, 0x42
PREAMBLE = bytes.fromhex("0061736d0d000100")
SECTION_TYPE, SECTION_EXPORT = 7, 11
# a declaration begins with one of these
TYPE, ALIAS, IMPORT, EXPORT = 1, 2, 3, 4


# ---- writing


def label(name):
    """A name, with its length."""
    return number(len(name)) + name.encode()


def extern(name):
    """The name of an import or an export."""
    return b"\x00" + label(name)


def vector(items):
    """A count, and so many items."""
    return number(len(items)) + b"".join(items)


def section(kind, content):
    """A section."""
    return bytes([kind]) + number(len(content)) + content


class Scope:
    """The declarations of a component or instance type, how many type indices they take, and those of named types."""

    def __init__(self):
        self.declarations, self.types, self.named = [], 0, {}

    def takes_type(self, *parts):
        """Declares what takes the next type index."""
        self.declarations.append(b"".join(parts))
        self.types += 1
        return self.types - 1

    def exports_type(self, name, index):
        """Exports a type, which takes an index of its own."""
        self.named[name] = self.takes_type(bytes([EXPORT]), extern(name), b"\x03\x00", number(index))

    def declares(self, direction, name, description):
        """Declares an import or export that takes no type index."""
        self.declarations.append(bytes([direction]) + extern(name) + description)

    def value_type(self, ty):
        """A type inside a definition."""
        if isinstance(ty, Primitive):
            return bytes([OPCODES[ty.word]])
        if isinstance(ty, Name):
            return index_number(self.named[ty.name])
        return index_number(self.takes_type(bytes([TYPE]), self.body(ty)))

    def optional(self, ty):
        """A type inside a definition, or none."""
        return b"\x00" if ty is None else b"\x01" + self.value_type(ty)

    def body(self, ty):
        """A type that is a definition."""
        if isinstance(ty, Primitive):
            return bytes([OPCODES[ty.word]])
        if ty.word == "tuple":
            return bytes([TUPLE]) + vector([self.value_type(part) for part in ty.parts])
        if ty.word == "result":
            return bytes([RESULT]) + b"".join([self.optional(part) for part in ty.parts])
        return bytes([LIST if ty.word == "list" else OPTION]) + self.value_type(ty.parts[0])

    def definition(self, typedef):
        """The definition of a named type."""
        if typedef.kind == "alias":
            return self.body(typedef.target)
        if typedef.kind == "record":
            return bytes([RECORD]) + vector([label(name) + self.value_type(ty) for name, ty in typedef.members])
        if typedef.kind == "variant":
            return bytes([VARIANT]) + vector([label(name) + self.optional(ty) + b"\x00"
                                              for name, ty in typedef.members])
        return bytes([ENUM if typedef.kind == "enum" else FLAGS]) + vector([label(name) for name, _ in typedef.members])

    def exports_function(self, direction, function):
        """Declares a function, and imports or exports it."""
        listed = vector([label(name) + self.value_type(ty) for name, ty in function.parameters])
        outcome = b"\x01\x00" if function.result is None else b"\x00" + self.value_type(function.result)
        index = self.takes_type(bytes([TYPE, FUNCTION]), listed, outcome)
        self.declares(direction, function.name, b"\x01" + number(index))


def instance_type(interface, aliases):
    """The instance type of an interface; the aliases of its used names stand around it."""
    scope = Scope()
    for use, alias in zip(interface.uses, aliases):
        scope.exports_type(use.local, scope.takes_type(b"\x02\x03\x02\x01", number(alias)))
    for typedef in interface.types:
        if typedef.kind == "alias" and isinstance(typedef.target, Name):
            scope.exports_type(typedef.name, scope.named[typedef.target.name])
        else:
            scope.exports_type(typedef.name, scope.takes_type(bytes([TYPE]), scope.definition(typedef)))
    for function in interface.functions:
        scope.exports_function(EXPORT, function)
    return bytes([INSTANCE]) + vector(scope.declarations)


class Writer:
    """The component type of the last package of a set."""

    def __init__(self, packages):
        self.packages, self.scope = packages, Scope()
        # of each interface the instance index and the index of the instance type
        self.instances, self.types = {}, {}

    def interface(self, package, interface):
        """Declares an interface, an imported one or one of the package's own."""
        aliases = []
        for use in interface.uses:
            there, used = self.packages.find(package, use.path)
            aliases.append(self.scope.takes_type(b"\x02\x03\x00", number(self.instances[there, used.name]),
                                                 label(use.name)))
        key = package, interface.name
        self.types[key] = self.scope.takes_type(bytes([TYPE]), instance_type(interface, aliases))
        self.instances[key] = len(self.instances)
        direction = EXPORT if package == self.packages.last else IMPORT
        self.scope.declares(direction, self.full_name(package, interface.name), b"\x05" + number(self.types[key]))

    def full_name(self, package, name):
        """The full name of an interface or a world."""
        return self.packages.packages[package].name.full(name)

    def world(self, world):
        """Declares a world."""
        inner = Scope()
        for item in world.items:
            direction = IMPORT if item.direction == "import" else EXPORT
            if item.function:
                inner.exports_function(direction, item.function)
            else:
                package, interface = self.packages.find(self.packages.last, item.path)
                index = inner.takes_type(b"\x02\x03\x02\x01", number(self.types[package, interface.name]))
                inner.declares(direction, self.full_name(package, interface.name), b"\x05" + number(index))
        index = self.scope.takes_type(bytes([TYPE, COMPONENT]), vector(inner.declarations))
        self.scope.declares(EXPORT, self.full_name(self.packages.last, world.name), b"\x04" + number(index))


def write(packages):
    """The binary of the last package of a set."""
    writer = Writer(packages)
    for package, interface in packages.reached() + packages.own():
        writer.interface(package, interface)
    for world in packages.packages[-1].worlds:
        writer.world(world)
    types = section(SECTION_TYPE, vector([bytes([COMPONENT]) + vector(writer.scope.declarations)]))
    return PREAMBLE + types + section(SECTION_EXPORT, vector([extern("package") + b"\x03\x00\x00"]))


# ---- reading


def split_name(full):
    """The package's name and the own name that a full name has."""
    front, _, version = full.partition("@")
    package, _, name = front.partition("/")
    return PackageName(*package.split(":"), version or None), name


class Again(str):
    """A name that its scope has before, and that is another one all the same: the bytes tell them apart by their
    indices."""

    def __eq__(self, other):
        return self is other

    def __ne__(self, other):
        return self is not other

    __hash__ = object.__hash__


class Bytes(Reader):
    """The bytes of a component that was read before, in its shortest spelling."""

    def passes(self, *wanted):
        """Passes these bytes."""
        for byte in wanted:
            if self.byte() != byte:
                raise ValueError(f"byte {self.at - 1} is not {byte:02x}")

    def listed(self, item):
        """A count, and what so many items are."""
        return tuple(item() for _ in range(self.u32()))


class InstanceReader:
    """Reads the declarations of an instance type: `types` has for each type index a type or a definition."""

    def __init__(self, data, used):
        self.data, self.used = data, used
        self.types, self.uses, self.typedefs, self.functions = [], [], [], []
        self.names = set()

    def value_type(self):
        """A type inside a definition."""
        if self.data.data[self.data.at] in WORDS:
            return Primitive(WORDS[self.data.byte()])
        return self.types[self.data.u32()]

    def optional(self):
        """A type, or none."""
        return self.value_type() if self.data.byte() else None

    def field(self):
        """A label with a type."""
        return self.data.label(), self.value_type()

    def case(self):
        """A label with a type or none."""
        name, payload = self.data.label(), self.optional()
        self.data.passes(0)
        return name, payload

    def plain(self):
        """A label alone."""
        return self.data.label(), None

    def definition(self):
        """A type, or what a named type is but for its name, or a function's parameters and result."""
        code = self.data.byte()
        named = {RECORD: ("record", self.field), VARIANT: ("variant", self.case), ENUM: ("enum", self.plain),
                 FLAGS: ("flags", self.plain)}
        if code in WORDS:
            return Primitive(WORDS[code])
        if code in named:
            kind, member = named[code]
            return kind, self.data.listed(member)
        if code == TUPLE:
            return Built("tuple", self.data.listed(self.value_type))
        if code == RESULT:
            return Built("result", (self.optional(), self.optional()))
        if code == FUNCTION:
            return self.function()
        return Built({LIST: "list", OPTION: "option"}[code], (self.value_type(),))

    def function(self):
        """A function's parameters and result."""
        parameters = self.data.listed(self.field)
        if self.data.byte() == 0:
            return parameters, self.value_type()
        self.data.passes(0)
        return parameters, None

    def declaration(self):
        """One declaration."""
        begin = self.data.byte()
        if begin == TYPE:
            self.types.append(self.definition())
        elif begin == ALIAS:
            self.data.passes(3, 2, 1)
            self.types.append(self.used[self.data.u32()])
        else:
            self.named(begin, self.data.extern_name())

    def named(self, _begin, name):
        """What is exported under this name."""
        if self.data.byte() == 1:
            self.functions.append(wit.Function(name, *self.types[self.data.u32()]))
            return
        self.data.passes(0)
        name = Again(name) if name in self.names else name
        self.names.add(name)
        self.typed(name, self.types[self.data.u32()])
        self.types.append(Name(name))

    def typed(self, name, ty):
        """Takes a named type, or a used name."""
        if isinstance(ty, wit.Use):
            self.uses.append(replace(ty, local=name))
        elif isinstance(ty, tuple):
            kind, members = ty
            self.typedefs.append(wit.TypeDef(name, kind, members=members))
        else:
            self.typedefs.append(wit.TypeDef(name, "alias", target=ty))

    def interface(self, name):
        """The interface that the declarations are."""
        self.data.listed(self.declaration)
        return wit.Interface(name, tuple(self.uses), tuple(self.typedefs), tuple(self.functions))


class WorldReader(InstanceReader):
    """Reads the declarations of a world's component type; `used` has the packages and names of the interfaces, by the
    indices of their types."""

    def __init__(self, data, used):
        super().__init__(data, used)
        self.items = []

    def named(self, begin, name):
        """An item of the world."""
        is_function = self.data.byte() == 1
        index = self.data.u32()
        function = wit.Function(name, *self.types[index]) if is_function else None
        path = None if is_function else self.path(name, self.types[index])
        self.items.append(wit.WorldItem("import" if begin == IMPORT else "export", path, function))

    def path(self, name, there):
        """The path of an interface of this full name, which is the one there."""
        package, own = there
        if package.full(own) != name:
            raise ValueError(f"{name} is another interface")
        return Path(package, own)

    def world(self, name):
        """The world that the declarations are."""
        self.data.listed(self.declaration)
        return wit.World(name, tuple(self.items))


class PackageReader:
    """Reads the component type of a package."""

    def __init__(self, data):
        self.data = data
        # by type index what an alias uses; by instance index the full name of an interface
        self.types, self.instances = [], []
        # by type index the package and the name of an interface
        self.interfaces = {}
        self.imports, self.items, self.name = [], [], None

    def declaration(self):
        """One declaration."""
        begin = self.data.byte()
        if begin == ALIAS:
            self.data.passes(3, 0)
            path = Path(*self.instances[self.data.u32()])
            self.types.append(wit.Use(path, self.data.label(), None))
        elif begin == TYPE:
            self.types.append(self.definition(self.data.byte()))
        else:
            self.named(begin, *split_name(self.data.extern_name()))

    def definition(self, code):
        """An instance type, or a world's component type, whose name comes later."""
        if code == INSTANCE:
            return InstanceReader(self.data, self.types).interface(None)
        return WorldReader(self.data, self.interfaces).world(None)

    def named(self, direction, package, name):
        """An import or export of an interface, or the export of a world."""
        self.data.byte()
        index = self.data.u32()
        item = self.types[index]
        if isinstance(item, wit.Interface):
            name = Again(name) if (package, name) in self.instances else name
            self.instances.append((package, name))
            self.interfaces[index] = package, name
        if direction == IMPORT:
            self.imports.append((package, replace(item, name=name)))
        else:
            self.name = package
            self.items.append(replace(item, name=name))

    def package(self):
        """The package, and its imports: each the name of a package and an interface."""
        self.data.listed(self.declaration)
        items = tuple(item.with_paths(lambda path: path.own(self.name)) for item in self.items)
        return wit.Package(self.name, items), self.imports


def read(data):
    """The package of a binary that has the layout of packages and the shortest spelling, and its imports."""
    source = Bytes(data)
    source.passes(*PREAMBLE, SECTION_TYPE)
    source.u32()
    source.passes(1, COMPONENT)
    return PackageReader(source).package()
