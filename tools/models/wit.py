"""WIT texts as trees. What an interface has knows its `place` in the text, by which trees are not compared."""
from dataclasses import dataclass, field, replace

PRIMITIVES = ("bool", "s8", "u8", "s16", "u16", "s32", "u32", "s64", "u64", "char", "string")


@dataclass(frozen=True)
class Primitive:
    """A type that a keyword alone spells."""

    word: str


@dataclass(frozen=True)
class Name:
    """A type by the name that its interface has for it."""

    name: str


@dataclass(frozen=True)
class Built:
    """A `list`, `option`, `tuple` or `result` of other types; a result has two parts, of which either may be None."""

    word: str
    parts: tuple


@dataclass(frozen=True)
class TypeDef:
    """A named type: an `alias` of `target`, or a `record`, `variant`, `enum` or `flags` of members, each a label and a
    type or None."""

    name: str
    kind: str
    members: tuple = ()
    target: object = None
    place: int = field(default=0, compare=False)


@dataclass(frozen=True)
class Function:
    """A function: its parameters, each a label and a type, and the type of its result or None."""

    name: str
    parameters: tuple
    result: object
    place: int = field(default=0, compare=False)


@dataclass(frozen=True)
class PackageName:
    """The name of a package; `version` may be None."""

    namespace: str
    name: str
    version: object = None

    def full(self, interface=None):
        """The package's name, or the full name of one of its interfaces or worlds."""
        path = f"/{interface}" if interface else ""
        return f"{self.namespace}:{self.name}{path}" + (f"@{self.version}" if self.version else "")


@dataclass(frozen=True)
class Path:
    """An interface of another package, or of the text's own where `package` is None."""

    package: object
    name: str

    def whole(self, package):
        """The path with the name of this package where it has none."""
        return Path(self.package or package, self.name)

    def own(self, package):
        """The path without the name of its package where it is this one."""
        return Path(None if self.package == package else self.package, self.name)


@dataclass(frozen=True)
class Use:
    """A name that an interface has from another one, under a name of its own."""

    path: Path
    name: str
    local: str
    place: int = field(default=0, compare=False)


@dataclass(frozen=True)
class Interface:
    """An interface."""

    name: str
    uses: tuple
    types: tuple
    functions: tuple

    def with_paths(self, change):
        """The interface with its paths changed."""
        return replace(self, uses=tuple(replace(use, path=change(use.path)) for use in self.uses))


@dataclass(frozen=True)
class WorldItem:
    """An `import` or `export` of a world: of an interface or of a function; the other is None."""

    direction: str
    path: object
    function: object


@dataclass(frozen=True)
class World:
    """A world."""

    name: str
    items: tuple

    def with_paths(self, change):
        """The world with its paths changed."""
        return replace(self, items=tuple(replace(item, path=item.path and change(item.path)) for item in self.items))


@dataclass(frozen=True)
class Package:
    """A package: its name, and its interfaces and worlds in source order."""

    name: PackageName
    items: tuple

    @property
    def interfaces(self):
        """The interfaces alone."""
        return [item for item in self.items if isinstance(item, Interface)]

    @property
    def worlds(self):
        """The worlds alone."""
        return [item for item in self.items if isinstance(item, World)]
