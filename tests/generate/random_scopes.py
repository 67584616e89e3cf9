"""What may be done where, for random programs: types, classes and their members, and scopes with their rights.

A scope holds rights to *units*, which are region paths: each is read or written, whole or at one index alone. In a path `[?]` stands
for the one index; where the index is known, it is put in as the path is written.
"""
import dataclasses

from oracle.elision import Block

# Rights: the whole unit is written or read; it is so at one index (a pair with the index's name); or it is touched in atomic blocks alone.
WRITE, READ, WRITE_AT, READ_AT, ATOMIC = "write", "read", "write at", "read at", "atomic"

DEFAULTS = {"int": 0, "boolean": False}
INDEX = "q"


@dataclasses.dataclass(frozen=True)
class Type:
    """A type: a simple one, an object of a class, an array in one region, a row (by index) of ints or of objects, or a part."""

    kind: str
    cls: object = None
    path: str = ""
    index: str = None

    def written(self):
        if self.kind in DEFAULTS:
            return self.kind
        if self.kind == "object":
            return self.cls.name + region_arguments(self.path, self.index)
        return self.element() + "[]" + self.suffix()

    def units(self):
        """The region of its elements, and those of the fields of its objects."""
        return [self.path] * (self.kind != "object") + (list(self.cls.units(self.path)) if self.cls else [])

    def element(self):
        return self.cls.name + region_arguments(self.path, INDEX) if self.kind == "table" else "int"

    def suffix(self):
        if self.kind == "array":
            return region_arguments(self.path, None)
        return region_arguments(self.path, INDEX) + f"#{INDEX}"


INT, BOOLEAN = Type("int"), Type("boolean")


def at_index(path, index):
    return path.replace("[?]", f"[{index}]") if index else path


def region_arguments(path, index):
    return f"<{at_index(path, index)}>" if path else ""


def below(path, region):
    return f"{path}:{region}" if path else region


@dataclasses.dataclass
class FieldDeclaration:
    name: str
    type: Type
    region: str

    @property
    def default(self):
        return DEFAULTS.get(self.type.kind)

    def write(self, text):
        text.put(f"{self.type.written()} {self.name} in {self.region};")


@dataclasses.dataclass
class Method:
    """A method, or a constructor, which has no result.

    Each calls members of a smaller order alone, so that runs end; but a recursive one calls itself with a smaller number, and where it
    does so once, it may go deep.
    """

    name: str
    result: object
    formals: list
    rights: dict
    order: int
    parameters: str = ""
    body: list = dataclasses.field(default_factory=list)
    reaches_nd: bool = False
    is_recursive: bool = False
    is_deep: bool = False

    def formal_names(self):
        return [name for name, _ in self.formals]

    def summary(self):
        reads = [unit for unit, right in self.rights.items() if right == READ]
        writes = [unit for unit, right in self.rights.items() if right == WRITE]
        writes += [f"atomic {unit}" for unit, right in self.rights.items() if right == ATOMIC]
        said = [f"{word} {', '.join(units)}" for word, units in (("reads", reads), ("writes", writes)) if units]
        return " ".join(said) or "pure"

    def write(self, text):
        formals = ", ".join(f"{type_.written()} {name}" for name, type_ in self.formals)
        text.put(f"{self.parameters}{self.result or ''} {self.name}({formals}) {self.summary()} ".lstrip(), Block(self.body))


class Class:
    def __init__(self, name, parent=None, parameter="P"):
        self.name, self.parent, self.parameter = name, parent, parameter
        self.fields, self.methods, self.constructor, self.regions = [], [], None, {}

    def __deepcopy__(self, memo):
        """A class is one, also in copies of nodes that name it."""
        return self

    def all_fields(self):
        """The fields of the superclasses and then its own."""
        return (self.parent.all_fields() if self.parent else []) + self.fields

    def all_methods(self):
        inherited = self.parent.all_methods() if self.parent else {}
        return {**inherited, **{method.name: method for method in self.methods}}

    def method(self, name):
        return self.all_methods()[name]

    def is_below(self, other):
        return self is other or bool(self.parent and self.parent.is_below(other))

    def units(self, path):
        """The regions of an object's fields and of the objects that it may hold."""
        for field in self.all_fields():
            yield moved(field.region, path)
            if field.type.cls:
                yield from field.type.cls.units(moved(field.type.path, path))

    def line_up(self):
        """Its name and those of its superclasses."""
        return [self.name, *(self.parent.line_up() if self.parent else [])]

    def write(self, text):
        text.own = self.line_up()
        text.put(f"class {self.name}")
        if self.parameter:
            text.put(f"<region {self.parameter}>")
        if self.parent:
            text.put(f" extends {self.parent.name}<{self.parameter}>")
        text.put(" ")
        regions = [RegionDeclaration(kind, name) for name, kind in self.regions.items()]
        text.put_body(regions + self.fields + ([self.constructor] if self.constructor else []) + self.methods)
        text.end_line()


@dataclasses.dataclass
class RegionDeclaration:
    kind: str
    name: str

    def write(self, text):
        text.put(f"{self.kind} {self.name};")


def moved(path, to):
    """A path of a class as it is seen through an object with this region argument."""
    return to + path[1:] if path == "P" or path.startswith("P:") else path


@dataclasses.dataclass
class Known:
    """A local in scope, and whether it may be assigned."""

    type: Type
    is_free: bool


@dataclasses.dataclass
class Scope:
    cls: Class
    path: str
    order: int
    locals: dict
    rights: dict
    depth: int = 0
    is_nd: bool = False

    def inner(self, **changes):
        changes = {"locals": dict(self.locals), "rights": dict(self.rights), "depth": self.depth + 1, **changes}
        return dataclasses.replace(self, **changes)

    def may_read(self, unit, index=None):
        right = self.rights.get(unit)
        return right in (WRITE, READ) or (index is not None and right in ((WRITE_AT, index), (READ_AT, index)))

    def may_write(self, unit, index=None):
        right = self.rights.get(unit)
        return right == WRITE or (index is not None and right == (WRITE_AT, index))

    def only_index(self, unit):
        """The index at which alone the unit may be touched."""
        right = self.rights.get(unit)
        return right[1] if isinstance(right, tuple) else None

    def allows(self, rights, path, index=None):
        """Whether all may be done that a summary says, through an object with this region argument."""
        for unit, right in rights.items():
            unit = moved(unit, path)
            may = {WRITE: self.may_write, READ: self.may_read}.get(right)
            if not (may(unit, index) if may else self.rights.get(unit) in (ATOMIC, WRITE)):
                return False
        return True

    def may_call(self, method, path, index):
        is_calm = self.is_nd or not method.reaches_nd
        return is_calm and method.order < self.order and self.allows(method.rights, path, index)

    def of_kind(self, *kinds):
        return [(name, known.type) for name, known in self.locals.items() if known.type.kind in kinds]


def locked(known):
    """The locals as a construct's iterations see them: to be read."""
    return {name: Known(local.type, False) for name, local in known.items()}
