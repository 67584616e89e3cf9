"""The classes of a text, and types and region paths as they read where they are written out in full.

A path is a tuple of elements: a parameter, a local region or `Root`, then region names with the class that declares them, `*`, `[3]`, `[?]`.
A type is a tuple: ("int",), ("boolean",), ("null",), ("class", name, paths), ("array", element, path, index name), ("part", element, path).
"""

ROOT = ("Root",)
INT, BOOLEAN, NULL = ("int",), ("boolean",), ("null",)


def is_named(element):
    """Whether an element of a path is a region name."""
    return element[0] not in "[*"


class World:
    """The class table of a tree, for look-ups; what isn't there is None."""

    def __init__(self, program):
        self.program = program
        self.classes = {}
        for node in program.classes:
            self.classes.setdefault(node.name, node)

    def chain(self, name):
        """A class and its superclasses."""
        seen = []
        while name in self.classes and name not in seen:
            seen.append(name)
            yield self.classes[name]
            name = self.classes[name].parent

    def home(self, class_name, region):
        """The class that declares a region name which is visible in a class."""
        for node in self.chain(class_name):
            for member in node.members:
                if member.kind == "regions" and region in [token.text for token in member.names]:
                    return node.name
        return None

    def element(self, element, class_name):
        """An element of a path, a region name with the class that declares it."""
        if not is_named(element):
            return element
        owner, _, region = element.rpartition(".")
        home = self.home(owner or class_name, region)
        return f"{home}.{region}" if home else element

    def path(self, node, class_name, heads):
        """A path node in full; heads are the parameters and local regions in scope."""
        if node is None:
            return ROOT
        first, rest = node.elements[0], node.elements[1:]
        tail = tuple(self.element(element, class_name) for element in rest)
        if first == "Root" or first in heads:
            return (first,) + tail
        return ("Root", self.element(first, class_name)) + tail

    def type(self, node, class_name, heads):
        """A type node in full."""
        if node.base in ("int", "boolean"):
            found = (node.base,)
        else:
            wanted = len(self.classes[node.base].params) if node.base in self.classes else 0
            args = tuple(self.path(arg, class_name, heads) for arg in node.args)
            found = ("class", node.base, args or (ROOT,) * wanted)
        for path, index in node.suffixes:
            found = ("array", found, self.path(path, class_name, heads), index)
        return found

    def given(self, class_name, args):
        """What the parameters of a class stand for."""
        params = [name for name, _ in self.classes[class_name].params]
        return dict(zip(params, args))

    def member(self, its_type, kind, name):
        """A field or method of a class type: its class, its node, and what the parameters of that class stand for."""
        if not its_type or its_type[0] != "class" or its_type[1] not in self.classes:
            return None
        class_name, given = its_type[1], self.given(its_type[1], its_type[2])
        for node in self.chain(class_name):
            for member in node.members:
                if member.kind == kind and member.name == name and not (kind == "method" and member.constructor):
                    return node, member, given
            if node.parent in self.classes:
                heads = heads_of(node)
                args = [put(self.path(arg, node.name, heads), given) for arg in node.parent_args]
                wanted = len(self.classes[node.parent].params)
                given = self.given(node.parent, args or [ROOT] * wanted)
        return None

    def constructor(self, class_name):
        """The constructor of a class, where it declares one."""
        for member in self.classes[class_name].members if class_name in self.classes else []:
            if member.kind == "method" and member.constructor:
                return member
        return None

    def overridden(self, class_name, name):
        """The nearest method of a superclass with a name, and its class."""
        for node in list(self.chain(class_name))[1:]:
            for member in node.members:
                if member.kind == "method" and member.name == name and not member.constructor:
                    return node, member
        return None

    def show(self, path, class_name, heads=()):
        """A path as it is written in a class."""
        elements = list(path)
        if elements[0] == "Root" and len(elements) > 1 and is_named(elements[1]):
            elements = elements[1:]
        shown = []
        for number, element in enumerate(elements):
            owner, _, region = element.rpartition(".")
            visible = owner and self.home(class_name, region) == owner
            shown.append(region if visible and not (number == 0 and region in heads) else element)
        return ":".join(shown)

    def show_type(self, its_type, class_name, heads=()):
        """A type as it is written in a class, with all its region arguments."""
        if its_type is None:
            return None
        if its_type[0] == "class":
            args = ", ".join(self.show(path, class_name, heads) for path in its_type[2])
            return its_type[1] + (f"<{args}>" if args else "")
        if its_type[0] in ("array", "part"):
            index = f"#{its_type[3]}" if its_type[0] == "array" and its_type[3] else ""
            element, path = self.show_type(its_type[1], class_name, heads), self.show(its_type[2], class_name, heads)
            return f"{element}[]<{path}>{index}"
        return its_type[0]


def heads_of(class_node, method=None):
    """The region parameters that are in scope in a class or a method of it."""
    return {name for name, _ in class_node.params} | ({name for name, _ in method.params} if method else set())


def may_meet(one, two):
    """Whether two paths aren't told apart by their beginnings or their ends, as far as their elements say."""
    if one[0] == two[0] and any(are_distinct(*pair) for pair in zip(up_to_star(one[1:]), up_to_star(two[1:]))):
        return False
    ends = zip(up_to_star(one[:0:-1]), up_to_star(two[:0:-1]))
    return not any(are_distinct(*pair) for pair in ends)


def up_to_star(elements):
    return elements[: elements.index("*")] if "*" in elements else elements


def are_distinct(one, two):
    """Two different names or numbers, or a name and an index."""
    if is_named(one) or is_named(two):
        return one != two
    return one != two and one[1:-1].isdigit() and two[1:-1].isdigit()


def put(path, given):
    """A path with what its first element stands for."""
    return tuple(given[path[0]]) + path[1:] if path[0] in given else path


def put_in_type(its_type, given):
    """A type with what its parameters stand for."""
    if its_type is None or its_type[0] in ("int", "boolean", "null"):
        return its_type
    if its_type[0] == "class":
        return ("class", its_type[1], tuple(put(path, given) for path in its_type[2]))
    return (its_type[0], put_in_type(its_type[1], given), put(its_type[2], given)) + its_type[3:]


def at_index(path, name, index):
    """A path with an index in place of an index name."""
    return tuple(index if element == f"[{name}]" else element for element in path)


def type_at_index(its_type, name, index):
    """A type with an index in place of an index name."""
    if its_type is None or name is None or its_type[0] in ("int", "boolean", "null"):
        return its_type
    if its_type[0] == "class":
        return ("class", its_type[1], tuple(at_index(path, name, index) for path in its_type[2]))
    if its_type[0] == "array" and its_type[3] == name:
        return its_type
    return (its_type[0], type_at_index(its_type[1], name, index), at_index(its_type[2], name, index)) + its_type[3:]


def default_of(its_type):
    """An expression that has a type."""
    return {"int": "0", "boolean": "false"}.get(its_type[0] if its_type else "", "null")
