"""Statements that have one access of a method's body, and nothing else."""

from .typed import Body
from .world import default_of, heads_of, put_in_type


class Alone:
    """Writes an access as a statement of its own, where its types are known."""

    def __init__(self, text, body):
        self.text = text
        self.body = body
        self.count = 0

    def fresh(self):
        """A name that the text doesn't have."""
        self.count += 1
        name = f"probe{self.count}"
        return name if name not in self.text else self.fresh()

    def source(self, node):
        return self.text[node.start : node.end]

    def shown(self, its_type):
        return self.body.world.show_type(its_type, self.body.class_node.name, self.body.heads)

    def receiver(self, node):
        """How an object is written without its accesses: declarations, and an expression."""
        if node.kind in ("this", "name"):
            return "", self.source(node)
        its_type = self.body.types.get(id(node))
        if its_type is None or its_type[0] not in ("class", "array"):
            return None
        name = self.fresh()
        return f"{self.shown(its_type)} {name} = null; ", name

    def statement(self, access):
        """The statement, or None."""
        node = access.node
        if node.kind == "new":
            return self.creation(node)
        taken = self.receiver(node.of) if node.kind in ("field_of", "element", "call") else None
        if taken is None:
            return None
        declared, of = taken
        if node.kind == "call":
            return self.call(node, declared, of)
        place = f"{of}.{node.name}" if node.kind == "field_of" else f"{of}[{self.index(node.index)}]"
        its_type = self.body.types.get(id(node))
        if its_type is None:
            return None
        if access.kind == "writes":
            return f"{{ {declared}{place} = {default_of(its_type)}; }}"
        return f"{{ {declared}{self.shown(its_type)} {self.fresh()} = {place}; }}"

    def index(self, node):
        """An index that says the same of the region."""
        return self.source(node) if node.kind in ("int", "name") else "0 + 0"

    def call(self, node, declared, of):
        world = self.body.world
        met = world.member(self.body.types.get(id(node.of)), "method", node.name)
        if not met:
            return None
        owner, method, given = met
        args = [self.source(arg) for arg in node.args]
        given = {**given, **dict(zip([name for name, _ in method.params], [self.body.path(arg) for arg in node.args]))}
        actuals = self.actuals(method, owner, heads_of(owner, method), given)
        args = f"<{', '.join(args)}>" if args else ""
        return f"{{ {declared}{of}.{args}{node.name}({actuals}); }}"

    def actuals(self, method, owner, heads, given):
        types = [put_in_type(self.body.world.type(formal.type, owner.name, heads), given) for formal in method.formals]
        return ", ".join(default_of(its_type) for its_type in types)

    def creation(self, node):
        constructor = self.body.world.constructor(node.type.base)
        if not constructor:
            return None
        owner = self.body.world.classes[node.type.base]
        return f"{{ new {self.source(node.type)}({self.actuals(constructor, owner, heads_of(owner), {})}); }}"


def array_text(body, length, its_type):
    """The creation of an array of a type, with a length."""
    element, path = body.world.show_type(its_type[1], body.class_node.name, body.heads), body.world.show(its_type[2], body.class_node.name, body.heads)
    return f"new {element}[{length}]<{path}>" + (f"#{its_type[3]}" if its_type[3] else "")


def name_of(owner, method):
    """What a method or constructor is called in a sentence."""
    return f"the constructor of {owner.name}" if method.constructor else f"{owner.name}.{method.name}"


def summaries_of(world, owner, method, marks=False):
    """Summaries that a method without one may have, as texts: what its body does but for calls of itself, and that with all below it."""
    body = Body(world, owner, method)
    accesses = [access for access in body.accesses if access.path != ("Root", "*") or not calls(body, access.node, method)]
    exact = summary_for(world, body, accesses, marks)
    heads = heads_of(owner, method)
    below = [access._replace(path=access.path[: 1 if access.path[0] in heads else 2] + ("*",)) for access in accesses]
    return [summary_text(*exact), summary_text(*summary_for(world, body, below))]


def calls(body, node, method):
    """Whether a node calls a method."""
    met = body.callee(node)
    return met is not None and met[1] is method


def summary_for(world, body, accesses, marks=False):
    """The items of a summary that covers accesses, as texts: reads and writes, with `[?]` for index variables, and marks if asked."""
    writes, reads = [], []
    plain = {access.path for access in accesses if not access.marked}
    for access in accesses:
        path = tuple("[?]" if element[0] == "[" and not element[1:-1].isdigit() else element for element in access.path)
        if path[0] in body.heads and path[0] not in heads_of(body.class_node, body.method):
            continue
        shown = world.show(path, body.class_node.name, heads_of(body.class_node, body.method))
        shown = f"atomic {shown}" if marks and access.path not in plain else shown
        (writes if access.kind == "writes" else reads).append(shown)
    writes = list(dict.fromkeys(writes))
    return [item for item in dict.fromkeys(reads) if item not in writes], writes


def summary_text(reads, writes):
    """A summary as it is written."""
    parts = (["reads " + ", ".join(reads)] if reads else []) + (["writes " + ", ".join(writes)] if writes else [])
    return " ".join(parts) or "pure"


