"""The types, accesses and uses of locals in the body of a method."""

from typing import NamedTuple, Optional

from .nodes import Node
from .world import BOOLEAN, INT, NULL, ROOT, at_index, heads_of, put, put_in_type, type_at_index


class Access(NamedTuple):
    """A read or a write of a region by a node of a statement; a call has one for each item of its method's summary."""

    node: Node
    statement: Node
    kind: str
    path: tuple
    marked: bool
    says: str


class Local(NamedTuple):
    """A local, a formal, the variable of a loop or a part."""

    name: str
    type: Optional[tuple]
    at: int
    form: str
    is_index: bool


class Use(NamedTuple):
    """A read or an assignment of a local."""

    local: Local
    kind: str
    at: int
    statement: Node


class Body:
    """Walks a method's body; what can't be typed has the type None."""

    def __init__(self, world, class_node, method):
        self.world = world
        self.class_node = class_node
        self.method = method
        self.heads = set(heads_of(class_node, method))
        self.types = {}
        self.accesses = []
        self.uses = []
        self.scopes = {}
        self.now = None
        self.scope = {}
        for formal in method.formals:
            its_type = self.type(formal.type)
            self.scope[formal.name] = Local(formal.name, its_type, formal.name_at, "formal", False)
        params = tuple((name,) for name, _ in class_node.params)
        self.this = ("class", class_node.name, params)
        self.statement(method.body)

    def type(self, node):
        return self.world.type(node, self.class_node.name, self.heads)

    def path(self, node):
        return self.world.path(node, self.class_node.name, self.heads)

    def access(self, node, kind, path, says, marked=False):
        self.accesses.append(Access(node, self.now, kind, path, marked, says))

    def declare(self, name, its_type, at, form, is_index=False):
        self.scope[name] = Local(name, its_type, at, form, is_index)

    def inside(self, nodes):
        """Statements of a scope of their own."""
        kept, heads = dict(self.scope), set(self.heads)
        for node in nodes:
            self.statement(node)
        self.scope, self.heads = kept, heads

    def statement(self, node):
        self.now = node
        self.scopes[id(node)] = dict(self.scope)
        getattr(self, "on_" + node.kind)(node)

    def on_block(self, node):
        self.inside(node.statements)

    def on_local_regions(self, node):
        self.heads |= {token.text for token in node.names}

    def on_local(self, node):
        its_type = self.type(node.type)
        self.value(node.value)
        is_index = node.final and its_type == INT
        self.declare(node.name, its_type, node.name_at, "final" if node.final else "local", is_index)

    def on_assign(self, node):
        target = node.target
        if target.kind == "name":
            self.value(node.value)
            local = self.scope.get(target.name)
            self.types[id(target)] = local.type if local else None
            if local:
                self.uses.append(Use(local, "assigned", target.start, node))
            return
        self.value(target.of)
        if target.kind == "element":
            self.value(target.index)
        self.value(node.value)
        self.reach(target, "writes")

    def on_effect(self, node):
        self.value(node.value)

    def on_if(self, node):
        self.value(node.condition)
        self.inside([node.then])
        if node.other:
            self.inside([node.other])

    def on_while(self, node):
        self.value(node.condition)
        self.inside([node.body])

    def on_return(self, node):
        if node.value:
            self.value(node.value)

    def on_print(self, node):
        if node.value.kind != "text":
            self.value(node.value)

    def on_cobegin(self, node):
        for branch in node.block.statements:
            self.inside([branch])

    def on_foreach(self, node):
        of, count = self.value(node.first), self.value(node.count)
        kept = dict(self.scope)
        if node.part:
            part = ("part", of[1], of[2]) if of and of[0] in ("array", "part") else None
            self.declare(node.part, part, node.start, "part")
        self.declare(node.name, INT if count else None, node.start, "variable", True)
        self.inside([node.body])
        self.scope = kept

    def on_atomic(self, node):
        first = len(self.accesses)
        self.inside(node.block.statements)
        self.accesses[first:] = [access._replace(marked=True) for access in self.accesses[first:]]

    def value(self, node):
        """The type of an expression; its accesses are noted."""
        found = getattr(self, "of_" + node.kind)(node)
        self.types[id(node)] = found
        return found

    def of_int(self, _):
        return INT

    def of_boolean(self, _):
        return BOOLEAN

    def of_null(self, _):
        return NULL

    def of_this(self, _):
        return self.this

    def of_name(self, node):
        local = self.scope.get(node.name)
        if local:
            self.uses.append(Use(local, "read", node.start, self.now))
        return local.type if local else None

    def of_paren(self, node):
        return self.value(node.value)

    def of_binary(self, node):
        self.value(node.left)
        self.value(node.right)
        return INT if node.sign in ("+", "-", "*", "/", "%") else BOOLEAN

    def of_unary(self, node):
        self.value(node.value)
        return INT if node.sign == "-" else BOOLEAN

    def of_field_of(self, node):
        self.value(node.of)
        return self.reach(node, "reads")

    def of_element(self, node):
        self.value(node.of)
        self.value(node.index)
        return self.reach(node, "reads")

    def reach(self, node, kind):
        """The type of a field or an element, whose access is noted."""
        of = self.types.get(id(node.of))
        found = None
        if node.kind == "element" and of and of[0] in ("array", "part"):
            index = self.index(node.index)
            name = of[3] if of[0] == "array" else None
            self.access(node, kind, at_index(of[2], name, index), "")
            found = type_at_index(of[1], name, index)
        elif node.kind == "field_of" and of and of[0] in ("array", "part"):
            found = INT if node.name == "length" else None
        elif node.kind == "field_of":
            met = self.world.member(of, "field", node.name)
            if met:
                owner, field, given = met
                heads = heads_of(owner)
                self.access(node, kind, put(self.world.path(field.region, owner.name, heads), given), "")
                found = put_in_type(self.world.type(field.type, owner.name, heads), given)
        self.types[id(node)] = found
        return found

    def index(self, node):
        """What an index says of the region of an element."""
        while node.kind == "paren":
            node = node.value
        if node.kind == "int":
            return f"[{node.name}]"
        if node.kind == "name" and node.name in self.scope and self.scope[node.name].is_index:
            return f"[{node.name}]"
        return "[?]"

    def of_call(self, node):
        of = self.value(node.of)
        for actual in node.actuals:
            self.value(actual)
        met = self.world.member(of, "method", node.name)
        if not met:
            return None
        owner, method, given = met
        params = [name for name, _ in method.params]
        args = [self.path(arg) for arg in node.args] or [ROOT] * len(params)
        given = {**given, **dict(zip(params, args))}
        heads = heads_of(owner, method)
        self.summary_of(node, owner, method, given, heads)
        return put_in_type(self.world.type(method.result, owner.name, heads), given) if method.result else ("void",)

    def summary_of(self, node, owner, method, given, heads):
        """The accesses that a call or creation has by a summary."""
        name = f"the constructor of {owner.name}" if method.constructor else f"{owner.name}.{method.name}"
        if method.summary.items is None:
            self.access(node, "writes", ("Root", "*"), f"{name} has no summary")
            return
        for kind, path, marked in method.summary.items:
            full = put(self.world.path(path, owner.name, heads), given)
            self.access(node, kind, full, f"by the summary of {name}", marked)

    def callee(self, node):
        """The class and the method or constructor that a call or creation names."""
        if node.kind == "call":
            met = self.world.member(self.types.get(id(node.of)), "method", node.name)
            return (met[0], met[1]) if met else None
        constructor = self.world.constructor(node.type.base) if node.kind == "new" else None
        return (self.world.classes[node.type.base], constructor) if constructor else None

    def of_new(self, node):
        for actual in node.actuals:
            self.value(actual)
        its_type = self.type(node.type)
        constructor = self.world.constructor(node.type.base)
        if constructor:
            owner = self.world.classes[node.type.base]
            self.summary_of(node, owner, constructor, self.world.given(owner.name, its_type[2]), heads_of(owner))
        return its_type

    def of_new_array(self, node):
        self.value(node.length)
        return ("array", self.type(node.element), self.path(node.path), node.index)

    def of_text(self, _):
        return None
