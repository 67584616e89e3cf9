"""Random expressions: of a type, and of what a scope may read."""
from generate.random_scopes import BOOLEAN, DEFAULTS, INT, WRITE, Class, moved, region_arguments
from oracle.elision import Binary, Call, Element, Field, Length, Literal, Local, New, NewArray, This, Unary


class Expressions:
    """Makes expressions. What it leaves to chance it takes from `random`."""

    def __init__(self, random, has_nd, is_commutative):
        self.random, self.has_nd, self.is_commutative = random, has_nd, is_commutative
        self.count, self.order, self.size = 0, 0, random.randint(1, 5)
        self.atomic_regions, self.classes, self.reaches_nd = set(), [], False
        self.tools = Class("Tools", parameter="")

    def chance(self, share):
        return self.random.random() < share

    def name(self, letter):
        self.count += 1
        return f"{letter}{self.count}"

    def objects(self, scope):
        """Expressions of objects, each with its class, its region argument and the index in that."""
        found = [(This(), scope.cls, scope.path, None)]
        found += [(Local(name), type_.cls, type_.path, type_.index) for name, type_ in scope.of_kind("object")]
        for name, type_ in scope.of_kind("table"):
            index, known = self.index_into(type_, scope)
            if scope.may_read(type_.path, known):
                found.append((Element(Local(name), index), type_.cls, type_.path, known))
        for node, cls, path, index in list(found):
            for field in cls.all_fields():
                if field.type.cls and scope.may_read(moved(field.region, path), index):
                    found.append((Field(node, field.name), field.type.cls, moved(field.type.path, path), index))
        return found

    def index_into(self, type_, scope):
        """An index for an array, and its name where the rights to the array, or to what its objects hold, are at that index."""
        only = [scope.only_index(unit) for unit in type_.units()]
        only = [index for index in only if index in scope.locals]
        if only and self.chance(0.8 if scope.only_index(type_.path) is None else 1):
            index = self.random.choice(only)
            return Local(index), index
        return self.position(scope), None

    def position(self, scope):
        """An index, most often inside."""
        if self.chance(0.985):
            return Literal(self.random.randrange(self.size))
        if self.chance(0.5):
            return Literal(self.size)
        return self.expression(INT, scope, 1)

    def simple_places(self, scope):
        """Fields and elements that may be read, each with its type and whether it may be written."""
        found = []
        for node, cls, path, index in self.objects(scope):
            for field in cls.all_fields():
                unit = moved(field.region, path)
                if field.type.kind in DEFAULTS and scope.may_read(unit, index):
                    found.append((Field(node, field.name), field.type, scope.may_write(unit, index)))
        for name, type_ in scope.of_kind("array", "row"):
            index, known = self.index_into(type_, scope)
            if scope.may_read(type_.path, known):
                found.append((Element(Local(name), index), INT, scope.may_write(type_.path, known)))
        for name, type_ in scope.of_kind("part"):
            if scope.may_read(type_.path):
                found.append((Element(Local(name), self.part_index(name)), INT, scope.may_write(type_.path)))
        return found

    def part_index(self, name):
        if self.chance(0.1):
            return Literal(0)
        return Binary(Length(Local(name)), "-", Literal(1))

    def fresh(self, type_, scope):
        """A new object or array. Seldom it is null, or its length is below 0."""
        if type_.kind == "object":
            return self.fresh_object(type_, scope) if self.chance(0.98) else Literal(None)
        length = Unary("-", Literal(1)) if self.chance(0.004) else Literal(self.size)
        return NewArray(type_.element(), length, type_.suffix(), None if type_.kind == "table" else 0)

    @staticmethod
    def may_create(cls, type_, scope):
        """Whether the scope has the rights of the class's constructor, on an object of this type's region."""
        made = cls.constructor
        return not made or made.order < scope.order and scope.allows(made.rights, type_.path, type_.index)

    def fresh_object(self, type_, scope):
        """A new object of the class or of one below it, or null where none may be created."""
        fit = [cls for cls in self.classes if cls.is_below(type_.cls) and self.may_create(cls, type_, scope)]
        if not fit:
            return Literal(None)
        cls = self.random.choice(fit)
        formals = cls.constructor.formals if cls.constructor else []
        return New(cls, region_arguments(type_.path, type_.index), [self.expression(type_, scope, 1) for _, type_ in formals])

    def expression(self, type_, scope, depth):
        """An expression of a type, or None where an object of that type isn't to be had."""
        if type_.kind == "int":
            return self.int_expression(scope, depth)
        if type_.kind == "boolean":
            return self.boolean_expression(scope, depth)
        if type_.kind == "object" and not type_.index and self.chance(0.5):
            return self.fresh_object(type_, scope)
        fit = [name for name, known in scope.locals.items() if known.type == type_]
        if fit:
            return Local(self.random.choice(fit))
        return self.fresh_object(type_, scope) if type_.kind == "object" else None

    def int_expression(self, scope, depth):
        roll = self.random.random()
        if depth > 0 and roll < 0.4:
            return self.arithmetic(scope, depth)
        if depth > 0 and roll < 0.55:
            call = self.call(scope, depth, ("int",))
            if call:
                return call
        leaves = [Local(name) for name, type_ in scope.of_kind("int")]
        leaves += self.random.sample(leaves, len(leaves) // 2)
        leaves += [place for place, type_, _ in self.simple_places(scope) if type_ == INT]
        leaves += [Length(Local(name)) for name, _ in scope.of_kind("array", "row", "table", "part") if self.chance(0.3)]
        if leaves and self.chance(0.65):
            return self.random.choice(leaves)
        return Literal(self.random.choice((0, 1, 2, 3, 5, 7, 10, 100, 65537, 2147483647)))

    def arithmetic(self, scope, depth):
        sign = self.random.choice("+++---***/%u")
        left = self.int_expression(scope, depth - 1)
        if sign == "u":
            return Unary("-", left)
        if sign in "/%" and self.chance(0.95):
            return Binary(left, sign, Literal(self.random.choice((1, 2, 3, 10, 1000))))
        return Binary(left, sign, self.int_expression(scope, depth - 1))

    def boolean_expression(self, scope, depth):
        roll = self.random.random()
        if depth > 1 and roll < 0.25:
            sign = self.random.choice(("&&", "||", "==", "!="))
            return Binary(self.boolean_expression(scope, depth - 1), sign, self.boolean_expression(scope, depth - 1))
        if depth > 0 and roll < 0.35:
            return Unary("!", self.boolean_expression(scope, depth - 1))
        if roll < 0.45:
            node = self.random.choice(self.objects(scope))[0]
            return Binary(node, self.random.choice(("==", "!=")), Literal(None))
        leaves = [Local(name) for name, _ in scope.of_kind("boolean")]
        leaves += [place for place, type_, _ in self.simple_places(scope) if type_ == BOOLEAN]
        if leaves and self.chance(0.4):
            return self.random.choice(leaves)
        sign = self.random.choice(("<", "<=", ">", ">=", "==", "!="))
        return Binary(self.int_expression(scope, depth - 1), sign, self.int_expression(scope, depth - 1))

    def call(self, scope, depth, results):
        """A call with one of these results, or None."""
        found = [
            (node, method)
            for node, cls, path, index in self.objects(scope)
            for method in cls.all_methods().values()
            if method.result in results and scope.may_call(method, path, index)
        ]
        if not found:
            return None
        node, method = self.random.choice(found)
        actuals = [self.expression(type_, scope, depth - 1) for _, type_ in method.formals]
        if None in actuals:
            return None
        if method.is_recursive:
            actuals = [Literal(600 if method.is_deep and self.chance(0.05) else self.random.randint(0, 5))]
        self.reaches_nd = self.reaches_nd or method.reaches_nd
        return Call(node, "", method.name, actuals)

    def tool_call(self, scope):
        """A call of the method over two arrays, or None."""
        arrays = [(name, type_.path) for name, type_ in scope.of_kind("array") if type_.path.startswith("Main.")]
        pairs = [
            (one, other)
            for one in arrays
            for other in arrays
            if one != other and scope.allows({one[1]: WRITE, other[1]: self.tools.methods[0].rights["W"]}, "")
        ]
        if not pairs:
            return None
        tool, ((first, path), (second, other)) = self.tools.methods[0], self.random.choice(pairs)
        actuals = [Local(first), Local(second), *(self.expression(type_, scope, 1) for _, type_ in tool.formals[2:])]
        return Call(New(self.tools, "", []), f"<{path}, {other}>", tool.name, actuals)
