"""Random statements. A parallel construct deals the rights of its scope out to its branches, so that no two of them interfere."""
import copy

from generate.random_expressions import Expressions
from generate.random_scopes import ATOMIC, BOOLEAN, DEFAULTS, INT, READ, READ_AT, WRITE, WRITE_AT, Known, Type, locked, moved
from oracle.elision import (
    Assign, Atomic, Binary, Block, Cobegin, Declare, Do, Field, Foreach, ForeachParts, If, Length, Literal, Local, LocalRegions, New,
    Print, PrintText, While,
)


class Statements(Expressions):
    """Makes statements."""

    def is_atomic(self, unit):
        """Whether the path of a unit is atomic by the rules of the language."""
        return unit.removesuffix(":[?]").rsplit(":", 1)[-1] in self.atomic_regions

    def dealt(self, scope, number, is_nd):
        """The rights and locals of so many branches that run side by side."""
        rights, known = [{} for _ in range(number)], [{} for _ in range(number)]
        for unit, right in scope.rights.items():
            self.deal(rights, unit, right, is_nd)
        for name, local in scope.locals.items():
            owner = self.random.randrange(number) if local.is_free and self.chance(0.6) else None
            for branch, names in enumerate(known):
                if owner in (None, branch):
                    names[name] = local if owner == branch else Known(local.type, False)
        return zip(rights, known)

    def deal(self, rights, unit, right, is_nd):
        """Deals out the right to a unit: one branch may write it, or all may read it, or all may touch it in atomic blocks."""
        is_owned = right == WRITE or isinstance(right, tuple) and right[0] == WRITE_AT
        if right == ATOMIC or (is_nd and right == WRITE and self.is_atomic(unit) and self.chance(0.8)):
            shares = [ATOMIC if is_nd else None] * len(rights)
        elif is_owned and self.chance(0.75):
            owner = self.random.randrange(len(rights))
            shares = [right if branch == owner else None for branch in range(len(rights))]
        elif is_owned:
            shares = [READ if right == WRITE else (READ_AT, right[1])] * len(rights)
        else:
            shares = [right] * len(rights)
        for branch, share in zip(rights, shares):
            if share:
                branch[unit] = share

    def dealt_by_index(self, scope, index, is_nd, share=0.75):
        """The rights of iterations: a unit by index is written at the iteration's index, others are read."""
        rights = {}
        for unit, right in scope.rights.items():
            if right == ATOMIC or (is_nd and right == WRITE and self.is_atomic(unit) and self.chance(0.8)):
                if is_nd:
                    rights[unit] = ATOMIC
            elif right == WRITE:
                rights[unit] = (WRITE_AT, index) if "[?]" in unit and self.chance(share) else READ
            else:
                rights[unit] = (READ_AT, right[1]) if isinstance(right, tuple) else right
        return rights

    def statements(self, scope, number):
        """Statements one after another. What they declare stays in the scope."""
        return [self.statement(scope) for _ in range(number)]

    def block(self, scope, most=2, **changes):
        inner = scope.inner(**changes)
        return Block(self.statements(inner, self.random.randint(1, most)))

    def statement(self, scope):
        simple = [self.declaration, self.assignment, self.assignment, self.assignment, self.print, self.call_statement]
        nested = [self.conditional, self.loop, self.cobegin, self.cobegin, self.foreach, self.foreach, self.parts, self.local_region]
        nested += [self.atomic]
        if scope.is_nd:
            nested += [self.nd_statement] * 4
        is_nested = scope.depth < 3 and self.chance(0.45)
        return self.random.choice(nested if is_nested else simple)(scope)

    def declaration(self, scope):
        if self.chance(0.15):
            made = self.alias(scope)
            if made:
                return made
        type_ = INT if self.chance(0.8) else BOOLEAN
        name, value = self.name("v"), self.expression(type_, scope, 2)
        scope.locals[name] = Known(type_, True)
        return Declare(type_.written(), name, value)

    def alias(self, scope):
        """A local for an object that has another name already."""
        found = [it for it in self.objects(scope) if it[1].parameter and it[2]]
        if not found:
            return None
        node, cls, path, index = self.random.choice(found)
        name, type_ = self.name("o"), Type("object", cls, path, index)
        scope.locals[name] = Known(type_, True)
        return Declare(type_.written(), name, node)

    def assignment(self, scope):
        if self.chance(0.1):
            made = self.object_assignment(scope)
            if made:
                return made
        places = [(place, type_) for place, type_, is_free in self.simple_places(scope) if is_free]
        places += [(Local(name), known.type) for name, known in scope.locals.items() if known.is_free and known.type.kind in DEFAULTS]
        if not places:
            return self.print(scope)
        place, type_ = self.random.choice(places)
        return Assign(place, self.expression(type_, scope, 2))

    def object_assignment(self, scope):
        """A new object for a local or a field, or None."""
        places = [(Local(name), known.type) for name, known in scope.locals.items() if known.is_free and known.type.kind == "object"]
        for node, cls, path, index in self.objects(scope):
            for field in cls.all_fields():
                is_known = "[?]" not in path or index
                if field.type.cls and is_known and scope.may_write(moved(field.region, path), index):
                    places.append((Field(node, field.name), Type("object", field.type.cls, moved(field.type.path, path), index)))
        places = [(place, type_) for place, type_ in places if "[?]" not in type_.path or type_.index]
        if not places:
            return None
        place, type_ = self.random.choice(places)
        value = self.fresh_object(type_, scope)
        return Assign(place, value) if isinstance(value, New) or self.chance(0.1) else None

    def print(self, scope):
        if self.chance(0.15):
            return PrintText(self.random.choice(("here", 'a "word"', "two\nlines", "tab\t\\", "")))
        return Print(self.expression(INT if self.chance(0.8) else BOOLEAN, scope, 2))

    def call_statement(self, scope):
        call = self.tool_call(scope) if self.chance(0.5) else None
        call = call or self.call(scope, 2, ("int", "boolean", "void"))
        return Do(call) if call else self.assignment(scope)

    def conditional(self, scope):
        otherwise = self.block(scope) if self.chance(0.5) else None
        return If(self.expression(BOOLEAN, scope, 2), self.block(scope), otherwise)

    def loop(self, scope):
        name, inner = self.name("k"), scope.inner()
        inner.locals[name] = Known(INT, False)
        counter = Assign(Local(name), Binary(Local(name), "+", Literal(1)))
        body = Block([*self.statements(inner, self.random.randint(1, 2)), counter])
        loop = While(Binary(Local(name), "<", Literal(self.random.randint(0, 4))), body)
        return Block([Declare("int", name, Literal(0)), loop])

    def cobegin(self, scope, is_nd=False):
        dealt = self.dealt(scope, self.random.randint(2, 3), is_nd)
        branches = [self.block(scope, rights=rights, locals=known) for rights, known in dealt]
        return Cobegin("cobegin_nd" if is_nd else "cobegin", branches)

    def foreach(self, scope, is_nd=False):
        index = self.name("i")
        rights = self.dealt_by_index(scope, index, is_nd)
        body = self.block(scope, rights=rights, locals={**locked(scope.locals), index: Known(INT, False)})
        arrays = scope.of_kind("row", "table")
        count, start = Literal(self.random.randint(0, self.size)), Literal(0)
        if arrays and self.chance(0.6):
            count = Length(Local(self.random.choice(arrays)[0]))
        elif self.chance(0.03):
            start = Literal(1)
        return Foreach("foreach_nd" if is_nd else "foreach", index, start, count, body)

    def parts(self, scope):
        """A construct over the parts of an array. The rights to the array go, and those to its part come."""
        arrays = [(name, type_) for name, type_ in scope.of_kind("array", "part") if scope.may_write(type_.path)]
        if not arrays:
            return self.foreach(scope)
        name, type_ = self.random.choice(arrays)
        part, index = self.name("p"), self.name("i")
        rights = self.dealt_by_index(scope, index, False)
        rights.pop(type_.path)
        rights[part] = WRITE
        known = {**locked(scope.locals), index: Known(INT, False), part: Known(Type("part", path=part), False)}
        body = self.block(scope, rights=rights, locals=known)
        if self.chance(0.95):
            body = Block([If(Binary(Literal(0), "<", Length(Local(part))), body, None)])
        return ForeachParts(part, index, Local(name), Literal(self.random.randint(0, 4)), body)

    def local_region(self, scope):
        """A block with a new region, an array in it, and statements that may use it."""
        # No rule for paths tells a row in a local region from a parameter alone.
        if scope.cls is self.tools:
            return self.conditional(scope)
        region, name = self.name("r"), self.name("a")
        is_row = self.chance(0.5)
        type_ = Type("row" if is_row else "array", path=region + ":[?]" * is_row)
        inner = scope.inner()
        inner.rights[type_.path] = WRITE
        opening = [LocalRegions([region]), Declare(type_.written(), name, self.fresh(type_, scope))]
        inner.locals[name] = Known(type_, False)
        return Block([*opening, *self.statements(inner, self.random.randint(1, 2))])

    def nd_statement(self, scope):
        self.reaches_nd = True
        return self.foreach(scope, True) if self.chance(0.5) else self.cobegin(scope, True)

    def atomic(self, scope):
        """An atomic block. In a commutative program it adds to what is touched in atomic blocks alone, and reads nothing of that."""
        waiting = [unit for unit, right in scope.rights.items() if right == ATOMIC]
        if waiting and self.is_commutative:
            return Atomic(Block([self.raising(scope)]))
        rights = {unit: WRITE if right == ATOMIC else right for unit, right in scope.rights.items()}
        return Atomic(self.block(scope, rights=rights, is_nd=False))

    def raising(self, scope):
        places = [
            Field(node, field.name)
            for node, cls, path, _ in self.objects(scope)
            for field in cls.all_fields()
            if field.type == INT and scope.rights.get(moved(field.region, path)) == ATOMIC
        ]
        if not places:
            return self.print(scope)
        place = self.random.choice(places)
        return Assign(place, Binary(copy.deepcopy(place), "+", self.expression(INT, scope, 2)))
