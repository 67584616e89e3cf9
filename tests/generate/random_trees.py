"""Makes random programs of the language that the checker accepts, as trees of tests/oracle/elision.py.

They are accepted by construction: each body is made in a scope with rights to what it may touch (tests/generate/random_scopes.py), a summary says
the rights with which the body of its method is made, a call is made only where the scope has the rights of that summary, and what runs
side by side has rights that don't interfere.
"""
import copy
import dataclasses

from generate.random_scopes import ATOMIC, BOOLEAN, DEFAULTS, INT, READ, WRITE, Class, FieldDeclaration, Known, Method, Scope, Type, below, locked
from generate.random_statements import Statements
from oracle.elision import (
    Assign, Atomic, Binary, Block, Call, Cobegin, Declare, Element, Field, Foreach, If, Length, Literal, Local, Print, Return, Text, This,
)


class Maker(Statements):
    """Makes one program."""

    def next_order(self):
        self.order += 1
        return self.order

    def program(self):
        """The class Main of a program, and the program's text."""
        self.add_tool()
        for _ in range(self.random.randint(1, 2)):
            self.classes.append(self.a_class())
        main = self.main()
        text = Text()
        for cls in [self.tools, *self.classes, main]:
            text.put(cls)
        return main, text.whole()

    def a_class(self):
        parents = [cls for cls in self.classes if not cls.constructor]
        cls = Class(self.name("C"), self.random.choice(parents) if parents and self.chance(0.5) else None)
        for _ in range(self.random.randint(1, 2)):
            self.add_field(cls, "P", INT if self.chance(0.8) else BOOLEAN)
        holds_object = bool(self.classes) and self.chance(0.4)
        if holds_object:
            self.add_object_field(cls)
        if holds_object or self.chance(0.4):
            self.add_constructor(cls)
        if cls.parent:
            for method in cls.parent.all_methods().values():
                if self.chance(0.6):
                    self.add_override(cls, method)
        self.add_method(cls, "P")
        if self.chance(0.3):
            self.add_recursive(cls, "P")
        return cls

    def region(self, cls, may_be_atomic=True):
        """A new region name of a class, written with the class."""
        name = self.name("F")
        is_atomic = self.has_nd and may_be_atomic and self.chance(0.5)
        cls.regions[name] = "atomic region" if is_atomic else "region"
        if is_atomic:
            self.atomic_regions.add(f"{cls.name}.{name}")
        return f"{cls.name}.{name}"

    def add_field(self, cls, path, type_):
        shared = [field.region for field in cls.fields if field.type.kind in DEFAULTS]
        region = self.random.choice(shared) if shared and self.chance(0.3) else below(path, self.region(cls))
        cls.fields.append(FieldDeclaration(self.name("f"), type_, region))

    def add_object_field(self, cls):
        type_ = Type("object", self.random.choice(self.classes), below("P", self.region(cls, False)))
        cls.fields.append(FieldDeclaration(self.name("f"), type_, below("P", self.region(cls))))

    def add_constructor(self, cls):
        rights = dict.fromkeys(cls.units("P"), WRITE)
        made = Method(cls.name, None, self.formals(2), rights, self.next_order())
        scope = self.scope_of(cls, "P", made)
        for field in sorted(cls.all_fields(), key=lambda field: field.type.kind in DEFAULTS):
            if self.chance(0.98):
                value = self.expression(field.type, scope, 2)
                made.body += [Assign(Field(This(), field.name), value)] if value else []
        cls.constructor = made

    def some_rights(self, units):
        rights = {}
        for unit in units:
            right = self.random.choice((WRITE, WRITE, READ, READ, None))
            if right:
                rights[unit] = right
        return rights

    def formals(self, most):
        return [(self.name("x"), INT if self.chance(0.8) else BOOLEAN) for _ in range(self.random.randint(0, most))]

    def scope_of(self, cls, path, method):
        known = {name: Known(type_, True) for name, type_ in method.formals}
        return Scope(cls, path, method.order, known, dict(method.rights))

    def add_method(self, cls, path, more_formals=(), more_units=()):
        rights = self.some_rights(list(dict.fromkeys([*cls.units(path), *more_units])))
        result = self.random.choice(("int", "int", "boolean", "void"))
        made = Method(self.name("m"), result, [*more_formals, *self.formals(2)], rights, self.next_order())
        self.fill(cls, path, made, may_be_nd=not path)
        cls.methods.append(made)

    def add_override(self, cls, method):
        if method.is_deep:
            return
        formals = [(self.name("x"), type_) for _, type_ in method.formals]
        made = Method(method.name, method.result, formals, method.rights, method.order)
        self.fill(cls, "P", made, may_be_nd=False)
        cls.methods.append(made)

    def fill(self, cls, path, method, may_be_nd):
        scope = self.scope_of(cls, path, method)
        scope.is_nd = self.has_nd and may_be_nd
        self.reaches_nd = False
        method.body = self.statements(scope, self.random.randint(1, 2))
        if method.result != "void":
            if self.chance(0.2):
                early = Return(self.expression(Type(method.result), scope, 1))
                method.body.append(If(self.expression(BOOLEAN, scope, 2), Block([early]), None))
            method.body.append(Return(self.expression(Type(method.result), scope, 2)))
        method.reaches_nd = self.reaches_nd

    def add_recursive(self, cls, path):
        """A method that calls itself with a smaller number, once or by two branches."""
        rights = self.some_rights(dict.fromkeys(cls.units(path)))
        is_forked = WRITE not in rights.values() and self.chance(0.7)
        level = self.name("k")
        made = Method(self.name("m"), "int", [(level, INT)], rights, self.next_order(), is_recursive=True, is_deep=not is_forked)
        scope = self.scope_of(cls, path, made)
        scope.locals[level].is_free = False
        made.body = [If(Binary(Local(level), "<=", Literal(0)), Block([Return(self.expression(INT, scope, 1))]), None)]
        made.body += self.statements(scope, 1)
        calls = [Call(This(), "", made.name, [Binary(Local(level), "-", Literal(less))]) for less in (1, 2)]
        if is_forked:
            left, right = self.name("v"), self.name("v")
            made.body += [Declare("int", name, Literal(0)) for name in (left, right)]
            made.body.append(Cobegin("cobegin", [Assign(Local(name), call) for name, call in zip((left, right), calls)]))
            made.body.append(Return(Binary(Local(left), "+", Local(right))))
        else:
            made.body.append(Return(Binary(calls[0], "+", self.expression(INT, scope, 1))))
        cls.methods.append(made)

    def add_tool(self):
        """A method over two arrays in regions that are its parameters."""
        formals = [(self.name("a"), Type("array", path=path)) for path in ("V", "W")] + self.formals(1)
        rights = {"V": WRITE, "W": self.random.choice((WRITE, READ))}
        made = Method(self.name("m"), "int", formals, rights, self.next_order(), "<region V, W | V # W> ")
        self.fill(self.tools, "", made, may_be_nd=False)
        self.tools.methods.append(made)

    def main(self):
        """The class Main. Each object and array of its `main` has a region of its own."""
        cls = Class("Main", parameter="")
        for _ in range(self.random.randint(1, 2)):
            self.add_field(cls, "", INT)
        slots = [self.slot(cls) for _ in range(self.random.randint(2, 4))]
        for _ in range(self.random.randint(0, 1)):
            chosen = self.random.sample(slots, self.random.randint(0, min(2, len(slots))))
            formals = [(self.name("a"), type_) for type_ in chosen]
            self.add_method(cls, "", formals, [unit for type_ in chosen for unit in type_.units()])
        if self.has_nd:
            self.add_raises(cls)
        made = Method("main", "int", [("n", INT)], {}, self.next_order())
        units = [*cls.units(""), *(unit for type_ in slots for unit in type_.units())]
        made.rights = dict.fromkeys(units, WRITE)
        self.fill_main(cls, made, slots)
        cls.methods.append(made)
        return cls

    def slot(self, cls):
        kind = self.random.choice(("object", "object", "array", "array", "row", "table"))
        path = self.region(cls, False) + (":[?]" if kind in ("row", "table") else "")
        return Type(kind, self.random.choice(self.classes) if kind in ("object", "table") else None, path)

    def add_raises(self, cls):
        """Methods that raise a field of Main in an atomic block."""
        for field in cls.fields:
            if self.is_atomic(field.region):
                by, own = self.name("x"), Field(This(), field.name)
                body = [Atomic(Block([Assign(own, Binary(own, "+", Local(by)))]))]
                rights = {field.region: ATOMIC}
                cls.methods.append(Method(self.name("m"), "void", [(by, INT)], rights, self.next_order(), body=body))

    def fill_main(self, cls, made, slots):
        scope = self.scope_of(cls, "", made)
        scope.is_nd, self.reaches_nd = self.has_nd, False
        for type_ in slots:
            made.body += self.opening(type_, scope)
        made.body += self.statements(scope, self.random.randint(2, 5))
        if self.has_nd:
            made.body.append(self.nd_statement(scope))
        made.body += self.tellings(scope)
        made.body.append(Return(self.expression(INT, scope, 2)))

    def opening(self, type_, scope):
        """The declaration of an object or array of main, and the objects of a table."""
        name = self.name("a")
        statements = [Declare(type_.written(), name, self.fresh(type_, scope))]
        scope.locals[name] = Known(type_, type_.kind == "object")
        if type_.kind == "table":
            index = self.name("i")
            inner = scope.inner(rights=self.dealt_by_index(scope, index, False, share=1))
            inner.locals = {**locked(scope.locals), index: Known(INT, False)}
            made = self.fresh_object(dataclasses.replace(type_, kind="object", index=index), inner)
            body = Block([Assign(Element(Local(name), Local(index)), made)])
            count = Length(Local(name)) if self.chance(0.97) else Literal(1)
            statements.append(Foreach("foreach", index, Literal(0), count, body))
        return statements

    def tellings(self, scope):
        """Prints of fields and elements, so that what was written is seen. A node stands at one place of a text, so they share none."""
        found = self.simple_places(scope)
        self.random.shuffle(found)
        return [Print(copy.deepcopy(place)) for place, _, _ in found[:5]]
