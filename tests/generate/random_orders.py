"""Random programs whose outcome hangs on the order in which their atomic blocks come.

Side by side stand blocks that read and write a few fields of `Main`, which lie in atomic regions. Elsewhere in a branch no field is touched.
"""
from generate.random_scopes import INT, WRITE, Class, FieldDeclaration, Method
from oracle.elision import (
    Assign, Atomic, Binary, Block, Cobegin, Field, Foreach, If, Literal, Local, Print, Return, Text, This,
)


class Orders:
    """Makes one program."""

    def __init__(self, random):
        self.random, self.indices = random, 0
        self.main = Class("Main", parameter="")
        self.names = [f"f{number}" for number in range(random.randint(1, 3))]
        self.atomic_regions = {self.region(name) for name in self.names}

    @staticmethod
    def region(name):
        return f"Main.F{name[1:]}"

    def chance(self, share):
        return self.random.random() < share

    def program(self):
        """The class Main of a program, and the program's text."""
        for name in self.names:
            self.main.regions[f"F{name[1:]}"] = "atomic region"
            self.main.fields.append(FieldDeclaration(name, INT, self.region(name)))
        made = Method("main", "int", [("n", INT)], {self.region(name): WRITE for name in self.names}, 0)
        made.body = [self.assignment(self.names, ()) for _ in range(2)]
        made.body += [self.construct((), 0) for _ in range(self.random.randint(1, 2))]
        made.body += [Print(Field(This(), name)) for name in self.names]
        made.body.append(Return(Literal(0)))
        self.main.methods.append(made)
        text = Text()
        text.put(self.main)
        return self.main, text.whole()

    def construct(self, indices, depth):
        """A construct whose branches have atomic blocks side by side."""
        if self.chance(0.6):
            return Cobegin("cobegin_nd", [self.branch(indices, depth) for _ in range(self.random.randint(2, 3))])
        self.indices += 1
        index = f"i{self.indices}"
        return Foreach("foreach_nd", index, Literal(0), Literal(self.random.randint(2, 4)), self.branch((*indices, index), depth))

    def branch(self, indices, depth):
        return Block([self.part_of_branch(indices, depth) for _ in range(self.random.randint(1, 2))])

    def part_of_branch(self, indices, depth):
        if depth < 1 and self.chance(0.25):
            return self.construct(indices, depth + 1)
        if self.chance(0.15):
            return Print(self.random.choice([Literal(7), *map(Local, indices)]))
        return self.atomic(self.random.sample(self.names, self.random.randint(1, len(self.names))), indices)

    def atomic(self, names, indices):
        """An atomic block over these fields. It may hold another one, and branches that write different fields."""
        body = [self.assignment(names, indices) for _ in range(self.random.randint(1, 2))]
        if self.chance(0.2):
            body.append(Print(Field(This(), names[0])))
        if self.chance(0.2):
            body.append(Atomic(Block([self.assignment(names, indices)])))
        if self.chance(0.2):
            branches = [Block([Atomic(Block([self.assignment([name], indices)]))]) for name in names]
            body.append(Cobegin("cobegin", branches))
        if self.chance(0.2):
            wanted = Binary(Field(This(), names[0]), "<", Literal(self.random.randint(1, 9)))
            body = [If(wanted, Block(body), Block([self.assignment(names, indices)]))]
        return Atomic(Block(body))

    def assignment(self, names, indices):
        """A field becomes another value, of which order decides."""
        return Assign(Field(This(), self.random.choice(names)), self.expression(names, indices))

    def expression(self, names, indices):
        sign = self.random.choice("++--***/%")
        return Binary(Field(This(), self.random.choice(names)), sign, self.operand(names, indices, sign in "/%"))

    def operand(self, names, indices, is_divisor):
        found = [Literal(number) for number in (1, 2, 3, 10)]
        if not is_divisor or self.chance(0.1):
            found += [Field(This(), name) for name in names] + [Local(index) for index in indices]
        return self.random.choice(found)
