"""The tree of a text that the program's grammar accepts, with the places of all its parts."""

from .nodes import Cursor, Node, NoTree

OPERATORS = (("||",), ("&&",), ("==", "!="), ("<", "<=", ">", ">="), ("+", "-"), ("*", "/", "%"))


def parse(text):
    """The classes of a text."""
    return Parser(text).program()


class Parser(Cursor):
    """Goes through the tokens of a text by the grammar of docs/LANGUAGE.md."""

    def program(self):
        classes = [self.a_class()]
        while self.at < len(self.tokens):
            classes.append(self.a_class())
        return Node("program", 0, self.last(), classes=classes)

    def a_class(self):
        start = self.take("class").start
        name = self.name()
        params, constraints = self.params()
        parent, parent_args, parent_at = None, [], 0
        if self.took("extends"):
            token = self.name()
            parent, parent_at, parent_args = token.text, token.start, self.args()
        opened = self.take("{").start
        members = []
        while not self.took("}"):
            members.append(self.member())
        return self.closed(
            Node("class", start, name=name.text, name_at=name.start, params=params, constraints=constraints, parent=parent,
                 parent_at=parent_at, parent_args=parent_args, members=members, opened=opened)
        )  # fmt: skip

    def params(self):
        """Region parameters as pairs of a name and whether it is atomic, and constraints as pairs of paths."""
        if not self.took("<"):
            return [], []
        params, atomic = [], False
        while True:
            if self.peek() in ("region", "atomic"):
                atomic = self.took("atomic")
                self.take("region")
            params.append((self.name().text, atomic))
            if not self.took(","):
                break
        constraints = self.listed(self.constraint) if self.took("|") else []
        self.take(">")
        return params, constraints

    def constraint(self):
        left = self.path()
        self.take("#")
        return self.closed(Node("constraint", left.start, left=left, right=self.path()))

    def args(self):
        if not self.took("<"):
            return []
        found = self.listed(self.path)
        self.take(">")
        return found

    def path(self):
        """A region path: its elements as texts."""
        node = Node("path", self.here(), elements=[])
        node.parts["elements"].append("Root" if self.took("Root") else self.region())
        while self.took(":"):
            if self.took("*"):
                node.elements.append("*")
            elif self.took("["):
                node.elements.append(f"[{self.take().text}]")
                self.take("]")
            else:
                node.elements.append(self.region())
        return self.closed(node)

    def region(self):
        name = self.name().text
        return f"{name}.{self.name().text}" if self.took(".") else name

    def suffix(self):
        """What follows the brackets of an array type or a created array: its region and index name."""
        path, index = None, None
        if self.took("<"):
            path = self.path()
            self.take(">")
        if self.took("#"):
            index = self.name().text
        return path, index

    def base(self):
        start = self.here()
        if self.peek() in ("int", "boolean"):
            return Node("type", start, self.here(), base=self.take().text, args=[], paths=[], suffixes=[])
        name = self.name().text
        return Node("type", start, base=name, args=self.args(), paths=[], suffixes=[])

    def suffixed(self, node):
        while self.peek() == "[" and self.peek(1) == "]":
            self.at += 2
            path, index = self.suffix()
            node.suffixes.append((path, index))
            if path:
                node.paths.append(path)
        return self.closed(node)

    def type(self):
        return self.suffixed(self.base())

    def member(self):
        start = self.here()
        if self.peek() == "region" or (self.peek() == "atomic" and self.peek(1) == "region"):
            atomic = self.took("atomic")
            self.take("region")
            names = self.listed(self.name)
            self.take(";")
            return self.closed(Node("regions", start, names=names, atomic=atomic))
        if self.kind() == "name" and self.peek(1) == "(":
            return self.method(start, [], [], None, True)
        params, constraints = self.params()
        if self.took("void"):
            return self.method(start, params, constraints, None, False)
        its_type = self.type()
        if self.peek(1) == "(":
            return self.method(start, params, constraints, its_type, False)
        name = self.name()
        region = self.path() if self.took("in") else None
        self.take(";")
        return self.closed(Node("field", start, type=its_type, name=name.text, name_at=name.start, region=region))

    def method(self, start, params, constraints, result, constructor):
        name = self.name()
        self.take("(")
        formals = [] if self.peek() == ")" else self.listed(self.formal)
        self.take(")")
        summary = self.summary()
        body = self.block()
        return self.closed(
            Node("method", start, name=name.text, name_at=name.start, params=params, constraints=constraints, result=result,
                 formals=formals, summary=summary, body=body, constructor=constructor)
        )  # fmt: skip

    def formal(self):
        start = self.here()
        its_type = self.type()
        name = self.name()
        return self.closed(Node("formal", start, type=its_type, name=name.text, name_at=name.start))

    def summary(self):
        """What is written as a summary: items as tuples of a kind, a path and whether it is marked; none where nothing is written."""
        node = Node("summary", self.last(), self.last(), items=None, paths=[])
        if self.peek() not in ("pure", "reads", "writes"):
            return node
        node.start = self.here()
        items = []
        if not self.took("pure"):
            for kind in ("reads", "writes"):
                if self.took(kind):
                    items += [(kind, path, marked) for path, marked in self.listed(self.item)]
        node.parts["items"], node.parts["paths"] = items, [path for _, path, _ in items]
        return self.closed(node)

    def item(self):
        marked = self.took("atomic")
        return self.path(), marked

    def block(self):
        start = self.take("{").start
        statements = []
        while not self.took("}"):
            statements.append(self.statement())
        return self.closed(Node("block", start, statements=statements))

    def is_declaration(self):
        if self.peek() in ("int", "boolean", "final"):
            return True
        after = self.peek(1)
        return self.kind() == "name" and (self.kind(1) == "name" or after == "<" or (after == "[" and self.peek(2) == "]"))

    def statement(self):
        """One statement; simple ones end with their semicolon."""
        word = self.peek()
        if word == "{":
            return self.block()
        if self.is_declaration():
            return self.local()
        form = getattr(self, "on_" + word, None) if self.kind() == "keyword" else None
        return form() if form else self.assignment()

    def on_region(self):
        start = self.take().start
        names = self.listed(self.name)
        self.take(";")
        return self.closed(Node("local_regions", start, names=names))

    def local(self):
        start = self.here()
        final = self.took("final")
        its_type = self.type()
        name = self.name()
        self.take("=")
        value = self.expression()
        self.take(";")
        return self.closed(Node("local", start, final=final, type=its_type, name=name.text, name_at=name.start, value=value))

    def assignment(self):
        start = self.here()
        target = self.postfix()
        if self.peek() == "=":
            sign = self.take().start
            value = self.expression()
            self.take(";")
            return self.closed(Node("assign", start, target=target, sign=sign, value=value))
        self.take(";")
        return self.closed(Node("effect", start, value=target))

    def condition(self):
        self.take("(")
        value = self.expression()
        self.take(")")
        return value

    def on_if(self):
        start = self.take().start
        condition = self.condition()
        then = self.statement()
        other = self.statement() if self.took("else") else None
        return self.closed(Node("if", start, condition=condition, then=then, other=other))

    def on_while(self):
        start = self.take().start
        condition = self.condition()
        return self.closed(Node("while", start, condition=condition, body=self.statement()))

    def on_return(self):
        start = self.take().start
        value = None if self.peek() == ";" else self.expression()
        self.take(";")
        return self.closed(Node("return", start, value=value))

    def on_print(self):
        start = self.take().start
        self.take("(")
        text = self.kind() == "string"
        value = Node("text", self.here(), self.take().end) if text else self.expression()
        self.take(")")
        self.take(";")
        return self.closed(Node("print", start, value=value))

    def on_cobegin(self):
        keyword = self.take()
        block = self.block()
        return self.closed(Node("cobegin", keyword.start, keyword=keyword.text, block=block))

    on_cobegin_nd = on_cobegin

    def on_foreach(self):
        keyword = self.take()
        self.take("(")
        part = None
        if keyword.text == "foreach_parts":
            part = self.name().text
            self.take(",")
        self.take("int")
        name = self.name().text
        self.take("in")
        first = self.expression()
        self.take(",")
        count = self.expression()
        self.take(")")
        body = self.statement()
        return self.closed(
            Node("foreach", keyword.start, keyword=keyword.text, part=part, name=name, first=first, count=count, body=body)
        )  # fmt: skip

    on_foreach_nd = on_foreach
    on_foreach_parts = on_foreach

    def on_atomic(self):
        start = self.take().start
        return self.closed(Node("atomic", start, block=self.block()))

    def expression(self, level=0):
        if level == len(OPERATORS):
            return self.unary()
        left = self.expression(level + 1)
        while self.peek() in OPERATORS[level]:
            sign = self.take()
            right = self.expression(level + 1)
            left = Node("binary", left.start, right.end, left=left, right=right, sign=sign.text, sign_at=sign.start)
        return left

    def unary(self):
        if self.peek() in ("-", "!"):
            sign = self.take()
            return self.closed(Node("unary", sign.start, sign=sign.text, value=self.unary()))
        return self.postfix()

    def postfix(self):
        node = self.primary()
        while self.peek() in (".", "[") and node.kind != "new_array":
            if self.peek() == "[":
                opened = self.take().start
                index = self.expression()
                self.take("]")
                node = self.closed(Node("element", node.start, of=node, index=index, at=opened))
                continue
            self.take(".")
            args = self.args()
            name = self.name()
            if self.took("("):
                actuals = self.actuals()
                node = Node("call", node.start, self.last(), of=node, name=name.text, at=name.start, args=args, actuals=actuals)
            else:
                node = Node("field_of", node.start, self.last(), of=node, name=name.text, at=name.start)
        return node

    def actuals(self):
        found = [] if self.peek() == ")" else self.listed(self.expression)
        self.take(")")
        return found

    def primary(self):
        start, word, kind = self.here(), self.peek(), self.kind()
        if self.took("("):
            inner = self.expression()
            self.take(")")
            return self.closed(Node("paren", start, value=inner))
        if word == "new":
            return self.creation()
        if kind not in ("name", "number") and word not in ("true", "false", "null", "this"):
            raise NoTree(self.at)
        self.take()
        kind = {"name": "name", "number": "int", "keyword": word}[kind]
        return Node({"true": "boolean", "false": "boolean"}.get(kind, kind), start, self.last(), name=word)

    def creation(self):
        start = self.take("new").start
        base = self.base()
        base.end = self.last()
        if self.took("("):
            return self.closed(Node("new", start, type=base, actuals=self.actuals()))
        element = self.suffixed(base)
        self.take("[")
        length = self.expression()
        self.take("]")
        path, index = self.suffix()
        return self.closed(Node("new_array", start, element=element, length=length, path=path, index=index))
