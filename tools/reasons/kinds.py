"""Why a value has another type than is asked: what is wanted, what is found, and what would do."""

import itertools

from .alone import array_text
from .branches import method_at
from .leaving import Edit, instead, is_around
from .names import near
from .source import statement_around
from .typed import Body
from .world import BOOLEAN, INT, default_of, heads_of, put_in_type

PLACES = {"local": "name_at", "assign": "sign", "binary": "sign_at", "call": "at", "field_of": "at", "element": "at"}
ARITHMETIC = ("+", "-", "*", "/", "%", "<", "<=", ">", ">=")


def explain(report, world):
    """Fills in a report on `type`."""
    at = report.answer.offset
    report.name(*statement_around(report.source, at), "the statement with the value")
    class_node, method = method_at(world, at)
    if method is None:
        return
    asked = Asked(report, world, Body(world, class_node, method))
    nodes = [node for node in method.body.walk() if getattr_of(node) == at]
    for node in sorted(nodes, key=lambda node: node.kind in ("return", "if", "while", "print", "foreach")):
        if asked.about(node):
            return


def getattr_of(node):
    """The place that the program gives a node."""
    name = PLACES.get(node.kind)
    return node.parts[name] if name else node.start


class Asked:
    """What a node asks of the expressions in it."""

    def __init__(self, report, world, body):
        self.report = report
        self.text = report.source.text
        self.world = world
        self.body = body

    def shown(self, its_type):
        return self.world.show_type(its_type, self.body.class_node.name, self.body.heads) if its_type else "a type that isn't known here"

    def source(self, node):
        return self.text[node.start : node.end]

    def type(self, node):
        return self.body.types.get(id(node))

    def about(self, node):
        """Whether the fault was found to lie in this node."""
        form = getattr(self, "on_" + node.kind, None)
        return bool(form and form(node))

    def wants(self, node, wanted, where):
        """Tries a value of the wanted type; if the fault is gone, says so, and looks for a mend."""
        if wanted is None or (wanted == self.type(node) and wanted in (INT, BOOLEAN)):
            return False
        nothing = default_of(wanted)
        if nothing == self.source(node):
            return False
        found = self.shown(self.type(node))
        change = f"`{nothing}` in place of `{self.source(node)}`"
        answer, offset = self.report.attempt(change, [instead(node, nothing)])
        if not self.report.is_gone(answer, offset):
            self.report.tried.pop()
            return False
        has = "gives no result" if found == "void" else f"has type {found}"
        self.report.say(f"{where} a value of type {self.shown(wanted)} is wanted, and `{self.source(node)}` {has}.")
        return True

    def on_local(self, node):
        wanted = self.body.type(node.type)
        return self.wants(node.value, wanted, f"For `{node.name}`") and (self.convert(node.value, wanted, node) or self.regions(node, wanted) or True)

    def on_assign(self, node):
        wanted = self.type(node.target)
        where = f"For `{self.source(node.target)}`"
        return self.wants(node.value, wanted, where) and (self.convert(node.value, wanted, node) or self.regions(node, wanted) or True)

    def on_return(self, node):
        method = self.body.method
        if not method.result or not node.value:
            return False
        wanted = self.body.type(method.result)
        where = f"As the result of `{method.name}`"
        return self.wants(node.value, wanted, where) and (self.convert(node.value, wanted, node) or self.regions(node, wanted) or True)

    def on_if(self, node):
        return self.wants(node.condition, BOOLEAN, "As a condition") and (self.convert(node.condition, BOOLEAN, None) or True)

    on_while = on_if

    def on_unary(self, node):
        wanted = INT if node.sign == "-" else BOOLEAN
        if not self.wants(node.value, wanted, f"Behind `{node.sign}`"):
            return False
        if node.sign == "!" and self.type(node.value) == INT:
            self.report.mends("A number is compared with 0.", [instead(node, f"{self.in_parentheses(node.value)} == 0")])
        return True

    def on_binary(self, node):
        if node.sign in ("==", "!="):
            return self.on_same(node)
        wanted = INT if node.sign in ARITHMETIC else BOOLEAN
        for side in (node.left, node.right):
            if self.type(side) != wanted and self.wants(side, wanted, f"Beside `{node.sign}`"):
                return self.convert(side, wanted, None) or True
        both = [instead(side, default_of(wanted)) for side in (node.left, node.right)]
        return self.both(node, both, wanted)

    def both(self, node, edits, wanted):
        """Both sides of an operator have other types."""
        answer, offset = self.report.attempt("both operands replaced", edits)
        if not self.report.is_gone(answer, offset):
            self.report.tried.pop()
            return False
        one, two = (self.shown(self.type(side)) for side in (node.left, node.right))
        self.report.say(f"Beside `{node.sign}` two values of type {self.shown(wanted)} are wanted; these have types {one} and {two}.")
        if wanted == BOOLEAN:
            sides = [instead(side, f"{self.in_parentheses(side)} != 0") for side in (node.left, node.right) if self.type(side) == INT]
            return sides and self.report.mends("Numbers are compared with 0.", sides, quiet=True) or True
        return True

    def on_same(self, node):
        left, right = self.type(node.left), self.type(node.right)
        self.report.say(f"`{node.sign}` compares two values of one type; these have types {self.shown(left)} and {self.shown(right)}.")
        if BOOLEAN in (left, right) and INT in (left, right):
            number = node.left if left == INT else node.right
            self.report.mends("A number is compared with 0 first.", [instead(number, f"({self.source(number)} != 0)")], quiet=True)
        if {left, right} == {INT, ("null",)}:
            null = node.left if left == ("null",) else node.right
            self.report.mends("An int is never null; without a value it is 0.", [instead(null, "0")], quiet=True)
        return True

    def on_print(self, node):
        its_type, end = self.type(node.value), node.value.end
        self.report.say(f"`print` takes an int, a boolean or a text; `{self.source(node.value)}` has type {self.shown(its_type)}.")
        if its_type and its_type[0] == "array":
            self.report.mends("Print its length, or its elements one by one.", [Edit(end, end, ".length")], quiet=True)
        for owner in self.world.chain(its_type[1]) if its_type and its_type[0] == "class" else []:
            for field in owner.members:
                is_plain = field.kind == "field" and field.type.base in ("int", "boolean") and not field.type.suffixes
                if is_plain and self.report.mends("Print a field of it, say:", [Edit(end, end, f".{field.name}")], quiet=True):
                    return True
        return True

    def on_foreach(self, node):
        if node.part:
            self.report.say("`foreach_parts` cuts an array whose type has no index name, or a part.")
            return True
        return any(self.wants(part, INT, "As the start or count of a loop") for part in (node.first, node.count))

    def on_element(self, node):
        of = self.type(node.of)
        if of and of[0] not in ("array", "part"):
            self.report.say(f"`{self.source(node.of)}` has type {self.shown(of)}, and is no array.")
            return True
        return self.wants(node.index, INT, "As an index") and True

    def on_new_array(self, node):
        return self.wants(node.length, INT, "As a length") and True

    def on_name(self, node):
        if self.type(node) and self.type(node)[0] == "part":
            name = node.name
            self.report.say(f"`{name}` is a part of an array: it is used as `{name}[e]`, as `{name}.length`, or cut again, and is no value.")
            for other in self.body.method.body.walk():
                if other.kind == "field_of" and other.of is node and other.name != "length":
                    self.report.mends("`length` may be meant.", [Edit(other.at, other.end, "length")], quiet=True)
            return True
        return False

    def on_field_of(self, node):
        of = self.type(node.of)
        if of and of[0] == "class":
            return False
        self.report.say(f"`{self.source(node.of)}` has type {self.shown(of)}, which has no field `{node.name}`.")
        if of and of[0] in ("array", "part") and (node.name in ("size", "len", "count") or near(node.name, ["length"])):
            self.report.mends("The length of an array is `.length`.", [Edit(node.at, node.end, "length")])
        return True

    def on_call(self, node):
        of = self.type(node.of)
        if of and of[0] != "class":
            self.report.say(f"`{self.source(node.of)}` has type {self.shown(of)}, which has no methods.")
            if of[0] in ("array", "part") and node.name in ("length", "size"):
                self.report.mends("The length of an array is `.length`, without parentheses.", [Edit(node.at, node.end, "length")])
            return True
        met = self.world.member(of, "method", node.name)
        if not met:
            return False
        owner, method, given = met
        args = [self.body.path(arg) for arg in node.args]
        given = {**given, **dict(zip([name for name, _ in method.params], args))}
        return self.actuals(node, owner, method, given, f"{owner.name}.{method.name}") or self.no_result(node, method)

    def on_new(self, node):
        owner = self.world.classes.get(node.type.base)
        constructor = self.world.constructor(node.type.base)
        if owner is None:
            return False
        if constructor is None:
            if node.actuals:
                self.report.say(f"{owner.name} declares no constructor, so it is created without actuals.")
                if self.is_meant(owner):
                    return True
                first, last = node.actuals[0].start, node.actuals[-1].end
                self.report.mends(f"`new {owner.name}()`, and set its fields then.", [Edit(first, last, "")], quiet=True)
            return bool(node.actuals)
        its_type = self.body.type(node.type)
        return self.actuals(node, owner, constructor, self.world.given(owner.name, its_type[2]), f"{owner.name}'s constructor")

    def is_meant(self, owner):
        """A method with the name of its class, which with a result is no constructor."""
        for member in owner.members:
            if member.kind == "method" and member.name == owner.name and not member.constructor:
                self.report.name(member.start, member.body.start, "a method, since it has a result or `void` in front; a constructor has neither")
                return self.report.mends("Leave out what stands in front of its name.", [Edit(member.start, member.name_at, "")], quiet=True)
        return False

    def no_result(self, node, method):
        if method.result is None:
            self.report.say(f"`{method.name}` gives no result, so that its call is no value.")
            return True
        return False

    def actuals(self, node, owner, method, given, name):
        """Compares actuals with formals, by number and then one by one."""
        heads = heads_of(owner, method)
        formals = [(formal.name, put_in_type(self.world.type(formal.type, owner.name, heads), given)) for formal in method.formals]
        shown = ", ".join(f"{self.shown(its_type)} {formal}" for formal, its_type in formals)
        if len(formals) != len(node.actuals):
            takes = f"{len(formals)} actual{'s' * (len(formals) != 1)} ({shown})" if formals else "no actuals"
            self.report.say(f"{name} takes {takes}; here it gets {len(node.actuals)}.")
            self.report.name(method.start, method.body.start, "the declaration")
            return True
        for actual, (formal, its_type) in zip(node.actuals, formals):
            if self.wants(actual, its_type, f"For the formal `{formal}` of {name}"):
                self.report.name(method.start, method.body.start, "the declaration")
                return self.reorder(node) or self.convert(actual, its_type, None) or True
        if self.reorder(node):
            self.report.say(f"{name} takes ({shown}).")
            self.report.name(method.start, method.body.start, "the declaration")
            return True
        return False

    def reorder(self, node):
        """Another order of the actuals."""
        texts = [self.source(actual) for actual in node.actuals]
        if not 2 <= len(texts) <= 4:
            return False
        for order in list(itertools.permutations(texts))[1:]:
            new = self.text[node.start : node.actuals[0].start] + ", ".join(order) + self.text[node.actuals[-1].end : node.end]
            if self.report.mends("The actuals in another order.", [instead(node, new)], quiet=True):
                return True
        return False

    def in_parentheses(self, node):
        return f"({self.source(node)})" if node.kind in ("binary", "unary") else self.source(node)

    def convert(self, node, wanted, statement):
        """A number as a boolean, or a boolean as a number."""
        if wanted == BOOLEAN and self.type(node) == INT:
            return self.report.mends("A number is compared with 0.", [instead(node, f"{self.in_parentheses(node)} != 0")], quiet=True)
        if wanted == BOOLEAN and self.type(node) and self.type(node)[0] in ("class", "array"):
            return self.report.mends("A reference is compared with null.", [instead(node, f"{self.source(node)} != null")], quiet=True)
        if wanted != INT or self.type(node) != BOOLEAN:
            return False
        self.report.say("There are no casts: a boolean becomes an int by an `if`.")
        value = self.source(node)
        if statement is None:
            return self.number_before(node, value)
        if statement.kind == "return":
            made = f"if ({value}) return 1; else return 0;"
        elif statement.kind == "local":
            made = f"int {statement.name} = 0; if ({value}) {statement.name} = 1;"
        else:
            target = self.source(statement.target)
            made = f"if ({value}) {target} = 1; else {target} = 0;"
        return self.report.mends("By an `if`:", [instead(statement, made)], quiet=True)

    def number_before(self, node, value):
        """A boolean as a number by a local in front of the statement that holds it."""
        acting = [other for other in self.body.method.body.walk() if other.kind in ("local", "assign", "effect", "return", "print")]
        holder = next((other for other in acting if is_around(other, node)), None)
        if holder is None:
            return False
        name = next(name for name in ("number", "asNumber", "oneOrNone", "numberOfIt") if name not in self.text)
        before = f"int {name} = 0; if ({value.removeprefix('(').removesuffix(')') if node.kind == 'paren' else value}) {name} = 1; "
        edits = [Edit(holder.start, holder.start, before), instead(node, name)]
        blocks = [other for other in self.body.method.body.walk() if other.kind == "block"]
        if not any(holder in block.statements for block in blocks):
            edits[0] = edits[0]._replace(new="{ " + before)
            edits.append(Edit(holder.end, holder.end, " }"))
        return self.report.mends("By an `if` before the statement:", edits, quiet=True)

    def of_classes(self, found, wanted):
        """Two classes of which the one isn't below the other."""
        one, two = found[1], wanted[1]
        if one in [node.name for node in self.world.chain(two)]:
            self.report.say(f"{two} extends {one}, so a {two} is a {one}, and not the other way round; there are no casts.")
        else:
            self.report.say(f"{one} doesn't extend {two}.")

    def regions(self, statement, wanted):
        """Two types that differ in their regions: the one or the other is changed."""
        found = self.type(statement.value)
        if not found or not wanted or found[0] != wanted[0] or found[0] not in ("class", "array"):
            return False
        is_class = found[0] == "class" and wanted[1] not in [node.name for node in self.world.chain(found[1])]
        if is_class:
            self.of_classes(found, wanted)
        else:
            self.report.say("The region of what is asked has to take up that of the value; a `*` in the asked type takes up any that go on from there.")
        value, mends = statement.value, []
        if value.kind == "new":
            what = f"Create a {wanted[1]}." if is_class else "Create it in the region that is asked."
            mends.append((what, [instead(value.type, self.shown(wanted))]))
        if value.kind == "new_array":
            mends.append(("Create the array that is asked.", [instead(value, array_text(self.body, self.source(value.length), wanted))]))
        if statement.kind == "local":
            mends.append(("Declare it with the type of the value.", [instead(statement.type, self.shown(found))]))
        return self.report.best(mends)
